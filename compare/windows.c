/* The windows nobody tries: over each zone a window is moved as a thumb would move it, and its list held against the tree.
   Prints the data of crates/windows with the argument `data`, and otherwise what it has to print of them, by the plain implementation.
   cc -O2 -std=c99 -Wall -Wextra -pedantic -o windows windows.c plain_table.c plain_tree.c plain_make.c plain_list.c
   ./windows data > ../crates/windows/data/zones && ./windows > ../crates/windows/stdout */
#include <inttypes.h>
#include <stdio.h>
#include <stdlib.h>
#include <string.h>

#include "plain.h"
#include "rules.h"

/* A line of data has at most so many coordinates; of a window with at most FEW on an axis it has all. */
#define MOST_COORDINATES 64
#define FEW 51

/* The first window; then one axis moves, its lo by so much and its hi by so much, for so many windows. */
struct walk {
    const char *about;
    int32_t bound[BOUNDS], axis, lo, hi, windows;
};

struct zone {
    const char *name, *about;
    const int32_t (*row)[ROW_WORDS];
    size_t rows;
    const struct walk *walk;
    size_t walks;
};

/* The coordinates to ask at on one axis, in order. */
struct axis {
    size_t count;
    int32_t at[MOST_COORDINATES];
};

/* What is found at a point: list and tree say outside, or inside; the list refuses by the first axis out of its window; or else. */
enum { OUTSIDE, INSIDE, OUT_OF_WINDOW, DISAGREE = OUT_OF_WINDOW + AXES, FINDINGS };

/* The zones, and the walks over each. */

static const int32_t q_rows[][ROW_WORDS] = {
    {BOX, 0, 9}, {BOX, 9, 12}, {DIFF, 0, 1}, {BOX, 20, 29}, {UNION, 2, 3}, {BOX, 8, 25}, {INTER, 4, 5},
};

static const struct walk q_walks[] = {
    {"a column at a time over the column where A and B meet", {4, 7, 0, 0, 0, 0}, X, 1, 1, 12},
    {"over the ends of C and D", {18, 19, 0, 0, 0, 0}, X, 1, 1, 10},
    {"single points", {7, 7, 0, 0, 0, 0}, X, 1, 1, 4},
    {"growing from between B and C", {13, 19, 0, 0, 0, 0}, X, -1, 1, 6},
    {"shrinking until its hi is below its lo", {6, 10, 0, 0, 0, 0}, X, 1, -1, 4},
    {"neighbours", {0, 7, 0, 0, 0, 0}, X, 8, 8, 4},
    {"growing over codes", {0, 30, -3, -1, 0, 0}, Y, 0, 1, 3},
    {"shrinking over codes", {0, 30, -1, 1, 0, 0}, Y, 1, -1, 3},
    {"moving over frames", {0, 30, -1, 1, -3, -1}, Z, 1, 1, 5},
    {"large windows that end where A and B meet", {LEAST_COLUMN, 7, ALL_CODES, ALL_FRAMES}, X, 0, 1, 4},
    {"large windows that begin where A and B meet", {10, GREATEST_COLUMN, ALL_CODES, ALL_FRAMES}, X, -1, 0, 3},
    {"the range, and half of its columns", {FULL_RANGE}, X, 16384, -16384, 2},
    {"two corners of the range", {LEAST_COLUMN, LEAST_COLUMN, LEAST_CODE, LEAST_CODE, LEAST_FRAME, LEAST_FRAME}, X, 65535, 65535, 2},
};

static const int32_t cut_rows[][ROW_WORDS] = {
    {BOX, 0, 9}, {BOX, 20, 29}, {UNION, 1, 0}, {BOX, 8, 12}, {DIFF, 2, 3}, {BOX, 0, 40}, {INTER, 4, 5},
};

static const struct walk cut_walks[] = {
    {"over the ends of C", {5, 7, 0, 0, 0, 0}, X, 1, 1, 8},
    {"growing up to C", {1, 6, 0, 0, 0, 0}, X, 0, 1, 4},
    {"growing from between C and B", {13, 19, 0, 0, 0, 0}, X, -1, 1, 6},
    {"single points", {7, 7, 0, 0, 0, 0}, X, 1, 1, 4},
    {"neighbours that share a column", {0, 8, 0, 0, 0, 0}, X, 8, 8, 4},
    {"growing over codes", {0, 30, 1, 2, 0, 0}, Y, -1, 0, 3},
    {"growing over frames", {0, 30, 0, 0, -2, -1}, Z, 0, 1, 3},
    {"large windows that end where C begins", {LEAST_COLUMN, 7, ALL_CODES, ALL_FRAMES}, X, 0, 1, 3},
};

static const int32_t repeats_rows[][ROW_WORDS] = {
    {BOX, 40, 49}, {BOX, 0, 9}, {BOX, 5, 45}, {UNION, 1, 2}, {BOX, 60, 69}, {INTER, 4, 0}, {DIFF, 3, 5},
};

static const struct walk repeats_walks[] = {
    {"over the columns where A begins and C ends", {36, 39, 0, 0, 0, 0}, X, 1, 1, 12},
    {"over the columns where C begins and B ends", {1, 4, 0, 0, 0, 0}, X, 1, 1, 10},
    {"growing from between C and D", {46, 59, 0, 0, 0, 0}, X, -1, 1, 3},
    {"shrinking until its hi is below its lo", {38, 47, 0, 0, 0, 0}, X, 1, -1, 6},
    {"single points", {44, 44, 0, 0, 0, 0}, X, 1, 1, 3},
    {"neighbours", {30, 39, 0, 0, 0, 0}, X, 10, 10, 4},
    {"over frames, from newer to older", {0, 50, -1, 1, 1, 2}, Z, -1, -1, 4},
    {"large windows that end where A begins", {LEAST_COLUMN, 39, ALL_CODES, ALL_FRAMES}, X, 0, 1, 3},
};

static const int32_t empty_rows[][ROW_WORDS] = {
    {BOX, 0, 9}, {BOX, 20, 29}, {UNION, 0, 1}, {BOX, 0, 25}, {BOX, 15, 40}, {INTER, 4, 2}, {INTER, 5, 3},
};

static const struct walk empty_walks[] = {
    {"over the columns where B begins and C ends", {16, 19, 0, 0, 0, 0}, X, 1, 1, 12},
    {"growing from between A and B", {10, 19, 0, 0, 0, 0}, X, -1, 1, 3},
    {"shrinking until its hi is below its lo", {18, 27, 0, 0, 0, 0}, X, 1, -1, 6},
    {"single points where B begins", {19, 19, 0, 0, 0, 0}, X, 1, 1, 2},
    {"single points where C ends", {25, 25, 0, 0, 0, 0}, X, 1, 1, 2},
    {"neighbours", {6, 15, 0, 0, 0, 0}, X, 10, 10, 3},
    {"moving over codes", {0, 30, -2, 0, -2, 0}, Y, 1, 1, 4},
    {"large windows that begin where C ends", {26, GREATEST_COLUMN, ALL_CODES, ALL_FRAMES}, X, -1, 0, 3},
};

static const int32_t nested_rows[][ROW_WORDS] = {
    {DRUM, 0, 0, 6, 4, -5, 0},
    {WEDGE, 6, 13, -3, 6, -4, 1, 1, 2, -1, 16},
    {UNION, 0, 1},
    {WEDGE, -3, 9, -4, 3, -4, 2, 2, -3, 1, 5},
    {DRUM, 3, 1, 4, 3, -3, 1},
    {BOX, 2, 4, 0, 2, -2, -1},
    {DIFF, 4, 5},
    {DIFF, 3, 6},
    {DIFF, 2, 7},
    {DRUM, 10, 2, 3, 2, -1, 3},
    {DIFF, 8, 9},
};

static const struct walk nested_walks[] = {
    {"over the column where the boxes of A and B meet", {2, 5, -4, 4, -5, 0}, X, 1, 1, 6},
    {"along that column", {6, 6, -6, -4, -4, 0}, Y, 1, 1, 12},
    {"single points", {5, 5, 1, 1, -5, -5}, X, 1, 1, 3},
    {"growing over the oldest frames", {-6, 13, -4, 6, -8, -6}, Z, 0, 1, 5},
    {"over the newest frames", {-6, 13, -4, 6, -1, 0}, Z, 1, 1, 5},
    {"neighbours over columns", {-6, -1, -4, 4, -5, 0}, X, 6, 6, 4},
    {"neighbours over codes", {-6, 13, -4, -2, -5, 1}, Y, 3, 3, 4},
    {"neighbours over frames", {-6, 13, -4, 6, -5, -4}, Z, 2, 2, 4},
    {"shrinking over columns", {0, 7, -2, 4, -3, 1}, X, 1, -1, 4},
    {"shrinking over codes", {0, 7, -1, 3, -3, 1}, Y, 1, -1, 3},
    {"shrinking over frames", {0, 7, -2, 4, -2, 0}, Z, 1, -1, 3},
    {"large windows that end at a column where a box begins or ends", {LEAST_COLUMN, 5, ALL_CODES, ALL_FRAMES}, X, 0, 1, 3},
    {"large windows that end at a code where boxes begin", {ALL_COLUMNS, LEAST_CODE, -5, ALL_FRAMES}, Y, 0, 1, 3},
    {"large windows that begin at a frame where a box ends", {ALL_COLUMNS, ALL_CODES, 2, GREATEST_FRAME}, Z, -1, 0, 4},
};

static const int32_t range_rows[][ROW_WORDS] = {
    {BOX, FULL_RANGE},
    {BOX, LEAST_COLUMN, LEAST_COLUMN + 7, LEAST_CODE, LEAST_CODE + 7, LEAST_FRAME, LEAST_FRAME + 7},
    {WEDGE, LEAST_COLUMN, LEAST_COLUMN + 7, LEAST_CODE, LEAST_CODE + 7, LEAST_FRAME, LEAST_FRAME + 7,
     1, 1, 1, LEAST_COLUMN + LEAST_CODE + LEAST_FRAME + 8},
    {DIFF, 1, 2},
    {DIFF, 0, 3},
    {DRUM, 28671, 28671, 4096, 4096, GREATEST_FRAME - 7, GREATEST_FRAME},
    {DIFF, 4, 5},
};

static const struct walk range_walks[] = {
    {"corners at the least code and frame",
     {LEAST_COLUMN, LEAST_COLUMN, LEAST_CODE, LEAST_CODE, LEAST_FRAME, LEAST_FRAME}, X, 65535, 65535, 2},
    {"corners at the greatest code and the least frame",
     {LEAST_COLUMN, LEAST_COLUMN, GREATEST_CODE, GREATEST_CODE, LEAST_FRAME, LEAST_FRAME}, X, 65535, 65535, 2},
    {"corners at the least code and the greatest frame",
     {LEAST_COLUMN, LEAST_COLUMN, LEAST_CODE, LEAST_CODE, GREATEST_FRAME, GREATEST_FRAME}, X, 65535, 65535, 2},
    {"corners at the greatest code and frame",
     {LEAST_COLUMN, LEAST_COLUMN, GREATEST_CODE, GREATEST_CODE, GREATEST_FRAME, GREATEST_FRAME}, X, 65535, 65535, 2},
    {"growing from the lowest corner over columns",
     {LEAST_COLUMN, LEAST_COLUMN + 1, LEAST_CODE, LEAST_CODE, LEAST_FRAME, LEAST_FRAME}, X, 0, 1, 9},
    {"growing from the lowest corner over codes",
     {LEAST_COLUMN, LEAST_COLUMN + 8, LEAST_CODE, LEAST_CODE, LEAST_FRAME, LEAST_FRAME + 2}, Y, 0, 1, 10},
    {"pushed against the least column",
     {LEAST_COLUMN + 2, LEAST_COLUMN + 5, LEAST_CODE, LEAST_CODE + 8, LEAST_FRAME, LEAST_FRAME + 8}, X, -1, -1, 6},
    {"pushed against the greatest frame",
     {GREATEST_COLUMN - 3, GREATEST_COLUMN, GREATEST_CODE - 3, GREATEST_CODE, GREATEST_FRAME - 3, GREATEST_FRAME}, Z, 1, 1, 4},
    {"out of the box in the corner",
     {LEAST_COLUMN + 4, LEAST_COLUMN + 11, LEAST_CODE + 4, LEAST_CODE + 11, LEAST_FRAME + 4, LEAST_FRAME + 11}, Z, 1, 1, 5},
    {"into the drum", {31565, 31569, 31565, 31569, GREATEST_FRAME - 10, GREATEST_FRAME - 9}, Z, 1, 1, 5},
    {"along the drum's last column",
     {GREATEST_COLUMN - 3, GREATEST_COLUMN, 28664, 28668, GREATEST_FRAME - 7, GREATEST_FRAME - 6}, Y, 1, 1, 8},
    {"up to the drum's first column", {24573, 24574, 28670, 28672, GREATEST_FRAME - 8, GREATEST_FRAME - 7}, X, 0, 1, 3},
    {"two halves of the range", {LEAST_COLUMN, -1, ALL_CODES, ALL_FRAMES}, X, 32768, 32768, 2},
    {"the range, shrinking over codes", {FULL_RANGE}, Y, 1, -1, 4},
};

static const int32_t steep_rows[][ROW_WORDS] = {
    {WEDGE, FULL_RANGE, 1, 0, GREATEST_SLOPE, INT32_MAX}, {BOX, 0, 3, -2, 2, 32760, 65538}, {DIFF, 0, 1},
};

static const struct walk steep_walks[] = {
    {"over the frames where 16 bits end", {-1, 4, -1, 1, 32765, 32766}, Z, 1, 1, 5},
    {"over the frames where the plane passes", {-1, 4, -3, -1, 65535, 65537}, Z, 1, 1, 5},
    {"along the last frame of B", {-2, 0, 1, 3, 65538, 65538}, X, 1, 1, 7},
    {"growing from the columns where the plane leaves the range",
     {LEAST_COLUMN, LEAST_COLUMN + 1, 0, 0, 65538, 65540}, X, 0, 1, 4},
    {"neighbours over frames", {0, 3, 0, 0, 32752, 32759}, Z, 8, 8, 4},
    {"shrinking over frames until its hi is below its lo", {1, 2, 2, 3, 65536, 65540}, Z, 1, -1, 4},
    {"large windows that end where B ends", {ALL_COLUMNS, ALL_CODES, LEAST_FRAME, 65537}, Z, 0, 1, 4},
    {"large windows that begin beyond B", {ALL_COLUMNS, ALL_CODES, 65540, GREATEST_FRAME}, Z, -1, 0, 4},
    {"the range, and half of its frames", {FULL_RANGE}, Z, 524288, -524288, 2},
};

static const int32_t triangle_rows[][ROW_WORDS] = {
    {TRIANGLE, 0, 0, 9, 0, 0, 9}, {BOX, 9, 12, 9, 9}, {DIFF, 0, 1},
};

static const struct walk triangle_walks[] = {
    {"a column at a time over the column where the boxes of T and B meet", {5, 8, 7, 10, 0, 0}, X, 1, 1, 6},
    {"a code at a time over the code where they meet", {7, 10, 5, 8, 0, 0}, Y, 1, 1, 6},
    {"single points along that code", {7, 7, 9, 9, 0, 0}, X, 1, 1, 4},
    {"single points along that column", {9, 9, 7, 7, 0, 0}, Y, 1, 1, 4},
    {"a column at a time over the long edge of T", {1, 3, 3, 5, 0, 0}, X, 1, 1, 6},
    {"a code at a time over the long edge of T", {6, 7, 0, 1, 0, 0}, Y, 1, 1, 4},
    {"growing over columns up to B", {0, 7, 0, 9, 0, 0}, X, 0, 1, 4},
    {"growing over codes up to B", {0, 12, 0, 7, 0, 0}, Y, 0, 1, 4},
    {"shrinking over columns until its hi is below its lo", {7, 11, 9, 9, 0, 0}, X, 1, -1, 4},
    {"neighbours that share a code", {8, 10, 3, 6, 0, 0}, Y, 3, 3, 3},
    {"moving over frames", {0, 12, 0, 9, -2, -1}, Z, 1, 1, 4},
    {"large windows that end where the boxes meet", {LEAST_COLUMN, 8, ALL_CODES, ALL_FRAMES}, X, 0, 1, 3},
    {"large windows that begin where the boxes meet", {ALL_COLUMNS, 10, GREATEST_CODE, ALL_FRAMES}, Y, -1, 0, 3},
};

#define COUNT(array) (sizeof array / sizeof array[0])
#define ZONE(name, of, about) {name, about, of##_rows, COUNT(of##_rows), of##_walks, COUNT(of##_walks)}

static const struct zone zones[] = {
    ZONE("Q", q, "The rules' zone Q, ((A-B)+C)*D: A ends in column 9, where B begins."),
    ZONE("((B+A)-C)*D", cut, "A cut that misses one of two products: C ends before B begins."),
    ZONE("(B+C)-(D*A)", repeats, "Two cuts, of which D misses B and C, and A misses B: products that repeat."),
    ZONE("(D*(A+B))*C", empty, "An intersection of which one product is empty: D begins after A ends."),
    ZONE("((A+B)-(C-(D-E)))-F", nested,
         "Drums, wedges and nested differences: the box of A ends in column 6, where that of B begins."),
    ZONE("(A-(B-C))-D", range,
         "The whole range, less the part of a box in its lowest corner that a wedge leaves, and less a drum at its highest columns "
         "and codes."),
    ZONE("A-B", steep,
         "A wedge as steep over the frames as can be, less a box: its plane passes through frames 65538 and 65539, where a slope "
         "times a frame leaves 32 bits."),
    ZONE("T-B", triangle,
         "A triangle less a box: the box of T ends in column 9 and code 9, where B begins. T does not reach there, and still B is a "
         "cut."),
};

/* Walks. */

static int32_t brought(int64_t value, int32_t lo, int32_t hi)
{
    return value < lo ? lo : value > hi ? hi : (int32_t)value;
}

/* The next window of a walk. A bound that would leave the range stays at its end. */
static void step(struct walk *walk)
{
    const struct axis_limits *end = &limits[walk->axis];
    int32_t *lo = &walk->bound[LO(walk->axis)], *hi = &walk->bound[HI(walk->axis)];
    *lo = brought((int64_t)*lo + walk->lo, end->least, end->greatest);
    *hi = brought((int64_t)*hi + walk->hi, end->least, end->greatest);
}

/* Coordinates. */

/* Adds one in its place, unless it is there or out of range. */
static void add(struct axis *to, int axis, int64_t value)
{
    if (!is_coordinate(axis, value))
        return;
    size_t place = 0;
    while (place < to->count && to->at[place] < value)
        place++;
    if (place < to->count && to->at[place] == value)
        return;
    if (to->count == MOST_COORDINATES)
        abort();
    memmove(&to->at[place + 1], &to->at[place], (to->count - place) * sizeof to->at[0]);
    to->at[place] = (int32_t)value;
    to->count++;
}

/* The two outermost at either end. */
static void add_ends(struct axis *to, int axis, int64_t lo, int64_t hi)
{
    add(to, axis, lo);
    add(to, axis, lo + 1);
    add(to, axis, hi - 1);
    add(to, axis, hi);
}

/* All of a window that has few, the ends of another; and those beside it. */
static void add_window(struct axis *to, int axis, int64_t lo, int64_t hi)
{
    if (hi - lo < FEW)
        for (int64_t value = lo; value <= hi; value++)
            add(to, axis, value);
    else
        add_ends(to, axis, lo, hi);
    add(to, axis, lo - 1);
    add(to, axis, hi + 1);
}

static void add_edges(struct axis *to, int axis, const int32_t *row)
{
    if (row[KIND] == DRUM && axis != Z) {
        add(to, axis, (int64_t)row[CENTRE + axis] - row[RADIUS + axis]);
        add(to, axis, (int64_t)row[CENTRE + axis] + row[RADIUS + axis]);
    } else if (row[KIND] == TRIANGLE && axis != Z) {
        for (int corner = 0; corner < CORNERS; corner++)
            add(to, axis, row[CORNER(corner, axis)]);
    } else {
        add(to, axis, row[bound_word(row[KIND], LO(axis))]);
        add(to, axis, row[bound_word(row[KIND], HI(axis))]);
    }
}

/* Those of the windows of a walk, the edges of the zone's primitives, and the ends of the range. */
static struct axis coordinates(const struct zone *zone, struct walk walk, int axis)
{
    struct axis to = {0, {0}};
    for (int32_t k = 0; k < walk.windows; k++, step(&walk))
        add_window(&to, axis, walk.bound[LO(axis)], walk.bound[HI(axis)]);
    for (size_t r = 0; r < zone->rows; r++)
        if (is_primitive(zone->row[r][KIND]))
            add_edges(&to, axis, zone->row[r]);
    add_ends(&to, axis, limits[axis].least, limits[axis].greatest);
    return to;
}

/* Data. */

static void print_numbers(const char *word, const int32_t *numbers, size_t count)
{
    printf("%s", word);
    for (size_t k = 0; k < count; k++)
        printf(" %" PRId32, numbers[k]);
}

static void print_walk(const struct zone *zone, struct walk walk)
{
    static const char *const words[AXES] = {[X] = "columns", [Y] = "codes", [Z] = "frames"};
    printf("# %s\n", walk.about);
    for (int axis = X; axis < AXES; axis++) {
        struct axis at = coordinates(zone, walk, axis);
        print_numbers(words[axis], at.at, at.count);
        printf("\n");
    }
    for (int32_t k = 0; k < walk.windows; k++, step(&walk)) {
        print_numbers(zone->name, walk.bound, BOUNDS);
        print_numbers("\tcompare", walk.bound, BOUNDS);
        printf("\n");
    }
}

static void print_zone(const struct zone *zone)
{
    printf("\n# %s\nzone\n", zone->about);
    for (size_t r = 0; r < zone->rows; r++) {
        print_numbers("row", zone->row[r], 1 + kinds[zone->row[r][KIND]].fields);
        printf("\n");
    }
}

/* Answers. */

/* The first axis on which a point is out of the window, AXES for none. */
static int first_out(const int32_t *bound, const int32_t *point)
{
    for (int axis = X; axis < AXES; axis++)
        if (point[axis] < bound[LO(axis)] || point[axis] > bound[HI(axis)])
            return axis;
    return AXES;
}

static int find(const struct zone *zone, const int32_t *bound, const uint64_t *list, size_t words, const int32_t *point)
{
    const int32_t *table = zone->row[0];
    size_t words_in_table = table_words(zone->rows);
    struct plain_answer by_list = plain_list_point(table, words_in_table, list, words, point[X], point[Y], point[Z]);
    struct plain_answer by_tree = plain_tree_point(table, words_in_table, point[X], point[Y], point[Z]);
    int out = first_out(bound, point);
    if (by_tree.refusal != 0)
        return DISAGREE;
    if (out < AXES)
        return by_list.refusal == 10 && by_list.value == (uint64_t)out ? OUT_OF_WINDOW + out : DISAGREE;
    if (by_list.refusal != 0 || by_list.value != by_tree.value)
        return DISAGREE;
    return by_list.value == 1 ? INSIDE : OUTSIDE;
}

/* How often each is found at the points that have their coordinates on the three axes. */
static void print_findings(const struct zone *zone, const int32_t *bound, const uint64_t *list, size_t words,
                           const struct axis *axes)
{
    uint64_t found[FINDINGS] = {0};
    for (size_t k = 0; k < axes[Z].count; k++) {
        for (size_t j = 0; j < axes[Y].count; j++) {
            for (size_t i = 0; i < axes[X].count; i++) {
                int32_t point[AXES] = {axes[X].at[i], axes[Y].at[j], axes[Z].at[k]};
                found[find(zone, bound, list, words, point)]++;
            }
        }
    }
    for (int f = 0; f < FINDINGS; f++)
        printf("\t%" PRIu64, found[f]);
}

static void try_window(const struct zone *zone, const int32_t *bound, const struct axis *axes)
{
    uint64_t list[32];
    struct plain_window window = {bound[LO(X)], bound[HI(X)], bound[LO(Y)], bound[HI(Y)], bound[LO(Z)], bound[HI(Z)]};
    struct plain_answer made = plain_make_list(zone->row[0], table_words(zone->rows), window, list, COUNT(list));
    print_numbers(zone->name, bound, BOUNDS);
    if (made.refusal != 0) {
        printf("\trefused\t%" PRIu64 "\t%" PRIu64 "\n", made.refusal, made.value);
        return;
    }
    printf("\t%" PRIu64, list[LIST_PRODUCTS]);
    print_findings(zone, bound, list, made.value, axes);
    printf("\n");
}

static void try_walk(const struct zone *zone, struct walk walk)
{
    struct axis axes[AXES];
    for (int axis = X; axis < AXES; axis++)
        axes[axis] = coordinates(zone, walk, axis);
    for (int32_t k = 0; k < walk.windows; k++, step(&walk))
        try_window(zone, walk.bound, axes);
}

int main(int arguments, char **argument)
{
    int data = arguments == 2 && strcmp(argument[1], "data") == 0;
    if (data)
        printf("# Over each zone a window is moved, and its list held against the tree: in the window, beside it and far away.\n");
    else
        printf("zone and window\tproducts\toutside\tinside\tout by column\tby code\tby frame\tdisagree\n");
    for (size_t z = 0; z < COUNT(zones); z++) {
        if (data)
            print_zone(&zones[z]);
        for (size_t w = 0; w < zones[z].walks; w++)
            (data ? print_walk : try_walk)(&zones[z], zones[z].walk[w]);
    }
    return 0;
}
