/* Answers, and the table's rules: refusals 1 to 5. */
#include "plain_parts.h"

struct plain_answer plain_done(uint64_t written)
{
    struct plain_answer answer = {0, written, 0};
    return answer;
}

struct plain_answer plain_inside(int inside)
{
    struct plain_answer answer = {0, inside ? 1 : 0, 0};
    return answer;
}

/* Clear where no sample is inside, else a hit. */
struct plain_answer plain_found(uint64_t position, uint64_t inside_samples)
{
    struct plain_answer clear = {0, 0, 0};
    struct plain_answer hit = {0, position, inside_samples};
    return inside_samples == 0 ? clear : hit;
}

struct plain_answer plain_refused(uint64_t number, uint64_t value)
{
    struct plain_answer answer = {number, value, 0};
    return answer;
}

int plain_is_refused(struct plain_answer answer)
{
    return answer.refusal != 0;
}

static int bounds_keep_rule(const int32_t *row, int axis)
{
    int32_t lo = row[bound_word(row[KIND], LO(axis))], hi = row[bound_word(row[KIND], HI(axis))];
    return is_coordinate(axis, lo) && is_coordinate(axis, hi) && lo <= hi;
}

static int box_keeps_rule(const int32_t *row)
{
    return bounds_keep_rule(row, X) && bounds_keep_rule(row, Y) && bounds_keep_rule(row, Z);
}

static int is_slope(int32_t value)
{
    return LEAST_SLOPE <= value && value <= GREATEST_SLOPE;
}

static int wedge_keeps_rule(const int32_t *row)
{
    int32_t a = row[SLOPE + X], b = row[SLOPE + Y], c = row[SLOPE + Z];
    return box_keeps_rule(row) && is_slope(a) && is_slope(b) && is_slope(c) && !(a == 0 && b == 0 && c == 0);
}

static int round_keeps_rule(const int32_t *row, int axis)
{
    int64_t centre = row[CENTRE + axis], radius = row[RADIUS + axis];
    return LEAST_RADIUS <= radius && radius <= GREATEST_RADIUS
        && is_coordinate(axis, centre - radius) && is_coordinate(axis, centre + radius);
}

static int drum_keeps_rule(const int32_t *row)
{
    return round_keeps_rule(row, X) && round_keeps_rule(row, Y) && bounds_keep_rule(row, Z);
}

static int corners_are_coordinates(const int32_t *row)
{
    for (int corner = 0; corner < CORNERS; corner++)
        if (!is_coordinate(X, row[CORNER(corner, X)]) || !is_coordinate(Y, row[CORNER(corner, Y)]))
            return 0;
    return 1;
}

/* Only corners in range have an area that 64 bits are sure to hold. */
static int triangle_keeps_rule(const int32_t *row)
{
    return corners_are_coordinates(row) && twice_area(row) != 0 && bounds_keep_rule(row, Z);
}

static int fields_keep_rule(const int32_t *row)
{
    switch (row[KIND]) {
    case BOX: return box_keeps_rule(row);
    case WEDGE: return wedge_keeps_rule(row);
    case DRUM: return drum_keeps_rule(row);
    case TRIANGLE: return triangle_keeps_rule(row);
    default: return 1; /* children have refusal 4 */
    }
}

static int spare_words_are_zero(const int32_t *row)
{
    for (size_t word = 1 + kinds[row[KIND]].fields; word < ROW_WORDS; word++)
        if (row[word] != 0)
            return 0;
    return 1;
}

static int is_earlier(int32_t child, size_t number)
{
    return child >= 0 && (size_t)child < number;
}

/* The refusal that this row earns, 0 for none. */
static uint64_t row_refusal(const int32_t *row, size_t number)
{
    if (!is_kind(row[KIND]))
        return 2;
    if (!fields_keep_rule(row) || !spare_words_are_zero(row))
        return 3;
    if (is_operation(row[KIND]) && (!is_earlier(row[LEFT], number) || !is_earlier(row[RIGHT], number)))
        return 4;
    return 0;
}

static size_t times_child(const int32_t *table, size_t rows, size_t child)
{
    size_t times = 0;
    for (size_t number = 0; number < rows; number++) {
        const int32_t *row = table + table_words(number);
        if (is_operation(row[KIND]) && (size_t)row[LEFT] == child)
            times++;
        if (is_operation(row[KIND]) && (size_t)row[RIGHT] == child)
            times++;
    }
    return times;
}

struct plain_answer plain_check(const int32_t *table, size_t words)
{
    size_t rows = rows_in(words);
    if (words != table_words(rows) || rows == 0 || rows > MOST_ROWS)
        return plain_refused(1, words);
    for (size_t number = 0; number < rows; number++) {
        uint64_t refusal = row_refusal(table + table_words(number), number);
        if (refusal != 0)
            return plain_refused(refusal, number);
    }
    for (size_t number = 0; number < rows - 1; number++)
        if (times_child(table, rows, number) != 1)
            return plain_refused(5, number);
    return plain_done(0);
}

struct zone plain_zone(const int32_t *table, size_t words)
{
    struct zone zone;
    zone.rows = rows_in(words);
    zone.primitives = 0;
    for (size_t number = 0; number < zone.rows; number++) {
        const int32_t *row = table + table_words(number);
        zone.row[number] = row;
        if (is_primitive(row[KIND]))
            zone.primitive[zone.primitives++] = row;
    }
    return zone;
}

size_t plain_primitive_number(const struct zone *zone, const int32_t *row)
{
    size_t i = 0;
    while (zone->primitive[i] != row)
        i++;
    return i;
}
