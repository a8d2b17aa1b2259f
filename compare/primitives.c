/* Random primitives whose edges meet, overlap or miss by one. */
#include "inputs.h"

#define MARKS 5

/* On each axis a few columns, codes or frames that edges keep to, and how seldom a shape reaches over all of them. */
static int64_t marks[AXES][MARKS];
static unsigned seldom_wide[AXES];

/* How seldom a primitive of the zone is a wedge, a drum or a triangle; drums are small and miss much. */
static unsigned seldom_wedge, seldom_drum, seldom_triangle;

/* Do the planes of the zone's wedges all pass through their boxes? */
static int is_dense;

/* Where the text of a number gets a digit more: a power of ten, or one less, or the same below 0. */
static int64_t any_new_digit(void)
{
    int64_t power = 1;
    for (uint64_t digits = below(10); digits > 0; digits--)
        power *= 10;
    return (one_in(2) ? -1 : 1) * (power - between(0, 1));
}

#define STYLES 6
#define NEAR_STYLE 1
#define NEAR_BASE 10000 /* with any slopes, a plane through here has a limit of 32 bits */

static int64_t any_mark_value(int axis, unsigned style, int64_t base)
{
    int64_t least = limits[axis].least, greatest = limits[axis].greatest;
    switch (style) {
    case 0: return between(-4, 4);
    case NEAR_STYLE: return base + between(-20, 20);
    case 2: /* where columns end, too: frames go on there */
        return ONE_OF(least, least + 1, LEAST_COLUMN - 1, -1, 0, 1, GREATEST_COLUMN + 1, greatest - 1, greatest);
    case 3: return any_coordinate(axis);
    case 4: return any_new_digit();
    default:
        return one_in(2) ? between(-3, 9) : ONE_OF(least, greatest, -GREATEST_RADIUS - 1, -GREATEST_RADIUS, GREATEST_RADIUS,
                                                   GREATEST_RADIUS - 1);
    }
}

static void put_marks(int axis, unsigned style, int64_t base)
{
    for (size_t i = 0; i < MARKS; i++)
        marks[axis][i] = in_range(axis, any_mark_value(axis, style, base));
}

/* All shapes are near each other and wide, so that they overlap; many are wedges. */
void near_marks(void)
{
    is_dense = 1;
    for (int axis = X; axis < AXES; axis++) {
        put_marks(axis, NEAR_STYLE, between(-NEAR_BASE, NEAR_BASE));
        seldom_wide[axis] = 1;
    }
    seldom_wedge = (unsigned)between(1, 2);
    seldom_drum = 6;
    seldom_triangle = 6;
}

void any_marks(void)
{
    unsigned common = (unsigned)below(STYLES);
    is_dense = 0;
    for (int axis = X; axis < AXES; axis++) {
        unsigned style = one_in(2) ? common : (unsigned)below(STYLES);
        put_marks(axis, style, any_coordinate(axis));
        seldom_wide[axis] = (unsigned)ONE_OF(1, 1, 2, 3, 8);
    }
    seldom_wedge = (unsigned)ONE_OF(1, 3, 5, 20);
    seldom_drum = (unsigned)ONE_OF(2, 6, 20, 60);
    seldom_triangle = (unsigned)ONE_OF(2, 4, 8, 30);
}

static int64_t any_edge(int axis)
{
    int64_t step = one_in(3) ? between(-1, 1) : 0;
    return in_range(axis, marks[axis][below(MARKS)] + step);
}

static void put_bounds(int32_t *row, int axis)
{
    int edges = one_in(seldom_wide[axis]) ? 12 : 2;
    int64_t lo = limits[axis].greatest, hi = limits[axis].least;
    for (int i = 0; i < edges; i++) {
        int64_t edge = any_edge(axis);
        lo = edge < lo ? edge : lo;
        hi = edge > hi ? edge : hi;
    }
    row[bound_word(row[KIND], LO(axis))] = (int32_t)lo;
    row[bound_word(row[KIND], HI(axis))] = (int32_t)hi;
}

static void put_box(int32_t *row)
{
    for (int axis = X; axis < AXES; axis++)
        put_bounds(row, axis);
}

static int64_t any_slope(int is_steep)
{
    switch (is_steep ? 1 : below(4)) {
    case 0: return 0;
    case 1: return ONE_OF(LEAST_SLOPE, LEAST_SLOPE + 1, GREATEST_SLOPE);
    case 2: return between(LEAST_SLOPE, GREATEST_SLOPE);
    default: return between(-3, 3);
    }
}

/* The plane mostly runs through the wedge's box, often through a corner, or one beside that. */
static int64_t any_limit(const int32_t *row)
{
    if (!is_dense && one_in(8))
        return ONE_OF(INT32_MIN, INT32_MAX, 0, -1, 1, between(INT32_MIN, INT32_MAX), any_new_digit());
    int64_t limit = one_in(2) ? between(-1, 1) : 0;
    for (int axis = X; axis < AXES; axis++) {
        const int32_t *lo_hi = row + BOUND + LO(axis);
        limit += row[SLOPE + axis] * (is_dense || one_in(3) ? between(lo_hi[0], lo_hi[1]) : lo_hi[below(2)]);
    }
    return clamped(limit, INT32_MIN, INT32_MAX);
}

static void put_wedge(int32_t *row)
{
    int is_steep = one_in(4);
    put_box(row);
    do
        for (int axis = X; axis < AXES; axis++)
            row[SLOPE + axis] = (int32_t)any_slope(is_steep);
    while (row[SLOPE + X] == 0 && row[SLOPE + Y] == 0 && row[SLOPE + Z] == 0);
    row[LIMIT] = (int32_t)any_limit(row);
}

static int64_t any_radius(void)
{
    switch (below(5)) {
    case 0: return ONE_OF(LEAST_RADIUS, LEAST_RADIUS + 1, GREATEST_RADIUS - 1, GREATEST_RADIUS);
    case 1: return between(LEAST_RADIUS, GREATEST_RADIUS);
    case 2: return 5 * between(1, GREATEST_RADIUS / 5); /* with both radii so, points such as 3, 4 of 5 lie on the rim */
    default: return between(1, 6);
    }
}

/* One side of the drum's box keeps to a mark where the range lets it. */
static void put_round(int32_t *row, int axis)
{
    int64_t radius = any_radius();
    int64_t centre = any_edge(axis) + (one_in(2) ? radius : -radius);
    row[CENTRE + axis] = (int32_t)clamped(centre, limits[axis].least + radius, limits[axis].greatest - radius);
    row[RADIUS + axis] = (int32_t)radius;
}

static void put_drum(int32_t *row)
{
    put_round(row, X);
    put_round(row, Y);
    int64_t centre = row[CENTRE + Y], radius = row[RADIUS + X];
    if (one_in(2) && is_coordinate(Y, centre - radius) && is_coordinate(Y, centre + radius))
        row[RADIUS + Y] = row[RADIUS + X];
    put_bounds(row, Z);
}

/* Where an axis ends, or one before that. */
static int64_t any_end(int axis)
{
    return ONE_OF(limits[axis].least, limits[axis].least + 1, limits[axis].greatest - 1, limits[axis].greatest);
}

/* Three corners; or, with two edges along the axes, a right angle at one of them. */
static void put_corners(int32_t *row, int64_t (*any_place)(int axis))
{
    for (int corner = 0; corner < CORNERS; corner++)
        for (int axis = X; axis <= Y; axis++)
            row[CORNER(corner, axis)] = (int32_t)any_place(axis);
    if (one_in(3)) {
        int right = (int)below(CORNERS), next = next_corner(right);
        row[CORNER(next, Y)] = row[CORNER(right, Y)];
        row[CORNER(next_corner(next), X)] = row[CORNER(right, X)];
    }
}

/* Takes two corners far away from the first: their sum in place of one of them keeps the area. */
static void take_away(int64_t away[CORNERS][2])
{
    for (uint64_t turns = below(60); turns > 0; turns--) {
        int64_t x = away[1][X] + away[2][X], y = away[1][Y] + away[2][Y], moved = between(1, 2);
        if (x > (int64_t)greatest_word(X) || y > (int64_t)greatest_word(Y))
            return;
        away[moved][X] = x;
        away[moved][Y] = y;
    }
}

/* Twice the area is 1 or -1, and the edges are mostly long. */
static void put_sliver(int32_t *row)
{
    int64_t away[CORNERS][2] = {{0, 0}, {1, 0}, {0, 1}};
    take_away(away);
    for (int axis = X; axis <= Y; axis++) {
        int64_t most = away[1][axis] > away[2][axis] ? away[1][axis] : away[2][axis];
        int64_t start = clamped(any_edge(axis), limits[axis].least, limits[axis].greatest - most);
        int is_mirrored = one_in(2);
        for (int corner = 0; corner < CORNERS; corner++)
            row[CORNER(corner, axis)] = (int32_t)(start + (is_mirrored ? most - away[corner][axis] : away[corner][axis]));
    }
}

static void put_triangle(int32_t *row)
{
    do {
        if (one_in(8))
            put_sliver(row);
        else
            put_corners(row, one_in(4) ? any_end : any_edge);
    } while (twice_area(row) == 0);
    put_bounds(row, Z);
}

/* Fills a row of zeros with a box over all columns. */
void any_long_box(int32_t *row)
{
    row[KIND] = BOX;
    put_box(row);
    row[BOUND + LO(X)] = limits[X].least;
    row[BOUND + HI(X)] = limits[X].greatest;
}

/* Fills a row of zeros. */
void any_primitive(int32_t *row)
{
    row[KIND] = one_in(seldom_triangle) ? TRIANGLE : one_in(seldom_drum) ? DRUM : one_in(seldom_wedge) ? WEDGE : BOX;
    switch (row[KIND]) {
    case BOX: put_box(row); break;
    case WEDGE: put_wedge(row); break;
    case DRUM: put_drum(row); break;
    default: put_triangle(row); break;
    }
}

/* How many words from word 1 onward a row of this kind names; of an unknown kind, as an operation. */
size_t fields_of(int32_t kind)
{
    return kinds[is_kind(kind) ? kind : UNION].fields;
}

static void span_corners(struct box *box, const int32_t *row, int axis)
{
    box->lo[axis] = box->hi[axis] = row[CORNER(0, axis)];
    for (int corner = 1; corner < CORNERS; corner++) {
        int64_t at = row[CORNER(corner, axis)];
        box->lo[axis] = at < box->lo[axis] ? at : box->lo[axis];
        box->hi[axis] = at > box->hi[axis] ? at : box->hi[axis];
    }
}

struct box box_of(const int32_t *row)
{
    struct box box;
    for (int axis = X; axis < AXES; axis++) {
        if (row[KIND] == DRUM && axis != Z) {
            box.lo[axis] = (int64_t)row[CENTRE + axis] - row[RADIUS + axis];
            box.hi[axis] = (int64_t)row[CENTRE + axis] + row[RADIUS + axis];
        } else if (row[KIND] == TRIANGLE && axis != Z) {
            span_corners(&box, row, axis);
        } else {
            box.lo[axis] = row[bound_word(row[KIND], LO(axis))];
            box.hi[axis] = row[bound_word(row[KIND], HI(axis))];
        }
    }
    return box;
}
