/* Windows, points and rooms that aim at the edges of a zone, a range, a need. */
#include "inputs.h"

/* Some primitive row of the table, NULL where none is to be had. */
static const int32_t *some_primitive(const struct table *table)
{
    size_t rows = rows_in(table->words);
    for (int turn = 0; rows > 0 && turn < 8; turn++) {
        const int32_t *row = table->word + table_words(below(rows));
        if (is_primitive(row[KIND]))
            return row;
    }
    return NULL;
}

/* At, beside or between two bounds. */
static int64_t near_bounds(int64_t lo, int64_t hi)
{
    switch (below(8)) {
    case 0: return lo - 1;
    case 1: return lo;
    case 2: return lo + 1;
    case 3: return hi - 1;
    case 4: return hi;
    case 5: return hi + 1;
    default: return lo <= hi ? between(lo, hi) : hi;
    }
}

int64_t any_aim(const struct table *table, int axis)
{
    const int32_t *row = some_primitive(table);
    if (row == NULL)
        return any_coordinate(axis);
    struct box box = box_of(row);
    return near_bounds(box.lo[axis], box.hi[axis]);
}

/* Two aims; or, each at its box or just past it, two codes with some primitive between them. */
void any_two_aims(const struct table *table, int64_t *one, int64_t *other)
{
    const int32_t *row = some_primitive(table);
    *one = any_aim(table, Y);
    *other = any_aim(table, Y);
    if (row != NULL && one_in(2)) {
        struct box box = box_of(row);
        int is_upward = one_in(2);
        *(is_upward ? one : other) = box.lo[Y] - between(0, 2);
        *(is_upward ? other : one) = box.hi[Y] + between(0, 2);
    }
}

static int64_t magnitude(int64_t value)
{
    return value < 0 ? -value : value;
}

static int64_t floor_divided(int64_t value, int64_t by)
{
    int64_t quotient = value / by;
    return value % by != 0 && (value < 0) != (by < 0) ? quotient - 1 : quotient;
}

/* Moves the spot along one axis to the wedge's plane, or to just beside it. */
static void to_plane(const int32_t *row, int64_t spot[AXES])
{
    int moved = (int)below(AXES);
    int64_t rest = row[LIMIT];
    if (row[SLOPE + moved] == 0)
        return;
    for (int axis = X; axis < AXES; axis++)
        if (axis != moved)
            rest -= row[SLOPE + axis] * spot[axis];
    spot[moved] = floor_divided(rest, row[SLOPE + moved]) + between(-1, 1);
}

static int in_round(const int32_t *row, int64_t dx, int64_t dy)
{
    int64_t rx = row[RADIUS + X], ry = row[RADIUS + Y];
    return ry * ry * dx * dx + rx * rx * dy * dy <= rx * rx * ry * ry;
}

/* The greatest distance in codes from the drum's centre that is inside, so many columns from it. */
static int64_t rim_height(const int32_t *row, int64_t dx)
{
    int64_t inside = 0, outside = (int64_t)row[RADIUS + Y] + 1;
    while (outside - inside > 1) {
        int64_t middle = (inside + outside) / 2;
        if (in_round(row, dx, middle))
            inside = middle;
        else
            outside = middle;
    }
    return inside;
}

/* Moves the spot to the drum's rim, or to just outside it. */
static void to_rim(const int32_t *row, int64_t spot[AXES])
{
    int64_t dx = between(-row[RADIUS + X], row[RADIUS + X]), dy = rim_height(row, dx) + (one_in(2) ? 1 : 0);
    spot[X] = row[CENTRE + X] + dx;
    spot[Y] = row[CENTRE + Y] + (one_in(2) ? dy : -dy);
}

static int is_radius(int32_t value)
{
    return LEAST_RADIUS <= value && value <= GREATEST_RADIUS;
}

static int has_round_rim(const int32_t *row)
{
    return row[KIND] == DRUM && is_radius(row[RADIUS + X]) && is_radius(row[RADIUS + Y]);
}

static int keeps_range(struct box box, int axis)
{
    return is_coordinate(axis, box.lo[axis]) && is_coordinate(axis, box.hi[axis]);
}

/* Between corners out of range the way along an edge might leave 64 bits; between equal ones there is none. */
static int has_edges(const int32_t *row)
{
    struct box box = box_of(row);
    return row[KIND] == TRIANGLE && keeps_range(box, X) && keeps_range(box, Y) && twice_area(row) != 0;
}

/* How far the edge from this corner to the next goes on an axis. */
static int64_t edge_run(const int32_t *row, int corner, int axis)
{
    return row[CORNER(next_corner(corner), axis)] - row[CORNER(corner, axis)];
}

/* Where the edge is on an axis after so many of its parts; between two coordinates, the lower. */
static int64_t along_edge(const int32_t *row, int corner, int axis, int64_t part, int64_t parts)
{
    return row[CORNER(corner, axis)] + floor_divided(edge_run(row, corner, axis) * part, parts);
}

static int64_t common_divisor(int64_t one, int64_t other)
{
    return other == 0 ? one : common_divisor(other, one % other);
}

/* Moves the spot to a corner or along an edge, half of the time to where a point lies on it, or to one beside that. */
static void to_edge(const int32_t *row, int64_t spot[AXES])
{
    int corner = (int)below(CORNERS), moved = (int)below(2);
    int64_t width = magnitude(edge_run(row, corner, X)), height = magnitude(edge_run(row, corner, Y));
    int64_t parts = one_in(2) ? common_divisor(width, height) : width > height ? width : height;
    int64_t part = between(0, parts);
    spot[X] = along_edge(row, corner, X, part, parts);
    spot[Y] = along_edge(row, corner, Y, part, parts);
    spot[moved] += between(-1, 1);
}

static int has_column(const int32_t *row, int64_t column)
{
    struct box box = box_of(row);
    return box.lo[X] <= column && column <= box.hi[X];
}

/* Some primitive row, one that has this column if a few turns find it; NULL where none is to be had. */
static const int32_t *some_primitive_in(const struct table *table, int64_t column)
{
    const int32_t *row = some_primitive(table);
    for (int turn = 0; row != NULL && !has_column(row, column) && turn < 4; turn++)
        row = some_primitive(table);
    return row;
}

/* Where the wedge's plane passes; between two codes, the lower. It has a slope over the codes. */
static int64_t plane_code(const int32_t *row, int64_t column, int64_t number)
{
    int64_t rest = row[LIMIT] - row[SLOPE + X] * in_range(X, column) - row[SLOPE + Z] * in_range(Z, number);
    return floor_divided(rest, row[SLOPE + Y]);
}

static int64_t rim_code(const int32_t *row, int64_t column)
{
    int64_t radius = row[RADIUS + X], dx = clamped(column - row[CENTRE + X], -radius, radius), dy = rim_height(row, dx);
    return row[CENTRE + Y] + (one_in(2) ? dy : -dy);
}

/* In this column and frame, a code at or beside some primitive's plane, rim or line of an edge; or one about its box's bounds. */
int64_t any_code_at(const struct table *table, int64_t column, int64_t number)
{
    const int32_t *row = some_primitive_in(table, column);
    int corner = (int)below(CORNERS);
    if (row == NULL)
        return any_coordinate(Y);
    if (row[KIND] == WEDGE && row[SLOPE + Y] != 0 && one_in(2))
        return plane_code(row, column, number) + between(-1, 1);
    if (has_round_rim(row))
        return rim_code(row, column) + between(-1, 1);
    if (has_edges(row) && edge_run(row, corner, X) != 0)
        return along_edge(row, corner, Y, column - row[CORNER(corner, X)], edge_run(row, corner, X)) + between(-1, 1);
    struct box box = box_of(row);
    return near_bounds(box.lo[Y], box.hi[Y]);
}

/* A spot by one primitive: a corner, an edge, a face, one past them, or somewhere in between. */
static void aim_at(const struct table *table, int64_t spot[AXES])
{
    const int32_t *row = some_primitive(table);
    if (row == NULL || one_in(16)) {
        for (int axis = X; axis < AXES; axis++)
            spot[axis] = any_coordinate(axis);
        return;
    }
    struct box box = box_of(row);
    for (int axis = X; axis < AXES; axis++)
        spot[axis] = clamped(near_bounds(box.lo[axis], box.hi[axis]), limits[axis].least - 1, limits[axis].greatest + 1);
    if (row[KIND] == WEDGE && one_in(2))
        to_plane(row, spot);
    if (has_round_rim(row) && one_in(2))
        to_rim(row, spot);
    if (has_edges(row) && one_in(2))
        to_edge(row, spot);
}

/* Windows. */

void to_bounds(struct lampholly_window window, int32_t bound[BOUNDS])
{
    const int32_t in_order[BOUNDS] = {window.xlo, window.xhi, window.ylo, window.yhi, window.zlo, window.zhi};
    for (int i = 0; i < BOUNDS; i++)
        bound[i] = in_order[i];
}

static struct lampholly_window from_bounds(const int32_t bound[BOUNDS])
{
    struct lampholly_window window = {bound[LO(X)], bound[HI(X)], bound[LO(Y)], bound[HI(Y)], bound[LO(Z)], bound[HI(Z)]};
    return window;
}

/* Just past an end of the axis, or far past it. */
static int64_t off_range(int axis)
{
    int64_t below_least = (int64_t)limits[axis].least - 1, above_greatest = (int64_t)limits[axis].greatest + 1;
    int64_t words = (int64_t)greatest_word(axis) + 1;
    return ONE_OF(below_least, above_greatest, below_least, above_greatest, INT32_MIN, INT32_MAX, words - 1, words, -words);
}

static void put_axis(const struct table *table, int axis, int32_t bound[BOUNDS])
{
    int64_t one = in_range(axis, any_aim(table, axis));
    int64_t other = one_in(6) ? one : in_range(axis, any_aim(table, axis));
    if (one_in(2)) {
        one = limits[axis].least;
        other = limits[axis].greatest;
    }
    bound[LO(axis)] = (int32_t)(one < other ? one : other);
    bound[HI(axis)] = (int32_t)(one < other ? other : one);
}

/* A bound that leaves the range, or hi below lo. */
static void damage_bound(int32_t bound[BOUNDS])
{
    int at = (int)below(BOUNDS), axis = at / 2;
    if (one_in(2))
        bound[at] = (int32_t)off_range(axis);
    else if (bound[LO(axis)] > INT32_MIN)
        bound[HI(axis)] = bound[LO(axis)] - 1;
}

struct lampholly_window any_window(const struct table *table)
{
    int32_t bound[BOUNDS] = {FULL_RANGE};
    if (!one_in(4))
        for (int axis = X; axis < AXES; axis++)
            put_axis(table, axis, bound);
    while (one_in(8))
        damage_bound(bound);
    return from_bounds(bound);
}

/* The window that the list carries, as far as it is one; else the full range. */
struct lampholly_window window_of(const struct list *list)
{
    int32_t bound[BOUNDS] = {FULL_RANGE};
    for (int axis = X; list->words >= HEADER_WORDS && axis < AXES; axis++) {
        uint64_t lo = list->word[LIST_BOUND + LO(axis)], hi = list->word[LIST_BOUND + HI(axis)];
        if (lo <= hi && hi <= greatest_word(axis)) {
            bound[LO(axis)] = (int32_t)lowered(axis, lo);
            bound[HI(axis)] = (int32_t)lowered(axis, hi);
        }
    }
    return from_bounds(bound);
}

/* Points. */

/* Mostly in the window; sometimes just out of it, sometimes out of the range. */
struct point any_point(const struct table *table, struct lampholly_window window)
{
    int64_t spot[AXES];
    int32_t bound[BOUNDS];
    struct point point;
    int stays = !one_in(4);
    to_bounds(window, bound);
    aim_at(table, spot);
    if (one_in(8))
        for (int axis = X; axis < AXES; axis++)
            spot[axis] = near_bounds(bound[LO(axis)], bound[HI(axis)]);
    for (int axis = X; axis < AXES; axis++) {
        if (stays)
            spot[axis] = clamped(spot[axis], bound[LO(axis)], bound[HI(axis)]);
        if (one_in(40))
            spot[axis] = off_range(axis);
        point.at[axis] = (int32_t)clamped(spot[axis], INT32_MIN, INT32_MAX);
    }
    return point;
}

/* How much room to lend where so much is needed. */
size_t any_room(size_t needed, size_t most)
{
    size_t room = needed;
    switch (below(8)) {
    case 0: room = 0; break;
    case 1: room = needed > 0 ? needed - 1 : 0; break;
    case 2: room = below(needed + 1); break;
    case 3: room = needed + 1; break;
    case 4: room = needed + below(40); break;
    default: break;
    }
    return room < most ? room : most;
}
