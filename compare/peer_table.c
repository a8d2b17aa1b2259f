/* Peers: the check of a table, once through it, and a table taken apart. */
#include "peers.h"

struct lampholly_answer peer_done(uint64_t written)
{
    struct lampholly_answer answer = {0, written, 0};
    return answer;
}

struct lampholly_answer peer_refused(uint64_t number, uint64_t value)
{
    struct lampholly_answer answer = {number, value, 0};
    return answer;
}

static int is_slope(int64_t value)
{
    return LEAST_SLOPE <= value && value <= GREATEST_SLOPE;
}

static int is_interval(int axis, int64_t lo, int64_t hi)
{
    return limits[axis].least <= lo && lo <= hi && hi <= limits[axis].greatest;
}

static int has_bounds(const int32_t *row, int axis)
{
    return is_interval(axis, row[bound_word(row[KIND], LO(axis))], row[bound_word(row[KIND], HI(axis))]);
}

static int is_round(const int32_t *row, int axis)
{
    int64_t centre = row[CENTRE + axis], radius = row[RADIUS + axis];
    return LEAST_RADIUS <= radius && radius <= GREATEST_RADIUS && is_interval(axis, centre - radius, centre + radius);
}

static int has_corners(const int32_t *row)
{
    int good = 1;
    for (int corner = 0; corner < CORNERS; corner++)
        good = good && is_coordinate(X, row[CORNER(corner, X)]) && is_coordinate(Y, row[CORNER(corner, Y)]);
    return good && twice_area(row) != 0;
}

static int fields_are_good(const int32_t *row)
{
    int32_t a = row[SLOPE + X], b = row[SLOPE + Y], c = row[SLOPE + Z];
    int good = 1;
    switch (row[KIND]) {
    case DRUM:
        good = is_round(row, X) && is_round(row, Y) && has_bounds(row, Z);
        break;
    case TRIANGLE:
        good = has_corners(row) && has_bounds(row, Z);
        break;
    case WEDGE:
        good = is_slope(a) && is_slope(b) && is_slope(c) && (a | b | c) != 0;
        /* fall through */
    case BOX:
        good = good && has_bounds(row, X) && has_bounds(row, Y) && has_bounds(row, Z);
    }
    for (size_t word = 1 + kinds[row[KIND]].fields; word < ROW_WORDS; word++)
        good = good && row[word] == 0;
    return good;
}

struct lampholly_answer peer_check(const int32_t *table, size_t words)
{
    uint8_t times[MOST_ROWS] = {0};
    size_t rows = rows_in(words);
    if (words != table_words(rows) || rows == 0 || rows > MOST_ROWS)
        return peer_refused(1, words);
    for (size_t number = 0; number < rows; number++) {
        const int32_t *row = table + table_words(number);
        if (!is_kind(row[KIND]))
            return peer_refused(2, number);
        if (!fields_are_good(row))
            return peer_refused(3, number);
        if (!is_operation(row[KIND]))
            continue;
        if ((uint32_t)row[LEFT] >= number || (uint32_t)row[RIGHT] >= number)
            return peer_refused(4, number);
        times[row[LEFT]]++;
        times[row[RIGHT]]++;
    }
    for (size_t number = 0; number + 1 < rows; number++)
        if (times[number] != 1)
            return peer_refused(5, number);
    return peer_done(0);
}

/* Each side as a sum, turned so that it is above 0 within the triangle. */
static void open_edges(struct peer_edge *edge, const int32_t *words)
{
    int64_t sign = twice_area(words) > 0 ? 1 : -1;
    for (int corner = 0; corner < CORNERS; corner++) {
        const int32_t *from = words + CORNER(corner, X), *to = words + CORNER(next_corner(corner), X);
        edge[corner].a = sign * (from[Y] - to[Y]);
        edge[corner].b = sign * (to[X] - from[X]);
        edge[corner].c = sign * edge_side(words, corner, 0, 0);
    }
}

static void open_primitive(struct peer_zone *zone, struct peer_row *row, const int32_t *words)
{
    struct box box = box_of(words);
    int32_t number = zone->primitives++;
    row->left = number;
    zone->words[number] = words;
    for (int axis = X; axis < AXES; axis++) {
        zone->box[number].lo[axis] = (int32_t)box.lo[axis];
        zone->box[number].hi[axis] = (int32_t)box.hi[axis];
    }
    if (words[KIND] == TRIANGLE)
        open_edges(zone->edge[number], words);
}

struct lampholly_answer peer_open(const int32_t *table, size_t words, struct peer_zone *zone)
{
    struct lampholly_answer check = peer_check(table, words);
    if (check.refusal)
        return check;
    zone->rows = (int32_t)rows_in(words);
    zone->primitives = 0;
    for (int32_t number = 0; number < zone->rows; number++) {
        const int32_t *from = table + table_words((size_t)number);
        struct peer_row *row = &zone->row[number];
        row->kind = from[KIND];
        row->left = from[LEFT];
        row->right = from[RIGHT];
        if (!is_operation(row->kind))
            open_primitive(zone, row, from);
    }
    return check;
}
