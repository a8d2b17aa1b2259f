/* Answers from the tree: a point, and the search of a frame. */
#include "plain_parts.h"

static int64_t square(int64_t value)
{
    return value * value;
}

static int in_bounds(const int32_t *row, int axis, struct point p)
{
    int32_t lo = row[bound_word(row[KIND], LO(axis))], hi = row[bound_word(row[KIND], HI(axis))];
    return lo <= p.at[axis] && p.at[axis] <= hi;
}

static int in_box(const int32_t *row, struct point p)
{
    return in_bounds(row, X, p) && in_bounds(row, Y, p) && in_bounds(row, Z, p);
}

/* A product of a slope and a coordinate is at most 2^35. */
static int in_wedge(const int32_t *row, struct point p)
{
    int64_t a = row[SLOPE + X], b = row[SLOPE + Y], c = row[SLOPE + Z], d = row[LIMIT];
    return in_box(row, p) && a * p.at[X] + b * p.at[Y] + c * p.at[Z] <= d;
}

/* A radius is at most 2^12 and a coordinate less than 2^16 from the centre: the sum is under 2^57. */
static int in_drum(const int32_t *row, struct point p)
{
    int64_t cx = row[CENTRE + X], cy = row[CENTRE + Y], rx = row[RADIUS + X], ry = row[RADIUS + Y];
    return in_bounds(row, Z, p)
        && square(ry) * square(p.at[X] - cx) + square(rx) * square(p.at[Y] - cy) <= square(rx) * square(ry);
}

/* Whichever way round the corners run, edges and corners belong to it. */
static int in_triangle(const int32_t *row, struct point p)
{
    int64_t x = p.at[X], y = p.at[Y];
    int64_t one = edge_side(row, 0, x, y), two = edge_side(row, 1, x, y), three = edge_side(row, 2, x, y);
    return in_bounds(row, Z, p) && ((one >= 0 && two >= 0 && three >= 0) || (one <= 0 && two <= 0 && three <= 0));
}

int plain_in_primitive(const int32_t *row, struct point point)
{
    switch (row[KIND]) {
    case BOX: return in_box(row, point);
    case WEDGE: return in_wedge(row, point);
    case DRUM: return in_drum(row, point);
    default: return in_triangle(row, point);
    }
}

static int in_tree(const struct zone *zone, size_t number, struct point point)
{
    const int32_t *row = zone->row[number];
    switch (row[KIND]) {
    case UNION: return in_tree(zone, row[LEFT], point) || in_tree(zone, row[RIGHT], point);
    case INTER: return in_tree(zone, row[LEFT], point) && in_tree(zone, row[RIGHT], point);
    case DIFF: return in_tree(zone, row[LEFT], point) && !in_tree(zone, row[RIGHT], point);
    default: return plain_in_primitive(row, point);
    }
}

struct plain_answer plain_tree_point(const int32_t *table, size_t words, int32_t x, int32_t y, int32_t z)
{
    struct plain_answer check = plain_check(table, words);
    if (plain_is_refused(check))
        return check;
    struct point point = {{x, y, z}};
    for (int axis = X; axis < AXES; axis++)
        if (!is_coordinate(axis, point.at[axis]))
            return plain_refused(10, (uint64_t)axis);
    struct zone zone = plain_zone(table, words);
    return plain_inside(in_tree(&zone, zone.rows - 1, point));
}

struct plain_answer plain_check_frame(size_t samples, int32_t first, int64_t frame)
{
    if (samples == 0 || samples > MOST_SAMPLES)
        return plain_refused(12, 0);
    int64_t last = (int64_t)first + (int64_t)samples - 1;
    if (!is_coordinate(X, first) || !is_coordinate(X, last))
        return plain_refused(12, 1);
    if (!is_coordinate(Z, frame))
        return plain_refused(12, 2);
    return plain_done(0);
}

struct point plain_sample(const int16_t *codes, size_t position, int32_t first, int64_t frame)
{
    struct point point = {{(int64_t)first + (int64_t)position, codes[position], frame}};
    return point;
}

/* The column of a sample holds what lies past the code before it, up to its own; that of sample 0 its own code only. */
struct held_codes plain_held_codes(const int16_t *codes, size_t position)
{
    int64_t own = codes[position], before = position == 0 ? own : codes[position - 1];
    struct held_codes held = {own, own};
    if (before < own)
        held.lowest = before + 1;
    if (own < before)
        held.highest = before - 1;
    return held;
}

/* A sample is inside when any code that its column holds is. */
static int sample_in_tree(const struct zone *zone, const int16_t *codes, size_t position, int32_t first, int64_t frame)
{
    struct held_codes held = plain_held_codes(codes, position);
    struct point point = plain_sample(codes, position, first, frame);
    for (point.at[Y] = held.lowest; point.at[Y] <= held.highest; point.at[Y]++)
        if (in_tree(zone, zone->rows - 1, point))
            return 1;
    return 0;
}

struct plain_answer plain_tree_search(const int32_t *table, size_t words,
                                      const int16_t *codes, size_t samples, int32_t first, int32_t frame)
{
    struct plain_answer check = plain_check(table, words);
    if (plain_is_refused(check))
        return check;
    check = plain_check_frame(samples, first, frame);
    if (plain_is_refused(check))
        return check;
    struct zone zone = plain_zone(table, words);
    uint64_t first_inside = 0, inside_samples = 0;
    for (size_t k = 0; k < samples; k++) {
        if (sample_in_tree(&zone, codes, k, first, frame)) {
            if (inside_samples == 0)
                first_inside = k;
            inside_samples++;
        }
    }
    return plain_found(first_inside, inside_samples);
}
