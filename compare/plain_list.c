/* Answers from a list: a point, the search of a frame and of a screen, and the picture of a rectangle; refusals 9 to 11. */
#include "plain_parts.h"

/* The bits at or past this number of primitives. */
static uint64_t bits_past(uint64_t primitives)
{
    return primitives == MOST_PRIMITIVES ? 0 : ~(uint64_t)0 << primitives;
}

static struct plain_answer check_products(const uint64_t *list)
{
    uint64_t past = bits_past(list[LIST_PRIMITIVES]);
    for (uint64_t product = 0; product < list[LIST_PRODUCTS]; product++) {
        size_t at = list_words(product);
        uint64_t uncomplemented = list[at + UNCOMPLEMENTED], complemented = list[at + COMPLEMENTED];
        if (uncomplemented == 0 || (uncomplemented & past) != 0)
            return plain_refused(9, at + UNCOMPLEMENTED);
        if ((complemented & past) != 0 || (complemented & uncomplemented) != 0)
            return plain_refused(9, at + COMPLEMENTED);
    }
    return plain_done(0);
}

static struct plain_answer check_window(const uint64_t *list)
{
    for (int axis = X; axis < AXES; axis++) {
        uint64_t lo = list[LIST_BOUND + LO(axis)], hi = list[LIST_BOUND + HI(axis)];
        if (lo > greatest_word(axis))
            return plain_refused(9, LIST_BOUND + LO(axis));
        if (hi > greatest_word(axis) || hi < lo)
            return plain_refused(9, LIST_BOUND + HI(axis));
    }
    return plain_done(0);
}

static struct plain_answer check_list(const uint64_t *list, size_t words)
{
    if (words < HEADER_WORDS)
        return plain_refused(9, words);
    if (list[LIST_PRODUCTS] > MOST_PRODUCTS || list[LIST_PRODUCTS] > products_in(words))
        return plain_refused(9, LIST_PRODUCTS);
    struct plain_answer window = check_window(list);
    if (plain_is_refused(window))
        return window;
    if (list[LIST_PRIMITIVES] < 1 || list[LIST_PRIMITIVES] > MOST_PRIMITIVES)
        return plain_refused(9, LIST_PRIMITIVES);
    return check_products(list);
}

/* Table, 9, 11: what a point, a frame, a screen and a picture share. */
static struct plain_answer check_table_and_list(const int32_t *table, size_t words,
                                                const uint64_t *list, size_t list_words)
{
    struct plain_answer check = plain_check(table, words);
    if (plain_is_refused(check))
        return check;
    check = check_list(list, list_words);
    if (plain_is_refused(check))
        return check;
    struct zone zone = plain_zone(table, words);
    if (list[LIST_PRIMITIVES] != zone.primitives)
        return plain_refused(11, zone.primitives);
    return plain_done(0);
}

/* A bound of the list's window. */
static int64_t window_bound(const uint64_t *list, int bound)
{
    return lowered(bound / 2, list[LIST_BOUND + bound]);
}

static int in_window(const uint64_t *list, int axis, int64_t value)
{
    return window_bound(list, LO(axis)) <= value && value <= window_bound(list, HI(axis));
}

/* The first axis on which the point is out of the list's window, AXES for none. */
static uint64_t first_bad_axis(const uint64_t *list, struct point point)
{
    for (int axis = X; axis < AXES; axis++)
        if (!in_window(list, axis, point.at[axis]))
            return (uint64_t)axis;
    return AXES;
}

/* A bit for each primitive that the point is in. */
static uint64_t primitives_around(const struct zone *zone, struct point point)
{
    uint64_t around = 0;
    for (size_t i = 0; i < zone->primitives; i++)
        if (plain_in_primitive(zone->primitive[i], point))
            around |= (uint64_t)1 << i;
    return around;
}

static int in_list(const struct zone *zone, const uint64_t *list, struct point point)
{
    uint64_t around = primitives_around(zone, point);
    for (uint64_t product = 0; product < list[LIST_PRODUCTS]; product++) {
        size_t at = list_words(product);
        uint64_t uncomplemented = list[at + UNCOMPLEMENTED], complemented = list[at + COMPLEMENTED];
        int in_every = (uncomplemented & around) == uncomplemented;
        int in_none = (complemented & around) == 0;
        if (in_every && in_none)
            return 1;
    }
    return 0;
}

struct plain_answer plain_list_point(const int32_t *table, size_t words, const uint64_t *list, size_t list_words,
                                     int32_t x, int32_t y, int32_t z)
{
    struct plain_answer check = check_table_and_list(table, words, list, list_words);
    if (plain_is_refused(check))
        return check;
    struct point point = {{x, y, z}};
    uint64_t bad_axis = first_bad_axis(list, point);
    if (bad_axis < AXES)
        return plain_refused(10, bad_axis);
    struct zone zone = plain_zone(table, words);
    return plain_inside(in_list(&zone, list, point));
}

/* A sample is inside when any code that its column holds is. */
static int sample_in_list(const struct zone *zone, const uint64_t *list,
                          const int16_t *codes, size_t position, int32_t first, int64_t frame)
{
    struct held_codes held = plain_held_codes(codes, position);
    struct point point = plain_sample(codes, position, first, frame);
    for (point.at[Y] = held.lowest; point.at[Y] <= held.highest; point.at[Y]++)
        if (in_list(zone, list, point))
            return 1;
    return 0;
}

/* A frame, after the checks of table and list: 12, 10 by the samples' own codes, then clear or hit. */
static struct plain_answer search_frame(const struct zone *zone, const uint64_t *list,
                                        const int16_t *codes, size_t samples, int32_t first, int64_t frame)
{
    struct plain_answer check = plain_check_frame(samples, first, frame);
    if (plain_is_refused(check))
        return check;
    for (size_t k = 0; k < samples; k++)
        if (first_bad_axis(list, plain_sample(codes, k, first, frame)) < AXES)
            return plain_refused(10, k);
    uint64_t first_inside = 0, inside_samples = 0;
    for (size_t k = 0; k < samples; k++) {
        if (sample_in_list(zone, list, codes, k, first, frame)) {
            if (inside_samples == 0)
                first_inside = k;
            inside_samples++;
        }
    }
    return plain_found(first_inside, inside_samples);
}

struct plain_answer plain_list_search(const int32_t *table, size_t words, const uint64_t *list, size_t list_words,
                                      const int16_t *codes, size_t samples, int32_t first, int32_t frame)
{
    struct plain_answer check = check_table_and_list(table, words, list, list_words);
    if (plain_is_refused(check))
        return check;
    struct zone zone = plain_zone(table, words);
    return search_frame(&zone, list, codes, samples, first, frame);
}

static void put_triple(uint32_t *triple, struct plain_answer answer)
{
    uint64_t found = answer.count == 0 ? TOLD_CLEAR : TOLD_HIT;
    triple[TRIPLE_TOLD] = (uint32_t)(plain_is_refused(answer) ? TOLD_REFUSED + answer.refusal : found);
    triple[TRIPLE_VALUE] = (uint32_t)answer.value;
    triple[TRIPLE_COUNT] = (uint32_t)answer.count;
}

/* A frame's number has 64 bits here: it may leave the 32 of the first one's. */
struct plain_answer plain_list_search_frames(const int32_t *table, size_t words, const uint64_t *list, size_t list_words,
                                             const int16_t *codes, size_t samples, size_t frames,
                                             int32_t first, int32_t frame, uint32_t *triples, size_t room)
{
    struct plain_answer check = check_table_and_list(table, words, list, list_words);
    if (plain_is_refused(check))
        return check;
    if (frames == 0 || frames > MOST_FRAMES || samples % frames != 0)
        return plain_refused(12, 0);
    if (room < TRIPLE_WORDS * frames)
        return plain_refused(8, TRIPLE_WORDS * frames);
    struct zone zone = plain_zone(table, words);
    size_t length = samples / frames;
    for (size_t j = 0; j < frames; j++) {
        int64_t number = (int64_t)frame + (int64_t)j;
        struct plain_answer answer = search_frame(&zone, list, codes + length * j, length, first, number);
        put_triple(triples + TRIPLE_WORDS * j, answer);
    }
    return plain_done(TRIPLE_WORDS * frames);
}

/* A bad lo is named before its hi; that hi is below lo, or too far above it, is found at hi. */
static struct plain_answer check_rectangle(const uint64_t *list, struct plain_rectangle r)
{
    const int64_t bound[RECTANGLE_BOUNDS] = {r.xlo, r.xhi, r.ylo, r.yhi};
    for (int axis = X; axis <= Y; axis++) {
        int64_t lo = bound[LO(axis)], hi = bound[HI(axis)];
        if (!in_window(list, axis, lo))
            return plain_refused(6, LO(axis));
        if (!in_window(list, axis, hi) || hi < lo || hi - lo > MOST_SIDE - 1)
            return plain_refused(6, HI(axis));
    }
    return plain_done(0);
}

/* The first inside frame of the window, from the highest down. */
static int32_t newest_frame(const struct zone *zone, const uint64_t *list, int32_t column, int32_t code)
{
    struct point point = {{column, code, window_bound(list, HI(Z))}};
    for (; point.at[Z] >= window_bound(list, LO(Z)); point.at[Z]--)
        if (in_list(zone, list, point))
            return (int32_t)point.at[Z];
    return NO_FRAME;
}

struct plain_answer plain_list_waterfall(const int32_t *table, size_t words, const uint64_t *list, size_t list_words,
                                         struct plain_rectangle rectangle, int32_t *picture, size_t room)
{
    struct plain_answer check = check_table_and_list(table, words, list, list_words);
    if (plain_is_refused(check))
        return check;
    check = check_rectangle(list, rectangle);
    if (plain_is_refused(check))
        return check;
    size_t columns = (size_t)(rectangle.xhi - rectangle.xlo) + 1, codes = (size_t)(rectangle.yhi - rectangle.ylo) + 1;
    if (room < columns * codes)
        return plain_refused(8, columns * codes);
    struct zone zone = plain_zone(table, words);
    for (int32_t code = rectangle.yhi; code >= rectangle.ylo; code--)
        for (int32_t column = rectangle.xlo; column <= rectangle.xhi; column++)
            *picture++ = newest_frame(&zone, list, column, code);
    return plain_done(columns * codes);
}
