/* Peers: searches that evaluate every sample on its own, by its own code only. */
#include "peer_shapes.h"

struct lampholly_answer peer_check_frame(size_t samples, int32_t first, int32_t frame)
{
    int64_t last = (int64_t)first + (int64_t)samples - 1;
    if (samples == 0 || samples > MOST_SAMPLES)
        return peer_refused(12, 0);
    if (!is_coordinate(X, first) || !is_coordinate(X, last))
        return peer_refused(12, 1);
    return is_coordinate(Z, frame) ? peer_done(0) : peer_refused(12, 2);
}

/* The tree. */

int peer_in_tree(const struct peer_zone *zone, int32_t number, int64_t x, int64_t y, int64_t z)
{
    const struct peer_row *row = &zone->row[number];
    switch (row->kind) {
    case UNION: return peer_in_tree(zone, row->left, x, y, z) || peer_in_tree(zone, row->right, x, y, z);
    case INTER: return peer_in_tree(zone, row->left, x, y, z) && peer_in_tree(zone, row->right, x, y, z);
    case DIFF: return peer_in_tree(zone, row->left, x, y, z) && !peer_in_tree(zone, row->right, x, y, z);
    default: return in_primitive(zone, row->left, x, y, z);
    }
}

struct lampholly_answer peer_found(uint64_t position, uint64_t samples)
{
    struct lampholly_answer hit = {0, position, samples};
    return samples == 0 ? peer_done(0) : hit;
}

struct lampholly_answer peer_tree_search(const int32_t *table, size_t words,
                                         const int16_t *codes, size_t samples, int32_t first, int32_t frame)
{
    struct peer_zone zone;
    struct lampholly_answer check = peer_open(table, words, &zone);
    if (!check.refusal)
        check = peer_check_frame(samples, first, frame);
    if (check.refusal)
        return check;
    uint64_t position = 0, inside = 0;
    for (size_t k = 0; k < samples; k++) {
        if (peer_in_tree(&zone, zone.rows - 1, first + (int64_t)k, codes[k], frame)) {
            position = inside == 0 ? k : position;
            inside++;
        }
    }
    return peer_found(position, inside);
}

/* The list. */

static struct lampholly_answer check_list(const uint64_t *list, size_t words)
{
    if (words < HEADER_WORDS)
        return peer_refused(9, words);
    uint64_t products = list[LIST_PRODUCTS], primitives = list[LIST_PRIMITIVES];
    if (products > MOST_PRODUCTS || products > products_in(words))
        return peer_refused(9, LIST_PRODUCTS);
    for (int b = 0; b < BOUNDS; b++) {
        const uint64_t *word = &list[LIST_BOUND + b];
        if (*word > greatest_word(b / 2) || (b % 2 == 1 && *word < word[-1]))
            return peer_refused(9, LIST_BOUND + (uint64_t)b);
    }
    if (primitives < 1 || primitives > MOST_PRIMITIVES)
        return peer_refused(9, LIST_PRIMITIVES);
    uint64_t past = primitives == MOST_PRIMITIVES ? 0 : ~(uint64_t)0 << primitives;
    for (size_t at = list_words(0); at < list_words(products); at += PRODUCT_WORDS) {
        uint64_t uncomplemented = list[at + UNCOMPLEMENTED];
        if (uncomplemented == 0 || (uncomplemented & past) != 0)
            return peer_refused(9, at + UNCOMPLEMENTED);
        if ((list[at + COMPLEMENTED] & (past | uncomplemented)) != 0)
            return peer_refused(9, at + COMPLEMENTED);
    }
    return peer_done(0);
}

struct peer_box peer_box_of_list(const uint64_t *list)
{
    struct peer_box box;
    for (int axis = X; axis < AXES; axis++) {
        box.lo[axis] = (int32_t)lowered(axis, list[LIST_BOUND + LO(axis)]);
        box.hi[axis] = (int32_t)lowered(axis, list[LIST_BOUND + HI(axis)]);
    }
    return box;
}

/* Is every sample in the list's window? */
static struct lampholly_answer check_window(const uint64_t *list, const int16_t *codes, size_t samples, int32_t first, int32_t frame)
{
    struct peer_box box = peer_box_of_list(list);
    for (size_t k = 0; k < samples; k++) {
        int64_t x = first + (int64_t)k, y = codes[k];
        if (x < box.lo[X] || box.hi[X] < x || y < box.lo[Y] || box.hi[Y] < y || frame < box.lo[Z] || box.hi[Z] < frame)
            return peer_refused(10, k);
    }
    return peer_done(0);
}

/* Table, 9, 11. */
struct lampholly_answer peer_open_with_list(const int32_t *table, size_t words, const uint64_t *list, size_t list_words,
                                            struct peer_zone *zone)
{
    struct lampholly_answer check = peer_open(table, words, zone);
    if (!check.refusal)
        check = check_list(list, list_words);
    if (!check.refusal && list[LIST_PRIMITIVES] != (uint64_t)zone->primitives)
        check = peer_refused(11, (uint64_t)zone->primitives);
    return check;
}

/* 12, 10. */
struct lampholly_answer peer_check_samples(const uint64_t *list, const int16_t *codes, size_t samples,
                                           int32_t first, int32_t frame)
{
    struct lampholly_answer check = peer_check_frame(samples, first, frame);
    return check.refusal ? check : check_window(list, codes, samples, first, frame);
}

static int in_product(const struct peer_zone *zone, const uint64_t *product, int64_t x, int64_t y, int64_t z)
{
    for (uint64_t left = product[UNCOMPLEMENTED]; left != 0; left &= left - 1)
        if (!in_primitive(zone, __builtin_ctzll(left), x, y, z))
            return 0;
    for (uint64_t left = product[COMPLEMENTED]; left != 0; left &= left - 1)
        if (in_primitive(zone, __builtin_ctzll(left), x, y, z))
            return 0;
    return 1;
}

static int in_some_product(const struct peer_zone *zone, const uint64_t *list, int64_t x, int64_t y, int64_t z)
{
    for (uint64_t k = 0; k < list[LIST_PRODUCTS]; k++)
        if (in_product(zone, list + list_words(k), x, y, z))
            return 1;
    return 0;
}

int peer_in_products(const uint64_t *list, uint64_t around)
{
    for (uint64_t k = 0; k < list[LIST_PRODUCTS]; k++) {
        const uint64_t *product = list + list_words(k);
        if ((product[UNCOMPLEMENTED] & ~around) == 0 && (product[COMPLEMENTED] & around) == 0)
            return 1;
    }
    return 0;
}

int peer_in_list(const struct peer_zone *zone, const uint64_t *list, int64_t x, int64_t y, int64_t z)
{
    uint64_t around = 0;
    for (int32_t i = 0; i < zone->primitives; i++)
        around |= (uint64_t)in_primitive(zone, i, x, y, z) << i;
    return peer_in_products(list, around);
}

struct lampholly_answer peer_list_search(const int32_t *table, size_t words, const uint64_t *list, size_t list_words,
                                         const int16_t *codes, size_t samples, int32_t first, int32_t frame)
{
    struct peer_zone zone;
    struct lampholly_answer check = peer_open_with_list(table, words, list, list_words, &zone);
    if (!check.refusal)
        check = peer_check_samples(list, codes, samples, first, frame);
    if (check.refusal)
        return check;
    uint64_t position = 0, inside = 0;
    for (size_t k = 0; k < samples; k++) {
        if (in_some_product(&zone, list, first + (int64_t)k, codes[k], frame)) {
            position = inside == 0 ? k : position;
            inside++;
        }
    }
    return peer_found(position, inside);
}

static struct lampholly_answer mask_search(const struct peer_zone *zone, const uint64_t *list,
                                           const int16_t *codes, size_t samples, int32_t first, int32_t frame)
{
    struct lampholly_answer check = peer_check_samples(list, codes, samples, first, frame);
    if (check.refusal)
        return check;
    uint64_t position = 0, inside = 0;
    for (size_t k = 0; k < samples; k++) {
        if (peer_in_list(zone, list, first + (int64_t)k, codes[k], frame)) {
            position = inside == 0 ? k : position;
            inside++;
        }
    }
    return peer_found(position, inside);
}

struct lampholly_answer peer_mask_search(const int32_t *table, size_t words, const uint64_t *list, size_t list_words,
                                         const int16_t *codes, size_t samples, int32_t first, int32_t frame)
{
    struct peer_zone zone;
    struct lampholly_answer check = peer_open_with_list(table, words, list, list_words, &zone);
    return check.refusal ? check : mask_search(&zone, list, codes, samples, first, frame);
}

/* The zone is opened once, for all frames. */
struct lampholly_answer peer_screen(const int32_t *table, size_t words, const uint64_t *list, size_t list_words,
                                    const int16_t *codes, size_t samples, size_t frames,
                                    int32_t first, int32_t frame, uint32_t *triples, size_t room, peer_frame_search *search)
{
    struct peer_zone zone;
    struct lampholly_answer check = peer_open_with_list(table, words, list, list_words, &zone);
    if (!check.refusal && (frames == 0 || frames > MOST_FRAMES || samples % frames != 0))
        check = peer_refused(12, 0);
    if (!check.refusal && room < TRIPLE_WORDS * frames)
        check = peer_refused(8, TRIPLE_WORDS * frames);
    if (check.refusal)
        return check;
    size_t length = samples / frames;
    for (size_t j = 0; j < frames; j++) {
        int32_t number = frame < INT32_MAX - (int32_t)j ? frame + (int32_t)j : INT32_MAX; /* which is out of range, too */
        put_triple(triples + TRIPLE_WORDS * j, search(&zone, list, codes + j * length, length, first, number));
    }
    return peer_done(TRIPLE_WORDS * frames);
}

struct lampholly_answer peer_mask_screen(const int32_t *table, size_t words, const uint64_t *list, size_t list_words,
                                         const int16_t *codes, size_t samples, size_t frames,
                                         int32_t first, int32_t frame, uint32_t *triples, size_t room)
{
    return peer_screen(table, words, list, list_words, codes, samples, frames, first, frame, triples, room, mask_search);
}
