/* The peers of the benchmark: the calls as one would write them in C by the usual means, with a heap, a hash and recursion. */
#ifndef PEERS_H
#define PEERS_H

#include "inputs.h"

struct peer_box {
    int32_t lo[AXES], hi[AXES];
};

struct peer_row {
    int32_t kind, left, right; /* of a primitive, left is its number */
};

/* An edge of a triangle: on it and on its inner side a * x + b * y + c is not below 0. */
struct peer_edge {
    int64_t a, b, c;
};

/* A sound table, taken apart. Only triangles have edges. */
struct peer_zone {
    int32_t rows, primitives;
    struct peer_row row[MOST_ROWS];
    const int32_t *words[MOST_PRIMITIVES];
    struct peer_box box[MOST_PRIMITIVES];
    struct peer_edge edge[MOST_PRIMITIVES][CORNERS];
};

/* A product, or a choice on the way to one. */
struct product {
    uint64_t uncomplemented, complemented;
};

static inline struct peer_box box_cut(struct peer_box one, struct peer_box other)
{
    for (int axis = X; axis < AXES; axis++) {
        one.lo[axis] = one.lo[axis] > other.lo[axis] ? one.lo[axis] : other.lo[axis];
        one.hi[axis] = one.hi[axis] < other.hi[axis] ? one.hi[axis] : other.hi[axis];
    }
    return one;
}

static inline int box_is_empty(struct peer_box box)
{
    return box.lo[X] > box.hi[X] || box.lo[Y] > box.hi[Y] || box.lo[Z] > box.hi[Z];
}

/* Drops the cuts whose box shares no point with the product's. */
static inline struct product without_far_cuts(const struct peer_zone *zone, struct product product, struct peer_box box)
{
    for (uint64_t left = product.complemented; left != 0; left &= left - 1) {
        int i = __builtin_ctzll(left);
        if (box_is_empty(box_cut(box, zone->box[i])))
            product.complemented &= ~((uint64_t)1 << i);
    }
    return product;
}

static inline void put_triple(uint32_t *triple, struct lampholly_answer answer)
{
    uint64_t found = answer.count == 0 ? TOLD_CLEAR : TOLD_HIT;
    triple[TRIPLE_TOLD] = (uint32_t)(answer.refusal ? TOLD_REFUSED + answer.refusal : found);
    triple[TRIPLE_VALUE] = (uint32_t)answer.value;
    triple[TRIPLE_COUNT] = (uint32_t)answer.count;
}

/* peer_table.c */
struct lampholly_answer peer_done(uint64_t written);
struct lampholly_answer peer_refused(uint64_t number, uint64_t value);
struct lampholly_answer peer_check(const int32_t *table, size_t words);
struct lampholly_answer peer_open(const int32_t *table, size_t words, struct peer_zone *zone);

/* peer_make.c: two ways to make a list. */
struct lampholly_answer peer_write_out(const int32_t *table, size_t words, struct lampholly_window window,
                                       uint64_t *list, size_t room);
struct lampholly_answer peer_expand(const int32_t *table, size_t words, struct lampholly_window window,
                                    uint64_t *list, size_t room);

/* peer_prune.c: what both ways share; and the number of choices, which peer_rewrite.c asks for, too. */
uint64_t peer_expansion_count(const struct peer_zone *zone);
struct peer_box box_of_window(struct lampholly_window window);
struct lampholly_answer peer_prepare(const int32_t *table, size_t words, struct lampholly_window window, struct peer_zone *zone);
struct lampholly_answer peer_finish(const struct peer_zone *zone, struct lampholly_window window,
                                    struct product *products, size_t count, uint64_t *list, size_t room);

/* peer_search.c: every sample evaluated on its own, in the tree, product by product, or by a mask of primitives; by that, a
   screenful too. They go by the samples' own codes only, which is less than the rules ask for. */
struct lampholly_answer peer_tree_search(const int32_t *table, size_t words,
                                         const int16_t *codes, size_t samples, int32_t first, int32_t frame);
struct lampholly_answer peer_list_search(const int32_t *table, size_t words, const uint64_t *list, size_t list_words,
                                         const int16_t *codes, size_t samples, int32_t first, int32_t frame);
struct lampholly_answer peer_mask_search(const int32_t *table, size_t words, const uint64_t *list, size_t list_words,
                                         const int16_t *codes, size_t samples, int32_t first, int32_t frame);
struct lampholly_answer peer_mask_screen(const int32_t *table, size_t words, const uint64_t *list, size_t list_words,
                                         const int16_t *codes, size_t samples, size_t frames,
                                         int32_t first, int32_t frame, uint32_t *triples, size_t room);

/* peer_search.c, too: what it shares with peer_column.c and peer_waterfall.c. A mask, `around`, has a bit for each primitive that
   a point is in. */
typedef struct lampholly_answer peer_frame_search(const struct peer_zone *zone, const uint64_t *list,
                                                  const int16_t *codes, size_t samples, int32_t first, int32_t frame);
struct lampholly_answer peer_found(uint64_t position, uint64_t samples);
struct lampholly_answer peer_check_frame(size_t samples, int32_t first, int32_t frame);
struct lampholly_answer peer_check_samples(const uint64_t *list, const int16_t *codes, size_t samples,
                                           int32_t first, int32_t frame);
struct lampholly_answer peer_open_with_list(const int32_t *table, size_t words, const uint64_t *list, size_t list_words,
                                            struct peer_zone *zone);
struct peer_box peer_box_of_list(const uint64_t *list);
int peer_in_tree(const struct peer_zone *zone, int32_t number, int64_t x, int64_t y, int64_t z);
int peer_in_products(const uint64_t *list, uint64_t around);
int peer_in_list(const struct peer_zone *zone, const uint64_t *list, int64_t x, int64_t y, int64_t z);
struct lampholly_answer peer_screen(const int32_t *table, size_t words, const uint64_t *list, size_t list_words,
                                    const int16_t *codes, size_t samples, size_t frames,
                                    int32_t first, int32_t frame, uint32_t *triples, size_t room, peer_frame_search *search);

/* peer_column.c: every column evaluated with all codes that it holds, in the tree or by the list; by that, a screenful too. */
struct lampholly_answer peer_tree_columns(const int32_t *table, size_t words,
                                          const int16_t *codes, size_t samples, int32_t first, int32_t frame);
struct lampholly_answer peer_list_columns(const int32_t *table, size_t words, const uint64_t *list, size_t list_words,
                                          const int16_t *codes, size_t samples, int32_t first, int32_t frame);
struct lampholly_answer peer_screen_columns(const int32_t *table, size_t words, const uint64_t *list, size_t list_words,
                                            const int16_t *codes, size_t samples, size_t frames,
                                            int32_t first, int32_t frame, uint32_t *triples, size_t room);

/* peer_waterfall.c: every place evaluated with all frames of the window, by the list. */
struct lampholly_answer peer_waterfall(const int32_t *table, size_t words, const uint64_t *list, size_t list_words,
                                       struct lampholly_rectangle rectangle, int32_t *picture, size_t room);

/* peer_rewrite.c: the paper's procedure, the same rewrites in the same order. */
struct lampholly_answer peer_rewrite(const int32_t *table, size_t words, int32_t *tree, size_t room,
                                     int32_t *work, size_t work_room);

/* peer_text.c */
struct lampholly_answer peer_read_text(const uint8_t *text, size_t bytes, int32_t *table, size_t room);
struct lampholly_answer peer_write_text(const int32_t *table, size_t words, uint8_t *text, size_t room);

#endif
