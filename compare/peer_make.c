/* Peers: two ways to make a list. */
#include <stdlib.h>

#include "peers.h"

static void *room_for(size_t count, size_t bytes)
{
    void *room = malloc(count > 0 ? count * bytes : 1);
    if (room == NULL)
        abort();
    return room;
}

static uint64_t bit(int32_t primitive)
{
    return (uint64_t)1 << primitive;
}

/* Is the row a sum of its children's choices, and not a product, seen from this side? */
static int is_sum(const struct peer_row *row, int is_in)
{
    return (row->kind == UNION) == is_in;
}

static int right_side(const struct peer_row *row, int is_in)
{
    return row->kind == DIFF ? !is_in : is_in;
}

/* First way: all choices are written out, then pruned. */

struct choices {
    size_t count;
    struct product *at;
};

static struct choices written_out(const struct peer_zone *zone, int32_t number, int is_in)
{
    const struct peer_row *row = &zone->row[number];
    struct choices all = {1, NULL};
    if (!is_operation(row->kind)) {
        all.at = room_for(1, sizeof all.at[0]);
        all.at[0].uncomplemented = is_in ? bit(row->left) : 0;
        all.at[0].complemented = is_in ? 0 : bit(row->left);
        return all;
    }
    struct choices left = written_out(zone, row->left, is_in);
    struct choices right = written_out(zone, row->right, right_side(row, is_in));
    int sum = is_sum(row, is_in);
    all.count = sum ? left.count + right.count : left.count * right.count;
    all.at = room_for(all.count, sizeof all.at[0]);
    struct product *to = all.at;
    for (size_t l = 0; sum && l < left.count; l++)
        *to++ = left.at[l];
    for (size_t r = 0; r < right.count; r++) {
        if (sum)
            *to++ = right.at[r];
        for (size_t l = 0; !sum && l < left.count; l++, to++) {
            to->uncomplemented = left.at[l].uncomplemented | right.at[r].uncomplemented;
            to->complemented = left.at[l].complemented | right.at[r].complemented;
        }
    }
    free(left.at);
    free(right.at);
    return all;
}

static struct peer_box product_box(const struct peer_zone *zone, struct product product, struct peer_box box)
{
    for (uint64_t left = product.uncomplemented; left != 0; left &= left - 1)
        box = box_cut(box, zone->box[__builtin_ctzll(left)]);
    return box;
}

struct lampholly_answer peer_write_out(const int32_t *table, size_t words, struct lampholly_window window,
                                       uint64_t *list, size_t room)
{
    struct peer_zone zone;
    struct lampholly_answer answer = peer_prepare(table, words, window, &zone);
    if (answer.refusal)
        return answer;
    struct choices all = written_out(&zone, zone.rows - 1, 1);
    struct peer_box whole = box_of_window(window);
    size_t stayed = 0;
    for (size_t k = 0; k < all.count; k++) {
        struct peer_box box = product_box(&zone, all.at[k], whole);
        if (!box_is_empty(box))
            all.at[stayed++] = without_far_cuts(&zone, all.at[k], box);
    }
    answer = peer_finish(&zone, window, all.at, stayed, list, room);
    free(all.at);
    return answer;
}

/* Second way: a part of a product whose box is empty is dropped at once. */

struct part {
    struct product product;
    struct peer_box box;
};

struct parts {
    size_t count;
    struct part *at;
};

static struct parts one_part(const struct peer_zone *zone, int32_t primitive, int is_in, struct peer_box window)
{
    struct parts one = {1, room_for(1, sizeof(struct part))};
    one.at[0].product.uncomplemented = is_in ? bit(primitive) : 0;
    one.at[0].product.complemented = is_in ? 0 : bit(primitive);
    one.at[0].box = is_in ? box_cut(window, zone->box[primitive]) : window;
    one.count = box_is_empty(one.at[0].box) ? 0 : 1;
    return one;
}

static struct parts added(struct parts left, struct parts right)
{
    struct parts all = {0, room_for(left.count + right.count, sizeof(struct part))};
    for (size_t l = 0; l < left.count; l++)
        all.at[all.count++] = left.at[l];
    for (size_t r = 0; r < right.count; r++)
        all.at[all.count++] = right.at[r];
    return all;
}

static struct parts crossed(struct parts left, struct parts right)
{
    struct parts all = {0, room_for(left.count * right.count, sizeof(struct part))};
    for (size_t r = 0; r < right.count; r++) {
        for (size_t l = 0; l < left.count; l++) {
            struct part *part = &all.at[all.count];
            part->box = box_cut(left.at[l].box, right.at[r].box);
            part->product.uncomplemented = left.at[l].product.uncomplemented | right.at[r].product.uncomplemented;
            part->product.complemented = left.at[l].product.complemented | right.at[r].product.complemented;
            all.count += box_is_empty(part->box) ? 0 : 1;
        }
    }
    return all;
}

static struct parts expanded(const struct peer_zone *zone, int32_t number, int is_in, struct peer_box window)
{
    const struct peer_row *row = &zone->row[number];
    if (!is_operation(row->kind))
        return one_part(zone, row->left, is_in, window);
    struct parts left = expanded(zone, row->left, is_in, window);
    struct parts right = expanded(zone, row->right, right_side(row, is_in), window);
    struct parts all = is_sum(row, is_in) ? added(left, right) : crossed(left, right);
    free(left.at);
    free(right.at);
    return all;
}

struct lampholly_answer peer_expand(const int32_t *table, size_t words, struct lampholly_window window,
                                    uint64_t *list, size_t room)
{
    struct peer_zone zone;
    struct lampholly_answer answer = peer_prepare(table, words, window, &zone);
    if (answer.refusal)
        return answer;
    struct parts parts = expanded(&zone, zone.rows - 1, 1, box_of_window(window));
    struct product *products = room_for(parts.count, sizeof products[0]);
    for (size_t k = 0; k < parts.count; k++)
        products[k] = without_far_cuts(&zone, parts.at[k].product, parts.at[k].box);
    answer = peer_finish(&zone, window, products, parts.count, list, room);
    free(parts.at);
    free(products);
    return answer;
}
