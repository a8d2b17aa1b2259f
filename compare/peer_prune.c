/* Peers: the refusals of making a list, repeats by a hash, and the list as it is written. */
#include <stdlib.h>
#include <string.h>

#include "peers.h"

struct peer_box box_of_window(struct lampholly_window w)
{
    struct peer_box box = {{w.xlo, w.ylo, w.zlo}, {w.xhi, w.yhi, w.zhi}};
    return box;
}

static uint64_t count(const struct peer_zone *zone, int32_t number, int is_in)
{
    const struct peer_row *row = &zone->row[number];
    if (!is_operation(row->kind))
        return 1;
    uint64_t left = count(zone, row->left, is_in), right = count(zone, row->right, row->kind == DIFF ? !is_in : is_in);
    return (row->kind == UNION) == is_in ? left + right : left * right;
}

uint64_t peer_expansion_count(const struct peer_zone *zone)
{
    return count(zone, zone->rows - 1, 1);
}

static struct lampholly_answer check_window(struct lampholly_window window)
{
    struct peer_box box = box_of_window(window);
    for (int axis = X; axis < AXES; axis++) {
        if (!is_coordinate(axis, box.lo[axis]))
            return peer_refused(6, LO(axis));
        if (box.hi[axis] < box.lo[axis] || box.hi[axis] > limits[axis].greatest)
            return peer_refused(6, HI(axis));
    }
    return peer_done(0);
}

/* Table, 6, 7. */
struct lampholly_answer peer_prepare(const int32_t *table, size_t words, struct lampholly_window window, struct peer_zone *zone)
{
    struct lampholly_answer check = peer_open(table, words, zone);
    if (!check.refusal)
        check = check_window(window);
    if (check.refusal)
        return check;
    uint64_t choices = peer_expansion_count(zone);
    return choices > MOST_CHOICES ? peer_refused(7, choices) : check;
}

static size_t slot_of(struct product product, size_t mask)
{
    uint64_t mixed = (product.uncomplemented * 0x9e3779b97f4a7c15u) ^ (product.complemented * 0xc2b2ae3d27d4eb4fu);
    return (size_t)(mixed ^ (mixed >> 29)) & mask;
}

/* Keeps the first of equals by a hash table with open places; says how many stay. */
static size_t drop_repeats(struct product *products, size_t total)
{
    size_t places = 16, stayed = 0;
    while (places < 2 * total)
        places *= 2;
    uint32_t *place = malloc(places * sizeof place[0]);
    if (place == NULL)
        abort();
    memset(place, 0xff, places * sizeof place[0]);
    for (size_t k = 0; k < total; k++) {
        size_t at = slot_of(products[k], places - 1);
        while (place[at] != UINT32_MAX && memcmp(&products[place[at]], &products[k], sizeof products[k]) != 0)
            at = (at + 1) & (places - 1);
        if (place[at] == UINT32_MAX) {
            place[at] = (uint32_t)stayed;
            products[stayed++] = products[k];
        }
    }
    free(place);
    return stayed;
}

/* Drops repeats, then 8 or the list. */
struct lampholly_answer peer_finish(const struct peer_zone *zone, struct lampholly_window window,
                                    struct product *products, size_t total, uint64_t *list, size_t room)
{
    struct peer_box box = box_of_window(window);
    size_t stayed = drop_repeats(products, total), needed = list_words(stayed);
    if (needed > room)
        return peer_refused(8, needed);
    list[LIST_PRODUCTS] = stayed;
    for (int axis = X; axis < AXES; axis++) {
        list[LIST_BOUND + LO(axis)] = raised(axis, box.lo[axis]);
        list[LIST_BOUND + HI(axis)] = raised(axis, box.hi[axis]);
    }
    list[LIST_PRIMITIVES] = (uint64_t)zone->primitives;
    memcpy(list + HEADER_WORDS, products, stayed * sizeof products[0]);
    return peer_done(needed);
}
