/* Making a list: choosing, pruning, ordering; refusals 6 to 8. */
#include <stdlib.h>

#include "plain_parts.h"

/* A choice, later a product: a bit for each of its primitives. */
struct choice {
    uint64_t uncomplemented, complemented;
};

struct choices {
    size_t count;
    struct choice *at;
};

struct box {
    int64_t lo[AXES], hi[AXES];
};

/* The expansion counts. 64 primitives give at most 4 * 3^20 choices, so 64 bits hold every count. */

static uint64_t count_out(const struct zone *zone, size_t number);

static uint64_t count_in(const struct zone *zone, size_t number)
{
    const int32_t *row = zone->row[number];
    switch (row[KIND]) {
    case UNION: return count_in(zone, row[LEFT]) + count_in(zone, row[RIGHT]);
    case INTER: return count_in(zone, row[LEFT]) * count_in(zone, row[RIGHT]);
    case DIFF: return count_in(zone, row[LEFT]) * count_out(zone, row[RIGHT]);
    default: return 1;
    }
}

static uint64_t count_out(const struct zone *zone, size_t number)
{
    const int32_t *row = zone->row[number];
    switch (row[KIND]) {
    case UNION: return count_out(zone, row[LEFT]) * count_out(zone, row[RIGHT]);
    case INTER: return count_out(zone, row[LEFT]) + count_out(zone, row[RIGHT]);
    case DIFF: return count_out(zone, row[LEFT]) + count_in(zone, row[RIGHT]);
    default: return 1;
    }
}

uint64_t plain_expansion_count(const struct zone *zone)
{
    return count_in(zone, zone->rows - 1);
}

/* The choices themselves, all written out. */

static struct choices room_for(size_t count)
{
    struct choices choices = {count, malloc(count * sizeof(struct choice))};
    if (choices.at == NULL)
        abort();
    return choices;
}

static struct choices one_choice(uint64_t uncomplemented, uint64_t complemented)
{
    struct choices one = room_for(1);
    one.at[0].uncomplemented = uncomplemented;
    one.at[0].complemented = complemented;
    return one;
}

static struct choices left_then_right(struct choices left, struct choices right)
{
    struct choices both = room_for(left.count + right.count);
    for (size_t l = 0; l < left.count; l++)
        both.at[l] = left.at[l];
    for (size_t r = 0; r < right.count; r++)
        both.at[left.count + r] = right.at[r];
    free(left.at);
    free(right.at);
    return both;
}

/* All left choices for the first right choice, then all of them for the second, and so on. */
static struct choices crossed(struct choices left, struct choices right)
{
    struct choices cross = room_for(left.count * right.count);
    size_t k = 0;
    for (size_t r = 0; r < right.count; r++) {
        for (size_t l = 0; l < left.count; l++) {
            cross.at[k].uncomplemented = left.at[l].uncomplemented | right.at[r].uncomplemented;
            cross.at[k].complemented = left.at[l].complemented | right.at[r].complemented;
            k++;
        }
    }
    free(left.at);
    free(right.at);
    return cross;
}

static uint64_t bit(size_t primitive)
{
    return (uint64_t)1 << primitive;
}

static struct choices choices_out(const struct zone *zone, size_t number);

static struct choices choices_in(const struct zone *zone, size_t number)
{
    const int32_t *row = zone->row[number];
    switch (row[KIND]) {
    case UNION: return left_then_right(choices_in(zone, row[LEFT]), choices_in(zone, row[RIGHT]));
    case INTER: return crossed(choices_in(zone, row[LEFT]), choices_in(zone, row[RIGHT]));
    case DIFF: return crossed(choices_in(zone, row[LEFT]), choices_out(zone, row[RIGHT]));
    default: return one_choice(bit(plain_primitive_number(zone, row)), 0);
    }
}

static struct choices choices_out(const struct zone *zone, size_t number)
{
    const int32_t *row = zone->row[number];
    switch (row[KIND]) {
    case UNION: return crossed(choices_out(zone, row[LEFT]), choices_out(zone, row[RIGHT]));
    case INTER: return left_then_right(choices_out(zone, row[LEFT]), choices_out(zone, row[RIGHT]));
    case DIFF: return left_then_right(choices_out(zone, row[LEFT]), choices_in(zone, row[RIGHT]));
    default: return one_choice(0, bit(plain_primitive_number(zone, row)));
    }
}

/* Boxes. */

static int64_t least(int64_t one, int64_t other)
{
    return one < other ? one : other;
}

static int64_t greatest(int64_t one, int64_t other)
{
    return one > other ? one : other;
}

static struct box box_of_window(struct plain_window w)
{
    struct box box = {{w.xlo, w.ylo, w.zlo}, {w.xhi, w.yhi, w.zhi}};
    return box;
}

static void bound_by_radius(struct box *box, const int32_t *row, int axis)
{
    int64_t centre = row[CENTRE + axis], radius = row[RADIUS + axis];
    box->lo[axis] = centre - radius;
    box->hi[axis] = centre + radius;
}

static void bound_by_corners(struct box *box, const int32_t *row, int axis)
{
    int64_t one = row[CORNER(0, axis)], two = row[CORNER(1, axis)], three = row[CORNER(2, axis)];
    box->lo[axis] = least(one, least(two, three));
    box->hi[axis] = greatest(one, greatest(two, three));
}

static struct box box_of_primitive(const int32_t *row)
{
    struct box box;
    for (int axis = X; axis < AXES; axis++) {
        if (row[KIND] == DRUM && axis != Z) {
            bound_by_radius(&box, row, axis);
        } else if (row[KIND] == TRIANGLE && axis != Z) {
            bound_by_corners(&box, row, axis);
        } else {
            box.lo[axis] = row[bound_word(row[KIND], LO(axis))];
            box.hi[axis] = row[bound_word(row[KIND], HI(axis))];
        }
    }
    return box;
}

static struct box box_cut_with(struct box one, struct box other)
{
    struct box cut;
    for (int axis = X; axis < AXES; axis++) {
        cut.lo[axis] = greatest(one.lo[axis], other.lo[axis]);
        cut.hi[axis] = least(one.hi[axis], other.hi[axis]);
    }
    return cut;
}

static int holds_no_point(struct box box)
{
    return box.lo[X] > box.hi[X] || box.lo[Y] > box.hi[Y] || box.lo[Z] > box.hi[Z];
}

/* Pruning. */

static struct box product_box(const struct zone *zone, struct choice product, struct plain_window window)
{
    struct box box = box_of_window(window);
    for (size_t i = 0; i < zone->primitives; i++)
        if (product.uncomplemented & bit(i))
            box = box_cut_with(box, box_of_primitive(zone->primitive[i]));
    return box;
}

static struct choice without_far_cuts(const struct zone *zone, struct choice product, struct box box)
{
    for (size_t i = 0; i < zone->primitives; i++)
        if ((product.complemented & bit(i)) && holds_no_point(box_cut_with(box, box_of_primitive(zone->primitive[i]))))
            product.complemented &= ~bit(i);
    return product;
}

static void prune(const struct zone *zone, struct plain_window window, struct choices *choices)
{
    size_t stayed = 0;
    for (size_t k = 0; k < choices->count; k++) {
        struct choice product = choices->at[k];
        struct box box = product_box(zone, product, window);
        if (!holds_no_point(box))
            choices->at[stayed++] = without_far_cuts(zone, product, box);
    }
    choices->count = stayed;
}

static int is_among(struct choice product, const struct choice *products, size_t count)
{
    for (size_t k = 0; k < count; k++)
        if (products[k].uncomplemented == product.uncomplemented && products[k].complemented == product.complemented)
            return 1;
    return 0;
}

static void drop_repeats(struct choices *products)
{
    size_t stayed = 0;
    for (size_t k = 0; k < products->count; k++) {
        struct choice product = products->at[k];
        if (!is_among(product, products->at, stayed))
            products->at[stayed++] = product;
    }
    products->count = stayed;
}

/* A bad lo is named before its hi; that hi is below lo is found at hi. */
static struct plain_answer check_window(struct plain_window window)
{
    struct box box = box_of_window(window);
    for (int axis = X; axis < AXES; axis++) {
        if (!is_coordinate(axis, box.lo[axis]))
            return plain_refused(6, LO(axis));
        if (!is_coordinate(axis, box.hi[axis]) || box.hi[axis] < box.lo[axis])
            return plain_refused(6, HI(axis));
    }
    return plain_done(0);
}

static void write_list(uint64_t *list, const struct zone *zone, struct plain_window window, struct choices products)
{
    struct box box = box_of_window(window);
    list[LIST_PRODUCTS] = products.count;
    for (int axis = X; axis < AXES; axis++) {
        list[LIST_BOUND + LO(axis)] = raised(axis, box.lo[axis]);
        list[LIST_BOUND + HI(axis)] = raised(axis, box.hi[axis]);
    }
    list[LIST_PRIMITIVES] = zone->primitives;
    for (size_t k = 0; k < products.count; k++) {
        list[list_words(k) + UNCOMPLEMENTED] = products.at[k].uncomplemented;
        list[list_words(k) + COMPLEMENTED] = products.at[k].complemented;
    }
}

struct plain_answer plain_make_list(const int32_t *table, size_t words, struct plain_window window,
                                    uint64_t *list, size_t room)
{
    struct plain_answer check = plain_check(table, words);
    if (plain_is_refused(check))
        return check;
    check = check_window(window);
    if (plain_is_refused(check))
        return check;
    struct zone zone = plain_zone(table, words);
    uint64_t expansion_count = plain_expansion_count(&zone);
    if (expansion_count > MOST_CHOICES)
        return plain_refused(7, expansion_count);

    struct choices products = choices_in(&zone, zone.rows - 1);
    prune(&zone, window, &products);
    drop_repeats(&products);

    size_t needed = list_words(products.count);
    if (needed <= room)
        write_list(list, &zone, window, products);
    free(products.at);
    return needed <= room ? plain_done(needed) : plain_refused(8, needed);
}
