/* Damaged tables and lists. Some damage does no harm; both sides must then say so. */
#include <string.h>

#include "inputs.h"

/* Tables. */

static int32_t any_bad_word(const int32_t *row, size_t at)
{
    int is_of_frames = at == bound_word(row[KIND], LO(Z)) || at == bound_word(row[KIND], HI(Z));
    const struct axis_limits *end = &limits[is_of_frames ? Z : X];
    int32_t now = row[at];
    switch (below(8)) {
    case 0: return (int32_t)clamped((int64_t)now + between(-1, 1), INT32_MIN, INT32_MAX);
    case 1: return (int32_t)ONE_OF(INT32_MIN, INT32_MAX, INT32_MIN + 1, INT32_MAX - end->offset);
    case 2: return (int32_t)ONE_OF(end->least - 1, end->least, end->greatest, end->greatest + 1);
    case 3:
        return (int32_t)ONE_OF(0, 1, GREATEST_RADIUS, GREATEST_RADIUS + 1, -1,
                               end->greatest - GREATEST_RADIUS, end->greatest - GREATEST_RADIUS + 1,
                               end->least + GREATEST_RADIUS, end->least + GREATEST_RADIUS - 1);
    case 4: return (int32_t)between(-2, KINDS + 1);
    case 5: return (int32_t)clamped(-(int64_t)now, INT32_MIN, INT32_MAX);
    default: return (int32_t)between(INT32_MIN, INT32_MAX);
    }
}

static int32_t *some_row(struct table *table)
{
    return table->word + table_words(below(rows_in(table->words)));
}

/* A row of a kind that is wanted, if one is soon found. */
static int32_t *some_row_of(struct table *table, int (*is_wanted)(int32_t kind))
{
    for (int turn = 0; turn < 16; turn++) {
        int32_t *row = some_row(table);
        if (is_wanted(row[KIND]))
            return row;
    }
    return some_row(table);
}

static void swap_rows(struct table *table)
{
    int32_t kept[ROW_WORDS], *one = some_row(table), *other = some_row(table);
    memcpy(kept, one, sizeof kept);
    memmove(one, other, sizeof kept);
    memcpy(other, kept, sizeof kept);
}

/* A child that is no earlier row, is used elsewhere too, or is its own sibling. */
static void damage_child(struct table *table)
{
    int32_t *row = some_row_of(table, is_operation);
    int64_t number = (int64_t)rows_in((size_t)(row - table->word));
    int side = LEFT + (int)below(2), sibling = LEFT + RIGHT - side;
    row[side] = (int32_t)ONE_OF(number, number + 1, -1, INT32_MIN, row[sibling], 0, number - 1, between(0, number));
}

static void damage_spare_word(int32_t *row)
{
    size_t spare = 1 + fields_of(row[KIND]);
    row[spare + below(ROW_WORDS - spare)] = (int32_t)ONE_OF(1, -1, INT32_MIN, 65536);
}

/* A drum or a wedge is sought first: it has more rules than a box, and a triangle has damage of its own. */
static int32_t *some_ruled_row(struct table *table)
{
    for (int turn = 0; turn < 8; turn++) {
        int32_t *row = some_row(table);
        if (row[KIND] == DRUM || (row[KIND] == WEDGE && turn > 3))
            return row;
    }
    return some_row(table);
}

/* Takes a bound just to the end of its rule, or just past it. */
static void try_bound(int32_t *row, int axis)
{
    int32_t *lo_hi = row + bound_word(row[KIND], LO(axis));
    int64_t past = (int64_t)below(2);
    if (one_in(2))
        lo_hi[0] = (int32_t)clamped((int64_t)lo_hi[1] + past, INT32_MIN, INT32_MAX);
    else if (one_in(2))
        lo_hi[0] = (int32_t)(limits[axis].least - past);
    else
        lo_hi[1] = (int32_t)(limits[axis].greatest + past);
}

/* Takes one field just to the end of its rule, or just past it. */
static void try_rule(struct table *table)
{
    int32_t *row = some_ruled_row(table);
    int64_t past = (int64_t)below(2);
    int axis = (int)below(AXES), side = (int)below(2); /* of a drum the side is the axis of a radius */
    int64_t radius = row[RADIUS + side];
    if (row[KIND] == DRUM && one_in(2))
        row[RADIUS + side] = (int32_t)ONE_OF(LEAST_RADIUS - 1, GREATEST_RADIUS + past, -1);
    else if (row[KIND] == DRUM && one_in(2))
        row[CENTRE + side] = (int32_t)(one_in(2) ? limits[side].least + radius - past : limits[side].greatest - radius + past);
    else if (row[KIND] == WEDGE && one_in(3))
        row[SLOPE + X] = row[SLOPE + Y] = row[SLOPE + Z] = 0;
    else if (row[KIND] == WEDGE && one_in(2))
        row[SLOPE + axis] = (int32_t)(one_in(2) ? LEAST_SLOPE - past : GREATEST_SLOPE + past);
    else if (is_primitive(row[KIND]))
        try_bound(row, row[KIND] == TRIANGLE ? Z : axis);
}

static int is_triangle(int32_t kind)
{
    return kind == TRIANGLE;
}

/* Puts the corners on one line, all three apart or some in one place. */
static void flatten(int32_t *row)
{
    int from = (int)below(CORNERS), to = next_corner(from), middle = next_corner(to);
    int64_t parts = between(1, 5), part = between(0, parts);
    for (int axis = X; axis <= Y; axis++) {
        int64_t start = row[CORNER(from, axis)], step = one_in(4) ? 0 : (row[CORNER(to, axis)] - start) / parts;
        row[CORNER(middle, axis)] = (int32_t)(start + step * part);
        row[CORNER(to, axis)] = (int32_t)(start + step * parts);
    }
}

/* Takes a corner to an end of the range, just past it or far past it. */
static void push_corner(int32_t *row)
{
    int axis = (int)below(2), corner = (int)below(CORNERS);
    int64_t now = row[CORNER(corner, axis)], words = (int64_t)greatest_word(axis) + 1;
    int64_t place = ONE_OF(limits[axis].least, limits[axis].least - 1, limits[axis].greatest, limits[axis].greatest + 1,
                           now - words, now + words, INT32_MIN, INT32_MAX);
    row[CORNER(corner, axis)] = (int32_t)clamped(place, INT32_MIN, INT32_MAX);
}

/* Takes each word of the triangle to an end of 32 bits, all of them to the same or not. */
static void burst(int32_t *row)
{
    int32_t other = one_in(2) ? INT32_MAX : INT32_MIN;
    for (size_t field = 1; field <= fields_of(TRIANGLE); field++)
        row[field] = one_in(2) ? INT32_MAX : other;
}

/* A triangle that is flat, has a corner, its frames or a spare word out of their rule, or several of these. */
static void damage_triangle(struct table *table)
{
    int32_t *row = some_row_of(table, is_triangle);
    do
        switch (below(7)) {
        case 0: burst(row); break;
        case 1: damage_spare_word(row); break;
        case 2: try_bound(row, Z); break;
        case 3: case 4: flatten(row); break;
        default: push_corner(row); break;
        }
    while (one_in(3));
}

/* With 256 rows and one more, a count of rows in 8 bits wraps to none and to one. */
static void change_length(struct table *table)
{
    size_t words = table->words, most = TABLE_ROOM;
    int64_t row = ROW_WORDS, now = (int64_t)words, full = MOST_TABLE_WORDS;
    size_t wanted = (size_t)ONE_OF(0, 1, row - 1, now - 1, now + 1, now - row, now + row, full, full - 1, full + row,
                                   full + 2 * row, (int64_t)table_words(256), (int64_t)table_words(257), (int64_t)below(most));
    for (size_t at = words; at < wanted; at++)
        table->word[at] = one_in(2) ? 0 : table->word[at - ROW_WORDS];
    table->words = wanted;
}

/* Needs a table of a row at least; so the length is changed last. */
static void damage_row(struct table *table)
{
    int32_t *row = some_row(table);
    size_t at = below(ROW_WORDS);
    switch (below(14)) {
    case 0: swap_rows(table); break;
    case 1: damage_spare_word(row); break;
    case 2: row[KIND] = (int32_t)ONE_OF(KINDS, KINDS + 1, -1, INT32_MIN, INT32_MAX, between(0, KINDS - 1)); break;
    case 3: case 4: damage_child(table); break;
    case 5: case 6: try_rule(table); break;
    case 7: case 8: case 9: case 10: damage_triangle(table); break;
    case 11: at = 1 + below(fields_of(row[KIND])); row[at] = any_bad_word(row, at); break;
    default: row[at] = any_bad_word(row, at); break;
    }
}

void damage_table(struct table *table)
{
    int is_length_only = one_in(8);
    if (!is_length_only)
        do
            damage_row(table);
        while (one_in(3));
    if (is_length_only || one_in(8))
        change_length(table);
}

/* Lists. */

static uint64_t any_bit(void)
{
    return (uint64_t)1 << below(MOST_PRIMITIVES);
}

static uint64_t any_bad_list_word(uint64_t now)
{
    switch (below(8)) {
    case 0: return now + 1;
    case 1: return now - 1;
    case 2: return 0;
    case 3: return now ^ any_bit();
    case 4:
        return (uint64_t)ONE_OF(MOST_PRODUCTS - 1, MOST_PRODUCTS, MOST_PRODUCTS + 1, MOST_PRIMITIVES, MOST_PRIMITIVES + 1,
                                MOST_PRIMITIVES - 1, 1);
    case 5: return UINT64_MAX >> below(64);
    case 6: return now + ((uint64_t)1 << 32);
    default: return any();
    }
}

static uint64_t *some_product(struct list *list, size_t products)
{
    return list->word + list_words(below(products));
}

static void swap_products(struct list *list, size_t products)
{
    uint64_t *one = some_product(list, products), *other = some_product(list, products);
    for (int word = 0; word < PRODUCT_WORDS; word++) {
        uint64_t kept = one[word];
        one[word] = other[word];
        other[word] = kept;
    }
}

/* The bit of this primitive, none past the last. */
static uint64_t bit(uint64_t primitive)
{
    return primitive < MOST_PRIMITIVES ? (uint64_t)1 << primitive : 0;
}

/* A bit at or past the number of primitives, one in both words, none at all. */
static void damage_product(struct list *list, size_t products)
{
    uint64_t *product = some_product(list, products);
    uint64_t primitives = list->word[LIST_PRIMITIVES];
    switch (below(6)) {
    case 0: product[below(2)] |= primitives < MOST_PRIMITIVES ? bit(primitives) : any_bit(); break;
    case 1: product[COMPLEMENTED] |= product[UNCOMPLEMENTED] & (any() | any()); break;
    case 2: product[UNCOMPLEMENTED] = 0; break;
    case 3: product[COMPLEMENTED] &= any(); break;
    case 4: product[UNCOMPLEMENTED] |= any() & ~product[COMPLEMENTED] & (bit(primitives) - 1); break;
    default: swap_products(list, products); break;
    }
}

static void change_list_length(struct list *list)
{
    size_t words = list->words, wanted = words;
    switch (below(5)) {
    case 0: wanted = words - 1; break;
    case 1: wanted = below(words + 1); break;
    case 2: wanted = below(10); break;
    case 3: wanted = words + below(6); break;
    default: wanted = words + 1; break;
    }
    list->words = wanted < LIST_ROOM ? wanted : LIST_ROOM;
    if (list->words > words)
        fill(list->word + words, (list->words - words) * sizeof list->word[0]);
}

/* As many products as the rules let pass, or one more: the first one over and over. */
static void fill_list(struct list *list)
{
    size_t products = (size_t)between(MOST_PRODUCTS, MOST_PRODUCTS + 1);
    for (size_t word = list_words(1); word < list_words(products); word++)
        list->word[word] = list->word[word - PRODUCT_WORDS];
    list->word[LIST_PRODUCTS] = products;
    list->words = list_words(products);
}

/* Says a number of products that the rules or the length may not hold; with the last two, their words wrap. */
static void change_product_count(struct list *list)
{
    uint64_t holds = products_in(list->words);
    list->word[LIST_PRODUCTS] = (uint64_t)ONE_OF(0, MOST_PRODUCTS, MOST_PRODUCTS + 1, (int64_t)holds, (int64_t)holds + 1,
                                                 (int64_t)below(holds + 1), -1, INT64_MIN, INT64_MAX - 3);
}

static void change_window(struct list *list)
{
    int axis = (int)below(AXES);
    uint64_t *lo = &list->word[LIST_BOUND + LO(axis)], *hi = &list->word[LIST_BOUND + HI(axis)];
    *lo = below(greatest_word(axis) + 1);
    *hi = one_in(4) ? *lo - 1 : *lo + below(greatest_word(axis) + 1 - *lo);
}

/* Needs a list with a header whose number of products its length holds. */
static void damage_list_once(struct list *list)
{
    uint64_t said = list->word[LIST_PRODUCTS], *primitives = &list->word[LIST_PRIMITIVES];
    size_t products = said <= products_in(list->words) ? said : 0, at = below(HEADER_WORDS);
    switch (below(6)) {
    case 0: list->word[at] = any_bad_list_word(list->word[at]); break;
    case 1: change_product_count(list); break;
    case 2: change_window(list); break;
    case 3:
        *primitives = (uint64_t)ONE_OF(0, 1, MOST_PRIMITIVES - 1, MOST_PRIMITIVES, MOST_PRIMITIVES + 1, (int64_t)*primitives + 1,
                                       (int64_t)*primitives - 1);
        break;
    case 4: at = below(list->words); list->word[at] = any_bad_list_word(list->word[at]); break;
    default:
        if (products > 0)
            damage_product(list, products);
    }
}

void damage_list(struct list *list)
{
    if (list->word[LIST_PRODUCTS] > 0 && one_in(50))
        fill_list(list);
    else
        damage_list_once(list);
    while (one_in(3))
        damage_list_once(list);
    if (one_in(4))
        change_list_length(list);
}
