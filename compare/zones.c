/* Random sound tables: trees of every shape over random primitives, held to an expansion count that plain can bear. */
#include <string.h>

#include "inputs.h"

/* A row that is not yet a child, with its numbers of choices in and out of it. */
struct branch {
    int32_t row;
    uint64_t in, out;
};

static struct branch open_branches[MOST_ROWS];
static size_t open_count;

static int32_t *new_row(struct table *table)
{
    int32_t *row = table->word + table->words;
    memset(row, 0, ROW_WORDS * sizeof row[0]);
    table->words += ROW_WORDS;
    return row;
}

static int32_t last_row(const struct table *table)
{
    return (int32_t)rows_in(table->words) - 1;
}

static void grow_primitive(struct table *table)
{
    any_primitive(new_row(table));
    struct branch branch = {last_row(table), 1, 1};
    open_branches[open_count++] = branch;
}

static struct branch joined(int32_t operation, struct branch left, struct branch right)
{
    struct branch branch = {0, 0, 0};
    switch (operation) {
    case UNION:
        branch.in = left.in + right.in;
        branch.out = left.out * right.out;
        break;
    case INTER:
        branch.in = left.in * right.in;
        branch.out = left.out + right.out;
        break;
    default:
        branch.in = left.in * right.out;
        branch.out = left.out + right.in;
    }
    return branch;
}

static struct branch taken(size_t at)
{
    struct branch branch = open_branches[at];
    open_branches[at] = open_branches[--open_count];
    return branch;
}

static void grow_operation(struct table *table, int32_t operation, struct branch left, struct branch right)
{
    int32_t *row = new_row(table);
    row[KIND] = operation;
    row[LEFT] = left.row;
    row[RIGHT] = right.row;
    struct branch branch = joined(operation, left, right);
    branch.row = last_row(table);
    open_branches[open_count++] = branch;
}

/* An operation that keeps both counts within the most, else one that keeps them low. */
static int32_t fitting_operation(int32_t wanted, struct branch left, struct branch right, uint64_t most)
{
    int32_t best = wanted;
    struct branch kept = joined(wanted, left, right);
    for (int32_t turn = 1; turn < 3; turn++) {
        if (kept.in <= most && kept.out <= most)
            return best;
        int32_t other = UNION + (wanted - UNION + turn) % 3;
        struct branch tried = joined(other, left, right);
        if (tried.in + tried.out < kept.in + kept.out) {
            best = other;
            kept = tried;
        }
    }
    return best;
}

/* Grows a tree in random row order. A favoured operation gives deep unions, intersections and differences their turn. */
static void grow_tree(struct table *table, size_t primitives, uint64_t most)
{
    int32_t favoured = (int32_t)between(UNION, DIFF);
    int in_a_chain = one_in(4);
    while (primitives > 0 || open_count > 1) {
        if (open_count < 2 || (primitives > 0 && one_in(2))) {
            grow_primitive(table);
            primitives--;
            continue;
        }
        struct branch left = taken(in_a_chain ? open_count - 1 : below(open_count));
        struct branch right = taken(in_a_chain ? open_count - 1 : below(open_count));
        int32_t wanted = one_in(2) ? favoured : (int32_t)between(UNION, DIFF);
        if (one_in(2))
            grow_operation(table, fitting_operation(wanted, left, right, most), left, right);
        else
            grow_operation(table, fitting_operation(wanted, right, left, most), right, left);
    }
}

/* Joins what stands open from this place on into one, beginning with the last two. */
static void join_from(struct table *table, size_t place, int32_t operation)
{
    while (open_count > place + 1) {
        struct branch right = taken(open_count - 1);
        struct branch left = taken(open_count - 1);
        grow_operation(table, operation, left, right);
    }
}

/* So many primitives, joined into one. */
static void grow_joined(struct table *table, size_t size, int32_t operation)
{
    size_t place = open_count;
    for (size_t i = 0; i < size; i++)
        grow_primitive(table);
    join_from(table, place, operation);
}

/* Cuts an intersection of so many primitives out of what was opened last: it has so many times the choices then. */
static void grow_cuts(struct table *table, size_t size)
{
    grow_joined(table, size, INTER);
    join_from(table, open_count - 2, DIFF);
}

/* A group of this many primitives with as many choices in it: a union, or a primitive less an intersection of cuts. */
static void grow_group(struct table *table, size_t size, int is_cut)
{
    if (!is_cut) {
        grow_joined(table, size, UNION);
        return;
    }
    grow_primitive(table);
    grow_cuts(table, size);
}

/* Groups of some sizes from least to greatest, all intersected: the expansion count is the product of the sizes. */
static void grow_groups(struct table *table, int64_t least, int64_t greatest, uint64_t most)
{
    int is_cut = one_in(2);
    size_t primitives = 0;
    uint64_t count = 1;
    for (;;) {
        size_t size = (size_t)between(least, greatest), needed = size + (is_cut ? 1 : 0);
        if (primitives + needed > MOST_PRIMITIVES || count * size > most)
            break;
        grow_group(table, size, is_cut);
        primitives += needed;
        count *= size;
    }
    if (open_count == 0)
        grow_primitive(table);
    join_from(table, 0, INTER);
}

/* So many primitives in unions of a few and cuts of a few, which lean to the left, to the right or both ways: their choices are
   about as many as so many primitives can have. */
static void grow_full(struct table *table, size_t primitives)
{
    int64_t greatest = between(2, 4);
    while (primitives > 0) {
        size_t size = (size_t)clamped(between(2, greatest), 1, (int64_t)primitives);
        if (open_count > 0 && one_in(4))
            grow_cuts(table, size);
        else
            grow_joined(table, size, UNION);
        if (one_in(2))
            join_from(table, 0, INTER);
        primitives -= size;
    }
    join_from(table, 0, INTER);
}

static size_t any_primitive_count(void)
{
    switch (below(8)) {
    case 0: return 1;
    case 1: return (size_t)between(1, MOST_PRIMITIVES);
    case 2: return one_in(4) ? MOST_PRIMITIVES : (size_t)between(9, 20);
    case 3: return (size_t)between(6, 16);
    default: return (size_t)between(2, 8);
    }
}

static void clear(struct table *table)
{
    table->words = table_words(0);
    open_count = 0;
    any_marks();
}

static uint64_t expansion_count(void)
{
    return open_branches[0].in;
}

/* A zone with an expansion count from least to most. */
static void grow_zone(struct table *table, uint64_t least, uint64_t most)
{
    do {
        clear(table);
        if (one_in(5))
            grow_groups(table, 1, (int64_t)between(2, 5), most);
        else
            grow_tree(table, least > 1 ? (size_t)between(16, MOST_PRIMITIVES) : any_primitive_count(), most);
    } while (expansion_count() < least || expansion_count() > most);
}

/* Just as many choices as the rules let pass, or the next step past that. */
static void grow_to_limit(struct table *table)
{
    int64_t size = one_in(2) ? 2 : 4;
    clear(table);
    grow_groups(table, size, size, one_in(2) ? MOST_CHOICES : MOST_CHOICES * (uint64_t)size);
}

/* Up to about the most that 64 primitives give, which is past 32 bits. */
static void grow_past_words(struct table *table)
{
    clear(table);
    grow_groups(table, 3, 3 + (int64_t)below(2), UINT64_MAX / 2);
}

/* A sound table. Its expansion count is mostly small, seldom up to what the rules let pass, now and then past that. */
void any_zone(struct table *table)
{
    if (one_in(40))
        grow_zone(table, MOST_CHOICES + 1, UINT64_MAX / 2);
    else if (one_in(100))
        grow_past_words(table);
    else if (one_in(200))
        grow_to_limit(table);
    else if (one_in(100))
        grow_zone(table, 300, 4000);
    else
        grow_zone(table, 1, 300);
}

/* A box over all columns, alone or joined with a primitive: it may hold every sample of the longest frame. */
void any_long_zone(struct table *table)
{
    clear(table);
    any_long_box(new_row(table));
    if (one_in(2))
        return;
    any_primitive(new_row(table));
    int32_t *row = new_row(table);
    row[KIND] = (int32_t)(one_in(2) ? UNION : DIFF);
    row[LEFT] = 0;
    row[RIGHT] = 1;
}

/* A few primitives that overlap, many of them wedges: what a picture shows changes from place to place. */
void any_dense_zone(struct table *table)
{
    clear(table);
    near_marks();
    grow_primitive(table);
    for (int64_t more = between(0, 5); more > 0; more--) {
        grow_primitive(table);
        join_from(table, 0, (int32_t)ONE_OF(UNION, INTER, DIFF, DIFF));
    }
}

/* A zone that can be rewritten, mostly; seldom one at the limit of its choices or of its primitives, or past it. */
void any_small_zone(struct table *table)
{
    clear(table);
    if (one_in(30))
        grow_full(table, one_in(4) ? MOST_REWRITE_PRIMITIVES - 1 : MOST_REWRITE_PRIMITIVES);
    else if (one_in(8))
        grow_tree(table, (size_t)between(9, MOST_REWRITE_PRIMITIVES + 1), MOST_REWRITE_CHOICES);
    else
        grow_tree(table, (size_t)between(1, 8), MOST_REWRITE_CHOICES);
}
