/* Zones whose lists are made in the benchmark, or that are rewritten. */
#include <string.h>

#include "bench.h"

static const struct lampholly_window full = {FULL_RANGE};

static int32_t *new_row(struct table *table, int32_t kind)
{
    int32_t *row = table->word + table->words;
    memset(row, 0, ROW_WORDS * sizeof row[0]);
    row[KIND] = kind;
    table->words += ROW_WORDS;
    return row;
}

static int32_t last_row(const struct table *table)
{
    return (int32_t)rows_in(table->words) - 1;
}

/* All frames up to the newest. */
static void put_frames(int32_t *row)
{
    row[bound_word(row[KIND], LO(Z))] = LEAST_FRAME;
    row[bound_word(row[KIND], HI(Z))] = 0;
}

static void put_bounds(int32_t *row, int32_t xlo, int32_t xhi, int32_t ylo, int32_t yhi)
{
    const int32_t bound[] = {xlo, xhi, ylo, yhi};
    memcpy(row + BOUND, bound, sizeof bound);
    put_frames(row);
}

int32_t add_box(struct table *table, int32_t xlo, int32_t xhi, int32_t ylo, int32_t yhi)
{
    put_bounds(new_row(table, BOX), xlo, xhi, ylo, yhi);
    return last_row(table);
}

int32_t add_wedge(struct table *table, int32_t xlo, int32_t xhi, int32_t ylo, int32_t yhi, int32_t a, int32_t b, int32_t d)
{
    int32_t *row = new_row(table, WEDGE);
    put_bounds(row, xlo, xhi, ylo, yhi);
    row[SLOPE + X] = a;
    row[SLOPE + Y] = b;
    row[LIMIT] = d;
    return last_row(table);
}

int32_t add_drum(struct table *table, int32_t cx, int32_t cy, int32_t rx, int32_t ry)
{
    put_bounds(new_row(table, DRUM), cx, cy, rx, ry);
    return last_row(table);
}

int32_t add_triangle(struct table *table, int32_t x1, int32_t y1, int32_t x2, int32_t y2, int32_t x3, int32_t y3)
{
    const int32_t corners[] = {x1, y1, x2, y2, x3, y3};
    int32_t *row = new_row(table, TRIANGLE);
    memcpy(row + CORNER(0, X), corners, sizeof corners);
    put_frames(row);
    return last_row(table);
}

int32_t add_operation(struct table *table, int32_t operation, int32_t left, int32_t right)
{
    int32_t *row = new_row(table, operation);
    row[LEFT] = left;
    row[RIGHT] = right;
    return last_row(table);
}

static void start_zone(struct load *load)
{
    load->zones = 1;
    load->zone[0].words = table_words(0);
    load->window = full;
}

/* Joins a row to what stands so far, which is -1 at first. */
static int32_t join(struct table *table, int32_t operation, int32_t so_far, int32_t row)
{
    return so_far < 0 ? row : add_operation(table, operation, so_far, row);
}

/* A union of boxes that all share points, or that lie far off. */
static int32_t add_union(struct table *table, int32_t boxes, int is_far)
{
    int32_t all = -1, off = is_far ? 10000 : 0;
    for (int32_t i = 0; i < boxes; i++)
        all = join(table, UNION, all, add_box(table, off - i, off + 1000 + i, -100 * i, 1000));
    return all;
}

/* Eight unions of four boxes, intersected; for the half, the last has two. */
void build_unions(struct load *load, int manner, int is_half)
{
    struct table *table = &load->zone[0];
    int32_t all = -1;
    start_zone(load);
    for (int32_t i = 0; i < 8; i++) {
        int misses = (manner == FIRST_MISSES && i == 0) || (manner == LAST_MISSES && i == 7);
        all = join(table, INTER, all, add_union(table, is_half && i == 7 ? 2 : 4, misses));
    }
    if (manner == WINDOW_MISSES)
        load->window.xlo = 20000;
    load->work = is_half ? MOST_CHOICES / 2 : MOST_CHOICES;
}

/* Unions of two boxes, intersected. The manner is their number; for the half, it is one fewer. */
void build_pairs(struct load *load, int manner, int is_half)
{
    struct table *table = &load->zone[0];
    int32_t all = -1, unions = is_half ? manner - 1 : manner;
    start_zone(load);
    for (int32_t i = 0; i < unions; i++)
        all = join(table, INTER, all, add_union(table, 2, 0));
    load->work = 1 << unions;
}

/* A box less the intersection of its cuts: as many choices as cuts. */
static int32_t add_cut_box(struct table *table, int32_t cuts, int manner)
{
    int32_t box = add_box(table, 0, 9999, 0, 9999), all = -1;
    for (int32_t i = 0; i < cuts; i++) {
        int is_far = manner == FAR || (manner == HALF_FAR && i % 2 == 1);
        int32_t off = is_far ? 20000 : 0;
        all = join(table, INTER, all, add_box(table, off + 10 * i, off + 5000, 100, 9000));
    }
    return add_operation(table, DIFF, box, all);
}

/* Four boxes of fifteen cuts each, intersected; for the half, the last has eight. */
void build_cuts(struct load *load, int manner, int is_half)
{
    struct table *table = &load->zone[0];
    int32_t all = -1;
    start_zone(load);
    for (int32_t i = 0; i < 4; i++)
        all = join(table, INTER, all, add_cut_box(table, is_half && i == 3 ? 8 : 15, manner));
    load->work = is_half ? 15 * 15 * 15 * 8 : 15 * 15 * 15 * 15;
}

/* Sparse zones: random trees over small boxes strewn over the range. */

struct branch {
    int32_t row;
    double in, out;
};

static int32_t add_strewn_box(struct table *table)
{
    int32_t x = (int32_t)between(LEAST_COLUMN, GREATEST_COLUMN - 12000), y = (int32_t)between(LEAST_CODE, GREATEST_CODE - 12000);
    return add_box(table, x, x + (int32_t)between(2000, 12000), y, y + (int32_t)between(2000, 12000));
}

static struct branch joined(struct table *table, int32_t operation, struct branch left, struct branch right)
{
    struct branch all = {add_operation(table, operation, left.row, right.row), 0, 0};
    double inner = operation == DIFF ? right.out : right.in, outer = operation == DIFF ? right.in : right.out;
    all.in = operation == UNION ? left.in + inner : left.in * inner;
    all.out = operation == UNION ? left.out * outer : left.out + outer;
    return all;
}

/* Grows one zone and gives its expansion count. */
static double grow_sparse(struct table *table, int primitives)
{
    struct branch open[MOST_PRIMITIVES];
    int count = 0;
    table->words = table_words(0);
    for (; count < primitives; count++) {
        struct branch one = {add_strewn_box(table), 1, 1};
        open[count] = one;
    }
    while (count > 1) {
        int l = (int)below((uint64_t)count);
        struct branch left = open[l];
        open[l] = open[--count];
        int r = (int)below((uint64_t)count);
        open[r] = joined(table, (int32_t)between(UNION, DIFF), left, open[r]);
    }
    return open[0].in;
}

/* Sixteen zones that come near to the most choices; for the half, the first eight. The manner is the number of primitives. */
void build_sparse(struct load *load, int manner, int is_half)
{
    start_zone(load);
    start_case(40, (uint64_t)manner);
    load->zones = is_half ? 8 : 16;
    load->work = 0;
    for (size_t i = 0; i < load->zones; i++) {
        double count = 0;
        while (count < 16384 || count > MOST_CHOICES)
            count = grow_sparse(&load->zone[i], manner);
        load->work += count;
    }
}
