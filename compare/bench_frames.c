/* Frames that are searched and texts that are read and written in the benchmark. */
#include "bench.h"

static const struct lampholly_window full = {FULL_RANGE};

/* Three products of two, three and four primitives, which hold most codes about 10,000. */
static void put_few(struct table *t)
{
    t->words = table_words(0);
    int32_t one = add_operation(t, INTER, add_box(t, LEAST_COLUMN, -9000, 8000, 12000),
                                add_wedge(t, LEAST_COLUMN, -8000, 7000, 13000, 1, 2, 20000));
    int32_t two = add_operation(t, DIFF, add_box(t, -9500, 9500, 9000, 14000), add_drum(t, 0, 13000, 900, 700));
    two = add_operation(t, DIFF, two, add_box(t, 1000, 1400, 9000, 14000));
    int32_t three = add_operation(t, INTER, add_box(t, 9000, GREATEST_COLUMN, 7000, 13000),
                                  add_box(t, 8000, GREATEST_COLUMN, 7500, 12500));
    three = add_operation(t, INTER, three, add_wedge(t, 9000, GREATEST_COLUMN, 7000, 13000, -1, 2, 20000));
    three = add_operation(t, DIFF, three, add_drum(t, 20000, 9000, 500, 900));
    add_operation(t, UNION, add_operation(t, UNION, one, two), three);
}

/* A union of stripes of columns, crossed with a union of bands of codes from 5,000 to 15,000. */
static int32_t add_grid(struct table *t, int32_t xlo, int32_t xhi, int32_t stripes, int32_t bands)
{
    int32_t across = -1, up = -1, width = (xhi - xlo + 1) / stripes, height = 10000 / bands;
    for (int32_t i = 0; i < stripes; i++) {
        int32_t box = add_box(t, xlo + i * width, i == stripes - 1 ? xhi : xlo + (i + 1) * width - 1, ALL_CODES);
        across = across < 0 ? box : add_operation(t, UNION, across, box);
    }
    for (int32_t i = 0; i < bands; i++) {
        int32_t box = add_box(t, xlo, xhi, 5000 + i * height, i == bands - 1 ? 15000 : 5000 + (i + 1) * height - 1);
        up = up < 0 ? box : add_operation(t, UNION, up, box);
    }
    return add_operation(t, INTER, across, up);
}

static int32_t add_small(struct table *t, int32_t i, int manner)
{
    int32_t x = -32000 + 1600 * i, y = 16000 + 300 * (i % 40);
    if (manner == TRIANGLES)
        return add_triangle(t, x, y, x + 1500, y, x + 700, y + 900);
    switch (i % 3) {
    case 0: return add_box(t, x, x + 1500, y, y + 900);
    case 1: return add_wedge(t, x, x + 1500, y, y + 900, 1, 1, x + y + 1200);
    default: return add_drum(t, x + 700, y + 500, 700, 500);
    }
}

/* 5 x 5 and 3 x 12 rectangles and 39 small shapes: 100 products over 64 primitives. */
static void put_many(struct table *t)
{
    t->words = table_words(0);
    int32_t all = add_operation(t, UNION, add_grid(t, LEAST_COLUMN, -1, 5, 5), add_grid(t, 0, GREATEST_COLUMN, 3, 12));
    for (int32_t i = 0; i < 39; i++)
        all = add_operation(t, UNION, all, add_small(t, i, MIXED));
}

/* Two triangles: all codes from one to the other, in all columns. */
static int32_t add_bar(struct table *t, int32_t ylo, int32_t yhi)
{
    int32_t lower = add_triangle(t, LEAST_COLUMN, ylo, GREATEST_COLUMN, ylo, LEAST_COLUMN, yhi);
    return add_operation(t, UNION, lower, add_triangle(t, LEAST_COLUMN, yhi, GREATEST_COLUMN, ylo, GREATEST_COLUMN, yhi));
}

/* An eye mask: a hexagon of four triangles about code 10,000 and a bar of two above and below it. */
static void put_eye(struct table *t)
{
    static const int32_t rim[][2] = {
        {16000, 14000}, {-16000, 14000}, {LEAST_COLUMN, 10000}, {-16000, 6000}, {16000, 6000},
    };
    t->words = table_words(0);
    int32_t all = add_operation(t, UNION, add_bar(t, 1000, 4000), add_bar(t, 16000, 19000));
    for (int i = 0; i < 4; i++) {
        const int32_t *one = rim[i], *next = rim[i + 1];
        all = add_operation(t, UNION, all, add_triangle(t, GREATEST_COLUMN, 10000, one[X], one[Y], next[X], next[Y]));
    }
}

/* Within two codes of the code before, and never far from the middle. */
static int16_t wandered(int16_t before, int64_t middle)
{
    return (int16_t)clamped(before + between(-2, 2), middle - 200, middle + 200);
}

/* A code for each sample: noise with a pulse now and then, noise within the zone, a slow wander out of it or within it, or up
   and down. */
static int16_t any_code(int manner, size_t k, int16_t before)
{
    switch (manner) {
    case CLEAR: return (int16_t)(k % 1000 / 6 == 80 ? between(9500, 10500) : between(-20, 20));
    case INSIDE: return (int16_t)between(9600, 10400);
    case QUIET: return wandered(before, 0);
    case QUIET_INSIDE: return wandered(before, 10000);
    default: return (int16_t)(k % 2 == 0 ? 30000 : -30000);
    }
}

static void put_codes(struct load *load, int manner)
{
    int16_t before = 0;
    start_case(50, (uint64_t)manner);
    for (size_t k = 0; k < load->frames * load->samples; k++)
        before = load->code[k] = any_code(manner, k, before);
    load->work = (double)(load->frames * load->samples);
}

static void put_zone(struct load *load, int zone)
{
    load->zones = 1;
    load->window = full;
    switch (zone) {
    case FEW: put_few(&load->zone[0]); break;
    case MANY: put_many(&load->zone[0]); break;
    default: put_eye(&load->zone[0]); break;
    }
    load->list_words = peer_expand(load->zone[0].word, load->zone[0].words, full, load->list, sizeof load->list / 8).value;
}

/* One frame over all columns; for the half, over the first half of them. The manner is a zone's and a frame's together. */
void build_frame(struct load *load, int manner, int is_half)
{
    put_zone(load, manner & ANY_ZONE);
    load->frames = 1;
    load->samples = is_half ? MOST_SAMPLES / 2 : MOST_SAMPLES;
    load->first = is_half ? LEAST_COLUMN / 2 : LEAST_COLUMN;
    put_codes(load, manner & ~ANY_ZONE);
}

/* A screenful of frames; for the half, half as many. */
static void put_screen(struct load *load, int manner, int is_half, int32_t columns)
{
    put_zone(load, manner & ANY_ZONE);
    load->frames = is_half ? MOST_FRAMES / 2 : MOST_FRAMES;
    load->samples = (size_t)columns;
    load->first = -columns / 2;
    put_codes(load, manner & ~ANY_ZONE);
}

void build_screen(struct load *load, int manner, int is_half)
{
    put_screen(load, manner, is_half, SCREEN_COLUMNS);
}

void build_wide_screen(struct load *load, int manner, int is_half)
{
    put_screen(load, manner, is_half, 1000);
}

void build_narrow_screen(struct load *load, int manner, int is_half)
{
    put_screen(load, manner, is_half, 10);
}

/* A zone of 127 rows and its text; for the half, of 63 rows. The manner is that of its shapes. */
void build_text(struct load *load, int manner, int is_half)
{
    struct table *table = &load->zone[0];
    int32_t shapes = is_half ? 32 : 64, all = -1;
    load->zones = 1;
    table->words = table_words(0);
    for (int32_t i = 0; i < shapes; i++) {
        int32_t small = add_small(table, i % 40, manner);
        all = all < 0 ? small : add_operation(table, (int32_t)(UNION + i % 3), all, small);
    }
    text_of(&load->text, table);
    load->work = (double)rows_in(table->words);
}
