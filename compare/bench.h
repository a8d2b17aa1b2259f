/* What the parts of the benchmark share. */
#ifndef BENCH_H
#define BENCH_H

#include "inputs.h"
#include "peers.h"

#define MOST_ZONES 16
#define SCREEN_COLUMNS 1024

/* What one measured piece of work is given. Every frame has the same number of samples. Frame k has the number -k where each is
   searched by a call of its own; where one call searches them all, the last has the number 0. */
struct load {
    size_t zones;
    struct table zone[MOST_ZONES];
    struct lampholly_window window;
    size_t list_words;
    uint64_t list[HEADER_WORDS + PRODUCT_WORDS * 128];
    size_t frames, samples;
    int32_t first;
    int16_t code[MOST_FRAMES * SCREEN_COLUMNS];
    struct lampholly_rectangle rectangle;
    struct text text;
    double work; /* choices, samples, places or rows */
};

/* Half of the work is built in the same manner as the whole. */
typedef void build(struct load *load, int manner, int is_half);

/* bench_zones.c: zones to make lists of, and to rewrite. */
enum { KEPT, WINDOW_MISSES, FIRST_MISSES, LAST_MISSES };
enum { NEAR, HALF_FAR, FAR };
build build_unions, build_cuts, build_sparse, build_pairs;

/* Parts of a table, added at its end; each gives its row. */
int32_t add_box(struct table *table, int32_t xlo, int32_t xhi, int32_t ylo, int32_t yhi);
int32_t add_wedge(struct table *table, int32_t xlo, int32_t xhi, int32_t ylo, int32_t yhi, int32_t a, int32_t b, int32_t d);
int32_t add_drum(struct table *table, int32_t cx, int32_t cy, int32_t rx, int32_t ry);
int32_t add_triangle(struct table *table, int32_t x1, int32_t y1, int32_t x2, int32_t y2, int32_t x3, int32_t y3);
int32_t add_operation(struct table *table, int32_t operation, int32_t left, int32_t right);

/* bench_frames.c: frames to search, and tables of many rows with their texts. */
enum { FEW = 0, MANY = 1, EYE = 8, ANY_ZONE = MANY | EYE }; /* a zone's bits, apart from a frame's */
enum { CLEAR = 0, INSIDE = 2, TOGGLING = 4, QUIET = 16, QUIET_INSIDE = QUIET | INSIDE };
enum { MIXED, TRIANGLES };
build build_frame, build_screen, build_wide_screen, build_narrow_screen, build_text;

/* bench_pictures.c: pictures to draw. */
enum { FEW_FRAMES, EVERY_FRAME, FEW_TO_ALL_FRAMES };
build build_picture;

#endif
