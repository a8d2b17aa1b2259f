/* What the parts of the plain implementation share; nothing here is for callers. */
#ifndef PLAIN_PARTS_H
#define PLAIN_PARTS_H

#include "plain.h"
#include "rules.h"

struct point {
    int64_t at[AXES];
};

/* A sound table taken apart: the 12 words of each row, and those of each primitive by its number. */
struct zone {
    size_t rows, primitives;
    const int32_t *row[MOST_ROWS];
    const int32_t *primitive[MOST_PRIMITIVES];
};

/* The codes that a column holds: from the lowest to the highest, both included. */
struct held_codes {
    int64_t lowest, highest;
};

/* plain_table.c */
struct plain_answer plain_done(uint64_t written);
struct plain_answer plain_inside(int inside);
struct plain_answer plain_found(uint64_t position, uint64_t inside_samples);
struct plain_answer plain_refused(uint64_t number, uint64_t value);
int plain_is_refused(struct plain_answer answer);
struct zone plain_zone(const int32_t *table, size_t words);
size_t plain_primitive_number(const struct zone *zone, const int32_t *row);

/* plain_tree.c */
int plain_in_primitive(const int32_t *row, struct point point);
struct plain_answer plain_check_frame(size_t samples, int32_t first, int64_t frame);
struct point plain_sample(const int16_t *codes, size_t position, int32_t first, int64_t frame);
struct held_codes plain_held_codes(const int16_t *codes, size_t position);

/* plain_make.c */
uint64_t plain_expansion_count(const struct zone *zone);

#endif
