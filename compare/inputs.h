/* What is lent to the calls, at random: zones, lists, windows, points, frames, screens, rectangles and texts, sound or damaged. */
#ifndef INPUTS_H
#define INPUTS_H

#include <stddef.h>
#include <stdint.h>

#include "lampholly.h"
#include "rules.h"

/* What can be lent: a little more of each than the rules let pass. */
#define TABLE_ROOM (ROW_WORDS * 260)
#define LIST_ROOM (HEADER_WORDS + PRODUCT_WORDS * (MOST_PRODUCTS + 4))
#define FRAME_ROOM (MOST_SAMPLES + 1)
#define SCREEN_ROOM (2 * FRAME_ROOM + MOST_FRAMES) /* two frames that are too long, and what is left over of a division */
#define TRIPLES_ROOM (TRIPLE_WORDS * (MOST_FRAMES + 20))
#define PICTURE_ROOM (MOST_PICTURE_WORDS + 60)
#define AREA_ROOM (REWRITE_WORDS + 60) /* the finished tree's, and the work area */
#define TEXT_ROOM 20000

struct table {
    size_t words;
    int32_t word[TABLE_ROOM];
};

struct list {
    size_t words;
    uint64_t word[LIST_ROOM];
};

struct frame {
    size_t samples;
    int32_t first, number;
    int16_t code[FRAME_ROOM];
};

/* The frames lie end to end. */
struct screen {
    size_t samples, frames;
    int32_t first, number;
    int16_t code[SCREEN_ROOM];
};

struct text {
    size_t bytes;
    uint8_t byte[TEXT_ROOM];
};

struct point {
    int32_t at[AXES];
};

/* The box of a primitive, or of a damaged one. */
struct box {
    int64_t lo[AXES], hi[AXES];
};

/* chance.c: the generator. The same seed and case number give the same case. */
void start_case(uint64_t seed, uint64_t number);
uint64_t any(void);
uint64_t below(uint64_t count);
int64_t between(int64_t lo, int64_t hi);
int one_in(unsigned count);
int64_t one_of(const int64_t *values, size_t count);
int64_t clamped(int64_t value, int64_t lo, int64_t hi);
int64_t any_coordinate(int axis);
int64_t in_range(int axis, int64_t value);
void fill(void *bytes, size_t count);

#define ONE_OF(...) one_of((const int64_t[]){__VA_ARGS__}, sizeof((const int64_t[]){__VA_ARGS__}) / sizeof(int64_t))

/* zones.c: sound tables; primitives.c: their primitives. */
void any_zone(struct table *table);
void any_long_zone(struct table *table);
void any_dense_zone(struct table *table);
void any_small_zone(struct table *table);
void any_marks(void);
void near_marks(void);
void any_long_box(int32_t *row);
void any_primitive(int32_t *row);
size_t fields_of(int32_t kind);
struct box box_of(const int32_t *row);

/* faults.c: damaged tables and lists. */
void damage_table(struct table *table);
void damage_list(struct list *list);

/* aims.c, frames.c, screens.c, pictures.c: windows, points, rooms, frames, screens and rectangles near the zone's edges. */
void to_bounds(struct lampholly_window window, int32_t bound[BOUNDS]);
struct lampholly_window any_window(const struct table *table);
struct lampholly_window window_of(const struct list *list);
struct point any_point(const struct table *table, struct lampholly_window window);
int64_t any_aim(const struct table *table, int axis);
void any_two_aims(const struct table *table, int64_t *one, int64_t *other);
int64_t any_code_at(const struct table *table, int64_t column, int64_t number);
int64_t any_first(size_t samples, const struct table *table, struct lampholly_window window);
int64_t any_number(const struct table *table, struct lampholly_window window);
int64_t any_tests(const struct table *table, size_t list_words);
void start_edges(const struct table *table, size_t list_words);
void any_codes(int16_t *code, size_t samples, int64_t first, int64_t number,
               const struct table *table, struct lampholly_window window);
void any_frame(struct frame *frame, const struct table *table, struct lampholly_window window, size_t list_words);
void level_frame(struct frame *frame, const struct table *table);
void any_screen(struct screen *screen, const struct table *table, struct lampholly_window window, size_t list_words);
void repeat_frame(struct screen *screen, const struct frame *frame);
void restore_frames(struct list *list, struct lampholly_window window);
void keep_old_frames(struct list *list, struct lampholly_window window, struct point spot);
int64_t keep_some_frames(struct list *list, const struct table *table, struct lampholly_window window, struct point spot,
                         int64_t tests);
struct lampholly_rectangle any_rectangle(struct lampholly_window window, struct point spot, int64_t places);
size_t places_in(struct lampholly_rectangle rectangle);
size_t any_room(size_t needed, size_t most);

/* texts.c: zone text of any table, and damaged text. */
void text_of(struct text *text, const struct table *table);
void damage_text(struct text *text);

#endif
