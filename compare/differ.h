/* What the parts of the differential test share. */
#ifndef DIFFER_H
#define DIFFER_H

#include "inputs.h"
#include "plain.h"

/* lent.c: a lent buffer between pages that nobody may touch, with guard bytes where it does not reach them. */
struct lent {
    unsigned char *pages, *at;
    size_t capacity, bytes;
    unsigned char guard;
};

void open_lent(struct lent *lent, size_t capacity);
void *lend(struct lent *lent, const void *content, size_t bytes);
int holds(const struct lent *lent, const void *content);

/* calls.c: one call, asked of both. */
enum call {
    CHECK, TREE_POINT, TREE_SEARCH, MAKE_LIST, LIST_POINT, LIST_SEARCH, READ_TEXT, WRITE_TEXT, LIST_SEARCH_FRAMES,
    LIST_WATERFALL, REWRITE, CALLS
};

/* What a call takes; the parts that it does not take are left 0. */
struct question {
    enum call call;
    const struct table *table;
    const struct list *list;
    const struct frame *frame;
    const struct screen *screen;
    const struct text *text;
    struct lampholly_window window;
    struct lampholly_rectangle rectangle;
    struct point point;
    size_t room, work_room;
};

void open_calls(uint64_t seed);
void begin_case(uint64_t number);
void ask(struct question question);

/* show.c: the question on which both differ. */
void show_question(const struct question *question);

/* tally.c: what was seen. */
extern const char *const call_name[CALLS];
void tally(const struct question *question, struct plain_answer answer);
void tally_triple(const uint32_t *triple);
void tally_picture(const struct question *question, const int32_t *picture);
plain_watcher tally_rewrite;
void tally_finished(const int32_t *tree, uint64_t words);
void print_tally(uint64_t seed, uint64_t cases);
int is_all_seen(void);

#endif
