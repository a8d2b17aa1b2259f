/* The differential test: plain against the library over all eleven calls. Use: differ SEED COUNT [FIRST CASE] */
#include <stdio.h>
#include <stdlib.h>

#include "differ.h"

/* From so many cases on, every answer and refusal of every call, all that a triple and a place can tell and all that can be met
   of rewriting, of triangles and of edges must have been seen. */
#define MANY_CASES 5000

/* Samples times words of the list: what plain can bear of one search. */
#define MOST_LIST_WORK 20000000

static const struct lampholly_window full = {FULL_RANGE};

/* The zone of the case, a damaged copy or the same, and another zone. */
static struct table zone, lent_zone, other_zone;
static struct list list;
static struct frame frame;
static struct screen screen;
static struct text text;

static void ask_tree(void)
{
    struct question check = {.call = CHECK, .table = &lent_zone};
    struct question point = {.call = TREE_POINT, .table = &lent_zone};
    struct question search = {.call = TREE_SEARCH, .table = &lent_zone, .frame = &frame};
    ask(check);
    for (int turn = 0; turn < 4; turn++) {
        point.point = any_point(&lent_zone, full);
        ask(point);
    }
    any_frame(&frame, &lent_zone, full, 0);
    ask(search);
}

/* Makes the list by plain, to the full; a refusal leaves a list of no words. */
static struct plain_answer make_list(const struct table *table, struct lampholly_window w)
{
    struct plain_window window = {w.xlo, w.xhi, w.ylo, w.yhi, w.zlo, w.zhi};
    struct plain_answer made = plain_make_list(table->word, table->words, window, list.word, LIST_ROOM);
    list.words = made.refusal == 0 ? made.value : 0;
    return made;
}

static void ask_make_list(struct lampholly_window window)
{
    struct plain_answer made = make_list(&lent_zone, window);
    size_t needed = made.refusal == 0 ? made.value : HEADER_WORDS;
    struct question make = {.call = MAKE_LIST, .table = &lent_zone, .window = window};
    make.room = any_room(needed, LIST_ROOM);
    ask(make);
    /* Small lists take little time: a second room. */
    if (needed < 1000) {
        make.room = any_room(needed, LIST_ROOM);
        ask(make);
    }
}

/* As made; or of another zone or another window; or damaged. */
static void any_list(struct lampholly_window window)
{
    if (one_in(8)) {
        any_zone(&other_zone);
        make_list(&other_zone, one_in(2) ? window : full);
    } else {
        make_list(&zone, window);
    }
    if (list.words == 0 && !one_in(8))
        make_list(&zone, full);
    if (list.words >= HEADER_WORDS && one_in(3))
        damage_list(&list);
}

/* Plain goes through the whole list with each sample, and with each frame that is asked about alone. */
static int takes_long(size_t samples, size_t frames)
{
    return (samples + (frames <= MOST_FRAMES ? frames : 0)) * list.words > MOST_LIST_WORK;
}

static void ask_list(struct lampholly_window window)
{
    const struct table *table = one_in(3) ? &lent_zone : &zone;
    struct question point = {.call = LIST_POINT, .table = table, .list = &list};
    struct question search = {.call = LIST_SEARCH, .table = table, .list = &list, .frame = &frame};
    any_list(window);
    for (int turn = 0; turn < 4; turn++) {
        point.point = any_point(&zone, window_of(&list));
        ask(point);
    }
    for (int turn = 0; turn < 2; turn++) {
        do
            any_frame(&frame, &zone, window_of(&list), list.words);
        while (takes_long(frame.samples, 0));
        ask(search);
    }
}

/* By the list that the case has. */
static void ask_screens(void)
{
    struct question search = {.call = LIST_SEARCH_FRAMES, .list = &list, .screen = &screen};
    search.table = one_in(3) ? &lent_zone : &zone;
    for (int turn = 0; turn < 2; turn++) {
        do
            any_screen(&screen, &zone, window_of(&list), list.words);
        while (takes_long(screen.samples, screen.frames));
        size_t frames = screen.frames <= MOST_FRAMES + 1 ? screen.frames : 1; /* for a huge number any room will do */
        search.room = any_room(TRIPLE_WORDS * frames, TRIPLES_ROOM);
        ask(search);
    }
}

static int is_in_list(const struct table *table, struct point point)
{
    const int32_t *at = point.at;
    struct plain_answer answer = plain_list_point(table->word, table->words, list.word, list.words, at[X], at[Y], at[Z]);
    return answer.refusal == 0 && answer.value == 1;
}

/* One in the list, if a few turns find it. */
static struct point any_spot(const struct table *table)
{
    struct point spot = any_point(table, window_of(&list));
    for (int turn = 0; turn < 8 && !is_in_list(table, spot); turn++)
        spot = any_point(table, window_of(&list));
    return spot;
}

/* By the list that the case has, but with other frames. */
static void ask_pictures(int64_t tests)
{
    struct lampholly_window window = window_of(&list);
    struct question draw = {.call = LIST_WATERFALL, .list = &list};
    draw.table = one_in(3) ? &lent_zone : &zone;
    for (int turn = 0; turn < 2; turn++) {
        restore_frames(&list, window);
        struct point spot = any_spot(draw.table);
        int64_t places = 1;
        if (one_in(4) && is_in_list(draw.table, spot))
            keep_old_frames(&list, window, spot);
        else
            places = keep_some_frames(&list, draw.table, window, spot, tests);
        draw.rectangle = any_rectangle(window, spot, places);
        draw.room = any_room(places_in(draw.rectangle), PICTURE_ROOM);
        ask(draw);
    }
}

static void ask_write_text(void)
{
    struct plain_answer written = plain_write_text(lent_zone.word, lent_zone.words, text.byte, TEXT_ROOM);
    struct question write = {.call = WRITE_TEXT, .table = &lent_zone};
    write.room = any_room(written.refusal == 0 ? written.value : 20, TEXT_ROOM);
    ask(write);
}

static void ask_read_text(void)
{
    struct question read = {.call = READ_TEXT, .text = &text};
    for (int turn = 0; turn < 3; turn++) {
        text_of(&text, one_in(3) ? &lent_zone : &zone);
        if (one_in(2))
            damage_text(&text);
        read.room = any_room(zone.words, TABLE_ROOM);
        ask(read);
    }
}

/* Pictures of a zone that holds many places, each in other frames; of another where this one turns out to be empty. */
static void ask_dense(void)
{
    do {
        any_dense_zone(&zone);
        make_list(&zone, full);
    } while (!is_in_list(&zone, any_spot(&zone)) && !one_in(8));
    lent_zone = zone;
    if (one_in(4))
        any_list(any_window(&zone));
    ask_pictures(8 * any_tests(&zone, list.words));
}

/* Without room, 8 says that nothing else is refused. */
static int can_be_rewritten(const struct table *table)
{
    return plain_rewrite(table->word, table->words, NULL, 0, NULL, 0, NULL).refusal == 8;
}

/* Just what is asked for, mostly. Large areas take time: where they are not looked at, small ones will do, mostly. */
static size_t any_area(int is_looked_at)
{
    size_t needed = is_looked_at || one_in(8) ? REWRITE_WORDS : 40;
    return one_in(4) ? any_room(needed, AREA_ROOM) : needed;
}

static void ask_rewrite(void)
{
    struct question rewrite = {.call = REWRITE, .table = &lent_zone};
    int is_looked_at = can_be_rewritten(&lent_zone);
    rewrite.room = any_area(is_looked_at);
    rewrite.work_room = any_area(is_looked_at);
    ask(rewrite);
}

/* Many a zone of a case cannot be rewritten: one that is small enough. */
static void ask_small(void)
{
    any_small_zone(&zone);
    lent_zone = zone;
    if (one_in(16))
        damage_table(&lent_zone);
    ask_rewrite();
}

/* A frame that the zone may hold from its first sample to its last. */
static void ask_long(void)
{
    struct question tree = {.call = TREE_SEARCH, .table = &zone, .frame = &frame};
    struct question by_list = {.call = LIST_SEARCH, .table = &zone, .list = &list, .frame = &frame};
    struct question twice = {.call = LIST_SEARCH_FRAMES, .table = &zone, .list = &list, .screen = &screen};
    any_long_zone(&zone);
    level_frame(&frame, &zone);
    repeat_frame(&screen, &frame);
    make_list(&zone, full);
    twice.room = TRIPLE_WORDS * screen.frames;
    ask(tree);
    ask(by_list);
    ask(twice);
}

static void run_case(uint64_t number)
{
    begin_case(number);
    if (one_in(100))
        ask_long();
    any_zone(&zone);
    lent_zone = zone;
    if (one_in(4))
        damage_table(&lent_zone);
    struct lampholly_window window = any_window(&zone);
    ask_tree();
    ask_make_list(window);
    ask_list(window);
    ask_screens();
    ask_write_text();
    ask_read_text();
    ask_pictures(any_tests(&zone, list.words));
    if (one_in(3))
        ask_rewrite();
    ask_dense();
    ask_small();
}

int main(int argc, char **argv)
{
    uint64_t seed = argc > 1 ? strtoull(argv[1], NULL, 10) : 1;
    uint64_t count = argc > 2 ? strtoull(argv[2], NULL, 10) : 10000;
    uint64_t first = argc > 3 ? strtoull(argv[3], NULL, 10) : 0;
    open_calls(seed);
    for (uint64_t number = first; number < first + count; number++)
        run_case(number);
    print_tally(seed, count);
    return count < MANY_CASES || is_all_seen() ? 0 : 1;
}
