/* The benchmark: the library and its peers on the same work, in the same process, best of several. It is no part of a gate.
   Use: bench [PART OF THE WORK'S NAME] */
#include <stdio.h>
#include <stdlib.h>
#include <string.h>
#include <time.h>

#include "bench.h"

#define ROUNDS 9
#define LEAST_SECONDS 0.004 /* a measured stretch is not shorter */
#define MOST_RIVALS 4

/* What a piece of work gives: the answers added up, and what it wrote last. */
struct result {
    struct lampholly_answer sum;
    uint64_t list[LAMPHOLLY_LIST_WORDS];
    int32_t table[LAMPHOLLY_TABLE_WORDS];
    uint8_t text[LAMPHOLLY_TEXT_BYTES];
    uint32_t triples[LAMPHOLLY_TRIPLE_WORDS];
    int32_t picture[LAMPHOLLY_PICTURE_WORDS];
    int32_t tree[LAMPHOLLY_REWRITE_WORDS], work[LAMPHOLLY_REWRITE_WORDS];
};

typedef struct lampholly_answer check_call(const int32_t *, size_t);
typedef struct lampholly_answer make_call(const int32_t *, size_t, struct lampholly_window, uint64_t *, size_t);
typedef struct lampholly_answer tree_call(const int32_t *, size_t, const int16_t *, size_t, int32_t, int32_t);
typedef struct lampholly_answer list_call(const int32_t *, size_t, const uint64_t *, size_t,
                                          const int16_t *, size_t, int32_t, int32_t);
typedef struct lampholly_answer screen_call(const int32_t *, size_t, const uint64_t *, size_t,
                                            const int16_t *, size_t, size_t, int32_t, int32_t, uint32_t *, size_t);
typedef struct lampholly_answer picture_call(const int32_t *, size_t, const uint64_t *, size_t,
                                             struct lampholly_rectangle, int32_t *, size_t);
typedef struct lampholly_answer rewrite_call(const int32_t *, size_t, int32_t *, size_t, int32_t *, size_t);
typedef struct lampholly_answer read_call(const uint8_t *, size_t, int32_t *, size_t);
typedef struct lampholly_answer write_call(const int32_t *, size_t, uint8_t *, size_t);

/* The library comes first, then its peers; the call that is set says what is measured. A peer that goes by the samples' own
   codes only does less than the library: it is a yardstick, and what it answers is not compared. */
struct rival {
    const char *name;
    int own_codes_only;
    check_call *check;
    make_call *make;
    tree_call *tree;
    list_call *list;
    screen_call *screen;
    picture_call *picture;
    rewrite_call *rewrite;
    read_call *read;
    write_call *write;
};

struct work {
    const char *name;
    build *build;
    int manner;
    const struct rival *rivals;
};

/* A screenful as one searches it without a call for it. */
static struct lampholly_answer call_a_frame(const int32_t *table, size_t words, const uint64_t *list, size_t list_words,
                                            const int16_t *codes, size_t samples, size_t frames,
                                            int32_t first, int32_t frame, uint32_t *triples, size_t room)
{
    size_t length = samples / frames;
    (void)room;
    for (size_t j = 0; j < frames; j++) {
        int32_t number = frame + (int32_t)j;
        put_triple(triples + TRIPLE_WORDS * j,
                   lampholly_list_search(table, words, list, list_words, codes + j * length, length, first, number));
    }
    return peer_done(TRIPLE_WORDS * frames);
}

static const struct rival checkers[MOST_RIVALS] = {
    {.name = "ours", .check = lampholly_check},
    {.name = "once through", .check = peer_check},
};
static const struct rival makers[MOST_RIVALS] = {
    {.name = "ours", .make = lampholly_make_list},
    {.name = "write out, prune, hash", .make = peer_write_out},
    {.name = "prune while expanding", .make = peer_expand},
};
static const struct rival tree_searchers[MOST_RIVALS] = {
    {.name = "ours", .tree = lampholly_tree_search},
    {.name = "tree, sample by sample", .own_codes_only = 1, .tree = peer_tree_search},
    {.name = "tree, column by column", .tree = peer_tree_columns},
};
static const struct rival list_searchers[MOST_RIVALS] = {
    {.name = "ours", .list = lampholly_list_search},
    {.name = "product by product", .own_codes_only = 1, .list = peer_list_search},
    {.name = "mask of primitives", .own_codes_only = 1, .list = peer_mask_search},
    {.name = "column by column", .list = peer_list_columns},
};
static const struct rival screen_searchers[MOST_RIVALS] = {
    {.name = "ours", .screen = lampholly_list_search_frames},
    {.name = "a call a frame", .screen = call_a_frame},
    {.name = "mask of primitives", .own_codes_only = 1, .screen = peer_mask_screen},
    {.name = "column by column", .screen = peer_screen_columns},
};
static const struct rival drawers[MOST_RIVALS] = {
    {.name = "ours", .picture = lampholly_list_waterfall},
    {.name = "place by place", .picture = peer_waterfall},
};
static const struct rival rewriters[MOST_RIVALS] = {
    {.name = "ours", .rewrite = lampholly_rewrite},
    {.name = "array of nodes", .rewrite = peer_rewrite},
};
static const struct rival readers[MOST_RIVALS] = {
    {.name = "ours", .read = lampholly_read_text},
    {.name = "once through", .read = peer_read_text},
};
static const struct rival writers[MOST_RIVALS] = {
    {.name = "ours", .write = lampholly_write_text},
    {.name = "once through", .write = peer_write_text},
};

static const struct work works[] = {
    {"list: 65,536 choices, all kept", build_unions, KEPT, makers},
    {"list: 65,536 choices, the window misses", build_unions, WINDOW_MISSES, makers},
    {"list: 65,536 choices, the first union misses", build_unions, FIRST_MISSES, makers},
    {"list: 65,536 choices, the last union misses", build_unions, LAST_MISSES, makers},
    {"list: 4 x (A less fifteen cuts), near", build_cuts, NEAR, makers},
    {"list: 4 x (A less fifteen cuts), half far", build_cuts, HALF_FAR, makers},
    {"list: 4 x (A less fifteen cuts), far", build_cuts, FAR, makers},
    {"list: sparse zones of 40 primitives", build_sparse, 40, makers},
    {"list: sparse zones of 64 primitives", build_sparse, 64, makers},
    {"tree, 3 products: frame quiet", build_frame, FEW | QUIET, tree_searchers},
    {"tree, 3 products: frame quiet inside", build_frame, FEW | QUIET_INSIDE, tree_searchers},
    {"tree, 3 products: frame mostly clear", build_frame, FEW | CLEAR, tree_searchers},
    {"tree, 3 products: frame mostly inside", build_frame, FEW | INSIDE, tree_searchers},
    {"tree, 3 products: frame toggling", build_frame, FEW | TOGGLING, tree_searchers},
    {"tree, 100 products: frame quiet", build_frame, MANY | QUIET, tree_searchers},
    {"tree, 100 products: frame quiet inside", build_frame, MANY | QUIET_INSIDE, tree_searchers},
    {"tree, 100 products: frame mostly clear", build_frame, MANY | CLEAR, tree_searchers},
    {"tree, 100 products: frame mostly inside", build_frame, MANY | INSIDE, tree_searchers},
    {"tree, 100 products: frame toggling", build_frame, MANY | TOGGLING, tree_searchers},
    {"tree, 3 products: 500 frames", build_screen, FEW | CLEAR, tree_searchers},
    {"list, 3 products: frame quiet", build_frame, FEW | QUIET, list_searchers},
    {"list, 3 products: frame quiet inside", build_frame, FEW | QUIET_INSIDE, list_searchers},
    {"list, 3 products: frame mostly clear", build_frame, FEW | CLEAR, list_searchers},
    {"list, 3 products: frame mostly inside", build_frame, FEW | INSIDE, list_searchers},
    {"list, 3 products: frame toggling", build_frame, FEW | TOGGLING, list_searchers},
    {"list, 100 products: frame quiet", build_frame, MANY | QUIET, list_searchers},
    {"list, 100 products: frame quiet inside", build_frame, MANY | QUIET_INSIDE, list_searchers},
    {"list, 100 products: frame mostly clear", build_frame, MANY | CLEAR, list_searchers},
    {"list, 100 products: frame mostly inside", build_frame, MANY | INSIDE, list_searchers},
    {"list, 100 products: frame toggling", build_frame, MANY | TOGGLING, list_searchers},
    {"list, 3 products: 500 frames", build_screen, FEW | CLEAR, list_searchers},
    {"screen, 3 products: 500 frames of 1,000", build_wide_screen, FEW | CLEAR, screen_searchers},
    {"screen, 3 products: 500 frames of 10", build_narrow_screen, FEW | CLEAR, screen_searchers},
    {"screen, 100 products: 500 frames of 1,000", build_wide_screen, MANY | CLEAR, screen_searchers},
    {"screen, 100 products: 500 frames of 10", build_narrow_screen, MANY | CLEAR, screen_searchers},
    {"waterfall, 3 products: 1,000 frames", build_picture, FEW_FRAMES, drawers},
    {"waterfall, 3 products: 2,097,152 frames", build_picture, EVERY_FRAME, drawers},
    {"waterfall, 3 products: from 1,000 to 2,097,152", build_picture, FEW_TO_ALL_FRAMES, drawers},
    {"rewrite, eight unions of two", build_pairs, 8, rewriters},
    {"text: reading 127 rows", build_text, MIXED, readers},
    {"text: writing 127 rows", build_text, MIXED, writers},
    {"check: 127 rows", build_text, MIXED, checkers},
    {"check: 127 rows, all shapes triangles", build_text, TRIANGLES, checkers},
    {"tree, 8 triangles: frame quiet", build_frame, EYE | QUIET, tree_searchers},
    {"tree, 8 triangles: frame quiet inside", build_frame, EYE | QUIET_INSIDE, tree_searchers},
    {"tree, 8 triangles: frame mostly clear", build_frame, EYE | CLEAR, tree_searchers},
    {"tree, 8 triangles: frame mostly inside", build_frame, EYE | INSIDE, tree_searchers},
    {"tree, 8 triangles: frame toggling", build_frame, EYE | TOGGLING, tree_searchers},
    {"list, 8 triangles: frame quiet", build_frame, EYE | QUIET, list_searchers},
    {"list, 8 triangles: frame quiet inside", build_frame, EYE | QUIET_INSIDE, list_searchers},
    {"list, 8 triangles: frame mostly clear", build_frame, EYE | CLEAR, list_searchers},
    {"list, 8 triangles: frame mostly inside", build_frame, EYE | INSIDE, list_searchers},
    {"list, 8 triangles: frame toggling", build_frame, EYE | TOGGLING, list_searchers},
};

static struct load whole, half;
static struct result ours, theirs;

/* No work here earns a refusal, which would be quick. */
static void add(struct result *result, struct lampholly_answer answer)
{
    if (answer.refusal)
        abort();
    result->sum.value += answer.value;
    result->sum.count += answer.count;
}

static void search_frames(const struct rival *rival, const struct load *load, struct result *result)
{
    const struct table *t = &load->zone[0];
    for (size_t k = 0; k < load->frames; k++) {
        const int16_t *codes = load->code + k * load->samples;
        int32_t number = -(int32_t)k;
        if (rival->tree != NULL)
            add(result, rival->tree(t->word, t->words, codes, load->samples, load->first, number));
        else
            add(result, rival->list(t->word, t->words, load->list, load->list_words, codes, load->samples, load->first, number));
    }
}

static void search_screen(const struct rival *rival, const struct load *load, struct result *result)
{
    const struct table *t = &load->zone[0];
    add(result, rival->screen(t->word, t->words, load->list, load->list_words, load->code, load->frames * load->samples,
                              load->frames, load->first, 1 - (int32_t)load->frames, result->triples, LAMPHOLLY_TRIPLE_WORDS));
}

static void draw_picture(const struct rival *rival, const struct load *load, struct result *result)
{
    const struct table *t = &load->zone[0];
    add(result, rival->picture(t->word, t->words, load->list, load->list_words, load->rectangle, result->picture,
                               LAMPHOLLY_PICTURE_WORDS));
}

static void rewrite_tree(const struct rival *rival, const struct load *load, struct result *result)
{
    const struct table *t = &load->zone[0];
    add(result, rival->rewrite(t->word, t->words, result->tree, LAMPHOLLY_REWRITE_WORDS, result->work, LAMPHOLLY_REWRITE_WORDS));
}

static void run(const struct rival *rival, const struct load *load, struct result *result)
{
    const struct table *t = &load->zone[0];
    if (rival->check != NULL)
        add(result, rival->check(t->word, t->words));
    else if (rival->make != NULL)
        for (size_t i = 0; i < load->zones; i++)
            add(result, rival->make(t[i].word, t[i].words, load->window, result->list, LAMPHOLLY_LIST_WORDS));
    else if (rival->read != NULL)
        add(result, rival->read(load->text.byte, load->text.bytes, result->table, LAMPHOLLY_TABLE_WORDS));
    else if (rival->write != NULL)
        add(result, rival->write(t->word, t->words, result->text, LAMPHOLLY_TEXT_BYTES));
    else if (rival->screen != NULL)
        search_screen(rival, load, result);
    else if (rival->picture != NULL)
        draw_picture(rival, load, result);
    else if (rival->rewrite != NULL)
        rewrite_tree(rival, load, result);
    else
        search_frames(rival, load, result);
}

/* Every rival that does the same work must come to the same, or its time says nothing. */
static void must_agree(const struct work *work, const struct load *load)
{
    memset(&ours, 0, sizeof ours);
    run(&work->rivals[0], load, &ours);
    for (int r = 1; r < MOST_RIVALS && work->rivals[r].name != NULL; r++) {
        if (work->rivals[r].own_codes_only)
            continue;
        memset(&theirs, 0, sizeof theirs);
        run(&work->rivals[r], load, &theirs);
        if (memcmp(&ours, &theirs, sizeof ours) != 0) {
            printf("bench: %s: %s comes to something else\n", work->name, work->rivals[r].name);
            exit(1);
        }
    }
}

static double now(void)
{
    struct timespec time;
    clock_gettime(CLOCK_MONOTONIC, &time);
    return (double)time.tv_sec + 1e-9 * (double)time.tv_nsec;
}

/* Seconds for one run, over at least so many turns as make a stretch. */
static double stretch(const struct rival *rival, const struct load *load)
{
    double start = now(), end = start;
    int turns = 0;
    for (; end - start < LEAST_SECONDS; turns++) {
        run(rival, load, &ours);
        end = now();
    }
    return (end - start) / turns;
}

/* The rivals take turns, so that what else goes on hits all of them. */
static void measure(const struct work *work, const struct load *load, double best[MOST_RIVALS])
{
    for (int round = 0; round < ROUNDS; round++) {
        for (int r = 0; r < MOST_RIVALS && work->rivals[r].name != NULL; r++) {
            double seconds = stretch(&work->rivals[r], load);
            best[r] = round == 0 || seconds < best[r] ? seconds : best[r];
        }
    }
}

static void print_work(const struct work *work)
{
    double all[MOST_RIVALS], part[MOST_RIVALS];
    work->build(&whole, work->manner, 0);
    work->build(&half, work->manner, 1);
    must_agree(work, &whole);
    must_agree(work, &half);
    measure(work, &whole, all);
    measure(work, &half, part);
    for (int r = 1; r < MOST_RIVALS && work->rivals[r].name != NULL; r++)
        printf("%-46s %-24s %9.2f %9.2f %7.3f %7.2f %7.2f %7.2f\n", work->name, work->rivals[r].name, 1e6 * all[0], 1e6 * all[r],
               all[0] / all[r], all[0] / part[0], all[r] / part[r], whole.work / half.work);
}

static void print_head(void)
{
    printf("%-46s %-24s %9s %9s %7s %7s %7s %7s\n", "work", "peer", "ours us", "peer us", "ratio", "growth", "peer's", "work's");
}

int main(int argc, char **argv)
{
    const char *part = argc > 1 ? argv[1] : "";
    int measured = 0;
    for (size_t i = 0; i < sizeof works / sizeof works[0]; i++) {
        if (strstr(works[i].name, part) == NULL)
            continue;
        if (measured++ == 0)
            print_head();
        print_work(&works[i]);
    }
    if (measured == 0)
        printf("bench: no work has \"%s\" in its name\n", part);
    return measured == 0 ? 2 : 0;
}
