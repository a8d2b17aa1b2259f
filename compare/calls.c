/* One call, asked of plain and of the library; on any difference in the answer or in a lent buffer the test ends. */
#include <inttypes.h>
#include <signal.h>
#include <stdio.h>
#include <stdlib.h>

#include "differ.h"

/* A buffer as it is lent to the library, and what it must hold afterwards. */
struct loan {
    struct lent lent;
    const void *content;
    void *at;
};

static struct loan table, list, codes, text, triples, picture, tree, work;

/* What plain writes into; filled with chance first, so that each byte that must stay is seen to stay. */
static int32_t wanted_table[TABLE_ROOM];
static uint64_t wanted_list[LIST_ROOM];
static uint8_t wanted_text[TEXT_ROOM];
static uint32_t wanted_triples[TRIPLES_ROOM];
static int32_t wanted_picture[PICTURE_ROOM];
static int32_t wanted_tree[AREA_ROOM], wanted_work[AREA_ROOM];

static uint64_t seed_now, case_now;
static const struct question *asked;

static void end_here(void)
{
    printf("differ: %s, seed %" PRIu64 ", case %" PRIu64, call_name[asked->call], seed_now, case_now);
    printf(" (`compare/run %" PRIu64 " 1 %" PRIu64 "` runs it alone)\n", seed_now, case_now);
    show_question(asked);
    exit(1);
}

static void end_by_signal(int number)
{
    printf("differ: %s\n", number == SIGFPE ? "a division by zero" : "what was not lent was touched");
    end_here();
}

void open_calls(uint64_t seed)
{
    seed_now = seed;
    signal(SIGSEGV, end_by_signal);
    signal(SIGBUS, end_by_signal);
    signal(SIGFPE, end_by_signal);
    open_lent(&table.lent, sizeof wanted_table);
    open_lent(&list.lent, sizeof wanted_list);
    open_lent(&codes.lent, SCREEN_ROOM * sizeof(int16_t));
    open_lent(&text.lent, sizeof wanted_text);
    open_lent(&triples.lent, sizeof wanted_triples);
    open_lent(&picture.lent, sizeof wanted_picture);
    open_lent(&tree.lent, sizeof wanted_tree);
    open_lent(&work.lent, sizeof wanted_work);
}

void begin_case(uint64_t number)
{
    case_now = number;
    start_case(seed_now, number);
}

static void lend_to_read(struct loan *loan, const void *content, size_t bytes)
{
    loan->content = content;
    loan->at = lend(&loan->lent, content, bytes);
}

static void lend_to_write(struct loan *loan, void *wanted, size_t bytes)
{
    fill(wanted, bytes);
    lend_to_read(loan, wanted, bytes);
}

static void lend_codes(const struct frame *frame, const struct screen *screen)
{
    if (screen != NULL)
        lend_to_read(&codes, screen->code, screen->samples * sizeof screen->code[0]);
    else
        lend_to_read(&codes, frame ? frame->code : NULL, frame ? frame->samples * sizeof frame->code[0] : 0);
}

/* A buffer that the call does not take is lent with no bytes. */
static void lend_all(const struct question *q)
{
    if (q->call == READ_TEXT)
        lend_to_write(&table, wanted_table, q->room * sizeof wanted_table[0]);
    else
        lend_to_read(&table, q->table->word, q->table->words * sizeof q->table->word[0]);
    if (q->call == MAKE_LIST)
        lend_to_write(&list, wanted_list, q->room * sizeof wanted_list[0]);
    else
        lend_to_read(&list, q->list ? q->list->word : NULL, q->list ? q->list->words * sizeof q->list->word[0] : 0);
    if (q->call == WRITE_TEXT)
        lend_to_write(&text, wanted_text, q->room);
    else
        lend_to_read(&text, q->text ? q->text->byte : NULL, q->text ? q->text->bytes : 0);
    lend_codes(q->frame, q->screen);
    lend_to_write(&triples, wanted_triples, q->call == LIST_SEARCH_FRAMES ? q->room * sizeof wanted_triples[0] : 0);
    lend_to_write(&picture, wanted_picture, q->call == LIST_WATERFALL ? q->room * sizeof wanted_picture[0] : 0);
    lend_to_write(&tree, wanted_tree, q->call == REWRITE ? q->room * sizeof wanted_tree[0] : 0);
    lend_to_write(&work, wanted_work, q->call == REWRITE ? q->work_room * sizeof wanted_work[0] : 0);
}

static struct plain_window as_plain(struct lampholly_window w)
{
    struct plain_window window = {w.xlo, w.xhi, w.ylo, w.yhi, w.zlo, w.zhi};
    return window;
}

static struct plain_answer ask_plain_waterfall(const struct question *q)
{
    struct plain_rectangle rectangle = {q->rectangle.xlo, q->rectangle.xhi, q->rectangle.ylo, q->rectangle.yhi};
    return plain_list_waterfall(q->table->word, q->table->words, q->list->word, q->list->words, rectangle,
                                wanted_picture, q->room);
}

static struct plain_answer ask_plain(const struct question *q)
{
    const struct table *t = q->table;
    const struct list *l = q->list;
    const struct frame *f = q->frame;
    const struct screen *s = q->screen;
    const int32_t *p = q->point.at;
    switch (q->call) {
    case CHECK: return plain_check(t->word, t->words);
    case TREE_POINT: return plain_tree_point(t->word, t->words, p[0], p[1], p[2]);
    case TREE_SEARCH: return plain_tree_search(t->word, t->words, f->code, f->samples, f->first, f->number);
    case MAKE_LIST: return plain_make_list(t->word, t->words, as_plain(q->window), wanted_list, q->room);
    case LIST_POINT: return plain_list_point(t->word, t->words, l->word, l->words, p[0], p[1], p[2]);
    case LIST_SEARCH:
        return plain_list_search(t->word, t->words, l->word, l->words, f->code, f->samples, f->first, f->number);
    case LIST_SEARCH_FRAMES:
        return plain_list_search_frames(t->word, t->words, l->word, l->words, s->code, s->samples, s->frames,
                                        s->first, s->number, wanted_triples, q->room);
    case LIST_WATERFALL: return ask_plain_waterfall(q);
    case REWRITE:
        return plain_rewrite(t->word, t->words, wanted_tree, q->room, wanted_work, q->work_room, tally_rewrite);
    case READ_TEXT: return plain_read_text(q->text->byte, q->text->bytes, wanted_table, q->room);
    default: return plain_write_text(t->word, t->words, wanted_text, q->room);
    }
}

static struct lampholly_answer ask_library(const struct question *q)
{
    const struct table *t = q->table;
    const struct list *l = q->list;
    const struct frame *f = q->frame;
    const struct screen *s = q->screen;
    const int32_t *p = q->point.at;
    switch (q->call) {
    case CHECK: return lampholly_check(table.at, t->words);
    case TREE_POINT: return lampholly_tree_point(table.at, t->words, p[0], p[1], p[2]);
    case TREE_SEARCH: return lampholly_tree_search(table.at, t->words, codes.at, f->samples, f->first, f->number);
    case MAKE_LIST: return lampholly_make_list(table.at, t->words, q->window, list.at, q->room);
    case LIST_POINT: return lampholly_list_point(table.at, t->words, list.at, l->words, p[0], p[1], p[2]);
    case LIST_SEARCH:
        return lampholly_list_search(table.at, t->words, list.at, l->words, codes.at, f->samples, f->first, f->number);
    case LIST_SEARCH_FRAMES:
        return lampholly_list_search_frames(table.at, t->words, list.at, l->words, codes.at, s->samples, s->frames,
                                            s->first, s->number, triples.at, q->room);
    case LIST_WATERFALL:
        return lampholly_list_waterfall(table.at, t->words, list.at, l->words, q->rectangle, picture.at, q->room);
    case REWRITE: return lampholly_rewrite(table.at, t->words, tree.at, q->room, work.at, q->work_room);
    case READ_TEXT: return lampholly_read_text(text.at, q->text->bytes, table.at, q->room);
    default: return lampholly_write_text(table.at, t->words, text.at, q->room);
    }
}

/* What is wrong with the outcome, NULL for nothing. */
static const char *fault(struct plain_answer want, struct lampholly_answer got)
{
    static const struct {
        const struct loan *loan;
        const char *fault;
    } loans[] = {
        {&table, "the table's buffer differs"},     {&list, "the list's buffer differs"},
        {&codes, "the codes' buffer differs"},      {&triples, "the triples' buffer differs"},
        {&picture, "the picture's buffer differs"}, {&tree, "the finished tree's buffer differs"},
        {&work, "the work area differs"},           {&text, "the text's buffer differs"},
    };
    if (want.refusal != got.refusal || want.value != got.value || want.count != got.count)
        return "the answers differ";
    for (size_t i = 0; i < sizeof loans / sizeof loans[0]; i++)
        if (!holds(&loans[i].loan->lent, loans[i].loan->content))
            return loans[i].fault;
    return NULL;
}

/* A frame of the screen by the library's single call. Where its number leaves 32 bits, any that is out of range will do. */
static struct lampholly_answer ask_alone(const struct question *q, size_t j)
{
    const struct screen *s = q->screen;
    size_t length = s->samples / s->frames;
    const int16_t *part = length > 0 ? (const int16_t *)codes.at + j * length : codes.at;
    int32_t number = (int32_t)clamped((int64_t)s->number + (int64_t)j, INT32_MIN, INT32_MAX);
    return lampholly_list_search(table.at, q->table->words, list.at, q->list->words, part, length, s->first, number);
}

static int tells(const uint32_t *triple, struct lampholly_answer alone)
{
    uint64_t found = alone.count > 0 ? TOLD_HIT : TOLD_CLEAR;
    return triple[TRIPLE_TOLD] == (alone.refusal != 0 ? TOLD_REFUSED + alone.refusal : found)
        && triple[TRIPLE_VALUE] == alone.value && triple[TRIPLE_COUNT] == alone.count;
}

/* Each triple that was written must tell what the library answers of its frame alone. */
static void ask_each_frame(const struct question *q)
{
    for (size_t j = 0; j < q->screen->frames; j++) {
        const uint32_t *triple = (const uint32_t *)triples.at + TRIPLE_WORDS * j;
        struct lampholly_answer alone = ask_alone(q, j);
        if (!tells(triple, alone)) {
            printf("differ: frame %zu of the screen, counted from 0, has the triple", j);
            printf(" %" PRIu32 " %" PRIu32 " %" PRIu32, triple[TRIPLE_TOLD], triple[TRIPLE_VALUE], triple[TRIPLE_COUNT]);
            printf("; alone it is %" PRIu64 " %" PRIu64 " %" PRIu64 "\n", alone.refusal, alone.value, alone.count);
            end_here();
        }
        tally_triple(triple);
    }
}

void ask(struct question question)
{
    asked = &question;
    lend_all(&question);
    struct plain_answer want = ask_plain(&question);
    struct lampholly_answer got = ask_library(&question);
    const char *what = fault(want, got);
    if (what != NULL) {
        printf("differ: %s: plain %" PRIu64 " %" PRIu64 " %" PRIu64, what, want.refusal, want.value, want.count);
        printf(", library %" PRIu64 " %" PRIu64 " %" PRIu64 "\n", got.refusal, got.value, got.count);
        end_here();
    }
    if (question.call == LIST_SEARCH_FRAMES && want.refusal == 0)
        ask_each_frame(&question);
    if (question.call == LIST_WATERFALL && want.refusal == 0)
        tally_picture(&question, wanted_picture);
    if (question.call == REWRITE && want.refusal == 0)
        tally_finished(wanted_tree, want.value);
    tally(&question, want);
}
