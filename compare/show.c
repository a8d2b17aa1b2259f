/* Prints the question on which plain and the library differ. */
#include <inttypes.h>
#include <stdio.h>

#include "differ.h"

/* Of a long buffer the first few will do; the case can be run again. */
#define SHOWN 48

static size_t shown(size_t count)
{
    return count < SHOWN ? count : SHOWN;
}

static void show_table(const struct table *table)
{
    printf("table of %zu words", table->words);
    for (size_t i = 0; i < table->words; i++)
        printf("%s%" PRId32, i % ROW_WORDS == 0 ? "\n  " : " ", table->word[i]);
    printf("\n");
}

static void show_list(const struct list *list)
{
    printf("list of %zu words\n ", list->words);
    for (size_t i = 0; i < shown(list->words); i++)
        printf(" %" PRIu64, list->word[i]);
    printf("\n");
}

static void show_frame(const struct frame *frame)
{
    printf("frame %" PRId32 " of %zu samples from column %" PRId32 "\n ", frame->number, frame->samples, frame->first);
    for (size_t k = 0; k < shown(frame->samples); k++)
        printf(" %d", frame->code[k]);
    printf("\n");
}

static void show_screen(const struct screen *screen)
{
    printf("%zu frames from %" PRId32 " on, of %zu samples together", screen->frames, screen->number, screen->samples);
    printf(", from column %" PRId32 "\n ", screen->first);
    for (size_t k = 0; k < shown(screen->samples); k++)
        printf(" %d", screen->code[k]);
    printf("\n");
}

static int is_shown_as_is(uint8_t byte)
{
    return byte == '\t' || byte == '\n' || (byte >= ' ' && byte < 127);
}

/* A bar ends it, so that a missing line feed is seen. */
static void show_text(const struct text *text)
{
    printf("text of %zu bytes\n", text->bytes);
    for (size_t i = 0; i < text->bytes; i++)
        printf(is_shown_as_is(text->byte[i]) ? "%c" : "\\%03o", text->byte[i]);
    printf("|\n");
}

void show_question(const struct question *q)
{
    if (q->call != READ_TEXT)
        show_table(q->table);
    if (q->list != NULL)
        show_list(q->list);
    if (q->frame != NULL)
        show_frame(q->frame);
    if (q->screen != NULL)
        show_screen(q->screen);
    if (q->text != NULL)
        show_text(q->text);
    if (q->call == TREE_POINT || q->call == LIST_POINT)
        printf("point %" PRId32 " %" PRId32 " %" PRId32 "\n", q->point.at[0], q->point.at[1], q->point.at[2]);
    if (q->call == MAKE_LIST)
        printf("window %" PRId32 "..%" PRId32 " %" PRId32 "..%" PRId32 " %" PRId32 "..%" PRId32 "\n", q->window.xlo,
               q->window.xhi, q->window.ylo, q->window.yhi, q->window.zlo, q->window.zhi);
    if (q->call == LIST_WATERFALL)
        printf("rectangle %" PRId32 "..%" PRId32 " %" PRId32 "..%" PRId32 "\n", q->rectangle.xlo, q->rectangle.xhi,
               q->rectangle.ylo, q->rectangle.yhi);
    if (q->call == MAKE_LIST || q->call == READ_TEXT || q->call == WRITE_TEXT || q->call == LIST_SEARCH_FRAMES
        || q->call == LIST_WATERFALL || q->call == REWRITE)
        printf("room %zu\n", q->room);
    if (q->call == REWRITE)
        printf("room for work %zu\n", q->work_room);
}
