/* The story of docs/TRAINING.md: one window's list on its neighbour's frames. On x86-64, from the top of the repository:

       tools/archive
       cc -std=c99 -Iinclude examples/story.c target/staticlib/libzone_c.a -o target/story
       target/story

   prints what examples/story.out has. */
#include <inttypes.h>
#include <stdio.h>

#include "lampholly.h"

enum { TABLE_WORDS = 60, LIST_WORDS = 12, SAMPLES = 8 };

/* A - B, or C: examples/training/story.zone. */
static const char text[] = "zone\t5\n"
                           "box\t0\t15\t20\t60\t-9\t0\n"
                           "box\t9\t14\t20\t60\t-9\t0\n"
                           "diff\t0\t1\n"
                           "box\t8\t15\t-99\t-80\t-9\t0\n"
                           "union\t2\t3\n";
static int32_t table[TABLE_WORDS];
static uint64_t one[LIST_WORDS], two[LIST_WORDS];

static const int16_t ring[SAMPLES] = {0, 5, 45, 52, 40, 31, 5, 0};
static const int16_t spike[SAMPLES] = {0, -5, -5, -90, -5, -5, -5, 0};

static void show(const char *what, struct lampholly_answer answer)
{
    printf("%s: ", what);
    if (answer.refusal)
        printf("refused %" PRIu64 ", value %" PRIu64 "\n", answer.refusal, answer.value);
    else if (answer.count)
        printf("hit, first at %" PRIu64 ", %" PRIu64 " inside\n", answer.value, answer.count);
    else
        printf("clear\n");
}

static void show_list(const char *what, const uint64_t *list)
{
    printf("%s:", what);
    for (uint64_t k = 0; k < list[0]; k++)
        printf(" (%" PRIu64 ",%" PRIu64 ")", list[8 + 2 * k], list[8 + 2 * k + 1]);
    printf("\n");
}

/* A frame in frame number 0, by a list. */
static struct lampholly_answer search(const uint64_t *list, const int16_t *samples, int32_t first)
{
    return lampholly_list_search(table, TABLE_WORDS, list, LIST_WORDS, samples, SAMPLES, first, 0);
}

int main(void)
{
    struct lampholly_window first = {0, 7, -99, 99, -9, 0}, second = {8, 15, -99, 99, -9, 0};

    lampholly_read_text((const uint8_t *)text, sizeof text - 1, table, TABLE_WORDS);
    lampholly_make_list(table, TABLE_WORDS, first, one, LIST_WORDS);
    lampholly_make_list(table, TABLE_WORDS, second, two, LIST_WORDS);
    show_list("list of window 1", one);
    show_list("list of window 2", two);

    show("ring,  tree  ", lampholly_tree_search(table, TABLE_WORDS, ring, SAMPLES, 8, 0));
    show("ring,  list 2", search(two, ring, 8));
    show("ring,  list 1", search(one, ring, 8));
    show("spike, list 2", search(two, spike, 8));
    show("spike, list 1", search(one, spike, 8));
    show("ring from column 4, list 1", search(one, ring, 4));

    one[1] = two[1]; /* a program without the check: */
    one[2] = two[2]; /* list 1's products, under window 2's columns */
    show("ring,  list 1 unchecked", search(one, ring, 8));
    show("spike, list 1 unchecked", search(one, spike, 8));
    return 0;
}
