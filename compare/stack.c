/* How much stack each call takes: it is made on a stack of its own, and what it has overwritten there is counted. A panel's
   processor has 2 KiB: where writing text takes over half of that, the exit status is 1. So it is where a search takes 4 KiB. */
#include <stdio.h>
#include <stdlib.h>
#include <string.h>

#include "lampholly.h"
#include "rules.h"

#define STACK_BYTES 65536
#define PANEL_BYTES 2048
#define SEARCH_BYTES 4096

/* From this column and frame on it is searched: there every primitive has codes, and no wedge, drum or triangle has them all. */
#define COLUMN (-28672)
#define FRAME 94208
#define FRAMES 2
#define SAMPLES 6

/* From this column on and up to this code a picture is drawn: there every primitive has frames, and no wedge has them all. */
#define CODE (LEAST_CODE + GREATEST_RADIUS)
#define SIDE 4

/* So many rows have the chains that are rewritten. */
#define SMALL_ROWS (2 * MOST_REWRITE_PRIMITIVES - 1)

static unsigned char stack[STACK_BYTES] __attribute__((aligned(16)));

/* What the calls are lent. In each of two frames an edge goes up over all codes, and one comes down. */
static int32_t table[MOST_TABLE_WORDS], read_table[MOST_TABLE_WORDS];
static int32_t left_chain[ROW_WORDS * SMALL_ROWS], right_chain[ROW_WORDS * SMALL_ROWS];
static int32_t tree[REWRITE_WORDS], work[REWRITE_WORDS];
static uint64_t list[HEADER_WORDS + PRODUCT_WORDS * MOST_PRIMITIVES];
static const int16_t codes[SAMPLES] = {LEAST_CODE, GREATEST_CODE, LEAST_CODE, LEAST_CODE, GREATEST_CODE, LEAST_CODE};
static uint32_t triples[FRAMES * TRIPLE_WORDS];
static const struct lampholly_rectangle rectangle = {COLUMN, COLUMN + SIDE - 1, CODE - SIDE + 1, CODE};
static int32_t picture[SIDE * SIDE];
static uint8_t text[MOST_TEXT_BYTES];
static size_t list_length, text_length;
static const struct lampholly_window full = {FULL_RANGE};

static struct lampholly_answer answer;

static void check(void)
{
    answer = lampholly_check(table, MOST_TABLE_WORDS);
}

static void tree_point(void)
{
    answer = lampholly_tree_point(table, MOST_TABLE_WORDS, 0, 0, 0);
}

static void tree_search(void)
{
    answer = lampholly_tree_search(table, MOST_TABLE_WORDS, codes, SAMPLES, COLUMN, FRAME);
}

static void make_list(void)
{
    answer = lampholly_make_list(table, MOST_TABLE_WORDS, full, list, sizeof list / sizeof list[0]);
}

static void list_point(void)
{
    answer = lampholly_list_point(table, MOST_TABLE_WORDS, list, list_length, 0, 0, 0);
}

static void list_search(void)
{
    answer = lampholly_list_search(table, MOST_TABLE_WORDS, list, list_length, codes, SAMPLES, COLUMN, FRAME);
}

static void list_search_frames(void)
{
    answer = lampholly_list_search_frames(table, MOST_TABLE_WORDS, list, list_length, codes, SAMPLES, FRAMES, COLUMN, FRAME,
                                          triples, sizeof triples / sizeof triples[0]);
}

static void list_waterfall(void)
{
    answer = lampholly_list_waterfall(table, MOST_TABLE_WORDS, list, list_length, rectangle, picture, SIDE * SIDE);
}

/* Both chains, one after the other: what the deeper one takes is counted. */
static void rewrite(void)
{
    answer = lampholly_rewrite(left_chain, table_words(SMALL_ROWS), tree, REWRITE_WORDS, work, REWRITE_WORDS);
    if (!answer.refusal)
        answer = lampholly_rewrite(right_chain, table_words(SMALL_ROWS), tree, REWRITE_WORDS, work, REWRITE_WORDS);
}

static void write_text(void)
{
    answer = lampholly_write_text(table, MOST_TABLE_WORDS, text, sizeof text);
}

static void read_text(void)
{
    answer = lampholly_read_text(text, text_length, read_table, MOST_TABLE_WORDS);
}

/* Each with the most that it may take; what is held to nothing may take all. */
static const struct work {
    const char *name;
    void (*call)(void);
    size_t most;
} works[] = {
    {"check", check, STACK_BYTES},
    {"tree_point", tree_point, STACK_BYTES},
    {"tree_search", tree_search, SEARCH_BYTES - 1},
    {"make_list", make_list, STACK_BYTES},
    {"list_point", list_point, STACK_BYTES},
    {"list_search", list_search, SEARCH_BYTES - 1},
    {"list_search_frames", list_search_frames, SEARCH_BYTES - 1},
    {"list_waterfall", list_waterfall, STACK_BYTES},
    {"rewrite", rewrite, STACK_BYTES},
    {"read_text", read_text, STACK_BYTES},
    {"write_text", write_text, PANEL_BYTES / 2},
};

/* Each with the longest numbers that the rules let pass. */
enum { BOXES, WEDGES, DRUMS, TRIANGLES, CHAINS };

static const int32_t primitive[CHAINS][ROW_WORDS] = {
    [BOXES] = {BOX, FULL_RANGE},
    [WEDGES] = {WEDGE, FULL_RANGE, LEAST_SLOPE, LEAST_SLOPE, LEAST_SLOPE, INT32_MIN},
    [DRUMS] = {DRUM, LEAST_COLUMN + GREATEST_RADIUS, LEAST_CODE + GREATEST_RADIUS, GREATEST_RADIUS, GREATEST_RADIUS, ALL_FRAMES},
    [TRIANGLES] = {TRIANGLE, LEAST_COLUMN, LEAST_CODE, LEAST_COLUMN, GREATEST_CODE, GREATEST_COLUMN, LEAST_CODE, ALL_FRAMES},
};

/* So many rows: that primitive over and over, and that operation in a chain that leans to the left or to the right. */
static void put_chain(int32_t *rows, int32_t count, int chain, int32_t operation, int leans_right)
{
    for (int32_t row = 0; row < count; row++) {
        int32_t *word = rows + table_words((size_t)row);
        memset(word, 0, ROW_WORDS * sizeof word[0]);
        if (row < 2 || row % 2 == 1) {
            memcpy(word, primitive[chain], sizeof primitive[chain]);
        } else {
            word[KIND] = operation;
            word[leans_right ? RIGHT : LEFT] = row == 2 ? 0 : row - 2;
            word[leans_right ? LEFT : RIGHT] = row - 1;
        }
    }
}

/* Makes the call with the stack pointer at the end of the stack. */
static void call_there(void (*call)(void))
{
    __asm__ volatile("movq %%rsp, %%rbx\n\tmovq %0, %%rsp\n\tcall *%1\n\tmovq %%rbx, %%rsp"
                     :
                     : "r"(stack + STACK_BYTES), "r"(call)
                     : "rax", "rbx", "rcx", "rdx", "rsi", "rdi", "r8", "r9", "r10", "r11", "xmm0", "xmm1", "xmm2", "xmm3",
                       "xmm4", "xmm5", "xmm6", "xmm7", "xmm8", "xmm9", "xmm10", "xmm11", "xmm12", "xmm13", "xmm14", "xmm15",
                       "memory", "cc");
}

/* A byte that the call happens to leave as it was filled is not seen, so the stack is filled twice, with different bytes. */
static size_t taken(void (*call)(void))
{
    size_t most = 0;
    for (int fill = 0x55; fill <= 0xaa; fill += 0x55) {
        size_t untouched = 0;
        memset(stack, fill, sizeof stack);
        call_there(call);
        if (answer.refusal)
            abort();
        while (untouched < STACK_BYTES && stack[untouched] == fill)
            untouched++;
        if (STACK_BYTES - untouched > most)
            most = STACK_BYTES - untouched;
    }
    return most;
}

/* The calls that ask a list or read a text need one. */
static void prepare(int chain, int32_t operation)
{
    put_chain(table, MOST_ROWS, chain, operation, 0);
    put_chain(left_chain, SMALL_ROWS, chain, operation, 0);
    put_chain(right_chain, SMALL_ROWS, chain, operation, 1);
    make_list();
    list_length = answer.value;
    write_text();
    text_length = answer.value;
}

/* Unions are hit early; of differences nothing is left, so that a search goes through every column to its end, and a picture
   through every place. */
static size_t most_taken(void (*call)(void), int chain)
{
    prepare(chain, UNION);
    size_t by_unions = taken(call);
    prepare(chain, DIFF);
    size_t by_differences = taken(call);
    return by_unions > by_differences ? by_unions : by_differences;
}

int main(void)
{
    int fits = 1;
    printf("%-20s %9s %9s %9s %9s\n", "call", "boxes", "wedges", "drums", "triangles");
    for (size_t i = 0; i < sizeof works / sizeof works[0]; i++) {
        printf("%-20s", works[i].name);
        for (int chain = 0; chain < CHAINS; chain++) {
            size_t bytes = most_taken(works[i].call, chain);
            printf(" %9zu", bytes);
            if (bytes > works[i].most)
                fits = 0;
        }
        printf("\n");
    }
    return fits ? 0 : 1;
}
