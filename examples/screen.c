/* Reads a zone text, makes its list and searches a screenful of frames in one call. On x86-64, from the top of the repository:

       tools/archive
       cc -std=c99 -Iinclude examples/screen.c target/staticlib/libzone_c.a -o target/screen
       target/screen examples/runt.zone

   prints what examples/screen.out has: one pulse is a runt, and one is too high for the window. */
#include <inttypes.h>
#include <stdio.h>

#include "lampholly.h"

enum { FRAMES = 8, SAMPLES = 21, OLDEST = -7 };
#define FLAT(code) code, code, code, code, code, code, code, code, code, code, code
#define FULL {0, 2000, 4000, 6000, 8000, FLAT(8000), 8000, 6000, 4000, 2000, 0}
#define RUNT {0, 2000, 4000, 4000, 4000, FLAT(4000), 4000, 4000, 4000, 2000, 0}
#define HIGH {0, 2000, 4000, 6000, 8000, FLAT(9000), 8000, 6000, 4000, 2000, 0}

static uint8_t text[LAMPHOLLY_TEXT_BYTES + 1]; /* one more, so that a longer text is refused and not cut */
static int32_t table[LAMPHOLLY_TABLE_WORDS];
static uint64_t list[LAMPHOLLY_LIST_WORDS];
static const int16_t codes[FRAMES][SAMPLES] = {FULL, FULL, RUNT, FULL, FULL, HIGH, FULL, FULL};
static uint32_t triples[FRAMES][3];

int main(int argc, char **argv)
{
    struct lampholly_window window = {100, 120, 0, 8191, -50, 0};
    FILE *file = argc > 1 ? fopen(argv[1], "rb") : stdin;
    size_t bytes = file == NULL ? 0 : fread(text, 1, sizeof text, file);
    struct lampholly_answer read = lampholly_read_text(text, bytes, table, LAMPHOLLY_TABLE_WORDS);
    if (read.refusal)
        return 1;
    struct lampholly_answer made = lampholly_make_list(table, read.value, window, list, LAMPHOLLY_LIST_WORDS);
    if (made.refusal)
        return 1;
    if (lampholly_list_search_frames(table, read.value, list, made.value, codes[0], FRAMES * SAMPLES, FRAMES, 100, OLDEST,
                                     triples[0], 3 * FRAMES).refusal)
        return 1;
    for (int j = 0; j < FRAMES; j++) {
        printf("frame %d: ", OLDEST + j);
        if (triples[j][0] == 0)
            printf("clear\n");
        else if (triples[j][0] == 1)
            printf("hit, first at position %" PRIu32 ", %" PRIu32 " samples inside\n", triples[j][1], triples[j][2]);
        else
            printf("refused %" PRIu32 ", value %" PRIu32 "\n", triples[j][0] - 100, triples[j][1]);
    }
    return 0;
}
