/* Reads a zone text, makes its list for a window and searches a frame by that list. On x86-64, from the top of the repository:

       tools/archive
       cc -std=c99 -Iinclude examples/search.c target/staticlib/libzone_c.a -o target/search
       target/search examples/q.zone

   prints `hit: first at position 8, 7 samples inside`. */
#include <inttypes.h>
#include <stdio.h>

#include "lampholly.h"

static uint8_t text[LAMPHOLLY_TEXT_BYTES + 1]; /* one more, so that a longer text is refused and not cut */
static int32_t table[LAMPHOLLY_TABLE_WORDS];
static uint64_t list[LAMPHOLLY_LIST_WORDS];
static const int16_t codes[40] = {0}; /* a quiet frame: the code 0 in columns 0 to 39 */

static int refused(const char *call, struct lampholly_answer answer)
{
    if (answer.refusal)
        printf("%s: refused %" PRIu64 ", value %" PRIu64 "\n", call, answer.refusal, answer.value);
    return answer.refusal != 0;
}

int main(int argc, char **argv)
{
    struct lampholly_window window = {-100, 100, -2048, 2047, -15, 0};
    FILE *file = argc > 1 ? fopen(argv[1], "rb") : stdin;
    if (file == NULL)
        return 1;
    size_t bytes = fread(text, 1, sizeof text, file);

    struct lampholly_answer read = lampholly_read_text(text, bytes, table, LAMPHOLLY_TABLE_WORDS);
    if (refused("read", read))
        return 1;
    struct lampholly_answer made = lampholly_make_list(table, read.value, window, list, LAMPHOLLY_LIST_WORDS);
    if (refused("list", made))
        return 1;
    struct lampholly_answer found = lampholly_list_search(table, read.value, list, made.value, codes, 40, 0, 0);
    if (refused("search", found))
        return 1;

    if (found.count)
        printf("hit: first at position %" PRIu64 ", %" PRIu64 " samples inside\n", found.value, found.count);
    else
        printf("clear\n");
    return 0;
}
