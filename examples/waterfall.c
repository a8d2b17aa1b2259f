/* Draws the waterfall picture of a zone: reads its text, makes its list for a window, and writes a grey PGM picture to standard
   output. The newer the newest frame that a place has in the zone, the brighter it is; black has none. On x86-64, from the top of
   the repository:

       tools/archive
       cc -std=c99 -Iinclude examples/waterfall.c target/staticlib/libzone_c.a -o target/waterfall
       target/waterfall examples/waterfall.zone > target/waterfall.pgm

   writes what examples/waterfall.pgm has. Behind the zone may stand ZLO ZHI XLO XHI YLO YHI, or the first few of them: the frames
   of the window, and the columns and codes of the picture, of each at most 128. */
#include <inttypes.h>
#include <stdio.h>
#include <stdlib.h>

#include "lampholly.h"

enum { ZLO, ZHI, XLO, XHI, YLO, YHI, BOUNDS };
enum { BLACK = 0, DARKEST = 55, BRIGHTEST = 255 };

static uint8_t text[LAMPHOLLY_TEXT_BYTES + 1]; /* one more, so that a longer text is refused and not cut */
static int32_t table[LAMPHOLLY_TABLE_WORDS];
static uint64_t list[LAMPHOLLY_LIST_WORDS];
static int32_t picture[LAMPHOLLY_PICTURE_WORDS];

static int refused(const char *call, struct lampholly_answer answer)
{
    if (answer.refusal)
        fprintf(stderr, "%s: refused %" PRIu64 ", value %" PRIu64 "\n", call, answer.refusal, answer.value);
    return answer.refusal != 0;
}

/* What is no number of 32 bits becomes one that is in no range, so that it is refused. */
static int32_t bound_of(const char *argument)
{
    char *end;
    long value = strtol(argument, &end, 10);
    return end == argument || *end != '\0' || value < INT32_MIN || value > INT32_MAX ? INT32_MIN : (int32_t)value;
}

/* From the window's oldest frame to its newest, all brighter than black. */
static int grey(int32_t frame, int64_t oldest, int64_t newest)
{
    if (frame == LAMPHOLLY_NO_FRAME)
        return BLACK;
    return oldest == newest ? BRIGHTEST : (int)(DARKEST + (BRIGHTEST - DARKEST) * (frame - oldest) / (newest - oldest));
}

int main(int argc, char **argv)
{
    int32_t bound[BOUNDS] = {-99, 0, 0, 127, -64, 63};
    for (int i = 2; i < argc && i - 2 < BOUNDS; i++)
        bound[i - 2] = bound_of(argv[i]);
    struct lampholly_window window = {bound[XLO], bound[XHI], bound[YLO], bound[YHI], bound[ZLO], bound[ZHI]};
    struct lampholly_rectangle rectangle = {bound[XLO], bound[XHI], bound[YLO], bound[YHI]};
    FILE *file = argc > 1 ? fopen(argv[1], "rb") : stdin;
    size_t bytes = file == NULL ? 0 : fread(text, 1, sizeof text, file);

    struct lampholly_answer read = lampholly_read_text(text, bytes, table, LAMPHOLLY_TABLE_WORDS);
    if (refused("read", read))
        return 1;
    struct lampholly_answer made = lampholly_make_list(table, read.value, window, list, LAMPHOLLY_LIST_WORDS);
    if (refused("list", made))
        return 1;
    struct lampholly_answer drawn = lampholly_list_waterfall(table, read.value, list, made.value, rectangle,
                                                             picture, LAMPHOLLY_PICTURE_WORDS);
    if (refused("waterfall", drawn))
        return 1;

    printf("P5\n%" PRId32 " %" PRId32 "\n255\n", window.xhi - window.xlo + 1, window.yhi - window.ylo + 1);
    for (uint64_t i = 0; i < drawn.value; i++)
        putchar(grey(picture[i], window.zlo, window.zhi));
    return 0;
}
