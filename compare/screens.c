/* Random screens: frames of one length, end to end, whose numbers rise over the edges of a zone, a window and the range. */
#include <string.h>

#include "inputs.h"

#define FEW_FRAMES 8

/* Mostly a few; sometimes as many as may be, or one more. */
static size_t any_frames(void)
{
    if (one_in(40))
        return (size_t)between(MOST_FRAMES - 1, MOST_FRAMES + 1);
    return (size_t)between(1, FEW_FRAMES);
}

/* Many frames are short; one or two may be as long as can be, or too long. */
static size_t any_length(size_t frames)
{
    if (frames > FEW_FRAMES)
        return (size_t)between(0, 3);
    if (frames <= 2 && one_in(40))
        return (size_t)ONE_OF(MOST_SAMPLES, MOST_SAMPLES + 1, MOST_SAMPLES + 1);
    return one_in(12) ? 0 : (size_t)between(1, 60);
}

/* Of the first frame, so that a later one may meet the aim, or the run of numbers an end of the range or of 32 bits. */
static int64_t any_start(size_t frames, const struct table *table, struct lampholly_window window)
{
    int64_t run = (int64_t)frames, least = limits[Z].least, greatest = limits[Z].greatest;
    int64_t start = any_number(table, window) - (int64_t)below(frames);
    if (one_in(8))
        start = ONE_OF(least - run, least - run + 1, least - 2, least - 1, least, greatest - run + 1, greatest - run + 2,
                       greatest - 1, greatest, greatest + 1, INT32_MAX - run + 1, INT32_MAX - 1, INT32_MAX, INT32_MIN);
    return clamped(start, INT32_MIN, INT32_MAX);
}

/* Another number of frames than the codes are for: none, a little off, or so large that three times it leaves a word. */
static void miscount(struct screen *screen)
{
    const size_t past_32_bits = (size_t)UINT32_MAX + 1, third = SIZE_MAX / TRIPLE_WORDS;
    const size_t counts[] = {
        0, 0, screen->frames + 1, screen->frames - 1, MOST_FRAMES + 1, 2 * MOST_FRAMES,
        past_32_bits, past_32_bits + screen->frames, third, third + 1, third + 2, SIZE_MAX,
    };
    screen->frames = counts[below(sizeof counts / sizeof counts[0])];
    if (one_in(3))
        screen->samples = 0;
}

/* All its frames together have as much for their edges as one frame. */
void any_screen(struct screen *screen, const struct table *table, struct lampholly_window window, size_t list_words)
{
    size_t frames = any_frames(), length = any_length(frames), rest = one_in(12) ? below(frames) : 0;
    screen->frames = frames;
    screen->samples = frames * length + rest;
    screen->first = (int32_t)any_first(length, table, window);
    screen->number = (int32_t)any_start(frames, table, window);
    start_edges(table, list_words);
    for (size_t j = 0; j < frames; j++)
        any_codes(screen->code + j * length, length, screen->first, screen->number + (int64_t)j, table, window);
    any_codes(screen->code + frames * length, rest, screen->first, screen->number, table, window);
    if (one_in(16))
        miscount(screen);
}

/* The frame, and its codes once more under the next number. */
void repeat_frame(struct screen *screen, const struct frame *frame)
{
    size_t bytes = frame->samples * sizeof frame->code[0];
    screen->frames = 2;
    screen->samples = 2 * frame->samples;
    screen->first = frame->first;
    screen->number = frame->number;
    memcpy(screen->code, frame->code, bytes);
    memcpy(screen->code + frame->samples, frame->code, bytes);
}
