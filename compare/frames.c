/* Random frames: codes that pulse, ramp, toggle, wander, graze or swing about the edges of a zone and a window. */
#include "inputs.h"

/* Plain asks about every point, going by rows and a list's words: so much of that can be borne, seldom more. */
#define WORK 20000
#define MUCH_WORK 4000000
#define MUCH_SELDOM 40

/* From one end of the codes to the other; and what is no short edge. */
#define SWING (GREATEST_CODE - LEAST_CODE)
#define LONG_EDGE 60

/* An aim takes its time: from AIMING on, later samples wander. */
enum { PULSING, RAMPING, TOGGLING, WANDERING, NOISY, AIMING, GRAZING, SWINGING };
#define AIMED_SAMPLES 4096

/* What a frame keeps to, sample by sample. Long edges are seldom, so that one may lie anywhere in it. */
struct course {
    unsigned manner, long_seldom;
    const struct table *table;
    int64_t first, number, one, other, step;
};

/* How many codes the edges of this frame, or of all frames of this screen, may still hold. */
static int64_t codes_left;

static size_t any_length(void)
{
    if (one_in(30))
        return 0;
    if (one_in(300))
        return (size_t)ONE_OF(MOST_SAMPLES - 1, MOST_SAMPLES, MOST_SAMPLES, MOST_SAMPLES + 1);
    switch (below(8)) {
    case 0: return 1;
    case 1: return (size_t)between(61, 700);
    case 2: return (size_t)ONE_OF(2, 7, 8, 9, 15, 16, 17, 31, 32, 33, 63, 64, 65);
    default: return (size_t)between(2, 60);
    }
}

/* How many points plain may be asked about, by a list of so many words, or by the tree. */
int64_t any_tests(const struct table *table, size_t list_words)
{
    size_t work = one_in(MUCH_SELDOM) ? MUCH_WORK : WORK;
    return (int64_t)(work / (1 + rows_in(table->words) + list_words));
}

/* For one frame, or for all of a screen: plain asks for every code that a column holds. */
void start_edges(const struct table *table, size_t list_words)
{
    codes_left = clamped(any_tests(table, list_words), 0, 2 * SWING);
}

/* Stays, leaves by a short edge, or goes to a boundary in this column or the next: so columns begin and end at boundaries. */
static int64_t grazing_code(const struct course *course, int64_t column, int64_t before)
{
    switch (below(4)) {
    case 0: return before;
    case 1: return before + between(-30, 30);
    default: return any_code_at(course->table, column + between(0, 1), course->number);
    }
}

/* What comes after the code before; for sample 0, that is `one`. */
static int64_t wanted_code(const struct course *course, size_t k, int64_t before)
{
    int64_t column = course->first + (int64_t)k;
    switch (k < AIMED_SAMPLES || course->manner < AIMING ? course->manner : WANDERING) {
    case PULSING: return one_in(20) ? course->other : course->one;
    case RAMPING: return before + course->step;
    case TOGGLING: return k % 2 == 0 ? course->one : course->other;
    case WANDERING: return before + between(-2, 2);
    case NOISY: return course->one + between(-1, 1);
    case AIMING: return any_code_at(course->table, column, course->number);
    case GRAZING: return grazing_code(course, column, before);
    default: return ONE_OF(LEAST_CODE, GREATEST_CODE, course->one, course->other);
    }
}

/* The wanted code; or one beside the code before, where the edge holds more than is left or is a long one out of its turn. */
static int64_t borne_code(const struct course *course, int64_t wanted, int64_t before)
{
    int64_t held = wanted < before ? before - wanted : wanted - before;
    if (held > codes_left || (held > LONG_EDGE && !one_in(course->long_seldom)))
        return in_range(Y, before + between(-2, 2));
    codes_left -= held;
    return wanted;
}

static void put_codes(int16_t *code, size_t samples, const struct course *course)
{
    int64_t at = in_range(Y, course->one);
    for (size_t k = 0; k < samples; k++) {
        int64_t wanted = in_range(Y, wanted_code(course, k, at));
        at = k == 0 ? wanted : borne_code(course, wanted, at);
        code[k] = (int16_t)at;
    }
}

static void keep_codes(int16_t *code, size_t samples, struct lampholly_window window)
{
    for (size_t k = 0; k < samples; k++)
        code[k] = (int16_t)clamped(code[k], window.ylo, window.yhi);
}

/* One sample leaves the window by its code, where there is one out of it: the first, the last, or one between. */
static void breach(int16_t *code, size_t samples, struct lampholly_window window)
{
    size_t last = samples - 1;
    size_t at = (size_t)ONE_OF(0, (int64_t)last, (int64_t)last / 2, (int64_t)below(last + 1));
    int64_t out = one_in(2) ? (int64_t)window.ylo - 1 : (int64_t)window.yhi + 1;
    if (is_coordinate(Y, out))
        code[at] = (int16_t)out;
}

/* The codes of a frame, mostly within the window; start_edges comes before. */
void any_codes(int16_t *code, size_t samples, int64_t first, int64_t number,
               const struct table *table, struct lampholly_window window)
{
    struct course course = {.long_seldom = 1 + (unsigned)samples / 16, .table = table, .first = first, .number = number};
    course.manner = codes_left > SWING && one_in(2) ? SWINGING : one_in(3) ? GRAZING : (unsigned)below(GRAZING);
    course.step = between(-3, 3);
    any_two_aims(table, &course.one, &course.other);
    put_codes(code, samples, &course);
    if (!one_in(8))
        keep_codes(code, samples, window);
    if (samples > 0 && one_in(5))
        breach(code, samples, window);
}

/* The frame lies about the aim, then as a whole within the window if it can. */
int64_t any_first(size_t samples, const struct table *table, struct lampholly_window window)
{
    int64_t length = (int64_t)samples;
    int64_t first = any_aim(table, X) - (length > 0 ? (int64_t)below(samples) : 0);
    int64_t lo = window.xlo, hi = (int64_t)window.xhi - length + 1;
    if (!one_in(6) && lo <= hi)
        first = clamped(first, lo, hi);
    if (one_in(10))
        first = ONE_OF(lo, lo - 1, hi, hi + 1);
    if (length > 60000 && !one_in(4))
        first = limits[X].least;
    if (one_in(24))
        first = ONE_OF(limits[X].least, limits[X].least - 1, limits[X].greatest - length + 1, limits[X].greatest - length + 2,
                       limits[X].greatest, INT32_MIN, INT32_MAX, INT32_MAX - length);
    return clamped(first, INT32_MIN, INT32_MAX);
}

int64_t any_number(const struct table *table, struct lampholly_window window)
{
    int64_t number = any_aim(table, Z);
    if (!one_in(6))
        number = clamped(number, window.zlo, window.zhi);
    if (one_in(24))
        number = ONE_OF(limits[Z].least - 1, limits[Z].greatest + 1, limits[Z].least, limits[Z].greatest, INT32_MIN, INT32_MAX);
    return clamped(number, INT32_MIN, INT32_MAX);
}

void any_frame(struct frame *frame, const struct table *table, struct lampholly_window window, size_t list_words)
{
    frame->samples = any_length();
    frame->first = (int32_t)any_first(frame->samples, table, window);
    frame->number = (int32_t)any_number(table, window);
    start_edges(table, list_words);
    any_codes(frame->code, frame->samples, frame->first, frame->number, table, window);
}

/* One code in all columns, or in all but the last, at the middle of the zone's first box. */
void level_frame(struct frame *frame, const struct table *table)
{
    struct box box = box_of(table->word + table_words(0));
    frame->samples = (size_t)between(MOST_SAMPLES - 1, MOST_SAMPLES);
    frame->first = limits[X].least;
    frame->number = (int32_t)((box.lo[Z] + box.hi[Z]) / 2);
    for (size_t k = 0; k < frame->samples; k++)
        frame->code[k] = (int16_t)((box.lo[Y] + box.hi[Y]) / 2);
}
