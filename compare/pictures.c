/* Random rectangles about a spot near the edges of a zone, good ones and bad ones, under lists of so few frames that plain can
   ask about each of them. */
#include "inputs.h"

/* Plain asks about all frames of all places: so often it can at the most. */
#define MOST_TESTS 200000

/* All frames of a wide window, by rows and a list's words, it can bear seldom, and at one place. */
#define WHOLE_WORK 40000000
#define WHOLE_SELDOM 2000

#define FEW_FRAMES 12
#define SHORT_SIDE 16

static int has_frames(const struct list *list)
{
    uint64_t oldest = list->word[LIST_BOUND + LO(Z)], newest = list->word[LIST_BOUND + HI(Z)];
    return list->words >= HEADER_WORDS && oldest <= newest && newest <= greatest_word(Z);
}

/* Gives the list other frames, unless its own are at fault. */
static void keep_frames(struct list *list, int64_t oldest, int64_t newest)
{
    if (has_frames(list)) {
        list->word[LIST_BOUND + LO(Z)] = raised(Z, oldest);
        list->word[LIST_BOUND + HI(Z)] = raised(Z, newest);
    }
}

void restore_frames(struct list *list, struct lampholly_window window)
{
    keep_frames(list, window.zlo, window.zhi);
}

/* The frames from the spot's, or a few newer ones, down to the window's end: where the spot is inside, plain soon finds it. */
void keep_old_frames(struct list *list, struct lampholly_window window, struct point spot)
{
    keep_frames(list, window.zlo, clamped(spot.at[Z] + between(0, FEW_FRAMES), window.zlo, window.zhi));
}

static int bears_whole(const struct list *list, const struct table *table, struct lampholly_window window)
{
    int64_t frames = (int64_t)window.zhi - window.zlo + 1;
    return frames * (int64_t)(1 + rows_in(table->words) + list->words) <= WHOLE_WORK;
}

static int64_t any_frames(int64_t most)
{
    int64_t frames = ONE_OF(1, 2, between(1, FEW_FRAMES), between(1, FEW_FRAMES), between(1, 100), between(1, 1000));
    return clamped(frames, 1, most);
}

/* A few frames with the spot's among them, seldom all; gives how many places plain can then bear with so many tests. */
int64_t keep_some_frames(struct list *list, const struct table *table, struct lampholly_window window, struct point spot,
                         int64_t tests)
{
    int64_t most = clamped(tests, 1, MOST_TESTS), frames = any_frames(most);
    int64_t last = clamped((int64_t)window.zhi - frames + 1, window.zlo, window.zhi);
    int64_t oldest = clamped(spot.at[Z] - between(0, frames - 1), window.zlo, last);
    if (one_in(WHOLE_SELDOM) && bears_whole(list, table, window))
        return 1;
    keep_frames(list, oldest, clamped(oldest + frames - 1, window.zlo, window.zhi));
    return most / frames;
}

/* Mostly short, so that much of it is about the spot. */
static int64_t any_side(int64_t most)
{
    most = clamped(most, 1, MOST_SIDE);
    if (one_in(2))
        return clamped(between(1, SHORT_SIDE), 1, most);
    return ONE_OF(1, most, clamped(most - 1, 1, most), between(1, most));
}

/* About the spot and within the window, which may be too narrow for all of it; a single place stays at the spot. */
static void put_side(int32_t bound[RECTANGLE_BOUNDS], int axis, int64_t spot, int64_t side, const int32_t window[BOUNDS])
{
    int64_t least = window[LO(axis)], greatest = window[HI(axis)], last = clamped(greatest - side + 1, least, greatest);
    int64_t lo = clamped(spot - between(0, side - 1), least, last);
    if (side > 1 && one_in(8))
        lo = one_in(2) ? least : last;
    bound[LO(axis)] = (int32_t)lo;
    bound[HI(axis)] = (int32_t)clamped(lo + side - 1, least, greatest);
}

/* A bound out of the window, or a hi below its lo or too far above it: no other bound makes that good. */
static void spoil_bound(int32_t bound[RECTANGLE_BOUNDS], const int32_t window[BOUNDS])
{
    int at = (int)below(RECTANGLE_BOUNDS), axis = at / 2;
    int64_t lo = bound[LO(axis)], under = (int64_t)window[LO(axis)] - 1, over = (int64_t)window[HI(axis)] + 1;
    int64_t bad = ONE_OF(under, over, INT32_MIN, INT32_MAX);
    if (at == HI(axis) && one_in(2))
        bad = ONE_OF(lo - 1, lo + MOST_SIDE, lo + MOST_SIDE, lo + MOST_SIDE + 1);
    bound[at] = (int32_t)clamped(bad, INT32_MIN, INT32_MAX);
}

/* A good one has so many places at the most. */
struct lampholly_rectangle any_rectangle(struct lampholly_window window, struct point spot, int64_t places)
{
    int32_t around[BOUNDS], bound[RECTANGLE_BOUNDS];
    int one = (int)below(2), other = 1 - one;
    int64_t side = any_side(places);
    to_bounds(window, around);
    put_side(bound, one, spot.at[one], side, around);
    put_side(bound, other, spot.at[other], any_side(places / side), around);
    while (one_in(6))
        spoil_bound(bound, around);
    struct lampholly_rectangle rectangle = {bound[LO(X)], bound[HI(X)], bound[LO(Y)], bound[HI(Y)]};
    return rectangle;
}

/* How many places a good rectangle has. */
size_t places_in(struct lampholly_rectangle r)
{
    int64_t columns = clamped((int64_t)r.xhi - r.xlo + 1, 0, MOST_SIDE), codes = clamped((int64_t)r.yhi - r.ylo + 1, 0, MOST_SIDE);
    return (size_t)(columns * codes);
}
