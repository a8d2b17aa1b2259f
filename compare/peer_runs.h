/* The runs of values that primitives hold along a line: shared by the peers that go down a column's codes or a place's frames. */
#ifndef PEER_RUNS_H
#define PEER_RUNS_H

#include "peers.h"

/* Codes or frames from the lowest to the highest; none where the lowest is above the highest. */
struct run {
    int64_t lowest, highest;
};

/* Runs along one line, the codes of a column or the frames of a place, and whose they are. */
struct line {
    size_t runs;
    struct run run[MOST_PRIMITIVES];
    uint64_t bit[MOST_PRIMITIVES];
};

static const struct run nothing = {1, 0};

static struct run run_cut(struct run one, struct run other)
{
    one.lowest = one.lowest > other.lowest ? one.lowest : other.lowest;
    one.highest = one.highest < other.highest ? one.highest : other.highest;
    return one;
}

static int64_t floor_divided(int64_t value, int64_t by)
{
    return value / by - (value % by != 0 && (value < 0) != (by < 0));
}

/* The part of the run at which b times its value and c are together not below 0. */
static struct run run_above(struct run run, int64_t b, int64_t c)
{
    struct run half = run;
    if (b == 0)
        return c >= 0 ? run : nothing;
    if (b > 0)
        half.lowest = -floor_divided(c, b);
    else
        half.highest = floor_divided(c, -b);
    return run_cut(run, half);
}

static void add_run(struct line *line, int32_t number, struct run run)
{
    if (run.lowest <= run.highest) {
        line->run[line->runs] = run;
        line->bit[line->runs++] = (uint64_t)1 << number;
    }
}

/* The primitives around a value; and the next one down at which a run begins or ends, or one below the lowest. */
static uint64_t around_value(const struct line *line, int64_t value, int64_t lowest, int64_t *next)
{
    uint64_t around = 0;
    *next = lowest - 1;
    for (size_t i = 0; i < line->runs; i++) {
        struct run run = line->run[i];
        int is_in = run.lowest <= value && value <= run.highest;
        int64_t stop = is_in ? run.lowest - 1 : run.highest;
        around |= is_in ? line->bit[i] : 0;
        *next = stop < value && stop > *next ? stop : *next;
    }
    return around;
}

#endif
