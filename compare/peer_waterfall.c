/* Peer: the waterfall picture, place by place. Every primitive is convex, so that at a place it has one run of frames; going
   down, what a frame is inside of changes only where a run begins or ends. */
#include "peer_runs.h"
#include "peer_shapes.h"

/* A wedge's frames end at its plane. What the others have at a place does not change with the frame: one of theirs decides. */
static struct run frames_of(const struct peer_zone *zone, int32_t number, int64_t x, int64_t y)
{
    const struct peer_box *box = &zone->box[number];
    const int32_t *row = zone->words[number];
    struct run frames = {box->lo[Z], box->hi[Z]};
    if (row[KIND] != WEDGE)
        return in_primitive(zone, number, x, y, box->lo[Z]) ? frames : nothing;
    if (x < box->lo[X] || box->hi[X] < x || y < box->lo[Y] || box->hi[Y] < y)
        return nothing;
    return run_above(frames, -(int64_t)row[SLOPE + Z], row[LIMIT] - row[SLOPE + X] * x - row[SLOPE + Y] * y);
}

/* The runs that share a frame with the window. */
static void open_place(struct line *place, const struct peer_zone *zone, struct run window, int64_t x, int64_t y)
{
    place->runs = 0;
    for (int32_t i = 0; i < zone->primitives; i++)
        add_run(place, i, run_cut(frames_of(zone, i, x, y), window));
}

/* From the newest frame down, a stop for each set of primitives. */
static int32_t newest_frame(const struct peer_zone *zone, const uint64_t *list, struct run window, int64_t x, int64_t y)
{
    struct line place;
    int64_t next;
    open_place(&place, zone, window, x, y);
    for (int64_t frame = window.highest; frame >= window.lowest; frame = next)
        if (peer_in_products(list, around_value(&place, frame, window.lowest, &next)))
            return (int32_t)frame;
    return NO_FRAME;
}

static struct lampholly_answer check_rectangle(struct peer_box window, struct lampholly_rectangle r)
{
    const int64_t bound[RECTANGLE_BOUNDS] = {r.xlo, r.xhi, r.ylo, r.yhi};
    for (int axis = X; axis <= Y; axis++) {
        int64_t lo = bound[LO(axis)], hi = bound[HI(axis)];
        if (lo < window.lo[axis] || window.hi[axis] < lo)
            return peer_refused(6, LO(axis));
        if (hi < lo || window.hi[axis] < hi || hi - lo >= MOST_SIDE)
            return peer_refused(6, HI(axis));
    }
    return peer_done((uint64_t)(bound[HI(X)] - bound[LO(X)] + 1) * (uint64_t)(bound[HI(Y)] - bound[LO(Y)] + 1));
}

struct lampholly_answer peer_waterfall(const int32_t *table, size_t words, const uint64_t *list, size_t list_words,
                                       struct lampholly_rectangle rectangle, int32_t *picture, size_t room)
{
    struct peer_zone zone;
    struct lampholly_answer answer = peer_open_with_list(table, words, list, list_words, &zone);
    if (answer.refusal)
        return answer;
    struct peer_box window = peer_box_of_list(list);
    struct run frames = {window.lo[Z], window.hi[Z]};
    answer = check_rectangle(window, rectangle);
    if (!answer.refusal && room < answer.value)
        answer = peer_refused(8, answer.value);
    if (answer.refusal)
        return answer;
    for (int64_t y = rectangle.yhi; y >= rectangle.ylo; y--)
        for (int64_t x = rectangle.xlo; x <= rectangle.xhi; x++)
            *picture++ = newest_frame(&zone, list, frames, x, y);
    return answer;
}
