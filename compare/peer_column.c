/* Peers: searches that evaluate each column with all codes that it holds. Every primitive is convex, so that in a column of a
   frame it has one run of codes; going down, what a code is inside of changes only where a run begins or ends. */
#include "peer_runs.h"

static struct run wedge_run(const int32_t *row, struct run codes, int64_t x, int64_t z)
{
    int64_t rest = row[LIMIT] - row[SLOPE + X] * x - row[SLOPE + Z] * z;
    return run_above(codes, -(int64_t)row[SLOPE + Y], rest);
}

static struct run triangle_run(const struct peer_edge *edge, struct run codes, int64_t x)
{
    for (int corner = 0; corner < CORNERS; corner++)
        codes = run_above(codes, edge[corner].b, edge[corner].a * x + edge[corner].c);
    return codes;
}

/* The column is one of the drum's, so that the centre's code is inside. */
static struct run drum_run(const int32_t *row, struct run codes, int64_t x)
{
    int64_t dx = x - row[CENTRE + X], inside = 0, outside = (int64_t)row[RADIUS + Y] + 1;
    int64_t rx = (int64_t)row[RADIUS + X] * row[RADIUS + X], ry = (int64_t)row[RADIUS + Y] * row[RADIUS + Y];
    while (outside - inside > 1) {
        int64_t dy = (inside + outside) / 2;
        if (ry * dx * dx + rx * dy * dy <= rx * ry)
            inside = dy;
        else
            outside = dy;
    }
    struct run round = {row[CENTRE + Y] - inside, row[CENTRE + Y] + inside};
    return run_cut(codes, round);
}

/* The held codes that the primitive has in this column and frame. */
static struct run primitive_run(const struct peer_zone *zone, int32_t number, struct run held, int64_t x, int64_t z)
{
    const struct peer_box *box = &zone->box[number];
    const int32_t *row = zone->words[number];
    struct run codes = {box->lo[Y], box->hi[Y]};
    codes = run_cut(codes, held);
    if (codes.lowest > codes.highest || x < box->lo[X] || box->hi[X] < x || z < box->lo[Z] || box->hi[Z] < z)
        return nothing;
    switch (row[KIND]) {
    case WEDGE: return wedge_run(row, codes, x, z);
    case DRUM: return drum_run(row, codes, x);
    case TRIANGLE: return triangle_run(zone->edge[number], codes, x);
    default: return codes;
    }
}

/* The runs that share a code with what the column holds. */
static void open_column(struct line *column, const struct peer_zone *zone, struct run held, int64_t x, int64_t z)
{
    column->runs = 0;
    for (int32_t i = 0; i < zone->primitives; i++)
        add_run(column, i, primitive_run(zone, i, held, x, z));
}

static int in_tree_by_mask(const struct peer_zone *zone, int32_t number, uint64_t around)
{
    const struct peer_row *row = &zone->row[number];
    switch (row->kind) {
    case UNION: return in_tree_by_mask(zone, row->left, around) || in_tree_by_mask(zone, row->right, around);
    case INTER: return in_tree_by_mask(zone, row->left, around) && in_tree_by_mask(zone, row->right, around);
    case DIFF: return in_tree_by_mask(zone, row->left, around) && !in_tree_by_mask(zone, row->right, around);
    default: return (int)(around >> row->left & 1);
    }
}

/* From the top down, a stop for each set of primitives. With no list, the tree decides. */
static int is_held_inside(const struct peer_zone *zone, const uint64_t *list, struct run held, int64_t x, int64_t z)
{
    struct line column;
    int64_t next;
    open_column(&column, zone, held, x, z);
    for (int64_t code = held.highest; code >= held.lowest; code = next) {
        uint64_t around = around_value(&column, code, held.lowest, &next);
        if (list == NULL ? in_tree_by_mask(zone, zone->rows - 1, around) : peer_in_products(list, around))
            return 1;
    }
    return 0;
}

/* What the column of sample k holds. */
static struct run held_codes(const int16_t *codes, size_t k)
{
    int64_t own = codes[k], before = k == 0 ? own : codes[k - 1];
    struct run held = {before < own ? before + 1 : own, own < before ? before - 1 : own};
    return held;
}

static int is_sample_inside(const struct peer_zone *zone, const uint64_t *list,
                            const int16_t *codes, size_t k, int32_t first, int32_t frame)
{
    struct run held = held_codes(codes, k);
    int64_t x = first + (int64_t)k;
    if (held.lowest < held.highest)
        return is_held_inside(zone, list, held, x, frame);
    return list == NULL ? peer_in_tree(zone, zone->rows - 1, x, codes[k], frame) : peer_in_list(zone, list, x, codes[k], frame);
}

static struct lampholly_answer search_columns(const struct peer_zone *zone, const uint64_t *list,
                                              const int16_t *codes, size_t samples, int32_t first, int32_t frame)
{
    uint64_t position = 0, inside = 0;
    for (size_t k = 0; k < samples; k++) {
        if (is_sample_inside(zone, list, codes, k, first, frame)) {
            position = inside == 0 ? k : position;
            inside++;
        }
    }
    return peer_found(position, inside);
}

struct lampholly_answer peer_tree_columns(const int32_t *table, size_t words,
                                          const int16_t *codes, size_t samples, int32_t first, int32_t frame)
{
    struct peer_zone zone;
    struct lampholly_answer check = peer_open(table, words, &zone);
    if (!check.refusal)
        check = peer_check_frame(samples, first, frame);
    return check.refusal ? check : search_columns(&zone, NULL, codes, samples, first, frame);
}

static struct lampholly_answer search_listed(const struct peer_zone *zone, const uint64_t *list,
                                             const int16_t *codes, size_t samples, int32_t first, int32_t frame)
{
    struct lampholly_answer check = peer_check_samples(list, codes, samples, first, frame);
    return check.refusal ? check : search_columns(zone, list, codes, samples, first, frame);
}

struct lampholly_answer peer_list_columns(const int32_t *table, size_t words, const uint64_t *list, size_t list_words,
                                          const int16_t *codes, size_t samples, int32_t first, int32_t frame)
{
    struct peer_zone zone;
    struct lampholly_answer check = peer_open_with_list(table, words, list, list_words, &zone);
    return check.refusal ? check : search_listed(&zone, list, codes, samples, first, frame);
}

struct lampholly_answer peer_screen_columns(const int32_t *table, size_t words, const uint64_t *list, size_t list_words,
                                            const int16_t *codes, size_t samples, size_t frames,
                                            int32_t first, int32_t frame, uint32_t *triples, size_t room)
{
    return peer_screen(table, words, list, list_words, codes, samples, frames, first, frame, triples, room, search_listed);
}
