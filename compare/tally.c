/* How often each answer was seen: a test that reaches nothing shows. */
#include <inttypes.h>
#include <stdio.h>
#include <string.h>

#include "differ.h"

#define REFUSALS 15

const char *const call_name[CALLS] = {
    "check", "tree_point", "tree_search", "make_list", "list_point", "list_search", "read_text", "write_text",
    "list_search_frames", "list_waterfall", "rewrite",
};

/* The refusals that the rules give each call, ended by 0. */
static const int refusals_of[CALLS][REFUSALS] = {
    {1, 2, 3, 4, 5},        {1, 2, 3, 4, 5, 10},        {1, 2, 3, 4, 5, 12}, {1, 2, 3, 4, 5, 6, 7, 8},
    {1, 2, 3, 4, 5, 9, 11, 10}, {1, 2, 3, 4, 5, 9, 11, 12, 10}, {13, 3, 4, 5, 8},    {1, 2, 3, 4, 5, 8},
    {1, 2, 3, 4, 5, 9, 11, 12, 8}, {1, 2, 3, 4, 5, 9, 11, 6, 8}, {1, 2, 3, 4, 5, 14, 15, 8},
};

/* What the triple of a frame can tell; a refusal by 12 is told apart by its value. */
enum { FRAME_CLEAR, FRAME_HIT, FRAME_10, FRAME_12, TOLD = FRAME_12 + 3 };

static const char *const told_name[TOLD] = {
    "clear", "hit", "refused 10", "refused 12 with 0", "refused 12 with 1", "refused 12 with 2",
};

/* Answers by call, those with a point or a sample inside apart from the others, and refusals by call and number. */
static uint64_t answered[CALLS][2], refused[CALLS][REFUSALS + 1];

/* Triples by what they tell. */
static uint64_t told[TOLD];

/* What can be met of triangles: corners that run one way round and the other, hits on an edge, fields out of their rule. */
enum { ONE_WAY_ROUND, OTHER_WAY_ROUND, HIT_ON_EDGE, TRIANGLE_3, MET };

static const char *const met_name[MET] = {"one way round", "the other way round", "hit on an edge", "refused 3"};

static uint64_t met[MET];

/* What can be met of the codes between two samples, in searches over the tree and over a list. */
enum { CHANGED_ANSWER, ADDED_HIT, INSIDE_RISING, INSIDE_FALLING, STEEP_FRAME, EDGES };
enum { BY_TREE, BY_LIST, SEARCHES };

#define STEEP_CODES 30000

static const char *const edge_name[EDGES] = {
    "answer that own codes would change", "hit that own codes would miss", "sample inside by a rising edge alone",
    "sample inside by a falling edge alone", "frame with an edge of over 30,000 codes",
};

static const char *const search_name[SEARCHES] = {"tree search", "list search"};

static uint64_t edges[SEARCHES][EDGES];

/* What a place of a picture can tell, with what ends the frames there; and what a refusal by 6 names. */
enum { NO_FRAME_INSIDE, NEWEST_FRAME, FRAME_BETWEEN, OLDEST_FRAME, UNDER_PLANE, OVER_PLANE, BELOW_HOLE, BAD_BOUND };
enum { DRAWN = BAD_BOUND + RECTANGLE_BOUNDS };

static const char *const drawn_name[DRAWN] = {
    "without a frame", "at the window's newest frame", "between its ends", "at its oldest frame", "at a plane with c above 0",
    "at a plane with c below 0", "below a hole", "refused 6 with 0", "refused 6 with 1", "refused 6 with 2", "refused 6 with 3",
};

static uint64_t drawn[DRAWN];

/* What can be met of rewriting: each equivalence, where it ends, and which area had no room. */
enum { BY_EQUIVALENCE, AT_6_5 = BY_EQUIVALENCE + EQUIVALENCES, AT_MOST_CHOICES, TREE_8, WORK_8, REWRITING };

static const char *const rewriting_name[REWRITING] = {
    "by 1", "by 2", "by 3", "by 4", "by 5", "by 6", "by 6.5", "by 7", "by 8", "that ends where 6.5 would fit",
    "that ends in 256 products", "refused 8 for its tree alone", "refused 8 for its work area alone",
};

static uint64_t rewriting[REWRITING];

static int asks_point(enum call call)
{
    return call == TREE_POINT || call == LIST_POINT;
}

static int asks_inside(enum call call)
{
    return asks_point(call) || call == TREE_SEARCH || call == LIST_SEARCH;
}

/* Only a point's value tells whether it is inside; only a hit has a count. */
static int is_inside(enum call call, struct plain_answer answer)
{
    return asks_point(call) ? answer.value != 0 : answer.count != 0;
}

/* On an edge, one side is 0 and no two others are on different sides of 0. */
static int is_on_edge(const int32_t *row, struct point point)
{
    int is_zero = 0, is_above = 0, is_under = 0;
    for (int corner = 0; corner < CORNERS; corner++) {
        int64_t side = edge_side(row, corner, point.at[X], point.at[Y]);
        is_zero |= side == 0;
        is_above |= side > 0;
        is_under |= side < 0;
    }
    return is_zero && !(is_above && is_under)
        && row[bound_word(TRIANGLE, LO(Z))] <= point.at[Z] && point.at[Z] <= row[bound_word(TRIANGLE, HI(Z))];
}

/* The point that is inside, or that of the first inside sample's own code. */
static struct point hit_of(const struct question *q, struct plain_answer answer)
{
    if (asks_point(q->call))
        return q->point;
    struct point hit = {{q->frame->first + (int32_t)answer.value, q->frame->code[answer.value], q->frame->number}};
    return hit;
}

/* A triangle of a table that is sound. */
static void tally_triangle(const int32_t *row, const struct question *q, struct plain_answer answer)
{
    if (q->call == CHECK)
        met[twice_area(row) > 0 ? ONE_WAY_ROUND : OTHER_WAY_ROUND]++;
    if (is_inside(q->call, answer) && is_on_edge(row, hit_of(q, answer)))
        met[HIT_ON_EDGE]++;
}

static void tally_table(const struct question *q, struct plain_answer answer)
{
    const struct table *table = q->table;
    if (answer.refusal == 3 && table->word[table_words(answer.value) + KIND] == TRIANGLE)
        met[TRIANGLE_3]++;
    for (size_t number = 0; answer.refusal == 0 && number < rows_in(table->words); number++) {
        const int32_t *row = table->word + table_words(number);
        if (row[KIND] == TRIANGLE)
            tally_triangle(row, q, answer);
    }
}

/* Is sample k inside where the frame begins so many samples before it? With none before it, its own code decides. */
static int is_sample_inside(const struct question *q, size_t k, size_t before)
{
    const struct table *t = q->table;
    const struct frame *f = q->frame;
    const int16_t *codes = f->code + k - before;
    int32_t first = f->first + (int32_t)(k - before);
    struct plain_answer answer = q->call == TREE_SEARCH
        ? plain_tree_search(t->word, t->words, codes, 1 + before, first, f->number)
        : plain_list_search(t->word, t->words, q->list->word, q->list->words, codes, 1 + before, first, f->number);
    return answer.count > 0 && answer.value + answer.count == 1 + before;
}

/* A sample whose own code is inside is inside: so own codes miss just those samples that an edge alone brings inside. An edge of
   one code holds no other than the sample's own. */
static void tally_edges(const struct question *q, struct plain_answer answer)
{
    uint64_t *seen = edges[q->call == TREE_SEARCH ? BY_TREE : BY_LIST], missed = 0;
    int is_steep = 0;
    for (size_t k = 1; k < q->frame->samples; k++) {
        int32_t rise = q->frame->code[k] - q->frame->code[k - 1], height = rise < 0 ? -rise : rise;
        is_steep |= height > STEEP_CODES;
        if (height > 1 && answer.count > 0 && !is_sample_inside(q, k, 0) && is_sample_inside(q, k, 1)) {
            seen[rise > 0 ? INSIDE_RISING : INSIDE_FALLING]++;
            missed++;
        }
    }
    seen[CHANGED_ANSWER] += missed > 0;
    seen[ADDED_HIT] += missed > 0 && missed == answer.count;
    seen[STEEP_FRAME] += is_steep;
}

/* On which side of the wedge's plane the point is; it does not look at the box. */
static int is_under_plane(const int32_t *row, struct point point)
{
    int64_t sum = 0;
    for (int axis = X; axis < AXES; axis++)
        sum += (int64_t)row[SLOPE + axis] * point.at[axis];
    return sum <= row[LIMIT];
}

static int is_in_box(const int32_t *row, struct point point)
{
    struct box box = box_of(row);
    int is_in = 1;
    for (int axis = X; axis < AXES; axis++)
        is_in = is_in && box.lo[axis] <= point.at[axis] && point.at[axis] <= box.hi[axis];
    return is_in;
}

/* The planes that pass between the newest inside frame and the one above it. */
static void tally_planes(const struct table *table, struct point newest, struct point above)
{
    for (size_t number = 0; number < rows_in(table->words); number++) {
        const int32_t *row = table->word + table_words(number);
        if (row[KIND] == WEDGE && is_in_box(row, newest) && is_in_box(row, above)) {
            drawn[UNDER_PLANE] += is_under_plane(row, newest) && !is_under_plane(row, above);
            drawn[OVER_PLANE] += !is_under_plane(row, newest) && is_under_plane(row, above);
        }
    }
}

/* Is the point, which is out of the list, in it but for the cuts? */
static int is_cut_out(const struct question *q, struct point point)
{
    static struct list uncut;
    uint64_t products = q->list->word[LIST_PRODUCTS];
    uncut.words = list_words(products);
    memcpy(uncut.word, q->list->word, uncut.words * sizeof uncut.word[0]);
    for (uint64_t product = 0; product < products; product++)
        uncut.word[list_words(product) + COMPLEMENTED] = 0;
    return plain_list_point(q->table->word, q->table->words, uncut.word, uncut.words,
                            point.at[X], point.at[Y], point.at[Z]).value == 1;
}

static int what_is_told(int32_t frame, struct lampholly_window window)
{
    if (frame == NO_FRAME)
        return NO_FRAME_INSIDE;
    return frame == window.zhi ? NEWEST_FRAME : frame == window.zlo ? OLDEST_FRAME : FRAME_BETWEEN;
}

/* What ends the frames is looked at below the window's newest; whether a cut does, at one place only, since it takes long. */
void tally_picture(const struct question *q, const int32_t *picture)
{
    struct lampholly_window window = window_of(q->list);
    size_t places = places_in(q->rectangle), columns = (size_t)(q->rectangle.xhi - q->rectangle.xlo) + 1;
    int is_hole_sought = 1;
    for (size_t i = 0; i < places; i++) {
        int told_here = what_is_told(picture[i], window);
        drawn[told_here]++;
        if (told_here == NO_FRAME_INSIDE || told_here == NEWEST_FRAME)
            continue;
        struct point newest = {{q->rectangle.xlo + (int32_t)(i % columns), q->rectangle.yhi - (int32_t)(i / columns), picture[i]}};
        struct point above = {{newest.at[X], newest.at[Y], newest.at[Z] + 1}};
        tally_planes(q->table, newest, above);
        drawn[BELOW_HOLE] += is_hole_sought && is_cut_out(q, above);
        is_hole_sought = 0;
    }
}

void tally_rewrite(enum plain_moment moment, int equivalence, const struct plain_node *node, const struct plain_node *root)
{
    (void)node;
    (void)root;
    rewriting[BY_EQUIVALENCE + equivalence] += moment == PLAIN_REWRITTEN;
}

void tally_finished(const int32_t *tree, uint64_t words)
{
    int is_at_6_5 = 0, products = 1;
    for (const int32_t *row = tree; row < tree + words; row += NODE_WORDS) {
        is_at_6_5 |= row[KIND] == INTER && tree[NODE_WORDS * row[LEFT] + KIND] == DIFF;
        products += row[KIND] == UNION;
    }
    rewriting[AT_6_5] += is_at_6_5;
    rewriting[AT_MOST_CHOICES] += products == MOST_REWRITE_CHOICES;
}

static void tally_area(const struct question *q)
{
    int has_tree = q->room >= REWRITE_WORDS, has_work = q->work_room >= REWRITE_WORDS;
    rewriting[TREE_8] += !has_tree && has_work;
    rewriting[WORK_8] += has_tree && !has_work;
}

void tally(const struct question *question, struct plain_answer answer)
{
    enum call call = question->call;
    if (answer.refusal == 0)
        answered[call][is_inside(call, answer)]++;
    else
        refused[call][answer.refusal]++;
    if (question->table != NULL)
        tally_table(question, answer);
    if (question->frame != NULL && answer.refusal == 0)
        tally_edges(question, answer);
    if (call == LIST_WATERFALL && answer.refusal == 6)
        drawn[BAD_BOUND + answer.value]++;
    if (call == REWRITE && answer.refusal == 8)
        tally_area(question);
}

void tally_triple(const uint32_t *triple)
{
    switch (triple[TRIPLE_TOLD]) {
    case TOLD_CLEAR: told[FRAME_CLEAR]++; break;
    case TOLD_HIT: told[FRAME_HIT]++; break;
    case TOLD_REFUSED + 10: told[FRAME_10]++; break;
    default: told[FRAME_12 + triple[TRIPLE_VALUE]]++; break;
    }
}

/* The frame of each triple was asked about alone, too. */
static uint64_t calls_asked(void)
{
    uint64_t asked = 0;
    for (int what = 0; what < TOLD; what++)
        asked += told[what];
    for (int call = 0; call < CALLS; call++) {
        asked += answered[call][0] + answered[call][1];
        for (int number = 1; number <= REFUSALS; number++)
            asked += refused[call][number];
    }
    return asked;
}

static void print_counts(const char *what, const char *const *name, const uint64_t *seen, int count)
{
    for (int i = 0; i < count; i++)
        printf("%s %s: %" PRIu64, i == 0 ? what : ",", name[i], seen[i]);
}

void print_tally(uint64_t seed, uint64_t cases)
{
    printf("differ: seed %" PRIu64 ", %" PRIu64 " cases, %" PRIu64 " calls agree;", seed, cases, calls_asked());
    printf(" sound %" PRIu64, answered[CHECK][0]);
    printf(", outside %" PRIu64, answered[TREE_POINT][0] + answered[LIST_POINT][0]);
    printf(", inside %" PRIu64, answered[TREE_POINT][1] + answered[LIST_POINT][1]);
    printf(", clear %" PRIu64, answered[TREE_SEARCH][0] + answered[LIST_SEARCH][0]);
    printf(", hit %" PRIu64, answered[TREE_SEARCH][1] + answered[LIST_SEARCH][1]);
    printf(", written %" PRIu64 "; refused", answered[MAKE_LIST][0] + answered[READ_TEXT][0] + answered[WRITE_TEXT][0]
                                              + answered[LIST_SEARCH_FRAMES][0] + answered[LIST_WATERFALL][0]
                                              + answered[REWRITE][0]);
    for (int number = 1; number <= REFUSALS; number++) {
        uint64_t seen = 0;
        for (int call = 0; call < CALLS; call++)
            seen += refused[call][number];
        printf("%s %d: %" PRIu64, number == 1 ? "" : ",", number, seen);
    }
    print_counts("; triples", told_name, told, TOLD);
    print_counts("; places", drawn_name, drawn, DRAWN);
    print_counts("; rewriting", rewriting_name, rewriting, REWRITING);
    print_counts("; triangles", met_name, met, MET);
    for (int search = 0; search < SEARCHES; search++) {
        printf("; ");
        print_counts(search_name[search], edge_name, edges[search], EDGES);
    }
    printf("\n");
}

static int is_each_seen(const char *what, const char *const *name, const uint64_t *seen, int count)
{
    int all = 1;
    for (int i = 0; i < count; i++)
        if (seen[i] == 0) {
            printf("differ: a %s %s was never seen\n", what, name[i]);
            all = 0;
        }
    return all;
}

/* Was every answer and refusal that the rules give a call seen of it, all that a triple and a place can tell, and all that can be
   met of rewriting, of a triangle and of edges? Names what was not. */
int is_all_seen(void)
{
    int all = is_each_seen("triple that tells", told_name, told, TOLD);
    all = is_each_seen("place", drawn_name, drawn, DRAWN) && all;
    all = is_each_seen("rewriting", rewriting_name, rewriting, REWRITING) && all;
    all = is_each_seen("triangle", met_name, met, MET) && all;
    for (int search = 0; search < SEARCHES; search++)
        all = is_each_seen(search_name[search], edge_name, edges[search], EDGES) && all;
    for (int call = 0; call < CALLS; call++) {
        if (answered[call][0] == 0 || (asks_inside(call) && answered[call][1] == 0)) {
            printf("differ: an answer of %s was never seen\n", call_name[call]);
            all = 0;
        }
        for (const int *number = refusals_of[call]; *number != 0; number++)
            if (refused[call][*number] == 0) {
                printf("differ: refusal %d of %s was never seen\n", *number, call_name[call]);
                all = 0;
            }
    }
    return all;
}
