/* Do the zones here do what README.md says? Of each, the list for the full range, and what the search of a few traces comes
   to, by the tree and by that list; and whether the two eye masks are one. `compare/run` compiles it and runs it from the top of the repository. */
#include <inttypes.h>
#include <stdio.h>

#include "lampholly.h"

#define COUNT(array) (sizeof array / sizeof array[0])
#define MOST_CORNERS 10
#define MOST_SAMPLES 1024
#define MOST_PRODUCTS 6
#define HEADER_WORDS 8
#define PRODUCT_WORDS 2

/* A trace runs straight from corner to corner, its columns rising; the rest of its corners is 0, 0. */
struct corner {
    int32_t column, code;
};

struct trace {
    const char *what;
    int32_t frame;
    uint64_t position, count; /* the first inside sample and how many; 0, 0 for clear */
    struct corner corner[MOST_CORNERS];
};

struct example {
    const char *file;
    uint64_t products, product[MOST_PRODUCTS][PRODUCT_WORDS];
    const struct trace *trace;
    size_t traces;
};

static const struct trace q_traces[] = {
    {"a quiet frame from column 0", 0, 8, 7, {{0, 0}, {29, 0}}},
    {"a quiet frame behind the zone", 0, 0, 0, {{26, 0}, {55, 0}}},
};

static const struct trace runt_traces[] = {
    {"a runt", 0, 4, 13, {{100, 0}, {102, 4000}, {118, 4000}, {120, 0}}},
    {"a full pulse", 0, 0, 0, {{100, 0}, {104, 8000}, {116, 8000}, {120, 0}}},
    {"a full pulse, one column late", 0, 0, 0, {{100, 0}, {101, 0}, {105, 8000}, {117, 8000}, {120, 2000}}},
    {"a short runt", 0, 4, 1, {{100, 0}, {102, 4000}, {103, 4000}, {105, 0}, {120, 0}}},
    {"a full pulse with the known dip", 0, 0, 0,
     {{100, 0}, {104, 8000}, {108, 8000}, {109, 5500}, {111, 5500}, {112, 8000}, {116, 8000}, {120, 0}}},
    {"a full pulse with a deep dip", 0, 9, 4,
     {{100, 0}, {104, 8000}, {108, 8000}, {109, 3000}, {111, 3000}, {112, 8000}, {116, 8000}, {120, 0}}},
    {"a runt in too old a frame", -51, 0, 0, {{100, 0}, {102, 4000}, {118, 4000}, {120, 0}}},
};

static const struct trace eye_mask_traces[] = {
    {"an open eye, up and down", 0, 0, 0,
     {{-400, -10000}, {-300, -10000}, {-200, 10000}, {200, 10000}, {300, -10000}, {400, -10000}}},
    {"an open eye, high", 0, 0, 0, {{-400, 10000}, {400, 10000}}},
    {"a late edge", 0, 222, 30,
     {{-400, -10000}, {-220, -10000}, {-120, 10000}, {200, 10000}, {300, -10000}, {400, -10000}}},
    {"an overshoot", 0, 240, 21, {{-400, 10000}, {-200, 10000}, {-150, 12500}, {-100, 10000}, {400, 10000}}},
};

static const struct trace drum_slot_traces[] = {
    {"the expected pulse", 0, 0, 0, {{300, 0}, {485, 0}, {490, 6000}, {510, 6000}, {515, 0}, {700, 0}}},
    {"a glitch before it", 0, 133, 6,
     {{300, 0}, {430, 0}, {435, 4000}, {440, 0}, {485, 0}, {490, 6000}, {510, 6000}, {515, 0}, {700, 0}}},
    {"a glitch far from it", 0, 0, 0, {{200, 0}, {250, 0}, {255, 4000}, {260, 0}, {700, 0}}},
};

static const struct trace two_pulse_traces[] = {
    {"two low pulses", -60, 0, 0,
     {{100, 0}, {105, 6000}, {135, 6000}, {140, 0}, {400, 0}, {405, 6000}, {435, 6000}, {440, 0}}},
    {"the second too high", -60, 302, 37,
     {{100, 0}, {105, 6000}, {135, 6000}, {140, 0}, {400, 0}, {405, 20000}, {435, 20000}, {440, 0}}},
    {"the same in a newer frame", -49, 0, 0,
     {{100, 0}, {105, 6000}, {135, 6000}, {140, 0}, {400, 0}, {405, 20000}, {435, 20000}, {440, 0}}},
};

static const struct example examples[] = {
    {"examples/q.zone", 2, {{9, 2}, {12, 0}}, q_traces, COUNT(q_traces)},
    {"examples/runt.zone", 1, {{3, 4}}, runt_traces, COUNT(runt_traces)},
    {"examples/eye-mask.zone", 3, {{15, 0}, {16, 0}, {32, 0}}, eye_mask_traces, COUNT(eye_mask_traces)},
    {"examples/eye-triangles.zone", 6, {{1, 0}, {2, 0}, {4, 0}, {8, 0}, {16, 0}, {32, 0}},
     eye_mask_traces, COUNT(eye_mask_traces)},
    {"examples/drum-slot.zone", 1, {{1, 2}}, drum_slot_traces, COUNT(drum_slot_traces)},
    {"examples/two-pulse.zone", 2, {{5, 0}, {6, 0}}, two_pulse_traces, COUNT(two_pulse_traces)},
};

static uint8_t text[LAMPHOLLY_TEXT_BYTES + 1];
static int32_t table[LAMPHOLLY_TABLE_WORDS], other[LAMPHOLLY_TABLE_WORDS];
static uint64_t list[LAMPHOLLY_LIST_WORDS];
static int16_t codes[MOST_SAMPLES];

/* The words of the zone's table, 0 where the file has none. */
static size_t read_zone(const char *name, int32_t *into)
{
    FILE *file = fopen(name, "rb");
    if (file == NULL)
        return 0;
    size_t bytes = fread(text, 1, sizeof text, file);
    fclose(file);
    struct lampholly_answer read = lampholly_read_text(text, bytes, into, LAMPHOLLY_TABLE_WORDS);
    return read.refusal ? 0 : read.value;
}

static int is_list_of(const struct example *example, struct lampholly_answer made)
{
    if (made.refusal || list[0] != example->products)
        return 0;
    for (size_t k = 0; k < example->products; k++)
        for (size_t word = 0; word < PRODUCT_WORDS; word++)
            if (list[HEADER_WORDS + PRODUCT_WORDS * k + word] != example->product[k][word])
                return 0;
    return 1;
}

/* A code for each column from the first corner to the last; says how many. */
static size_t draw(const struct trace *trace)
{
    size_t samples = 0;
    codes[samples++] = (int16_t)trace->corner[0].code;
    for (size_t i = 1; i < MOST_CORNERS; i++) {
        struct corner from = trace->corner[i - 1], to = trace->corner[i];
        if (to.column <= from.column)
            break;
        for (int32_t step = 1; step <= to.column - from.column && samples < MOST_SAMPLES; step++)
            codes[samples++] = (int16_t)(from.code + (to.code - from.code) * step / (to.column - from.column));
    }
    return samples;
}

static int is_found(const struct trace *trace, struct lampholly_answer answer)
{
    return !answer.refusal && answer.value == trace->position && answer.count == trace->count;
}

/* Says what is not as it should be; gives whether nothing is. */
static int check_trace(const struct example *example, const struct trace *trace, size_t words, size_t list_words)
{
    size_t samples = draw(trace);
    int32_t first = trace->corner[0].column;
    struct lampholly_answer by_tree = lampholly_tree_search(table, words, codes, samples, first, trace->frame);
    struct lampholly_answer by_list = lampholly_list_search(table, words, list, list_words, codes, samples, first,
                                                            trace->frame);
    if (is_found(trace, by_tree) && is_found(trace, by_list))
        return 1;
    printf("%s: %s comes to %" PRIu64 " %" PRIu64 " %" PRIu64 " by the tree", example->file, trace->what,
           by_tree.refusal, by_tree.value, by_tree.count);
    printf(" and %" PRIu64 " %" PRIu64 " %" PRIu64 " by the list\n", by_list.refusal, by_list.value, by_list.count);
    return 0;
}

static int check_example(const struct example *example)
{
    struct lampholly_window full = {-32768, 32767, -32768, 32767, -1048576, 1048575};
    size_t words = read_zone(example->file, table);
    struct lampholly_answer made = lampholly_make_list(table, words, full, list, LAMPHOLLY_LIST_WORDS);
    int good = is_list_of(example, made);
    if (!good)
        printf("%s: another list than README.md has\n", example->file);
    for (size_t i = 0; i < example->traces; i++)
        good &= check_trace(example, &example->trace[i], words, made.value);
    return good;
}

/* The mask of wedges and the mask of triangles: at each of many codes, the same columns. At one code these are a single run, so
   that the first of them and their number say all. */
static int check_masks(void)
{
    size_t wedges = read_zone("examples/eye-mask.zone", table), triangles = read_zone("examples/eye-triangles.zone", other);
    size_t samples = 801;
    int good = 1;
    for (int32_t code = -12025; code <= 12025; code += 25) {
        for (size_t i = 0; i < samples; i++)
            codes[i] = (int16_t)code;
        struct lampholly_answer one = lampholly_tree_search(table, wedges, codes, samples, -400, 0);
        struct lampholly_answer two = lampholly_tree_search(other, triangles, codes, samples, -400, 0);
        good &= !one.refusal && !two.refusal && one.value == two.value && one.count == two.count;
    }
    if (!good)
        printf("the mask of triangles is not the mask of wedges\n");
    return good;
}

int main(void)
{
    int good = check_masks();
    for (size_t i = 0; i < COUNT(examples); i++)
        good &= check_example(&examples[i]);
    if (good)
        printf("examples: each zone lists and finds what examples/README.md says\n");
    return good ? 0 : 1;
}
