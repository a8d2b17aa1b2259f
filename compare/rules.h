/* The numbers of the rules (docs/RULES.md), each said once: what each axis holds, the kinds, what stands where in a table,
   in a list and in a finished tree, the side of a triangle's edge, the equivalences, and how much of anything there may be. */
#ifndef RULES_H
#define RULES_H

#include <stddef.h>
#include <stdint.h>

/* The axes: sample column, ADC code, frame number (section 1). */
enum { X, Y, Z, AXES };

#define LEAST_COLUMN (-32768)
#define GREATEST_COLUMN 32767
#define LEAST_CODE (-32768)
#define GREATEST_CODE 32767
#define LEAST_FRAME (-1048576)
#define GREATEST_FRAME 1048575

#define ALL_COLUMNS LEAST_COLUMN, GREATEST_COLUMN
#define ALL_CODES LEAST_CODE, GREATEST_CODE
#define ALL_FRAMES LEAST_FRAME, GREATEST_FRAME
#define FULL_RANGE ALL_COLUMNS, ALL_CODES, ALL_FRAMES

/* A list holds a bound as the bound plus its axis' offset (section 8). */
struct axis_limits {
    int32_t least, greatest, offset;
};

static const struct axis_limits limits[AXES] = {
    [X] = {ALL_COLUMNS, 32768}, [Y] = {ALL_CODES, 32768}, [Z] = {ALL_FRAMES, 1048576},
};

static inline int is_coordinate(int axis, int64_t value)
{
    return limits[axis].least <= value && value <= limits[axis].greatest;
}

/* The bounds of a box or a window are counted xlo xhi ylo yhi zlo zhi. */
#define LO(axis) (2 * (axis))
#define HI(axis) (2 * (axis) + 1)
#define BOUNDS (2 * AXES)

/* The kinds of rows, with their names in text and how many words from word 1 on each names (section 2). */
enum { BOX, WEDGE, DRUM, UNION, INTER, DIFF, TRIANGLE, KINDS };

struct kind {
    const char *name;
    size_t fields;
};

static const struct kind kinds[KINDS] = {
    [BOX] = {"box", 6}, [WEDGE] = {"wedge", 10}, [DRUM] = {"drum", 6},
    [UNION] = {"union", 2}, [INTER] = {"inter", 2}, [DIFF] = {"diff", 2}, [TRIANGLE] = {"tri", 8},
};

static inline int is_kind(int32_t kind)
{
    return 0 <= kind && kind < KINDS;
}

static inline int is_operation(int32_t kind)
{
    return kind == UNION || kind == INTER || kind == DIFF;
}

static inline int is_primitive(int32_t kind)
{
    return is_kind(kind) && !is_operation(kind);
}

/* A table, and the words of a row: what follows KIND is by kind. */
#define MOST_ROWS 127
#define MOST_PRIMITIVES 64
#define ROW_WORDS 12
#define MOST_TABLE_WORDS (ROW_WORDS * MOST_ROWS)

enum { KIND = 0 };
enum { BOUND = 1, SLOPE = 7, LIMIT = 10 }; /* BOUND + LO(axis), BOUND + HI(axis); a wedge's SLOPE + axis */
enum { CENTRE = 1, RADIUS = 3 };           /* a drum's, plus the axis, X or Y; on Z it has bounds */
enum { LEFT = 1, RIGHT = 2 };

/* A triangle's corners, counted from 0, on X and Y; on Z it has bounds. */
#define CORNERS 3
#define CORNER(corner, axis) (1 + 2 * (corner) + (axis))

static inline int next_corner(int corner)
{
    return (corner + 1) % CORNERS;
}

/* The word of a bound, by the row's kind: a triangle's frames stand behind its corners. */
static inline size_t bound_word(int32_t kind, int bound)
{
    return (size_t)(kind == TRIANGLE ? CORNER(CORNERS, X) + bound - LO(Z) : BOUND + bound);
}

/* The side of the edge from this corner to the next, at a point; with coordinates it is less than 2^33 from 0. */
static inline int64_t edge_side(const int32_t *row, int corner, int64_t x, int64_t y)
{
    int64_t ax = row[CORNER(corner, X)], bx = row[CORNER(next_corner(corner), X)];
    int64_t ay = row[CORNER(corner, Y)], by = row[CORNER(next_corner(corner), Y)];
    return (ax - x) * (by - y) - (bx - x) * (ay - y);
}

static inline int64_t twice_area(const int32_t *row)
{
    return edge_side(row, 0, row[CORNER(2, X)], row[CORNER(2, Y)]);
}

#define LEAST_SLOPE (-32768)
#define GREATEST_SLOPE 32767
#define LEAST_RADIUS 1
#define GREATEST_RADIUS 4096

/* The words of a table of so many rows; there, too, the next one stands. */
static inline size_t table_words(size_t rows)
{
    return ROW_WORDS * rows;
}

/* How many whole rows a table of so many words holds. */
static inline size_t rows_in(size_t words)
{
    return words / ROW_WORDS;
}

/* A list (sections 8 and 9): its header, then its products. */
enum { LIST_PRODUCTS = 0, LIST_BOUND = 1, LIST_PRIMITIVES = 7, HEADER_WORDS = 8 };
enum { UNCOMPLEMENTED = 0, COMPLEMENTED = 1, PRODUCT_WORDS = 2 };

#define MOST_CHOICES 65536
#define MOST_PRODUCTS 65536

/* The words of a list of so many products; there, too, the next one stands. */
static inline size_t list_words(uint64_t products)
{
    return HEADER_WORDS + PRODUCT_WORDS * products;
}

/* How many products a list of so many words holds; it has a header. */
static inline uint64_t products_in(size_t words)
{
    return (words - HEADER_WORDS) / PRODUCT_WORDS;
}

/* The word of a bound in a list, and back. */
static inline uint64_t raised(int axis, int64_t bound)
{
    return (uint64_t)(bound + limits[axis].offset);
}

static inline int64_t lowered(int axis, uint64_t word)
{
    return (int64_t)word - limits[axis].offset;
}

static inline uint64_t greatest_word(int axis)
{
    return raised(axis, limits[axis].greatest);
}

/* Frames, text, and the listing program's list (sections 10, 11 and 15). */
#define MOST_SAMPLES 65536
#define MOST_FRAMES 500
#define MOST_TEXT_BYTES 16384
#define LISTING_WORDS 8192

/* The triple of a frame in a screenful: what is told (of a refusal, TOLD_REFUSED plus its number); the first position, or the
   refusal's value; the number of inside samples. */
enum { TRIPLE_TOLD = 0, TRIPLE_VALUE = 1, TRIPLE_COUNT = 2, TRIPLE_WORDS = 3 };
enum { TOLD_CLEAR = 0, TOLD_HIT = 1, TOLD_REFUSED = 100 };

/* A picture: its rectangle has a window's bounds without the frames, and at most so many columns and so many codes; NO_FRAME
   stands where no frame is inside. */
#define RECTANGLE_BOUNDS LO(Z)
#define MOST_SIDE 128
#define MOST_PICTURE_WORDS (MOST_SIDE * MOST_SIDE)
#define NO_FRAME INT32_MIN

/* Rewriting: at most so many primitives and choices, so that no tree on the way has more leaves. */
#define MOST_REWRITE_PRIMITIVES 16
#define MOST_REWRITE_CHOICES 256
#define MOST_LEAVES (MOST_REWRITE_PRIMITIVES * MOST_REWRITE_CHOICES)
#define MOST_NODES (2 * MOST_LEAVES - 1)

/* A row of a finished tree has the words KIND, LEFT and RIGHT; of a leaf, LEFT is the primitive's number. */
enum { LEAF = 0, NODE_WORDS = 3 };
#define REWRITE_WORDS (NODE_WORDS * MOST_NODES)

/* The equivalences of document 000, in the order in which they are tried. */
enum {
    EQUIVALENCE_1, EQUIVALENCE_2, EQUIVALENCE_3, EQUIVALENCE_4, EQUIVALENCE_5, EQUIVALENCE_6, EQUIVALENCE_6_5,
    EQUIVALENCE_7, EQUIVALENCE_8, EQUIVALENCES
};

static const char *const equivalence_name[EQUIVALENCES] = {"1", "2", "3", "4", "5", "6", "6.5", "7", "8"};

#endif
