/* Lampholly: search zones over sample column, ADC code and frame number, for C99 and C++11.

   `rt staticlib zone_c` makes the archive to link, target/staticlib/libzone_c.a. It is for x86-64 only.
   docs/RULES.md has the rules in full; what follows is all that a caller needs.

   A zone is lent as a table, 12 words a row. Word 0 of a row is its kind; then come the words of its kind, and 0 in all others
      kind               words                       inside
      LAMPHOLLY_BOX      xlo xhi ylo yhi zlo zhi     lo <= value <= hi on each axis
      LAMPHOLLY_WEDGE    a box's six, a b c d        in the box, and a*x + b*y + c*z <= d
      LAMPHOLLY_DRUM     cx cy rx ry zlo zhi         zlo <= z <= zhi, and ry^2*(x - cx)^2 + rx^2*(y - cy)^2 <= rx^2*ry^2
      LAMPHOLLY_UNION    left right                  in left or in right
      LAMPHOLLY_INTER    left right                  in left and in right
      LAMPHOLLY_DIFF     left right                  in left and not in right
      LAMPHOLLY_TRIANGLE x1 y1 x2 y2 x3 y3 zlo zhi   zlo <= z <= zhi, and between the three corners, edges and corners included
   - x is the column and y the code, each in -32768..32767; z is the frame number, in -1048576..1048575: 0 is the newest frame,
     older ones are negative.
   - A lo or hi is in the range of its axis, with lo <= hi; so are cx - rx, cx + rx, cy - ry and cy + ry. A radius is 1..4096.
     a, b and c are in -32768..32767 and not all 0; d is any 32-bit value. The corners of a triangle are in range, run either
     way round, and do not lie on one line.
   - left and right are numbers of earlier rows, counted from 0. Each row but the last is so named once; the last is the zone.
   - Boxes, wedges, drums and triangles are the primitives, numbered from 0 in the order of their rows. A table has at most 127
     rows and 64 primitives.

   What is lent
   - `words` counts words, not rows and not bytes. The same holds for `list_words`, `samples` and `bytes`, and `room` counts the
     words or bytes that fit into the buffer to be written; `work_room` counts those of a work area.
   - A buffer of length 0 may be NULL.
   - The buffers of one call must not overlap.
   - Nothing outside the lent buffers is read or written, nothing is allocated and nothing is kept between calls.
   - A refused call leaves every buffer as it was. A call that writes leaves what lies beyond its result as it was; a work area
     holds nothing but 0 then.
   - Every input has an answer; no call has a precondition besides those above.

   Threads: calls keep no state, so they may run at the same time unless one writes a buffer that is lent to another.
   Stack: bytes as measured (no bounds) on tables of 127 rows: check 328; write_text 392; list_point 536; tree_point 568;
   list_waterfall 2,152; tree_search 2,520; list_search 2,568; list_search_frames 2,696; read_text 7,680; make_list 11,264; and
   on 16 primitives rewrite 4,048. docs/PERFORMANCE.md says how.
   Cost: linear in the rows for check, tree_point and write_text; in the bytes for read_text; in rows + list words for
   list_point. A search is linear in the samples. A sample takes rows + list words, at most twice, and as much again for each
   end of a primitive's codes that its column passes, of which there are two a primitive; where the trace stays clear of the edges
   of the zone it takes next to nothing, however many rows there are. list_search_frames checks table and list once, then
   takes for each frame what list_search takes for it. list_waterfall checks them once, too; then a place takes rows, and
   primitives + list words for each step down its frames, of which there are 2 * primitives + 1 at the most, however many frames
   the window has. make_list takes rows * rows, and then what the choices take that it has to go through; rewrite takes up to the
   words of the tree for each step, and clears the work area at the end: docs/PERFORMANCE.md has times, and no bound is known.

   The table's refusals, in their order; each call that takes a table gives them first
      1  words not a multiple of 12, no row, or over 127 rows      value: words
      then row by row
      2  unknown kind                                              value: row, counted from 0
      3  a field out of its rule, or a spare word not 0            value: row
      4  a child negative or not an earlier row                    value: row
      then
      5  a row but the last is child never or more than once       value: lowest such row

   The list's refusals, in their order; each call that takes a table and a list gives them right after the table's
      9  the list is malformed                                     value: first faulty word; if under 8 are lent, their number
     11  list and table differ in the number of primitives         value: the table's */
#ifndef LAMPHOLLY_H
#define LAMPHOLLY_H

#include <stddef.h>
#include <stdint.h>

#ifdef __cplusplus
extern "C" {
#endif

/* The header's own: hundreds rise where a program that was right may need a change, ones where something was added. */
#define LAMPHOLLY_VERSION 302

/* The kinds of rows. */
#define LAMPHOLLY_BOX 0
#define LAMPHOLLY_WEDGE 1
#define LAMPHOLLY_DRUM 2
#define LAMPHOLLY_UNION 3
#define LAMPHOLLY_INTER 4
#define LAMPHOLLY_DIFF 5
#define LAMPHOLLY_TRIANGLE 6

/* The refusals: those of the table, then those that each call names. */
#define LAMPHOLLY_REFUSED_LENGTH 1
#define LAMPHOLLY_REFUSED_KIND 2
#define LAMPHOLLY_REFUSED_FIELD 3
#define LAMPHOLLY_REFUSED_CHILD 4
#define LAMPHOLLY_REFUSED_TREE 5
#define LAMPHOLLY_REFUSED_WINDOW 6
#define LAMPHOLLY_REFUSED_EXPANSION 7
#define LAMPHOLLY_REFUSED_ROOM 8
#define LAMPHOLLY_REFUSED_LIST 9
#define LAMPHOLLY_REFUSED_POINT 10
#define LAMPHOLLY_REFUSED_PRIMITIVES 11
#define LAMPHOLLY_REFUSED_FRAME 12
#define LAMPHOLLY_REFUSED_TEXT 13
#define LAMPHOLLY_REFUSED_REWRITE_PRIMITIVES 14
#define LAMPHOLLY_REFUSED_REWRITE_EXPANSION 15

/* What always suffices: a table of 127 rows, a list of 65,536 products, the longest text that can be read, the triples of 500
   frames, a picture of 128 columns and 128 codes, a finished tree of 4,096 leaves. */
#define LAMPHOLLY_TABLE_WORDS 1524
#define LAMPHOLLY_LIST_WORDS 131080
#define LAMPHOLLY_TEXT_BYTES 16384
#define LAMPHOLLY_TRIPLE_WORDS 1500
#define LAMPHOLLY_PICTURE_WORDS 16384
#define LAMPHOLLY_REWRITE_WORDS 24573

/* What stands in a picture where no frame is inside. */
#define LAMPHOLLY_NO_FRAME (-2147483647 - 1)

/* What a call answers. `refusal` is 0 where nothing is refused; then `value` and `count` are
      0, 0                sound, outside, clear
      1, 0                inside
      n, 0                written: n words or bytes
      position, count     hit: the first inside sample, and how many there are, which is never 0
   Where something is refused, `refusal` is the number of the refusal, `value` its value, and `count` 0.
   So `if (answer.refusal)` is the whole test for a refusal, and `answer.count` tells a hit from clear. */
struct lampholly_answer {
    uint64_t refusal, value, count;
};

/* Both bounds of an axis belong to the window. x is the column, y the code, z the frame number. */
struct lampholly_window {
    int32_t xlo, xhi, ylo, yhi, zlo, zhi;
};

/* Both bounds of a side belong to the rectangle. x is the column, y the code. */
struct lampholly_rectangle {
    int32_t xlo, xhi, ylo, yhi;
};

/* Checks a table.
   Answers: sound (0, 0, 0).
   Refusals: the table's. */
struct lampholly_answer lampholly_check(const int32_t *table, size_t words);

/* Is the point in the zone?
   Answers: outside (0, 0, 0) or inside (0, 1, 0).
   Refusals: the table's; then
     10  a coordinate out of its axis' range     value: first bad axis, 0..2 */
struct lampholly_answer lampholly_tree_point(const int32_t *table, size_t words, int32_t x, int32_t y, int32_t z);

/* Searches a frame. Sample k, counted from 0, stands at column first + k. The trace is drawn between the samples: the column of
   sample k holds every code from codes[k - 1], itself left out unless equal, to codes[k]; that of sample 0 holds codes[0] alone.
   So after a code of 3 a sample of 7 holds 4, 5, 6, 7, and after 7 one of 3 holds 3, 4, 5, 6. A sample is inside where one of the
   codes that its column holds is, at that column and in that frame.
   Answers: clear (0, 0, 0), or hit (0, position of the first inside sample, number of inside samples).
   Refusals: the table's; then
     12  no sample or over 65,536               value: 0
         a column out of -32768..32767          value: 1
         the frame out of -1048576..1048575     value: 2 */
struct lampholly_answer lampholly_tree_search(const int32_t *table, size_t words,
                                              const int16_t *codes, size_t samples, int32_t first, int32_t frame);

/* Normalises the zone to its list of products for the window, and writes that into list[0 .. room - 1].
   Word 0: number of products. Words 1 to 4: the window's columns and codes, each plus 32768. Words 5 and 6: its frames, each plus
   1048576. Word 7: number of primitives.
   From word 8, two words a product: a bit for each uncomplemented primitive, then a bit for each complemented one; primitive
   i is bit i.
   The list belongs to its table and its window. After a change of the table make it anew: a list of another zone with the same
   number of primitives is not noticed, and answers for neither.
   The expansion count is the last row's `in`, where
      a primitive has         in = 1                      out = 1
      a union has             in = left.in + right.in     out = left.out * right.out
      an intersection has     in = left.in * right.in     out = left.out + right.out
      a difference has        in = left.in * right.out    out = left.out + right.in
   Answers: written (0, words written, 0). A zone that misses the window gives 0 products: 8 words.
   Refusals: the table's; then
      6  a bound out of its axis' range, or hi below lo (at hi)  value: first bad bound, 0..5, in the order of the struct
      7  the expansion count, before pruning, is over 65,536     value: that count
      8  no room                                                 value: words needed */
struct lampholly_answer lampholly_make_list(const int32_t *table, size_t words, struct lampholly_window window,
                                            uint64_t *list, size_t room);

/* Is the point in the list? It is when, for some product, it is in every uncomplemented primitive and in no complemented
   one. A list that lampholly_make_list made from this very table agrees with the tree at every point of its window; whether
   it was is not looked at, but for the number of primitives.
   A list may be lent longer than its products need; the rest is not read.
   Answers: outside (0, 0, 0) or inside (0, 1, 0).
   Refusals: the table's; the list's; then
     10  the point is out of the list's window   value: first bad axis, 0..2 */
struct lampholly_answer lampholly_list_point(const int32_t *table, size_t words,
                                             const uint64_t *list, size_t list_words, int32_t x, int32_t y, int32_t z);

/* Searches a frame by the list; samples and what their columns hold as in lampholly_tree_search, inside as in
   lampholly_list_point.
   Answers: clear (0, 0, 0), or hit (0, position of the first inside sample, number of inside samples).
   Refusals: the table's; the list's; then
     12  as in lampholly_tree_search
     10  a sample is out of the list's window    value: position of the first such sample, by its own code */
struct lampholly_answer lampholly_list_search(const int32_t *table, size_t words,
                                              const uint64_t *list, size_t list_words,
                                              const int16_t *codes, size_t samples, int32_t first, int32_t frame);

/* Reads zone text into table[0 .. room - 1]. The first line is `zone` and the number of rows. Each further line is a row: box,
   wedge, drum, union, inter, diff or tri, then the words of its kind in decimal, a minus only before a negative one and no zero
   in front. A tab stands between two, a line feed ends every line, and nothing follows the last.
   Answers: written (0, words written, 0).
   Refusals:
     13  over 16,384 bytes                       value: 0
         the text breaks its form                value: first faulty line, counted from 1
     then, of the table that the text says, 3, 4 and 5 of the table's refusals (a text of good form earns no 1 and no 2); then
      8  no room                                 value: words needed */
struct lampholly_answer lampholly_read_text(const uint8_t *text, size_t bytes, int32_t *table, size_t room);

/* Writes the table as zone text into text[0 .. room - 1]; no zero byte ends it.
   Answers: written (0, bytes written, 0). Reading those bytes gives the same table.
   Refusals: the table's; then
      8  no room                                 value: bytes needed */
struct lampholly_answer lampholly_write_text(const int32_t *table, size_t words, uint8_t *text, size_t room);

/* Searches up to 500 frames of one length by the list, each as lampholly_list_search does. They lie end to end in
   codes[0 .. samples - 1], so that each has samples / frames of them, and all start at column `first`. The first has the number
   `frame`, each further one a number greater by one; no frame fills sample 0 of the next. Writes three words a frame into
   triples[0 .. room - 1]:
      0, 0, 0                   clear
      1, position, count        hit: the first inside sample, counted from 0 in its frame, and how many there are
      100 + number, value, 0    refused, by 12 or 10; the other frames are searched all the same
   So frames of no sample, or of over 65,536, have 112, 0, 0 each; a column out of range gives 112, 1, 0 and a frame number out
   of range 112, 2, 0.
   Answers: written (0, 3 * frames, 0).
   Refusals, of the whole call: the table's; the list's; then
     12  no frame, over 500, or samples not a multiple of frames     value: 0
      8  no room                                                     value: words needed, 3 * frames */
struct lampholly_answer lampholly_list_search_frames(const int32_t *table, size_t words,
                                                     const uint64_t *list, size_t list_words,
                                                     const int16_t *codes, size_t samples, size_t frames,
                                                     int32_t first, int32_t frame,
                                                     uint32_t *triples, size_t room);

/* Draws the waterfall picture of a rectangle of at most 128 columns and 128 codes: for each of its places the newest frame in
   the zone. Writes a word a place into picture[0 .. room - 1], row by row from the highest code down, columns rising: the
   greatest frame of the list's window at which the place is inside as in lampholly_list_point, or LAMPHOLLY_NO_FRAME where there
   is none. So the word of column x and code y is picture[(yhi - y) * (xhi - xlo + 1) + (x - xlo)].
   Answers: written (0, columns * codes, 0).
   Refusals: the table's; the list's; then
      6  a bound out of the list's window, or hi below lo or over 127 above it (at hi)
                                                 value: first bad bound, 0..3, in the order of the struct
      8  no room                                 value: words needed, columns * codes */
struct lampholly_answer lampholly_list_waterfall(const int32_t *table, size_t words,
                                                 const uint64_t *list, size_t list_words,
                                                 struct lampholly_rectangle rectangle,
                                                 int32_t *picture, size_t room);

/* Rewrites the tree of a zone of at most 16 primitives and 256 choices to a union of products, step by step, by the eight
   equivalences of the paper that docs/RULES.md names and its number 6.5, always by the lowest that fits, and without pruning. Its
   products are the choices that lampholly_make_list begins with. The finished tree goes into tree[0 .. room - 1], three words a
   row:
      0, number, 0         a primitive
      kind, left, right    LAMPHOLLY_UNION, _INTER or _DIFF, and its two rows
   Rows are those of the finished tree, counted from 0, in the order left subtree, right subtree, node: the last is the root.
   What lies beyond them stays as it was. work[0 .. work_room - 1] is used on the way, and every word of it is 0 then.
   Answers: written (0, words of the finished tree, 0).
   Refusals: the table's; then
     14  over 16 primitives                                            value: their number
     15  the expansion count (lampholly_make_list says it) over 256    value: that count
      8  room or work_room under 24,573, whatever the tree needs       value: 24,573 */
struct lampholly_answer lampholly_rewrite(const int32_t *table, size_t words,
                                          int32_t *tree, size_t room, int32_t *work, size_t work_room);

#ifdef __cplusplus
}
#endif

#endif
