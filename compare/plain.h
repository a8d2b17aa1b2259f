/* A plain implementation of the rules for search zones: the calls and their answers. */
#ifndef PLAIN_H
#define PLAIN_H

#include <stddef.h>
#include <stdint.h>

/* refusal: the number of the refusal, 0 for none
   value: the refusal's; or 1 inside, 0 outside; or the words or bytes written; or the position of the first inside sample
   count: the inside samples of a hit
   What is not named is 0. */
struct plain_answer {
    uint64_t refusal, value, count;
};

struct plain_window {
    int32_t xlo, xhi, ylo, yhi, zlo, zhi;
};

struct plain_rectangle {
    int32_t xlo, xhi, ylo, yhi;
};

/* A refusal leaves every lent buffer as it was; what lies beyond a result in its buffer stays too. */

struct plain_answer plain_check(const int32_t *table, size_t words);

struct plain_answer plain_tree_point(const int32_t *table, size_t words, int32_t x, int32_t y, int32_t z);

struct plain_answer plain_tree_search(const int32_t *table, size_t words,
                                      const int16_t *codes, size_t samples, int32_t first, int32_t frame);

struct plain_answer plain_make_list(const int32_t *table, size_t words, struct plain_window window,
                                    uint64_t *list, size_t room);

struct plain_answer plain_list_point(const int32_t *table, size_t words, const uint64_t *list, size_t list_words,
                                     int32_t x, int32_t y, int32_t z);

struct plain_answer plain_list_search(const int32_t *table, size_t words, const uint64_t *list, size_t list_words,
                                      const int16_t *codes, size_t samples, int32_t first, int32_t frame);

/* The frames, all of one length, lie end to end in codes; each has three words in triples. */
struct plain_answer plain_list_search_frames(const int32_t *table, size_t words, const uint64_t *list, size_t list_words,
                                             const int16_t *codes, size_t samples, size_t frames,
                                             int32_t first, int32_t frame, uint32_t *triples, size_t room);

/* A word a place, from the highest code down, columns rising: the newest frame of the list's window that is inside. */
struct plain_answer plain_list_waterfall(const int32_t *table, size_t words, const uint64_t *list, size_t list_words,
                                         struct plain_rectangle rectangle, int32_t *picture, size_t room);

/* A node of the tree that is rewritten: a primitive, of kind 0 and with its number, or an operation of two subtrees. */
struct plain_node {
    int32_t kind, number;
    struct plain_node *left, *right;
};

/* What a watcher is told: the tree as it was read; each node that an equivalence fits; and that node when it is rewritten. */
enum plain_moment { PLAIN_READ, PLAIN_FITS, PLAIN_REWRITTEN };

/* Equivalences are counted from 0, in the order in which they are tried; where the tree is read, it is 0 and the node the root. */
typedef void plain_watcher(enum plain_moment moment, int equivalence,
                           const struct plain_node *node, const struct plain_node *root);

/* Three words a row of the finished tree: left subtree, right subtree, node. Every word of the work area is 0 then. */
struct plain_answer plain_rewrite(const int32_t *table, size_t words, int32_t *tree, size_t room,
                                  int32_t *work, size_t work_room, plain_watcher *watcher);

struct plain_answer plain_read_text(const uint8_t *text, size_t bytes, int32_t *table, size_t room);

struct plain_answer plain_write_text(const int32_t *table, size_t words, uint8_t *text, size_t room);

#endif
