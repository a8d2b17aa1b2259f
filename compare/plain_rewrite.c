/* The engine from the paper: a tree rewritten to normal form by the equivalences of its figure 2 and by number 6.5. */
#include <stdlib.h>
#include <string.h>

#include "plain_parts.h"

/* All nodes there are. None is given back, since no rewrite takes one out of the tree. */
static struct plain_node pool[MOST_NODES];
static size_t taken;

static struct plain_node *new_node(void)
{
    if (taken == MOST_NODES)
        abort();
    return &pool[taken++];
}

static struct plain_node *put(struct plain_node *node, int32_t kind, struct plain_node *left, struct plain_node *right)
{
    node->kind = kind;
    node->number = 0;
    node->left = left;
    node->right = right;
    return node;
}

static struct plain_node *new_leaf(int32_t number)
{
    struct plain_node *leaf = put(new_node(), LEAF, NULL, NULL);
    leaf->number = number;
    return leaf;
}

static struct plain_node *copy(const struct plain_node *tree)
{
    return tree->kind == LEAF ? new_leaf(tree->number) : put(new_node(), tree->kind, copy(tree->left), copy(tree->right));
}

static struct plain_node *tree_of(const struct zone *zone, size_t number)
{
    const int32_t *row = zone->row[number];
    if (is_primitive(row[KIND]))
        return new_leaf((int32_t)plain_primitive_number(zone, row));
    return put(new_node(), row[KIND], tree_of(zone, row[LEFT]), tree_of(zone, row[RIGHT]));
}

/* Does the node match the left side? Up to 6 that is X and (Y, Z), from 6.5 on (X, Y) and Z. */
static int fits(int equivalence, const struct plain_node *t)
{
    switch (equivalence) {
    case EQUIVALENCE_1: return t->kind == DIFF && t->right->kind == UNION;
    case EQUIVALENCE_2: return t->kind == INTER && t->right->kind == UNION;
    case EQUIVALENCE_3: return t->kind == DIFF && t->right->kind == INTER;
    case EQUIVALENCE_4: return t->kind == INTER && t->right->kind == INTER;
    case EQUIVALENCE_5: return t->kind == DIFF && t->right->kind == DIFF;
    case EQUIVALENCE_6: return t->kind == INTER && t->right->kind == DIFF;
    case EQUIVALENCE_6_5: return t->kind == INTER && t->left->kind == DIFF;
    case EQUIVALENCE_7: return t->kind == DIFF && t->left->kind == UNION;
    default: return t->kind == INTER && t->left->kind == UNION;
    }
}

/* EQUIVALENCES where none fits. */
static int lowest_that_fits(const struct plain_node *t)
{
    int equivalence = EQUIVALENCE_1;
    while (equivalence < EQUIVALENCES && !fits(equivalence, t))
        equivalence++;
    return equivalence;
}

/* Makes the right side of the left one. The inner operation's node is used anew; what the right side names twice is copied. */
static void replace(int equivalence, struct plain_node *t)
{
    int is_inner_left = equivalence >= EQUIVALENCE_6_5;
    struct plain_node *inner = is_inner_left ? t->left : t->right;
    struct plain_node *x = is_inner_left ? inner->left : t->left;
    struct plain_node *y = is_inner_left ? inner->right : inner->left;
    struct plain_node *z = is_inner_left ? t->right : inner->right;
    switch (equivalence) {
    case EQUIVALENCE_1: put(t, DIFF, put(inner, DIFF, x, y), z); break;
    case EQUIVALENCE_2: put(t, UNION, put(inner, INTER, x, y), put(new_node(), INTER, copy(x), z)); break;
    case EQUIVALENCE_3: put(t, UNION, put(inner, DIFF, x, y), put(new_node(), DIFF, copy(x), z)); break;
    case EQUIVALENCE_4: put(t, INTER, put(inner, INTER, x, y), z); break;
    case EQUIVALENCE_5: put(t, UNION, put(inner, DIFF, x, y), put(new_node(), INTER, copy(x), z)); break;
    case EQUIVALENCE_6: put(t, DIFF, put(inner, INTER, x, y), z); break;
    case EQUIVALENCE_6_5: put(t, DIFF, put(inner, INTER, x, z), y); break;
    case EQUIVALENCE_7: put(t, UNION, put(inner, DIFF, x, z), put(new_node(), DIFF, y, copy(z))); break;
    default: put(t, UNION, put(inner, INTER, x, z), put(new_node(), INTER, y, copy(z))); break;
    }
}

static void match_and_replace(struct plain_node *t, const struct plain_node *root, plain_watcher *watcher)
{
    int equivalence;
    while ((equivalence = lowest_that_fits(t)) < EQUIVALENCES) {
        watcher(PLAIN_FITS, equivalence, t, root);
        replace(equivalence, t);
        watcher(PLAIN_REWRITTEN, equivalence, t, root);
    }
}

/* The paper's procedure. */
static void normalize(struct plain_node *t, const struct plain_node *root, plain_watcher *watcher)
{
    if (t->kind == LEAF)
        return;
    do {
        match_and_replace(t, root, watcher);
        normalize(t->left, root, watcher);
    } while (!(t->kind == UNION || (t->right->kind == LEAF && t->left->kind != UNION)));
    normalize(t->right, root, watcher);
}

/* Left subtree, right subtree, node; says the node's row. */
static int32_t write_rows(const struct plain_node *node, int32_t *tree, int32_t *rows)
{
    int32_t left = node->kind == LEAF ? node->number : write_rows(node->left, tree, rows);
    int32_t right = node->kind == LEAF ? 0 : write_rows(node->right, tree, rows);
    int32_t *row = tree + NODE_WORDS * *rows;
    row[KIND] = node->kind;
    row[LEFT] = left;
    row[RIGHT] = right;
    return (*rows)++;
}

struct plain_answer plain_rewrite(const int32_t *table, size_t words, int32_t *tree, size_t room,
                                  int32_t *work, size_t work_room, plain_watcher *watcher)
{
    struct plain_answer check = plain_check(table, words);
    if (plain_is_refused(check))
        return check;
    struct zone zone = plain_zone(table, words);
    if (zone.primitives > MOST_REWRITE_PRIMITIVES)
        return plain_refused(14, zone.primitives);
    uint64_t expansion_count = plain_expansion_count(&zone);
    if (expansion_count > MOST_REWRITE_CHOICES)
        return plain_refused(15, expansion_count);
    if (room < REWRITE_WORDS || work_room < REWRITE_WORDS)
        return plain_refused(8, REWRITE_WORDS);

    taken = 0;
    struct plain_node *root = tree_of(&zone, zone.rows - 1);
    watcher(PLAIN_READ, EQUIVALENCE_1, root, root);
    normalize(root, root, watcher);
    int32_t rows = 0;
    write_rows(root, tree, &rows);
    memset(work, 0, work_room * sizeof work[0]);
    return plain_done(NODE_WORDS * (uint64_t)rows);
}
