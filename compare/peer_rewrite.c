/* Peer: the paper's procedure over an array of nodes, which fills the work area; a node is told by its place there. */
#include <string.h>

#include "peers.h"

struct node {
    int32_t kind, left, right; /* of a leaf, left is the primitive's number */
};

struct tree {
    struct node *node;
    int32_t nodes;
};

static int32_t added(struct tree *tree, int32_t kind, int32_t left, int32_t right)
{
    struct node node = {kind, left, right};
    tree->node[tree->nodes] = node;
    return tree->nodes++;
}

static int32_t copied(struct tree *tree, int32_t at)
{
    struct node from = tree->node[at];
    if (from.kind != LEAF) {
        from.left = copied(tree, from.left);
        from.right = copied(tree, from.right);
    }
    return added(tree, from.kind, from.left, from.right);
}

static void put(struct node *node, int32_t kind, int32_t left, int32_t right)
{
    node->kind = kind;
    node->left = left;
    node->right = right;
}

/* By 1 to 6: X and (Y, Z). Where a sum is made of it, which 2, 3 and 5 do, X stands twice. */
static void rewrite_by_right(struct tree *tree, struct node *t)
{
    struct node *inner = &tree->node[t->right];
    int32_t kind = t->kind, inner_kind = inner->kind, x = t->left, y = inner->left, z = inner->right;
    put(inner, kind, x, y);
    if ((kind == INTER) == (inner_kind == UNION))
        put(t, UNION, t->right, added(tree, inner_kind == DIFF ? INTER : kind, copied(tree, x), z));
    else
        put(t, inner_kind == DIFF ? DIFF : kind, t->right, z);
}

/* By 6.5 to 8: (X, Y) and Z, which is a leaf, or one of the others would fit. */
static void rewrite_by_left(struct tree *tree, struct node *t)
{
    struct node *inner = &tree->node[t->left];
    int32_t kind = t->kind, y = inner->right, z = t->right;
    int is_sum = inner->kind == UNION;
    put(inner, kind, inner->left, z);
    if (is_sum)
        put(t, UNION, t->left, added(tree, kind, y, copied(tree, z)));
    else
        put(t, DIFF, t->left, y);
}

/* Rewrites the node once by the lowest number that fits; says whether one did. */
static int is_rewritten(struct tree *tree, struct node *t)
{
    int32_t left = tree->node[t->left].kind;
    if (t->kind == UNION)
        return 0;
    if (tree->node[t->right].kind != LEAF)
        rewrite_by_right(tree, t);
    else if (left == UNION || (left == DIFF && t->kind == INTER))
        rewrite_by_left(tree, t);
    else
        return 0;
    return 1;
}

static int is_done(const struct tree *tree, const struct node *t)
{
    return t->kind == UNION || (tree->node[t->right].kind == LEAF && tree->node[t->left].kind != UNION);
}

static void normalize(struct tree *tree, int32_t at)
{
    for (struct node *t = &tree->node[at]; t->kind != LEAF; t = &tree->node[t->right])
        do {
            while (is_rewritten(tree, t))
                ;
            normalize(tree, t->left);
        } while (!is_done(tree, t));
}

/* Left subtree, right subtree, node; gives the node's row. */
static int32_t laid_out(const struct tree *tree, int32_t at, struct tree *rows)
{
    struct node node = tree->node[at];
    if (node.kind != LEAF) {
        node.left = laid_out(tree, node.left, rows);
        node.right = laid_out(tree, node.right, rows);
    }
    return added(rows, node.kind, node.left, node.right);
}

static struct lampholly_answer check_limits(const struct peer_zone *zone, size_t room, size_t work_room)
{
    if (zone->primitives > MOST_REWRITE_PRIMITIVES)
        return peer_refused(14, (uint64_t)zone->primitives);
    uint64_t choices = peer_expansion_count(zone);
    if (choices > MOST_REWRITE_CHOICES)
        return peer_refused(15, choices);
    return room < REWRITE_WORDS || work_room < REWRITE_WORDS ? peer_refused(8, REWRITE_WORDS) : peer_done(0);
}

struct lampholly_answer peer_rewrite(const int32_t *table, size_t words, int32_t *tree, size_t room,
                                     int32_t *work, size_t work_room)
{
    struct peer_zone zone;
    struct lampholly_answer answer = peer_open(table, words, &zone);
    if (!answer.refusal)
        answer = check_limits(&zone, room, work_room);
    if (answer.refusal)
        return answer;
    struct tree nodes = {(struct node *)work, 0}, rows = {(struct node *)tree, 0};
    for (int32_t i = 0; i < zone.rows; i++) {
        const struct peer_row *row = &zone.row[i];
        int is_inner = is_operation(row->kind);
        added(&nodes, is_inner ? row->kind : LEAF, row->left, is_inner ? row->right : 0);
    }
    int32_t root = zone.rows - 1;
    normalize(&nodes, root);
    laid_out(&nodes, root, &rows);
    memset(work, 0, work_room * sizeof work[0]);
    return peer_done(NODE_WORDS * (uint64_t)rows.nodes);
}
