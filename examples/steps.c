/* Shows how the paper's procedure rewrites the tree of a zone to normal form, step by step, and that lampholly_rewrite comes to
   the same tree. Of each step it prints the number of the equivalence, what stood at the node, what stands there now, and the
   whole tree; then the products, with their words as in a list. The steps are those of the plain C in compare/. On x86-64, from
   the top of the repository:

       tools/archive
       cc -std=c99 -Iinclude examples/steps.c compare/plain_table.c compare/plain_make.c compare/plain_rewrite.c \
           target/staticlib/libzone_c.a -o target/steps
       target/steps examples/training/14-nine-rules.zone

   prints what examples/steps.out has. */
#include <inttypes.h>
#include <stdio.h>
#include <string.h>

#include "../compare/plain.h"
#include "../compare/rules.h"
#include "lampholly.h"

static uint8_t text[LAMPHOLLY_TEXT_BYTES + 1]; /* one more, so that a longer text is refused and not cut */
static int32_t table[LAMPHOLLY_TABLE_WORDS];
static int32_t tree[LAMPHOLLY_REWRITE_WORDS], plain_tree[LAMPHOLLY_REWRITE_WORDS];
static int32_t work[LAMPHOLLY_REWRITE_WORDS];

static int refused(const char *call, struct lampholly_answer answer)
{
    if (answer.refusal)
        fprintf(stderr, "%s: refused %" PRIu64 ", value %" PRIu64 "\n", call, answer.refusal, answer.value);
    return answer.refusal != 0;
}

static char letter(int32_t primitive)
{
    return (char)('A' + primitive);
}

static const char *sign(int32_t kind)
{
    return kind == UNION ? "∪" : kind == INTER ? "∩" : "-";
}

static void print_tree(const struct plain_node *node);

/* What is an operation itself stands in parentheses. */
static void print_side(const struct plain_node *node)
{
    if (node->kind == LEAF) {
        print_tree(node);
        return;
    }
    printf("(");
    print_tree(node);
    printf(")");
}

static void print_tree(const struct plain_node *node)
{
    if (node->kind == LEAF) {
        printf("%c", letter(node->number));
        return;
    }
    print_side(node->left);
    printf(" %s ", sign(node->kind));
    print_side(node->right);
}

static void print_step(enum plain_moment moment, int equivalence, const struct plain_node *node, const struct plain_node *root)
{
    static int step;
    switch (moment) {
    case PLAIN_READ:
        print_tree(root);
        printf("\n");
        break;
    case PLAIN_FITS:
        printf("step %d, by %s: ", ++step, equivalence_name[equivalence]);
        print_tree(node);
        break;
    case PLAIN_REWRITTEN:
        printf(" = ");
        print_tree(node);
        printf("\n    ");
        print_tree(root);
        printf("\n");
    }
}

/* The primitives of a product, by its topmost row: right sides are primitives, and those of differences are cuts. */
static void collect(int32_t row, uint64_t product[PRODUCT_WORDS])
{
    const int32_t *at = tree + NODE_WORDS * row;
    for (; at[KIND] != LEAF; at = tree + NODE_WORDS * at[LEFT])
        product[at[KIND] == DIFF ? COMPLEMENTED : UNCOMPLEMENTED] |= (uint64_t)1 << tree[NODE_WORDS * at[RIGHT] + LEFT];
    product[UNCOMPLEMENTED] |= (uint64_t)1 << at[LEFT];
}

static void print_set(const char *before, uint64_t set)
{
    for (int32_t i = 0; i < MOST_REWRITE_PRIMITIVES; i++)
        if (set >> i & 1) {
            printf("%s%c", before, letter(i));
            before = " and ";
        }
}

static void print_product(int32_t row)
{
    static int number;
    uint64_t product[PRODUCT_WORDS] = {0, 0};
    collect(row, product);
    printf("product %d: ", number++);
    print_set("", product[UNCOMPLEMENTED]);
    print_set(" without ", product[COMPLEMENTED]);
    printf(", words %" PRIu64 " %" PRIu64 "\n", product[UNCOMPLEMENTED], product[COMPLEMENTED]);
}

/* A finished tree is a union of products. */
static void print_products(int32_t row)
{
    const int32_t *at = tree + NODE_WORDS * row;
    if (at[KIND] != UNION) {
        print_product(row);
        return;
    }
    print_products(at[LEFT]);
    print_products(at[RIGHT]);
}

int main(int argc, char **argv)
{
    FILE *file = argc > 1 ? fopen(argv[1], "rb") : stdin;
    size_t bytes = file == NULL ? 0 : fread(text, 1, sizeof text, file);
    struct lampholly_answer read = lampholly_read_text(text, bytes, table, LAMPHOLLY_TABLE_WORDS);
    if (refused("read", read))
        return 1;
    struct lampholly_answer rewritten = lampholly_rewrite(table, read.value, tree, LAMPHOLLY_REWRITE_WORDS,
                                                          work, LAMPHOLLY_REWRITE_WORDS);
    if (refused("rewrite", rewritten))
        return 1;
    struct plain_answer plain = plain_rewrite(table, read.value, plain_tree, REWRITE_WORDS, work, REWRITE_WORDS, print_step);
    if (plain.value != rewritten.value || memcmp(plain_tree, tree, plain.value * sizeof tree[0]) != 0) {
        printf("lampholly_rewrite leaves another tree\n");
        return 1;
    }
    int32_t rows = (int32_t)(rewritten.value / NODE_WORDS);
    print_products(rows - 1);
    printf("lampholly_rewrite leaves this tree, in %" PRId32 " rows\n", rows);
    return 0;
}
