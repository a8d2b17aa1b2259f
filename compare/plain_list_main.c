/* The listing program: zone text on standard input, its list for the full range on standard output. */
#include <inttypes.h>
#include <stdio.h>

#include "plain.h"
#include "rules.h"

/* One byte over the longest text, so that a longer one is seen to be too long. */
static uint8_t text[MOST_TEXT_BYTES + 1];
static int32_t table[MOST_TABLE_WORDS];
static uint64_t list[LISTING_WORDS];

static void print_refusal(struct plain_answer answer)
{
    printf("refused\t%" PRIu64 "\t%" PRIu64 "\n", answer.refusal, answer.value);
}

static void print_list(void)
{
    printf("list\t%" PRIu64 "\n", list[LIST_PRODUCTS]);
    for (uint64_t product = 0; product < list[LIST_PRODUCTS]; product++) {
        const uint64_t *at = list + list_words(product);
        printf("%" PRIu64 "\t%" PRIu64 "\n", at[UNCOMPLEMENTED], at[COMPLEMENTED]);
    }
}

int main(void)
{
    struct plain_window full = {FULL_RANGE};
    size_t bytes = fread(text, 1, sizeof text, stdin);
    struct plain_answer answer = plain_read_text(text, bytes, table, sizeof table / sizeof table[0]);
    if (answer.refusal == 0)
        answer = plain_make_list(table, answer.value, full, list, sizeof list / sizeof list[0]);
    if (answer.refusal != 0)
        print_refusal(answer);
    else
        print_list();
    return 0;
}
