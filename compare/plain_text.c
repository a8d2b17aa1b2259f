/* Zone text: reading it, refusal 13, and writing it. */
#include <inttypes.h>
#include <stdio.h>
#include <string.h>

#include "plain_parts.h"

/* What is still to be read. Each take_ function says whether it found what it wants and steps past it. */
struct rest {
    const uint8_t *text;
    size_t bytes;
};

static int take_byte(struct rest *rest, char wanted)
{
    if (rest->bytes == 0 || rest->text[0] != (uint8_t)wanted)
        return 0;
    rest->text++;
    rest->bytes--;
    return 1;
}

static int take_name(struct rest *rest, const char *name)
{
    size_t length = strlen(name);
    if (rest->bytes < length || memcmp(rest->text, name, length) != 0)
        return 0;
    rest->text += length;
    rest->bytes -= length;
    return 1;
}

static int take_digit(struct rest *rest, int *digit)
{
    for (*digit = 0; *digit <= 9; (*digit)++)
        if (take_byte(rest, (char)('0' + *digit)))
            return 1;
    return 0;
}

/* Digits without leading zeros, up to 2^31: no number of 32 bits has more to its digits. */
static int take_size(struct rest *rest, int64_t *size)
{
    int digit;
    if (!take_digit(rest, &digit))
        return 0;
    *size = digit;
    while (take_digit(rest, &digit)) {
        if (*size == 0)
            return 0;
        *size = 10 * *size + digit;
        if (*size > (int64_t)INT32_MAX + 1)
            return 0;
    }
    return 1;
}

static int take_number(struct rest *rest, int32_t *number)
{
    int minus = take_byte(rest, '-');
    int64_t size;
    if (!take_size(rest, &size))
        return 0;
    if (minus && size == 0)
        return 0;
    if (!minus && size > INT32_MAX)
        return 0;
    *number = (int32_t)(minus ? -size : size);
    return 1;
}

static int take_tab_and_number(struct rest *rest, int32_t *number)
{
    return take_byte(rest, '\t') && take_number(rest, number);
}

static int take_first_line(struct rest *rest, int32_t *rows)
{
    return take_name(rest, "zone") && take_tab_and_number(rest, rows) && take_byte(rest, '\n')
        && 1 <= *rows && *rows <= MOST_ROWS;
}

/* No text name begins another, so the first that fits is the name. */
static int take_kind(struct rest *rest, int32_t *kind)
{
    for (*kind = 0; is_kind(*kind); (*kind)++)
        if (take_name(rest, kinds[*kind].name))
            return 1;
    return 0;
}

static int take_row_line(struct rest *rest, int32_t *row)
{
    if (!take_kind(rest, &row[KIND]))
        return 0;
    for (size_t field = 1; field <= kinds[row[KIND]].fields; field++)
        if (!take_tab_and_number(rest, &row[field]))
            return 0;
    return take_byte(rest, '\n');
}

/* Reads the form into a table whose words are all 0; done with the number of its words, or refused 13. */
static struct plain_answer read_form(struct rest rest, int32_t *table)
{
    int32_t rows;
    if (rest.bytes > MOST_TEXT_BYTES)
        return plain_refused(13, 0);
    if (!take_first_line(&rest, &rows))
        return plain_refused(13, 1);
    for (int32_t row = 0; row < rows; row++)
        if (!take_row_line(&rest, table + table_words((size_t)row)))
            return plain_refused(13, (uint64_t)row + 2);
    if (rest.bytes > 0)
        return plain_refused(13, (uint64_t)rows + 2);
    return plain_done(table_words((size_t)rows));
}

struct plain_answer plain_read_text(const uint8_t *text, size_t bytes, int32_t *table, size_t room)
{
    int32_t fresh[MOST_TABLE_WORDS] = {0};
    struct rest rest = {text, bytes};
    struct plain_answer form = read_form(rest, fresh);
    if (plain_is_refused(form))
        return form;
    size_t words = form.value;
    struct plain_answer check = plain_check(fresh, words);
    if (plain_is_refused(check))
        return check;
    if (words > room)
        return plain_refused(8, words);
    memcpy(table, fresh, words * sizeof fresh[0]);
    return plain_done(words);
}

/* Writes the row's line, and says how many bytes it has. */
static size_t write_row_line(char *line, const int32_t *row)
{
    size_t bytes = (size_t)sprintf(line, "%s", kinds[row[KIND]].name);
    for (size_t field = 1; field <= kinds[row[KIND]].fields; field++)
        bytes += (size_t)sprintf(line + bytes, "\t%" PRId32, row[field]);
    return bytes + (size_t)sprintf(line + bytes, "\n");
}

/* A line has under 128 bytes: at most 10 fields of at most 12 bytes with their tabs, and the name. */
struct plain_answer plain_write_text(const int32_t *table, size_t words, uint8_t *text, size_t room)
{
    char written[128 * (1 + MOST_ROWS)];
    struct plain_answer check = plain_check(table, words);
    if (plain_is_refused(check))
        return check;
    struct zone zone = plain_zone(table, words);
    size_t bytes = (size_t)sprintf(written, "zone\t%d\n", (int)zone.rows);
    for (size_t row = 0; row < zone.rows; row++)
        bytes += write_row_line(written + bytes, zone.row[row]);
    if (bytes > room)
        return plain_refused(8, bytes);
    memcpy(text, written, bytes);
    return plain_done(bytes);
}
