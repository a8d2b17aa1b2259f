/* Peers: zone text, read and written once through. */
#include <string.h>

#include "peers.h"

/* Reading. Each step gives where the text goes on, NULL where it breaks its form. */

static const uint8_t *read_number(const uint8_t *at, const uint8_t *end, int32_t *number)
{
    int minus = at < end && *at == '-';
    at += minus;
    const uint8_t *digits = at;
    int64_t value = 0;
    while (at < end && *at >= '0' && *at <= '9' && at - digits < 11)
        value = 10 * value + (*at++ - '0');
    if (at == digits || (*digits == '0' && (at - digits > 1 || minus)) || value > (int64_t)INT32_MAX + minus)
        return NULL;
    *number = (int32_t)(minus ? -value : value);
    return at;
}

static const uint8_t *read_byte(const uint8_t *at, const uint8_t *end, uint8_t byte)
{
    return at != NULL && at < end && *at == byte ? at + 1 : NULL;
}

static int stands_at(const uint8_t *at, const uint8_t *end, const char *name)
{
    size_t length = strlen(name);
    return (size_t)(end - at) >= length && memcmp(at, name, length) == 0;
}

static const uint8_t *read_row(const uint8_t *at, const uint8_t *end, int32_t *row)
{
    int32_t kind = 0;
    while (is_kind(kind) && !stands_at(at, end, kinds[kind].name))
        kind++;
    if (!is_kind(kind))
        return NULL;
    row[KIND] = kind;
    at += strlen(kinds[kind].name);
    for (size_t field = 1; field <= kinds[kind].fields && at != NULL; field++) {
        at = read_byte(at, end, '\t');
        if (at != NULL)
            at = read_number(at, end, &row[field]);
    }
    return read_byte(at, end, '\n');
}

static const uint8_t *read_first_line(const uint8_t *at, const uint8_t *end, int32_t *rows)
{
    if (end - at < 5 || memcmp(at, "zone\t", 5) != 0)
        return NULL;
    at = read_byte(read_number(at + 5, end, rows), end, '\n');
    return at != NULL && 1 <= *rows && *rows <= MOST_ROWS ? at : NULL;
}

struct lampholly_answer peer_read_text(const uint8_t *text, size_t bytes, int32_t *table, size_t room)
{
    int32_t fresh[MOST_TABLE_WORDS], rows;
    const uint8_t *end = text + bytes;
    if (bytes > MOST_TEXT_BYTES)
        return peer_refused(13, 0);
    const uint8_t *at = read_first_line(text, end, &rows);
    if (at == NULL)
        return peer_refused(13, 1);
    size_t words = table_words((size_t)rows);
    memset(fresh, 0, words * sizeof fresh[0]);
    for (int32_t row = 0; row < rows; row++) {
        at = read_row(at, end, fresh + table_words((size_t)row));
        if (at == NULL)
            return peer_refused(13, (uint64_t)row + 2);
    }
    if (at != end)
        return peer_refused(13, (uint64_t)rows + 2);
    struct lampholly_answer check = peer_check(fresh, words);
    if (check.refusal)
        return check;
    if (words > room)
        return peer_refused(8, words);
    memcpy(table, fresh, words * sizeof fresh[0]);
    return peer_done(words);
}

/* Writing. Each step gives where the text goes on. */

static uint8_t *write_number(uint8_t *at, int64_t number)
{
    uint8_t digits[12];
    int count = 0;
    if (number < 0) {
        *at++ = '-';
        number = -number;
    }
    do {
        digits[count++] = (uint8_t)('0' + number % 10);
        number /= 10;
    } while (number > 0);
    while (count > 0)
        *at++ = digits[--count];
    return at;
}

static uint8_t *write_row(uint8_t *at, const int32_t *row)
{
    const struct kind *kind = &kinds[row[KIND]];
    size_t length = strlen(kind->name);
    memcpy(at, kind->name, length);
    at += length;
    for (size_t field = 1; field <= kind->fields; field++) {
        *at++ = '\t';
        at = write_number(at, row[field]);
    }
    *at++ = '\n';
    return at;
}

struct lampholly_answer peer_write_text(const int32_t *table, size_t words, uint8_t *text, size_t room)
{
    uint8_t written[MOST_TEXT_BYTES], *at = written;
    struct lampholly_answer check = peer_check(table, words);
    if (check.refusal)
        return check;
    memcpy(at, "zone\t", 5);
    at = write_number(at + 5, (int64_t)rows_in(words));
    *at++ = '\n';
    for (size_t row = 0; row < rows_in(words); row++)
        at = write_row(at, table + table_words(row));
    size_t bytes = (size_t)(at - written);
    if (bytes > room)
        return peer_refused(8, bytes);
    memcpy(text, written, bytes);
    return peer_done(bytes);
}
