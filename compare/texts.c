/* Zone text of any table whose kinds have a name, and damaged text. */
#include <inttypes.h>
#include <stdio.h>
#include <string.h>

#include "inputs.h"

static void add(struct text *text, const char *bytes)
{
    size_t length = strlen(bytes);
    if (text->bytes + length <= TEXT_ROOM) {
        memcpy(text->byte + text->bytes, bytes, length);
        text->bytes += length;
    }
}

static void add_number(struct text *text, int64_t number)
{
    char digits[24];
    sprintf(digits, "%" PRId64, number);
    add(text, digits);
}

/* In good form even where the table is not sound; then reading meets the table's refusals. */
void text_of(struct text *text, const struct table *table)
{
    size_t rows = rows_in(table->words);
    text->bytes = 0;
    add(text, "zone\t");
    add_number(text, (int64_t)rows);
    add(text, "\n");
    for (size_t number = 0; number < rows; number++) {
        const int32_t *row = table->word + table_words(number);
        add(text, is_kind(row[KIND]) ? kinds[row[KIND]].name : "cone");
        for (size_t field = 1; field <= fields_of(row[KIND]); field++) {
            add(text, "\t");
            add_number(text, row[field]);
        }
        add(text, "\n");
    }
}

/* Puts these bytes in place of those from start to end. */
static void replace(struct text *text, size_t start, size_t end, const char *bytes)
{
    size_t length = strlen(bytes);
    if (text->bytes - (end - start) + length > TEXT_ROOM)
        return;
    memmove(text->byte + start + length, text->byte + end, text->bytes - end);
    memcpy(text->byte + start, bytes, length);
    text->bytes = text->bytes - (end - start) + length;
}

static int ends_field(uint8_t byte)
{
    return byte == '\t' || byte == '\n';
}

struct part {
    size_t start, end;
};

static struct part part_about(const struct text *text, size_t at, int (*ends)(uint8_t))
{
    struct part part = {at, at};
    while (part.start > 0 && !ends(text->byte[part.start - 1]))
        part.start--;
    while (part.end < text->bytes && !ends(text->byte[part.end]))
        part.end++;
    return part;
}

static struct part some_field(const struct text *text)
{
    return part_about(text, below(text->bytes + 1), ends_field);
}

static int ends_line(uint8_t byte)
{
    return byte == '\n';
}

/* A line with its line feed, where it has one. */
static struct part some_line(const struct text *text)
{
    struct part line = part_about(text, below(text->bytes + 1), ends_line);
    if (line.end < text->bytes)
        line.end++;
    return line;
}

static const char *const bad_numbers[] = {
    "", "-0", "00", "01", "007", "-01", "-00", "+1", "-", "--1", "1-", " 1", "1 ", "1.0", "0x1", "2147483647", "2147483648",
    "-2147483648", "-2147483649", "4294967295", "4294967296", "4294967297", "-4294967297", "9999999999", "99999999999",
    "18446744073709551615", "18446744073709551616", "18446744073709551617", "340282366920938463463374607431768211457",
    "00000000000000000000000000000001", "32767", "32768", "-32768", "-32769", "1048575", "1048576", "-1048576", "-1048577",
    "4096", "4097", "0", "1", "-1", "2", "9", "10", "-10", "99", "100", "999999999", "1000000000", "-1000000000", "126", "127", "128",
    "1\t1", "1\n", "\n1", "\t", "1\r", "box", "\"1\"",
};

static const char *const bad_names[] = {
    "", "bo", "boxx", "Box", "BOX", "box ", " box", "wedg", "wedges", "drums", "unions", "inte", "intersection", "dif", "difff",
    "tr", "tria", "trj", "Tri", "TRI", "tri ", "triangle", "cone", "zone", "0", "box", "wedge", "drum", "union", "inter", "diff",
    "tri",
};

static const char *const bad_counts[] = {
    "", "0", "-0", "1", "2", "3", "007", "01", "-1", "126", "127", "128", "129", "255", "256", "257", "4294967297", "4294967303",
    "18446744073709551617", "1\t", "1 ", "x",
};

static const char *const bad_bytes[] = {
    "\t", "\n", "-", "0", "1", "9", "+", " ", "\r", ".", "/", ":", "b", "z", "\x7f", "\xff", "\x80", "\v", "\n\n", "\t\t",
};

static const char *const bad_tails[] = {
    "\n", "\t", " ", "0", "box\t0\t0\t0\t0\t0\t0\n", "tri\t0\t0\t1\t0\t0\t1\t0\t0\n", "union\t0\t1\n", "zone\t1\n", "\n\n", "#",
    "diff",
};

#define SOME(words) ((words)[below(sizeof(words) / sizeof((words)[0]))])

static void damage_first_line(struct text *text)
{
    size_t end = 0;
    while (end < text->bytes && text->byte[end] != '\n')
        end++;
    switch (below(7)) {
    case 0: replace(text, 0, end < 4 ? end : 4, SOME(bad_names)); break;
    case 1: replace(text, 0, end, "zone"); break;
    case 2: replace(text, 0, end, ""); break;
    case 3: replace(text, end < 4 ? end : 4, end < 5 ? end : 5, SOME(bad_bytes)); break;
    default:
        if (end >= 5)
            replace(text, 5, end, SOME(bad_counts));
    }
}

static void damage_line(struct text *text)
{
    static char copied[256];
    struct part line = some_line(text), other = some_line(text);
    size_t length = other.end - other.start;
    if (length >= sizeof copied)
        return;
    memcpy(copied, text->byte + other.start, length);
    copied[length] = 0;
    switch (below(5)) {
    case 0: replace(text, line.start, line.end, ""); break;
    case 1: replace(text, line.start, line.end, copied); break;
    case 2: replace(text, line.start, line.start, copied); break;
    case 3: replace(text, line.end > 0 ? line.end - 1 : 0, line.end, ""); break;
    default: replace(text, line.end > 0 ? line.end - 1 : 0, line.end, one_in(2) ? "\t0\n" : "\r\n"); break;
    }
}

static void damage_byte(struct text *text)
{
    size_t at = below(text->bytes + 1);
    size_t next = at < text->bytes ? at + 1 : at;
    switch (below(4)) {
    case 0: replace(text, at, at, SOME(bad_bytes)); break;
    case 1: replace(text, at, next, ""); break;
    case 2: replace(text, at, next, SOME(bad_bytes)); break;
    default:
        if (at < text->bytes)
            text->byte[at] = (uint8_t)any();
    }
}

/* Another byte where a tab or a line feed stands. */
static void damage_separator(struct text *text)
{
    struct part field = some_field(text);
    if (field.end < text->bytes)
        replace(text, field.end, field.end + 1, SOME(bad_bytes));
}

/* Something after the last line, a zero byte too. */
static void add_tail(struct text *text)
{
    if (!one_in(3))
        add(text, SOME(bad_tails));
    else if (text->bytes < TEXT_ROOM)
        text->byte[text->bytes++] = (uint8_t)ONE_OF(0, 0, 255, '\n', (int64_t)below(256));
}

/* Fills up to about the most bytes that a text may have. */
static void lengthen(struct text *text)
{
    size_t wanted = (size_t)ONE_OF(MOST_TEXT_BYTES - 1, MOST_TEXT_BYTES, MOST_TEXT_BYTES + 1, MOST_TEXT_BYTES + 2, TEXT_ROOM - 1);
    const char *filling = SOME(bad_bytes);
    while (text->bytes < wanted) {
        if (one_in(50))
            filling = SOME(bad_bytes);
        add(text, filling);
    }
    text->bytes = wanted;
}

/* A name that is nearly right: a letter short or long, the next letter for its last one, a capital for its first. */
static void misspell(struct text *text)
{
    struct part name = part_about(text, some_line(text).start, ends_field);
    if (name.start == name.end)
        return;
    switch (below(4)) {
    case 0: replace(text, name.end - 1, name.end, ""); break;
    case 1: replace(text, name.end, name.end, "a"); break;
    case 2: text->byte[name.end - 1]++; break;
    default: text->byte[name.start] ^= 'a' ^ 'A'; break;
    }
}

static void damage_text_once(struct text *text)
{
    struct part field = some_field(text);
    switch (below(13)) {
    case 0: damage_first_line(text); break;
    case 1: case 2: damage_line(text); break;
    case 3: case 4: damage_byte(text); break;
    case 5: add_tail(text); break;
    case 6: text->bytes = one_in(3) ? below(text->bytes + 1) : text->bytes > 0 ? text->bytes - 1 : 0; break;
    case 7: replace(text, field.start, field.end, SOME(bad_names)); break;
    case 8: damage_separator(text); break;
    case 9: misspell(text); break;
    case 10: replace(text, field.start > 0 ? field.start - 1 : 0, field.end, ""); break; /* a field too few */
    default: replace(text, field.start, field.end, SOME(bad_numbers)); break;
    }
}

void damage_text(struct text *text)
{
    do
        damage_text_once(text);
    while (one_in(3));
    if (one_in(30))
        lengthen(text);
}
