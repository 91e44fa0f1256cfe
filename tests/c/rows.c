/* Compares the library with rows. Each line of standard input is one: flags in hexadecimal, a symbol, and `ok` with the
   text or `err` with the offset and the message, parted by tabs. The flags have MSVC_DEMANGLER_FULL in a row of Full,
   and lack it in a row of the crate's grammar. A line that begins with `#` and a space is a heading. Each symbol is
   demangled into buffers of each size, from none to two bytes more than its text has. A row that differs is printed;
   the last line counts. */

#define _POSIX_C_SOURCE 200809L
#include <msvc_demangler.h>
#include <stdbool.h>
#include <stdio.h>

struct row {
    uint32_t flags;
    const char *symbol;
    bool is_ok;
    size_t offset;
    const char *text; /* or the message of the error */
};

/* The bytes of a buffer before a call. */
static const char untouched = '#';

/* The field that *rest begins with; *rest is what follows it. */
static char *next_field(char **rest)
{
    char *field = *rest;
    size_t length = strcspn(field, "\t");
    *rest = field + length + (field[length] == '\t');
    field[length] = '\0';
    return field;
}

static struct row parsed(char *line)
{
    struct row row = {0};
    row.flags = (uint32_t)strtoul(next_field(&line), NULL, 16);
    row.symbol = next_field(&line);
    row.is_ok = strcmp(next_field(&line), "ok") == 0;
    row.offset = row.is_ok ? 0 : strtoul(next_field(&line), NULL, 10);
    row.text = line;
    return row;
}

/* Returns whether the whole text and its result are those of the row. */
static bool is_wanted(const struct row *row, const char *text, struct msvc_demangler_result result)
{
    if (result.offset != row->offset || result.length != strlen(text)) {
        return false;
    }
    switch (result.status) {
    case MSVC_DEMANGLER_OK:
        return row->is_ok && strcmp(text, row->text) == 0;
    case MSVC_DEMANGLER_INVALID:
        return !row->is_ok && strncmp(text, row->text, strlen(row->text)) == 0 &&
               strncmp(text + strlen(row->text), " (offset: ", 10) == 0;
    case MSVC_DEMANGLER_NOT_UTF8:
        return !row->is_ok && strcmp(text, "not UTF-8") == 0 && strcmp(row->text, text) == 0;
    default:
        return false;
    }
}

/* Returns the most bytes of a text that fit with a NUL in a buffer of this size, and split no character of UTF-8. */
static size_t cut(const char *text, size_t size)
{
    size_t length = strlen(text) < size ? strlen(text) : size - 1;
    while (((unsigned char)text[length] & 0xC0) == 0x80) {
        length--;
    }
    return length;
}

/* Returns whether a buffer of this size gets the part of the text that fits, and a NUL, and no byte after that. */
static bool is_written(const struct row *row, const char *text, size_t size)
{
    size_t capacity = strlen(text) + 16;
    char *out = malloc(2 * capacity);
    char *wanted = out + capacity;
    memset(out, untouched, 2 * capacity);
    if (size > 0) {
        size_t length = cut(text, size);
        memcpy(wanted, text, length);
        wanted[length] = '\0';
    }
    struct msvc_demangler_result result =
        msvc_demangler_demangle(row->symbol, strlen(row->symbol), row->flags, MSVC_DEMANGLER_UNLIMITED,
                                MSVC_DEMANGLER_UNLIMITED, out, size);
    bool good = result.length == strlen(text) && memcmp(out, wanted, capacity) == 0;
    free(out);
    return good;
}

static bool agrees(const struct row *row)
{
    struct msvc_demangler_result result;
    uint32_t flags = row->flags | MSVC_DEMANGLER_CRATE;
    char *text = msvc_demangler_demangle_allocated(row->symbol, strlen(row->symbol), flags, MSVC_DEMANGLER_UNLIMITED,
                                                   MSVC_DEMANGLER_UNLIMITED, &result);
    bool good = text != NULL && is_wanted(row, text, result);
    for (size_t size = 0; good && size <= result.length + 2; size++) {
        good = is_written(row, text, size);
    }
    free(text);
    return good;
}

int main(void)
{
    char *line = NULL;
    size_t capacity = 0;
    long agree = 0;
    long differ = 0;
    for (ssize_t length; (length = getline(&line, &capacity, stdin)) > 0;) {
        if (strncmp(line, "# ", 2) == 0) {
            continue;
        }
        line[length - 1] = '\0'; /* the line feed */
        struct row row = parsed(line);
        if (agrees(&row)) {
            agree++;
        } else {
            differ++;
            printf("%x\t%s\n", row.flags, row.symbol);
        }
    }
    free(line);
    printf("%ld rows agree, %ld differ\n", agree, differ);
    return differ != 0;
}
