/* Finds the workspace that the calls without malloc need under two limits, for measure/workspace and the
   tests without malloc:

       workspace NODES BYTES FLAGS < kinds

   FLAGS, a hexadecimal number, are flags beside those of LLVM: 0 for the crate's grammar, 80000000 for Full. Each line
   of standard input is a kind of symbol: five texts, parted by tabs. A symbol of it is the first text, the second one
   so many times, the third, the fourth as many times, and the fifth. Symbols of a few and of many levels are tried, up
   to twice as many as nodes are allowed, and a million levels. Prints the bytes that suffice for all. */

#define _POSIX_C_SOURCE 200809L
#include <msvc_demangler_in.h>
#include <stdbool.h>
#include <stdio.h>

enum { most = 1 << 26, step = 64, parts = 5, rejected_levels = 1000000 };

static size_t nodes;
static size_t bytes;
static uint32_t flags;
static size_t needed = step;
static char *work;
static char *symbol;
static size_t length;

static void append(const char *text, size_t times)
{
    size_t size = strlen(text);
    for (size_t n = 0; n < times; n++) {
        memcpy(symbol + length, text, size);
        length += size;
    }
}

static void make(char *const *kind, size_t levels)
{
    size_t size = 1;
    for (size_t n = 0; n < parts; n++) {
        size += strlen(kind[n]) * levels;
    }
    free(symbol);
    symbol = malloc(size);
    length = 0;
    append(kind[0], 1);
    append(kind[1], levels);
    append(kind[2], 1);
    append(kind[3], levels);
    append(kind[4], 1);
}

static uint32_t status_in(size_t size)
{
    char text[64];
    uint32_t measured = msvc_demangler_prefix_in(symbol, length, flags, nodes, work, size).status;
    uint32_t found =
        msvc_demangler_demangle_in(symbol, length, flags, nodes, bytes, work, size, text, sizeof text).status;
    return measured == MSVC_DEMANGLER_OUT_OF_MEMORY ? measured : found;
}

/* Raises the needed bytes to those that suffice for a symbol of `levels` levels, and returns its status. */
static uint32_t try_levels(char *const *kind, size_t levels)
{
    make(kind, levels);
    uint32_t status = status_in(needed);
    if (status == MSVC_DEMANGLER_OUT_OF_MEMORY) {
        size_t below = needed;
        size_t enough = most;
        while (enough - below > step) {
            size_t middle = below + (enough - below) / 2 / step * step;
            if (status_in(middle) == MSVC_DEMANGLER_OUT_OF_MEMORY) {
                below = middle;
            } else {
                enough = middle;
            }
        }
        needed = enough;
        status = status_in(needed);
    }
    return status;
}

/* The most levels that are within the limits lie between some that are and some that are not. */
static void try_between(char *const *kind, size_t within, size_t beyond)
{
    while (beyond - within > 1) {
        size_t middle = within + (beyond - within) / 2;
        if (try_levels(kind, middle) == MSVC_DEMANGLER_OK) {
            within = middle;
        } else {
            beyond = middle;
        }
    }
}

static void try_kind(char *const *kind)
{
    size_t within = 0;
    for (size_t levels = 1; levels <= 2 * nodes; levels *= 2) {
        if (try_levels(kind, levels) == MSVC_DEMANGLER_OK) {
            within = levels;
        } else if (within != 0) {
            try_between(kind, within, levels);
            within = 0;
        }
    }
    try_levels(kind, rejected_levels);
}

int main(int count, char **words)
{
    if (count != 4) {
        fputs("workspace: wants NODES, BYTES and FLAGS\n", stderr);
        return 1;
    }
    nodes = strtoul(words[1], NULL, 10);
    bytes = strtoul(words[2], NULL, 10);
    flags = MSVC_DEMANGLER_LLVM | MSVC_DEMANGLER_CRATE | (uint32_t)strtoul(words[3], NULL, 16);
    work = malloc(most);
    char *line = NULL;
    size_t capacity = 0;
    for (ssize_t size; (size = getline(&line, &capacity, stdin)) > 0;) {
        char *kind[parts];
        char *rest = line;
        line[size - 1] = '\0';
        for (size_t n = 0; n < parts; n++) {
            kind[n] = rest;
            rest += strcspn(rest, "\t");
            if (*rest == '\t') {
                *rest++ = '\0';
            }
        }
        try_kind(kind);
    }
    free(line);
    free(symbol);
    free(work);
    printf("%zu\n", needed);
    return 0;
}
