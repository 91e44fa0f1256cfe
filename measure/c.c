/* Measures the time of the C library for names, in one process: with the names as lines of standard input

       c buffer ROUNDS
       c allocated ROUNDS
       c name ROUNDS
       c filter ROUNDS

   does what `llvm ROUNDS` of llvm.cpp does with LLVM's library. The texts go into one buffer of the caller, or into
   a buffer each that is allocated and freed, or are only names, in one buffer; or one call filters all lines. With 0
   rounds it prints the names that have a declaration. */

#define _POSIX_C_SOURCE 200809L
#include <msvc_demangler.h>
#include <stdio.h>
#include <time.h>

struct names {
    char **lines;
    size_t count;
    char *text; /* all lines */
    size_t length;
};

static struct names read_names(void)
{
    struct names names = {NULL, 0, NULL, 0};
    size_t capacity = 0;
    do {
        capacity = 2 * capacity + 65536;
        names.text = realloc(names.text, capacity);
        names.length += fread(names.text + names.length, 1, capacity - names.length, stdin);
    } while (names.length == capacity);
    for (size_t at = 0; at < names.length;) {
        const char *end = memchr(names.text + at, '\n', names.length - at);
        size_t length = end == NULL ? names.length - at : (size_t)(end - names.text) - at;
        char *line = calloc(length + 1, 1);
        memcpy(line, names.text + at, length);
        names.lines = realloc(names.lines, (names.count + 1) * sizeof names.lines[0]);
        names.lines[names.count++] = line;
        at += length + 1;
    }
    return names;
}

/* Returns the length of a name's declaration, or 0. */
static size_t length_under(const char *name, uint32_t flags)
{
    static char text[1 << 16];
    struct msvc_demangler_result result = msvc_demangler_demangle(
        name, strlen(name), flags, MSVC_DEMANGLER_UNLIMITED, MSVC_DEMANGLER_UNLIMITED, text, sizeof text);
    return result.status == MSVC_DEMANGLER_OK ? strlen(text) : 0;
}

static size_t length_in_buffer(const char *name)
{
    return length_under(name, MSVC_DEMANGLER_LLVM);
}

static size_t length_of_name(const char *name)
{
    return length_under(name, MSVC_DEMANGLER_NAME_ONLY);
}

static size_t length_of_allocated(const char *name)
{
    struct msvc_demangler_result result;
    char *text = msvc_demangler_demangle_allocated(name, strlen(name), MSVC_DEMANGLER_LLVM | MSVC_DEMANGLER_CRATE,
                                                   MSVC_DEMANGLER_UNLIMITED, MSVC_DEMANGLER_UNLIMITED, &result);
    size_t length = result.status == MSVC_DEMANGLER_OK ? strlen(text) : 0;
    free(text);
    return length;
}

/* Makes one round. Returns the bytes of the texts of all names. */
static size_t sum(struct names names, size_t (*length)(const char *))
{
    size_t bytes = 0;
    for (size_t n = 0; n < names.count; n++) {
        bytes += length(names.lines[n]);
    }
    return bytes;
}

static size_t in_buffer(struct names names)
{
    return sum(names, length_in_buffer);
}

static size_t allocated(struct names names)
{
    return sum(names, length_of_allocated);
}

static size_t names_alone(struct names names)
{
    return sum(names, length_of_name);
}

static size_t filtered(struct names names)
{
    static char *text;
    size_t size = 4 * names.length + 1;
    if (text == NULL) {
        text = malloc(size);
    }
    return msvc_demangler_filter(names.text, names.length, MSVC_DEMANGLER_LLVM, text, size).length;
}

static long long nanoseconds(void)
{
    struct timespec now;
    clock_gettime(CLOCK_MONOTONIC, &now);
    return 1000000000LL * now.tv_sec + now.tv_nsec;
}

/* Makes the rounds. Prints the nanoseconds of the fastest one and the bytes of its texts. */
static void measure(struct names names, size_t (*round)(struct names), long rounds)
{
    long long fastest = -1;
    size_t bytes = 0;
    for (; rounds > 0; rounds--) {
        long long start = nanoseconds();
        bytes = round(names);
        long long taken = nanoseconds() - start;
        fastest = fastest < 0 || taken < fastest ? taken : fastest;
    }
    printf("%lld %zu\n", fastest, bytes);
}

static const struct {
    const char *word;
    size_t (*round)(struct names);
} ways[] = {{"buffer", in_buffer}, {"allocated", allocated}, {"name", names_alone}, {"filter", filtered}};

/* Returns the round of that name, or null. */
static size_t (*round_of(const char *word))(struct names)
{
    for (size_t way = 0; way < sizeof ways / sizeof ways[0]; way++) {
        if (strcmp(ways[way].word, word) == 0) {
            return ways[way].round;
        }
    }
    return NULL;
}

int main(int count, char **words)
{
    size_t (*round)(struct names) = count == 3 ? round_of(words[1]) : NULL;
    if (round == NULL) {
        fputs("usage: c buffer|allocated|name|filter ROUNDS\n", stderr);
        return 2;
    }
    long rounds = strtol(words[2], NULL, 10);
    struct names names = read_names();
    if (rounds > 0) {
        measure(names, round, rounds);
        return 0;
    }
    for (size_t n = 0; n < names.count; n++) {
        if (length_in_buffer(names.lines[n]) > 0) {
            puts(names.lines[n]);
        }
    }
    return 0;
}
