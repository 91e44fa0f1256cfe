/* Calls the C library over each input of AFL++, for tools/fuzz. An input is the bytes of a symbol, or of a text to
   filter. The calls get a copy of just its length, so that the sanitizer of addresses finds a read beyond its end. The
   program aborts if a call writes beyond its buffer, truncates a text in another way than documented, or returns
   another status or length the second time.

   The archive has no instrumentation, so the bytes of the result stand in for its branches: each three in a row take
   one of 256 instrumented branches here. The library as one C file has branches of its own beside these. */

#include <msvc_demangler.h>
#include <stdlib.h>
#include <string.h>
#include <unistd.h>

__AFL_FUZZ_INIT();

enum { SIZE = 4096, GUARD = 64, FILL = 0xA5 };

static void expect(int holds)
{
    if (!holds) {
        abort();
    }
}

#define BRANCH(n) \
    case n: \
        __asm__ volatile("" ::"i"(n)); \
        break;
#define BRANCHES4(n) BRANCH(n) BRANCH(n + 1) BRANCH(n + 2) BRANCH(n + 3)
#define BRANCHES16(n) BRANCHES4(n) BRANCHES4(n + 4) BRANCHES4(n + 8) BRANCHES4(n + 12)
#define BRANCHES64(n) BRANCHES16(n) BRANCHES16(n + 16) BRANCHES16(n + 32) BRANCHES16(n + 48)

/* Takes the branch of three bytes. */
static void branch(const unsigned char *bytes)
{
    switch ((bytes[0] * 31u + bytes[1] * 7u + bytes[2]) % 256) {
        BRANCHES64(0)
        BRANCHES64(64)
        BRANCHES64(128)
        BRANCHES64(192)
    }
}

/* A buffer between guards. */
struct buffer {
    unsigned char before[GUARD];
    char text[SIZE];
    unsigned char after[GUARD];
};

static void clear(struct buffer *buffer)
{
    memset(buffer, FILL, sizeof *buffer);
}

/* Aborts if a byte beyond the first `size` ones was written, or if these have no NUL. */
static void see(const struct buffer *buffer, size_t size)
{
    const unsigned char *bytes = (const unsigned char *)buffer->text;
    for (size_t at = 0; at < GUARD; at++) {
        expect(buffer->before[at] == FILL && buffer->after[at] == FILL);
    }
    for (size_t at = size; at < SIZE; at++) {
        expect(bytes[at] == FILL);
    }
    expect(size == 0 || memchr(bytes, 0, size) != NULL);
}

/* The flags of the calls: with each input both grammars are tried. */
static uint32_t flags;

typedef struct msvc_demangler_result call(const char *input, size_t length, char *out, size_t size);

static struct msvc_demangler_result demangle(const char *input, size_t length, char *out, size_t size)
{
    return msvc_demangler_demangle(input, length, flags, MSVC_DEMANGLER_DEFAULT_NODES, MSVC_DEMANGLER_DEFAULT_BYTES,
                                   out, size);
}

static struct msvc_demangler_result filter(const char *input, size_t length, char *out, size_t size)
{
    return msvc_demangler_filter(input, length, flags, out, size);
}

/* Makes a call with a large and with a small buffer. */
static void try_call(call *called, const char *input, size_t length)
{
    static struct buffer large, small;
    clear(&large);
    struct msvc_demangler_result whole = called(input, length, large.text, SIZE);
    see(&large, SIZE);
    for (size_t at = 0; at + 2 < SIZE && large.text[at + 2] != '\0' && at < whole.length; at++) {
        branch((const unsigned char *)large.text + at);
    }
    size_t size = length % 32;
    clear(&small);
    struct msvc_demangler_result cut = called(input, length, small.text, size);
    see(&small, size);
    expect(cut.status == whole.status && cut.length == whole.length);
    if (size > 0) {
        expect(strncmp(small.text, large.text, strlen(small.text)) == 0);
    }
}

/* Makes all calls over an input, in the grammar of the flags. */
static void try_input(const char *input, size_t length)
{
    try_call(demangle, input, length);
    try_call(filter, input, length);
    struct msvc_demangler_result read = msvc_demangler_prefix(input, length, flags, MSVC_DEMANGLER_DEFAULT_NODES);
    expect(read.status != MSVC_DEMANGLER_OK || read.length <= length);
}

int main(void)
{
    __AFL_INIT();
    const unsigned char *bytes = __AFL_FUZZ_TESTCASE_BUF;
    while (__AFL_LOOP(10000)) {
        size_t length = (size_t)__AFL_FUZZ_TESTCASE_LEN;
        char *input = malloc(length);
        expect(input != NULL);
        memcpy(input, bytes, length);
        flags = MSVC_DEMANGLER_LLVM;
        try_input(input, length);
        flags |= MSVC_DEMANGLER_FULL;
        try_input(input, length);
        free(input);
    }
    return 0;
}
