/* Lets each allocation of a call fail in turn: the call must return the status for it, and keep no memory. A limit on
   nodes also limits the allocations, for symbols of any length. Link this with
   -Wl,--wrap=malloc,--wrap=realloc,--wrap=free, which redirects the library's requests to the functions here. */

#include <msvc_demangler.h>
#include <stdbool.h>
#include <stdint.h>
#include <stdio.h>

void *__real_malloc(size_t size);
void *__real_realloc(void *block, size_t size);
void __real_free(void *block);
void *__wrap_malloc(size_t size);
void *__wrap_realloc(void *block, size_t size);
void __wrap_free(void *block);

static long requests; /* so far */
static long failing;  /* the number of the request that fails, from 1 on; 0 for none */
static long blocks;   /* that are not freed */

void *__wrap_malloc(size_t size)
{
    void *block = ++requests == failing ? NULL : __real_malloc(size);
    blocks += block != NULL;
    return block;
}

void *__wrap_realloc(void *old, size_t size)
{
    void *block = ++requests == failing ? NULL : __real_realloc(old, size);
    blocks += old == NULL && block != NULL;
    return block;
}

void __wrap_free(void *block)
{
    blocks -= block != NULL;
    __real_free(block);
}

static const char *const symbols[] = {
    "?f@@YAXV?$A@PAHPAH@@PAD0@Z",
    "?f@@YAXPAHP6AX00@ZP6AX11@ZP6AX22@ZP6AX33@ZP6AX44@Z@Z",
    "?x@@3PAYA@HA",
    "x",
};

enum kind { into_a_buffer, allocated, filtered, prefix, kinds };

/* Makes a call of this kind. Returns whether its result is that of a failed allocation. */
static bool wants_memory(enum kind kind, const char *symbol)
{
    struct msvc_demangler_result result;
    char text[2048] = "";
    char *copy;
    requests = 0;
    switch (kind) {
    case into_a_buffer:
        result = msvc_demangler_demangle_string(symbol, MSVC_DEMANGLER_LLVM, text, sizeof text);
        return result.status == MSVC_DEMANGLER_OUT_OF_MEMORY && result.offset == 0 && result.length == 13 &&
               strcmp(text, "out of memory") == 0;
    case allocated:
        copy = msvc_demangler_demangle_allocated(symbol, strlen(symbol), MSVC_DEMANGLER_LLVM,
                                                 MSVC_DEMANGLER_DEFAULT_NODES, MSVC_DEMANGLER_DEFAULT_BYTES, &result);
        free(copy);
        return copy == NULL && result.status == MSVC_DEMANGLER_OUT_OF_MEMORY;
    case filtered:
        result = msvc_demangler_filter(symbol, strlen(symbol), MSVC_DEMANGLER_LLVM, text, sizeof text);
        return result.status == MSVC_DEMANGLER_OUT_OF_MEMORY && result.offset == 0 && result.length == 13 &&
               strcmp(text, "out of memory") == 0;
    default:
        result = msvc_demangler_prefix(symbol, strlen(symbol), 0, MSVC_DEMANGLER_DEFAULT_NODES);
        return result.status == MSVC_DEMANGLER_OUT_OF_MEMORY && result.offset == 0 && result.length == 0;
    }
}

/* Returns the number of requests of a call on a function of `parameters` parameters, with a hundred nodes allowed; 0 if
   the call doesn't reject it for its nodes, near its beginning. */
static long requests_for(size_t parameters)
{
    static char symbol[1000000 + sizeof "?f@@YAX@Z"] = "?f@@YAX";
    char text[128];
    memset(symbol + 7, 'H', parameters);
    memcpy(symbol + 7 + parameters, "@Z", 3);
    requests = 0;
    struct msvc_demangler_result result =
        msvc_demangler_demangle(symbol, strlen(symbol), MSVC_DEMANGLER_LLVM, 100, MSVC_DEMANGLER_DEFAULT_BYTES, text,
                                sizeof text);
    return result.status == MSVC_DEMANGLER_TOO_MANY_NODES && result.offset < 1000 ? requests : 0;
}

/* Writes the symbol of a function with `parameters` parameters, each a pointer. */
static void make_pointers(char *symbol, size_t parameters)
{
    memcpy(symbol, "?f@@YAX", 7);
    for (size_t n = 0; n < parameters; n++)
        memcpy(symbol + 7 + 3 * n, "PAH", 3);
    memcpy(symbol + 7 + 3 * parameters, "@Z", 3);
}

/* Lets each request of a call on a large symbol fail in turn, and counts the calls that don't return the status for it.
   Adds the requests to *tried. */
static long fail_large(size_t parameters, long *tried)
{
    static char symbol[65536];
    static char text[131072];
    struct msvc_demangler_result result;
    long wrong = 0;
    make_pointers(symbol, parameters);
    failing = 0;
    requests = 0;
    result = msvc_demangler_demangle(symbol, strlen(symbol), MSVC_DEMANGLER_LLVM, SIZE_MAX, SIZE_MAX, text,
                                     sizeof text);
    wrong += result.status != MSVC_DEMANGLER_OK || result.length >= sizeof text;
    long count = requests;
    for (failing = 1; failing <= count; failing++) {
        requests = 0;
        result = msvc_demangler_demangle(symbol, strlen(symbol), MSVC_DEMANGLER_LLVM, SIZE_MAX, SIZE_MAX, text,
                                         sizeof text);
        wrong += result.status != MSVC_DEMANGLER_OUT_OF_MEMORY || strcmp(text, "out of memory") != 0 || blocks != 0;
    }
    *tried += count;
    failing = 0;
    return wrong;
}

int main(void)
{
    long tried = 0;
    long wrong = 0;
    blocks = 0; /* a C runtime may have requested some before */
    for (size_t n = 0; n < kinds * (sizeof symbols / sizeof symbols[0]); n++) {
        const char *symbol = symbols[n / kinds];
        enum kind kind = (enum kind)(n % kinds);
        failing = 0;
        wrong += wants_memory(kind, symbol);
        long count = requests;
        for (failing = 1; failing <= count; failing++) {
            tried++;
            if (!wants_memory(kind, symbol) || blocks != 0) {
                printf("%s: request %ld of %ld: %ld blocks are kept\n", symbol, failing, count, blocks);
                wrong++;
            }
        }
    }
    failing = 0;
    if (requests_for(1000) == 0 || requests_for(1000000) != requests_for(1000)) {
        puts("a longer list of parameters has other requests where a hundred nodes are allowed");
        wrong++;
    }
    wrong += fail_large(2000, &tried);  /* a tree of 4,000 nodes */
    wrong += fail_large(9500, &tried);  /* a declaration of 64 KB */
    printf("%ld allocation failures, %ld wrong results\n", tried, wrong);
    return wrong != 0;
}
