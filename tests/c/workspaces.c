/* Makes the calls without malloc in workspaces of each size from 0 to 64 KiB, with other bytes each time. Each call
   must return its whole result, or OUT_OF_MEMORY, and write only that and the workspace: the page after the workspace
   has no access, and the bytes before it and in the buffer are compared. The largest workspace must suffice, and so
   must each one that is larger than a sufficient one. */

#define _DEFAULT_SOURCE
#include <msvc_demangler_in.h>
#include <stdbool.h>
#include <stdio.h>
#include <sys/mman.h>

#define FULL MSVC_DEMANGLER_LLVM
#define CRATE (MSVC_DEMANGLER_LLVM | MSVC_DEMANGLER_CRATE)

enum { most = 65536, before = 64, page = 65536, full = 512 };

enum kind { demangle, prefix, filter };

static const char *const kind_names[] = {"demangle", "prefix", "filter"};

/* A call and its result. */
static const struct row {
    enum kind kind;
    uint32_t flags;
    enum msvc_demangler_status status;
    size_t offset;
    const char *input;
    const char *text;
    size_t size;   /* of the buffer */
    size_t length; /* of a symbol that is measured */
} rows[] = {
    {demangle, CRATE, MSVC_DEMANGLER_OK, 0, "?x@ns@@3HA", "int ns::x", full, 0},
    {demangle, CRATE, MSVC_DEMANGLER_OK, 0, "?f@@YAXV?$A@PAH0@@PAD0@Z",
     "void __cdecl f(class A<int *, int *>, char *, class A<int *, int *>)", full, 0},
    {demangle, CRATE, MSVC_DEMANGLER_OK, 0,
     "?wait_for@_Condition_variable@details@Concurrency@@QEAA_NAEAVcritical_section@3@I@Z",
     "public: bool __cdecl Concurrency::details::_Condition_variable::wait_for(class Concurrency::critical_section &, "
     "unsigned int)", full, 0},
    {demangle, CRATE, MSVC_DEMANGLER_OK, 0, "?x@ns@@3HA", "int ns", 7, 9},
    {demangle, CRATE, MSVC_DEMANGLER_INVALID, 6, "?x@@3L", "unknown primitive type (offset: 6, remaining: \"\")", full,
     0},
    {demangle, CRATE, MSVC_DEMANGLER_INVALID, 0, "main", "does not start with b'?' (offset: 0, remaining: \"main\")",
     full, 0},
    {demangle, CRATE, MSVC_DEMANGLER_INVALID, 0, "", "does not start with b'?' (offset: 0, remaining: \"\")", full, 0},
    {prefix, CRATE, MSVC_DEMANGLER_OK, 0, "?x@@3HA and more", NULL, 0, 7},
    {prefix, CRATE, MSVC_DEMANGLER_INVALID, 6, "?x@@3L", NULL, 0, 0},
    {filter, CRATE, MSVC_DEMANGLER_OK, 0, "in ?x@ns@@3HA and ?y@@3HA", "in int ns::x and int y", full, 0},
    {filter, CRATE, MSVC_DEMANGLER_OK, 0, "no symbol", "no symbol", full, 0},
    {demangle, FULL, MSVC_DEMANGLER_OK, 0, "?f@@YA?A?<auto>@@H@Z", "<auto> __cdecl f(int)", full, 0},
    {prefix, FULL, MSVC_DEMANGLER_OK, 0, "?f@@YA?A?<auto>@@H@Z b", NULL, 0, 20},
    {filter, FULL, MSVC_DEMANGLER_OK, 0, "in ?f@@9", "in extern \"C\" f", full, 0},
};

/* The call of a row in a workspace. */
static struct msvc_demangler_result call(const struct row *row, char *work, size_t work_size, char *out)
{
    size_t length = strlen(row->input);
    switch (row->kind) {
    case demangle:
        return msvc_demangler_demangle_in(row->input, length, row->flags, MSVC_DEMANGLER_SMALL_NODES,
                                          MSVC_DEMANGLER_SMALL_BYTES, work, work_size, out, row->size);
    case prefix:
        return msvc_demangler_prefix_in(row->input, length, row->flags, MSVC_DEMANGLER_SMALL_NODES, work, work_size);
    default:
        return msvc_demangler_filter_in(row->input, length, row->flags, work, work_size, out, row->size);
    }
}

/* Returns whether a buffer has the part of this text that fits, and no other changed byte. */
static bool holds(const char *out, const char *text, size_t size)
{
    char wanted[full];
    memset(wanted, '#', sizeof wanted);
    if (text != NULL) {
        size_t length = strlen(text) < size ? strlen(text) : size - 1;
        memcpy(wanted, text, length);
        wanted[length] = '\0';
    }
    return memcmp(out, wanted, sizeof wanted) == 0;
}

static bool is_out_of_memory(const struct row *row, struct msvc_demangler_result result, const char *out)
{
    const char *text = row->text == NULL ? NULL : "out of memory";
    return result.status == MSVC_DEMANGLER_OUT_OF_MEMORY && result.offset == 0 &&
           result.length == (text == NULL ? 0 : strlen(text)) && holds(out, text, row->size);
}

static bool is_whole(const struct row *row, struct msvc_demangler_result result, const char *out)
{
    size_t length = row->text == NULL || row->length != 0 ? row->length : strlen(row->text);
    return result.status == (uint32_t)row->status && result.offset == row->offset && result.length == length &&
           holds(out, row->text, row->size);
}

/* The memory in which workspaces end: before it are bytes that are compared, and after it a page without access. */
static char *memory_end(void)
{
    char *memory = mmap(NULL, before + most + 2 * page, PROT_READ | PROT_WRITE, MAP_PRIVATE | MAP_ANONYMOUS, -1, 0);
    char *end = memory + most + page;
    return memory == MAP_FAILED || mprotect(end, page, PROT_NONE) != 0 ? NULL : end;
}

/* Tries each size, and returns the least that suffices, or more than the most if a result is wrong. */
static size_t least(const struct row *row, char *end)
{
    static const char bytes[] = {0, '?', (char)0xFF};
    static char untouched[before];
    memset(untouched, '#', sizeof untouched);
    size_t found = most + 1;
    for (size_t size = 0; size <= most; size++) {
        char out[full];
        char *work = end - size;
        memset(out, '#', sizeof out);
        memset(work - before, '#', before);
        memset(work, bytes[size % sizeof bytes], size < 8192 ? size : 8192);
        struct msvc_demangler_result result = call(row, size > 0 ? work : NULL, size, out);
        bool whole = is_whole(row, result, out);
        if ((!whole && (found <= most || !is_out_of_memory(row, result, out))) ||
            memcmp(work - before, untouched, before) != 0) {
            printf("%s of %s in %zu bytes: status %u, %s\n", kind_names[row->kind], row->input, size, result.status,
                   out);
            return most + 1;
        }
        if (whole && found > most) {
            found = size;
        }
    }
    return found;
}

int main(void)
{
    char *end = memory_end();
    if (end == NULL) {
        return 2;
    }
    size_t count = sizeof rows / sizeof rows[0];
    size_t wrong = 0;
    size_t largest = 0;
    for (size_t n = 0; n < count; n++) {
        size_t size = least(&rows[n], end);
        wrong += size > most;
        largest = size > largest ? size : largest;
    }
    printf("%zu calls in each workspace of 0 to %d bytes, %zu wrong, all successful from %zu bytes on\n", count, most,
           wrong, largest);
    return wrong != 0;
}
