/* Implements the exported calls of msvc_demangler.h with the inline calls of msvc_demangler_in.h, in a workspace for
   each thread, so that the programs of tests/c test both. With MSVC_DEMANGLER_CRATE the inline calls read what
   exported ones read. The workspaces are not aligned. */

#include <msvc_demangler_in.h>
#include <stdatomic.h>
#include <stdio.h>

enum { threads = 8, work_size = (1 << 24) - 1 };

static char *workspace(void)
{
    static char spaces[threads][work_size + 1];
    static atomic_int taken;
    static _Thread_local char *space;
    if (space == NULL) {
        int number = atomic_fetch_add(&taken, 1);
        if (number == threads) {
            abort();
        }
        space = spaces[number] + 1;
    }
    return space;
}

struct msvc_demangler_result msvc_demangler_demangle(const char *symbol, size_t length, uint32_t flags,
                                                     size_t max_nodes, size_t max_bytes, char *out, size_t size)
{
    return msvc_demangler_demangle_in(symbol, length, flags | MSVC_DEMANGLER_CRATE, max_nodes, max_bytes, workspace(),
                                      work_size, out, size);
}

struct msvc_demangler_result msvc_demangler_prefix(const char *symbol, size_t length, uint32_t flags,
                                                   size_t max_nodes)
{
    return msvc_demangler_prefix_in(symbol, length, flags | MSVC_DEMANGLER_CRATE, max_nodes, workspace(), work_size);
}

struct msvc_demangler_result msvc_demangler_filter(const char *text, size_t length, uint32_t flags, char *out,
                                                   size_t size)
{
    return msvc_demangler_filter_in(text, length, flags | MSVC_DEMANGLER_CRATE, workspace(), work_size, out, size);
}

/* The library without malloc has no call for the version. */
size_t msvc_demangler_version(char *out, size_t size)
{
    return (size_t)snprintf(out, size, "%s", MSVC_DEMANGLER_VERSION);
}
