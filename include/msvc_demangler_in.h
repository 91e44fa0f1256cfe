/**
 * @file
 * msvc_demangler 0.11.0 without malloc: the calls of msvc_demangler.h, in memory of the caller.
 *
 * @code
 * #include <msvc_demangler_in.h>
 * #include <stdio.h>
 *
 * static char work[MSVC_DEMANGLER_SMALL_WORKSPACE];
 *
 * int main(void)
 * {
 *     const char symbol[] = "?x@ns@@3HA";
 *     char text[256];
 *     struct msvc_demangler_result result =
 *         msvc_demangler_demangle_in(symbol, strlen(symbol), MSVC_DEMANGLER_LLVM, MSVC_DEMANGLER_SMALL_NODES,
 *                                    MSVC_DEMANGLER_SMALL_BYTES, work, sizeof work, text, sizeof text);
 *     puts(result.status == MSVC_DEMANGLER_OK ? text : symbol);
 *     return 0;
 * }
 * @endcode
 *
 * Prints "int ns::x".
 *
 * The library is libmsvc_demangler_in.a, which calls memcpy and memmove and nothing else, and has no writable data. So
 * the calls may be made in a signal handler, in the child of a fork, before main, and by any thread, if no two calls
 * that run at the same time share a workspace. Flags, statuses, offsets, texts and the rules of buffers are those of
 * msvc_demangler.h. The differences are:
 *
 * - A call takes all its memory from a workspace, which need not be aligned, and may hold any bytes. Nothing is kept in
 *   it between calls. It must not overlap the input or the output.
 * - OUT_OF_MEMORY means that the workspace is too small for the symbol. The bytes of the buffer after the NUL are
 *   unspecified then. Repeat the call with a larger workspace, or with lower limits. That a workspace can be used again
 *   after OUT_OF_MEMORY is tested; after any other status it is proved.
 *
 * A workspace of MSVC_DEMANGLER_DEFAULT_WORKSPACE bytes suffices for each symbol within the default limits, and one of
 * MSVC_DEMANGLER_SMALL_WORKSPACE bytes for each symbol within the small ones. 12,288 bytes suffice for each of 676 real
 * names. In Full each length of an array takes 34 bytes more, since it is no node.
 */
#ifndef MSVC_DEMANGLER_IN_H
#define MSVC_DEMANGLER_IN_H

#include <msvc_demangler.h>

/**
 * @name Small limits
 * Suit a workspace that is reserved for a crash: 676 real names have at most 189 nodes.
 * @{
 */
/** Nodes of a tree. */
#define MSVC_DEMANGLER_SMALL_NODES ((size_t)1000)
/** Bytes of a declaration. */
#define MSVC_DEMANGLER_SMALL_BYTES ((size_t)4096)
/** @} */

/**
 * @name Sizes of workspaces
 * Suffice for each symbol within the small limits, and within the default ones.
 * @{
 */
/** Bytes for the small limits. */
#define MSVC_DEMANGLER_SMALL_WORKSPACE ((size_t)221184)
/** Bytes for the default limits. */
#define MSVC_DEMANGLER_DEFAULT_WORKSPACE ((size_t)2457600)
/** @} */

/**
 * @name Sizes of stacks
 * Limits in bytes on the stack of a call under the small and under the default limits, on x86-64 and AArch64.
 * @{
 */
/** Bytes under the small limits. */
#define MSVC_DEMANGLER_SMALL_STACK ((size_t)136000)
/** Bytes under the default limits. */
#define MSVC_DEMANGLER_DEFAULT_STACK ((size_t)1300000)
/** @} */

/** Part of a workspace. */
struct msvc_demangler_part {
    void *memory; /**< its address, a multiple of 16, or null */
    size_t size;  /**< its size in bytes, a multiple of 16 */
};

/** A back reference: a digit that stands for a parameter before it. All are offsets in the symbol, in bytes. */
struct msvc_demangler_reference {
    /** The offset of the digit. */
    size_t at;
    /** Where the parameter starts. */
    size_t start;
    /** Where it ends. */
    size_t end;
};

#ifdef __cplusplus
extern "C" {
#endif

/**
 * @name Calls of the library
 * Take all their memory from parts of a workspace, which the inline calls below make. After a call each part has the
 * address and the size that it had. With OUT_OF_MEMORY a part may be null and 0 instead: then its memory was not
 * returned to the caller.
 * @{
 */
/**
 * Demangles a symbol, as msvc_demangler_demangle does, in parts of a workspace.
 *
 * @param symbol     the input, as of msvc_demangler_demangle
 * @param length     the length of the input
 * @param flags      flags for printing and reading
 * @param max_nodes  the limit on the tree of the symbol
 * @param max_bytes  the limit on the length of the declaration
 * @param arena      the part for the nodes
 * @param text       the part for the declaration
 * @param out        the buffer
 * @param size       the size of the buffer
 * @return the result of msvc_demangler_demangle
 */
struct msvc_demangler_result msvc_demangler_demangle_in_parts(const char *symbol, size_t length, uint32_t flags,
                                                              size_t max_nodes, size_t max_bytes,
                                                              struct msvc_demangler_part *arena,
                                                              struct msvc_demangler_part *text, char *out,
                                                              size_t size) MSVC_DEMANGLER_NOEXCEPT;
/**
 * Returns the length of a symbol, as msvc_demangler_prefix does, in a part of a workspace.
 *
 * @param symbol     the input, as of msvc_demangler_demangle
 * @param length     the length of the input
 * @param flags      MSVC_DEMANGLER_FULL or 0
 * @param max_nodes  the limit on the tree of the symbol
 * @param arena      the part for the nodes
 * @return the result of msvc_demangler_prefix
 */
struct msvc_demangler_result msvc_demangler_prefix_in_parts(const char *symbol, size_t length, uint32_t flags,
                                                            size_t max_nodes,
                                                            struct msvc_demangler_part *arena) MSVC_DEMANGLER_NOEXCEPT;
/**
 * Filters a text, as msvc_demangler_filter does, in parts of a workspace.
 *
 * @param input   the input
 * @param length  the length of the input
 * @param flags   flags for printing and reading
 * @param arena   the part for the nodes of a symbol
 * @param text    the part for the declaration of a symbol
 * @param out     the buffer
 * @param size    the size of the buffer
 * @return the result of msvc_demangler_filter
 */
struct msvc_demangler_result msvc_demangler_filter_in_parts(const char *input, size_t length, uint32_t flags,
                                                            struct msvc_demangler_part *arena,
                                                            struct msvc_demangler_part *text, char *out,
                                                            size_t size) MSVC_DEMANGLER_NOEXCEPT;
/** Writes the tree of a symbol, as msvc_demangler_tree_in does, in a part for its nodes and its text. */
struct msvc_demangler_result msvc_demangler_tree_in_parts(const char *symbol, size_t length, uint32_t flags,
                                                          size_t max_nodes, struct msvc_demangler_part *arena,
                                                          char *out, size_t size) MSVC_DEMANGLER_NOEXCEPT;
/** Lists the back references of a symbol, as msvc_demangler_references_in does, in a part for its nodes. */
struct msvc_demangler_result msvc_demangler_references_in_parts(const char *symbol, size_t length, uint32_t flags,
                                                                size_t max_nodes, struct msvc_demangler_part *arena,
                                                                struct msvc_demangler_reference *out,
                                                                size_t count) MSVC_DEMANGLER_NOEXCEPT;
/** @} */

/**
 * Returns the largest aligned part of some memory.
 *
 * @param memory  the address of the memory
 * @param size    its size in bytes
 * @return the part from the first multiple of 16 on; null and 0 if the memory has no 16 bytes from there on
 */
static inline struct msvc_demangler_part msvc_demangler_aligned(void *memory, size_t size) MSVC_DEMANGLER_NOEXCEPT
{
    size_t before = (size_t)(-(uintptr_t)memory & 15);
    struct msvc_demangler_part part = {NULL, 0};
    if (size >= before + 16) {
        part.memory = (char *)memory + before;
        part.size = (size - before) / 16 * 16;
    }
    return part;
}

/**
 * Splits the memory for a declaration off the end of a part.
 *
 * @param arena      the part, which becomes smaller
 * @param max_bytes  the limit on the length of the declaration
 * @return a part of max_bytes bytes, rounded up, but at most a quarter of the given one
 */
static inline struct msvc_demangler_part msvc_demangler_cut(struct msvc_demangler_part *arena,
                                                            size_t max_bytes) MSVC_DEMANGLER_NOEXCEPT
{
    size_t most = arena->size / 4 / 16 * 16;
    struct msvc_demangler_part text = {NULL, 0};
    text.size = max_bytes < most ? (max_bytes + 15) / 16 * 16 : most;
    arena->size -= text.size;
    if (text.size != 0) {
        text.memory = (char *)arena->memory + arena->size;
    }
    return text;
}

/**
 * Demangles a symbol, as msvc_demangler_demangle does, in a workspace. It reads Full, or the crate's grammar with
 * MSVC_DEMANGLER_CRATE.
 *
 * @param symbol     the input, as of msvc_demangler_demangle
 * @param length     the length of the input
 * @param flags      flags for printing and reading
 * @param max_nodes  the limit on the tree of the symbol
 * @param max_bytes  the limit on the length of the declaration
 * @param work       the workspace
 * @param work_size  the size of the workspace
 * @param out        the buffer
 * @param size       the size of the buffer
 * @return the result of msvc_demangler_demangle
 */
static inline struct msvc_demangler_result msvc_demangler_demangle_in(const char *symbol, size_t length, uint32_t flags,
                                                                      size_t max_nodes, size_t max_bytes, void *work,
                                                                      size_t work_size, char *out,
                                                                      size_t size) MSVC_DEMANGLER_NOEXCEPT
{
    struct msvc_demangler_part arena = msvc_demangler_aligned(work, work_size);
    struct msvc_demangler_part text = msvc_demangler_cut(&arena, max_bytes);
    return msvc_demangler_demangle_in_parts(symbol, length, msvc_demangler_inline_flags(flags), max_nodes, max_bytes,
                                            &arena, &text, out, size);
}

/**
 * Returns the length of a symbol, as msvc_demangler_prefix does, in a workspace. It reads Full, or the crate's grammar
 * with MSVC_DEMANGLER_CRATE.
 *
 * @param symbol     the input, as of msvc_demangler_demangle
 * @param length     the length of the input
 * @param flags      MSVC_DEMANGLER_CRATE or 0
 * @param max_nodes  the limit on the tree of the symbol
 * @param work       the workspace
 * @param work_size  the size of the workspace
 * @return the result of msvc_demangler_prefix
 */
static inline struct msvc_demangler_result msvc_demangler_prefix_in(const char *symbol, size_t length, uint32_t flags,
                                                                    size_t max_nodes, void *work,
                                                                    size_t work_size) MSVC_DEMANGLER_NOEXCEPT
{
    struct msvc_demangler_part arena = msvc_demangler_aligned(work, work_size);
    return msvc_demangler_prefix_in_parts(symbol, length, msvc_demangler_inline_flags(flags), max_nodes, &arena);
}

/**
 * Filters a text of any length, as msvc_demangler_filter does, in a workspace. It reads Full, or the crate's grammar
 * with MSVC_DEMANGLER_CRATE.
 *
 * @param text       the input
 * @param length     the length of the input
 * @param flags      flags for printing and reading
 * @param work       the workspace
 * @param work_size  the size of the workspace
 * @param out        the buffer
 * @param size       the size of the buffer
 * @return the result of msvc_demangler_filter
 */
static inline struct msvc_demangler_result msvc_demangler_filter_in(const char *text, size_t length, uint32_t flags,
                                                                    void *work, size_t work_size, char *out,
                                                                    size_t size) MSVC_DEMANGLER_NOEXCEPT
{
    struct msvc_demangler_part arena = msvc_demangler_aligned(work, work_size);
    struct msvc_demangler_part declaration = msvc_demangler_cut(&arena, MSVC_DEMANGLER_DEFAULT_BYTES);
    return msvc_demangler_filter_in_parts(text, length, msvc_demangler_inline_flags(flags), &arena, &declaration, out,
                                          size);
}

/**
 * Writes the tree of a symbol on one line, for a person to read, in the form of `undname -v` without the line feed; if
 * there is none, the text of the error. It reads Full, or the crate's grammar with MSVC_DEMANGLER_CRATE. With OK the
 * text is proved to be that of a tree within the limit; its form may change.
 * Statuses, offsets and the rules of the buffer are those of msvc_demangler_demangle without a limit on bytes. The text
 * is made in the workspace, so a tree with long names may need a larger one than the sizes above.
 */
static inline struct msvc_demangler_result msvc_demangler_tree_in(const char *symbol, size_t length, uint32_t flags,
                                                                  size_t max_nodes, void *work, size_t work_size,
                                                                  char *out, size_t size) MSVC_DEMANGLER_NOEXCEPT
{
    struct msvc_demangler_part arena = msvc_demangler_aligned(work, work_size);
    return msvc_demangler_tree_in_parts(symbol, length, msvc_demangler_inline_flags(flags), max_nodes, &arena, out,
                                        size);
}

/**
 * Lists the digits of a symbol that stand for whole parameters before them, in rising order. It reads Full, or the
 * crate's grammar with MSVC_DEMANGLER_CRATE. The result's length is how many there are. Those for which `out` has
 * places, of which it has `count`, are written. Statuses and offsets are those of msvc_demangler_prefix. With another
 * status than OK nothing is written; with OUT_OF_MEMORY `out` is unspecified.
 */
static inline struct msvc_demangler_result msvc_demangler_references_in(const char *symbol, size_t length,
                                                                        uint32_t flags, size_t max_nodes,
                                                                        void *work, size_t work_size,
                                                                        struct msvc_demangler_reference *out,
                                                                        size_t count) MSVC_DEMANGLER_NOEXCEPT
{
    struct msvc_demangler_part arena = msvc_demangler_aligned(work, work_size);
    return msvc_demangler_references_in_parts(symbol, length, msvc_demangler_inline_flags(flags), max_nodes, &arena,
                                              out, count);
}

#ifdef __cplusplus
}
#endif

#endif
