/**
 * @file
 * msvc_demangler 0.11.0: turns C++ symbols, as Microsoft's compiler mangles them, into declarations.
 *
 * @code
 * #include <msvc_demangler.h>
 * #include <stdio.h>
 *
 * int main(void)
 * {
 *     char text[256];
 *     struct msvc_demangler_result result =
 *         msvc_demangler_demangle_string("?x@ns@@3HA", MSVC_DEMANGLER_LLVM, text, sizeof text);
 *     puts(text);
 *     return result.status == MSVC_DEMANGLER_OK ? 0 : 1;
 * }
 * @endcode
 *
 * Prints "int ns::x". It uses the default limits, which suit symbols that are not trusted.
 *
 * Rules for all calls:
 *
 * - Lengths, sizes and offsets are in bytes. Declarations and messages are UTF-8.
 * - Input is a pointer and a length. It needs no NUL after it, and a NUL inside it is a byte like others. The pointer
 *   may be null if the length is 0.
 * - Output goes to a buffer of the caller by the rules of snprintf. At most size bytes are written, and the last one
 *   written is a NUL. A text that does not fit is cut, never inside a character of a declaration or a message. The
 *   length in the result is that of the whole text without the NUL: the text was cut exactly if length >= size, and a
 *   buffer of length + 1 bytes holds it. If size is 0, nothing is written and out may be null: such a call returns the
 *   length. Bytes of the buffer after the NUL keep their values. Input and output must not overlap.
 * - The library keeps nothing after a call: there is nothing to set up or to free, and no locale and no errno are
 *   involved. Any number of threads may call at once.
 * - The calls use malloc, realloc and free, so they must not be called where malloc must not be, as in a signal
 *   handler. They throw no exceptions.
 *
 * Within soname 0 no symbol, status number, flag or field of the struct changes; new ones may be added. docs/c.md has
 * more.
 */
#ifndef MSVC_DEMANGLER_H
#define MSVC_DEMANGLER_H

#include <stddef.h>
#include <stdint.h>
#include <stdlib.h>
#include <string.h>

/**
 * @name Version of this header
 * @{
 */
/** All three numbers, as a text. */
#define MSVC_DEMANGLER_VERSION "0.11.0"
/** The first number. */
#define MSVC_DEMANGLER_VERSION_MAJOR 0
/** The second number. */
#define MSVC_DEMANGLER_VERSION_MINOR 11
/** The third number. */
#define MSVC_DEMANGLER_VERSION_PATCH 0
/** @} */

/**
 * @name Flags
 * Change how a declaration is printed, but for the last two, which choose the grammar. An exported call reads Full with
 * MSVC_DEMANGLER_FULL, and the crate's grammar without it. An inline call reads Full by default, and with
 * MSVC_DEMANGLER_CRATE what an exported call reads. Flags combine with |; 0 is none. docs/flags.md describes each.
 * @{
 */
/** Drops __cdecl and the like, of pointers to functions too. */
#define MSVC_DEMANGLER_NO_MS_KEYWORDS 0x2u
/** Drops everything before the name. */
#define MSVC_DEMANGLER_NO_FUNCTION_RETURNS 0x4u
/** Changes nothing alone. */
#define MSVC_DEMANGLER_NO_MS_THISTYPE 0x20u
/** Changes nothing alone. */
#define MSVC_DEMANGLER_NO_CV_THISTYPE 0x40u
/** NO_MS_THISTYPE and NO_CV_THISTYPE: drops const and the like of member functions. */
#define MSVC_DEMANGLER_NO_THISTYPE 0x60u
/** Drops public and the like, of functions only. */
#define MSVC_DEMANGLER_NO_ACCESS_SPECIFIERS 0x80u
/** Drops static and virtual, of functions only. */
#define MSVC_DEMANGLER_NO_MEMBER_TYPE 0x200u
/** Prints __int64 and __int128. */
#define MSVC_DEMANGLER_MS_TYPENAMES 0x400u
/** Changes nothing. */
#define MSVC_DEMANGLER_DECODE_32_BIT 0x800u
/** Prints the name only. */
#define MSVC_DEMANGLER_NAME_ONLY 0x1000u
/** Drops class, struct, union and enum. */
#define MSVC_DEMANGLER_NO_CLASS_TYPE 0x100000u
/** Prints a space after each comma. */
#define MSVC_DEMANGLER_SPACE_AFTER_COMMA 0x200000u
/** Drops the space before * and &. */
#define MSVC_DEMANGLER_HUG_TYPE 0x400000u
/** Drops the space after * and &; under HUG_TYPE prints one before them after a word. */
#define MSVC_DEMANGLER_SPACE_BEFORE_POINTER 0x800000u
/** Prints __ptr64 after the parameters of a member function. */
#define MSVC_DEMANGLER_WITH_PTR64 0x1000000u
/** Four of these: spelling near that of llvm-undname. */
#define MSVC_DEMANGLER_LLVM 0xE00400u
/** Reads Full, the grammar of today's compilers. */
#define MSVC_DEMANGLER_FULL 0x80000000u
/** Of inline calls alone: reads the crate's grammar. */
#define MSVC_DEMANGLER_CRATE 0x40000000u
/** @} */

/**
 * @name Default limits
 * Suit symbols that are not trusted. A call with so many nodes takes at most 1,000,000 bytes of stack. A thread with a
 * smaller stack needs a lower limit: 100 bytes of stack a node, and 16,000 more.
 * @{
 */
/** Nodes of a tree. */
#define MSVC_DEMANGLER_DEFAULT_NODES ((size_t)10000)
/** Bytes of a declaration. */
#define MSVC_DEMANGLER_DEFAULT_BYTES ((size_t)65536)
/** @} */

/**
 * Turns off a limit, max_nodes or max_bytes. This is unsafe for symbols that are not trusted. Without a limit on nodes
 * a symbol that nests deeply overflows the stack, which ends the process. Without a limit on bytes a short symbol can
 * have a declaration that takes all memory.
 */
#define MSVC_DEMANGLER_UNLIMITED ((size_t)-1)

#if defined(__cplusplus) && __cplusplus >= 201103L
#define MSVC_DEMANGLER_NOEXCEPT noexcept
#elif defined(__cplusplus)
#define MSVC_DEMANGLER_NOEXCEPT throw()
#else
#define MSVC_DEMANGLER_NOEXCEPT
#endif

/* With MSVC_DEMANGLER_DLL defined a program for Windows calls msvc_demangler.dll without a jump in between. */
#ifndef MSVC_DEMANGLER_API
#if defined(_WIN32) && defined(MSVC_DEMANGLER_DLL)
#define MSVC_DEMANGLER_API __declspec(dllimport)
#else
#define MSVC_DEMANGLER_API
#endif
#endif

#ifdef __cplusplus
extern "C" {
#endif

/** Status of a call. */
enum msvc_demangler_status {
    MSVC_DEMANGLER_OK = 0,
    MSVC_DEMANGLER_INVALID = 1,        /**< the input begins with no symbol of the grammar, under any limit */
    MSVC_DEMANGLER_NOT_UTF8 = 2,       /**< the input is not UTF-8 */
    MSVC_DEMANGLER_OUT_OF_MEMORY = 3,  /**< there is too little memory */
    MSVC_DEMANGLER_TOO_MANY_NODES = 4, /**< the input begins with no symbol of at most max_nodes nodes */
    MSVC_DEMANGLER_TOO_LONG = 5        /**< the declaration has more than max_bytes bytes */
};

/** Result of a call. */
struct msvc_demangler_result {
    uint32_t status; /**< one of enum msvc_demangler_status */
    size_t offset;   /**< place in the input if the status has one; with NOT_UTF8 the number of UTF-8 bytes; else 0 */
    size_t length;   /**< length of the whole text without the NUL; of msvc_demangler_prefix that of the symbol */
};

#if defined(__cplusplus) && __cplusplus >= 201103L
#define MSVC_DEMANGLER_ASSERT(holds) static_assert(holds, "msvc_demangler_result has another layout")
#elif defined(__STDC_VERSION__) && __STDC_VERSION__ >= 201112L
#define MSVC_DEMANGLER_ASSERT(holds) _Static_assert(holds, "msvc_demangler_result has another layout")
#endif
#ifdef MSVC_DEMANGLER_ASSERT
MSVC_DEMANGLER_ASSERT(sizeof(struct msvc_demangler_result) == 3 * sizeof(size_t));
MSVC_DEMANGLER_ASSERT(offsetof(struct msvc_demangler_result, status) == 0);
MSVC_DEMANGLER_ASSERT(offsetof(struct msvc_demangler_result, offset) == sizeof(size_t));
MSVC_DEMANGLER_ASSERT(offsetof(struct msvc_demangler_result, length) == 2 * sizeof(size_t));
#undef MSVC_DEMANGLER_ASSERT
#endif

/**
 * Writes the declaration of a symbol, or an error message, into a buffer.
 *
 * @param symbol     the input, which begins with the symbol. All of it must be UTF-8; bytes after a complete symbol are
 *                   ignored.
 * @param length     the length of the input
 * @param flags      flags for printing and reading
 * @param max_nodes  the limit on the tree of the symbol: each name and each type in it is a node, at every depth
 * @param max_bytes  the limit on the length of the declaration
 * @param out        the buffer
 * @param size       the size of the buffer
 * @return the status, the offset and the length of the text:
 *
 * | status         | text                                                 | offset                         |
 * |----------------|------------------------------------------------------|--------------------------------|
 * | OK             | the declaration                                      | 0                              |
 * | INVALID        | unknown primitive type (offset: 6, remaining: "")    | of the error                   |
 * | NOT_UTF8       | not UTF-8                                            | number of bytes that are UTF-8 |
 * | OUT_OF_MEMORY  | out of memory                                        | 0                              |
 * | TOO_MANY_NODES | more nodes than allowed (offset: 9, remaining: "EA") | where reading stopped          |
 * | TOO_LONG       | longer than allowed (offset: 10, remaining: "")      | end of the symbol              |
 *
 * The texts of INVALID, TOO_MANY_NODES and TOO_LONG are examples, and may change; no two statuses share a message.
 * INVALID means that the input has no declaration in this grammar, under any limit; after TOO_MANY_NODES a call with a
 * larger limit may return one. If the input may be no symbol, as "main", print the input itself unless the status is
 * OK. Each limit may be MSVC_DEMANGLER_UNLIMITED; the other one still holds.
 *
 * @code
 * const char symbol[] = "?f@@YAXH@Z and more";
 * char text[256];
 * struct msvc_demangler_result result =
 *     msvc_demangler_demangle(symbol, strlen(symbol), MSVC_DEMANGLER_LLVM, MSVC_DEMANGLER_DEFAULT_NODES,
 *                             MSVC_DEMANGLER_DEFAULT_BYTES, text, sizeof text);
 * puts(result.status == MSVC_DEMANGLER_OK ? text : symbol);
 * @endcode
 *
 * Prints "void __cdecl f(int)".
 */
MSVC_DEMANGLER_API
struct msvc_demangler_result msvc_demangler_demangle(const char *symbol, size_t length, uint32_t flags,
                                                     size_t max_nodes, size_t max_bytes, char *out,
                                                     size_t size) MSVC_DEMANGLER_NOEXCEPT;

/**
 * Returns the number of bytes of the symbol with which a text begins.
 *
 * @param symbol     the input, as of msvc_demangler_demangle
 * @param length     the length of the input
 * @param flags      MSVC_DEMANGLER_FULL or 0; flags for printing change nothing
 * @param max_nodes  the limit on the tree of the symbol
 * @return the number of bytes as the length, which is 0 if the status is not OK. Statuses and offsets are those of
 *         msvc_demangler_demangle, without TOO_LONG.
 *
 * @code
 * const char symbol[] = "?x@@3HA and more";
 * struct msvc_demangler_result result =
 *     msvc_demangler_prefix(symbol, strlen(symbol), 0, MSVC_DEMANGLER_DEFAULT_NODES);
 * printf("%zu bytes\n", result.length);
 * @endcode
 *
 * Prints "7 bytes".
 */
MSVC_DEMANGLER_API
struct msvc_demangler_result msvc_demangler_prefix(const char *symbol, size_t length, uint32_t flags,
                                                   size_t max_nodes) MSVC_DEMANGLER_NOEXCEPT;

/**
 * Writes a text into a buffer, with each symbol in it replaced by its declaration.
 *
 * All other bytes stay, and so does a symbol that exceeds a default limit. docs/msvcfilt.md defines where in a text a
 * symbol may be.
 *
 * @param text    the input: any bytes, which need not be UTF-8
 * @param length  the length of the input
 * @param flags   flags for printing and reading
 * @param out     the buffer; a cut never splits a character of a declaration
 * @param size    the size of the buffer
 * @return OK or OUT_OF_MEMORY, with the offset 0. If memory runs out, the text is "out of memory", and the bytes of the
 *         buffer after the NUL are unspecified.
 *
 * @code
 * const char line[] = "undefined: ?x@ns@@3HA";
 * char text[256];
 * struct msvc_demangler_result result =
 *     msvc_demangler_filter(line, strlen(line), MSVC_DEMANGLER_LLVM, text, sizeof text);
 * puts(result.status == MSVC_DEMANGLER_OK ? text : line);
 * @endcode
 *
 * Prints "undefined: int ns::x".
 */
MSVC_DEMANGLER_API
struct msvc_demangler_result msvc_demangler_filter(const char *text, size_t length, uint32_t flags, char *out,
                                                   size_t size) MSVC_DEMANGLER_NOEXCEPT;

/**
 * Writes the version of the library into a buffer. MSVC_DEMANGLER_VERSION is that of this header.
 *
 * @param out   the buffer
 * @param size  the size of the buffer
 * @return the length of the version
 *
 * @code
 * char version[16];
 * msvc_demangler_version(version, sizeof version);
 * puts(version);
 * @endcode
 *
 * Prints "0.11.0".
 */
MSVC_DEMANGLER_API
size_t msvc_demangler_version(char *out, size_t size) MSVC_DEMANGLER_NOEXCEPT;

/**
 * Returns the flags that an inline call passes on to an exported one.
 *
 * @param flags  the flags of the inline call
 * @return the flags without MSVC_DEMANGLER_CRATE; if they lack it, the flags with MSVC_DEMANGLER_FULL
 */
static inline uint32_t msvc_demangler_inline_flags(uint32_t flags) MSVC_DEMANGLER_NOEXCEPT
{
    return (flags & MSVC_DEMANGLER_CRATE) != 0 ? flags & ~MSVC_DEMANGLER_CRATE : flags | MSVC_DEMANGLER_FULL;
}

/**
 * Demangles a symbol that ends in NUL, as msvc_demangler_demangle does, with the default limits. It reads Full, or the
 * crate's grammar with MSVC_DEMANGLER_CRATE.
 *
 * @param symbol  the symbol
 * @param flags   flags for printing and reading
 * @param out     the buffer
 * @param size    the size of the buffer
 * @return the result of msvc_demangler_demangle
 */
static inline struct msvc_demangler_result msvc_demangler_demangle_string(const char *symbol, uint32_t flags, char *out,
                                                                          size_t size) MSVC_DEMANGLER_NOEXCEPT
{
    return msvc_demangler_demangle(symbol, strlen(symbol), msvc_demangler_inline_flags(flags),
                                   MSVC_DEMANGLER_DEFAULT_NODES, MSVC_DEMANGLER_DEFAULT_BYTES, out, size);
}

/**
 * Returns a size of a buffer in which the text of nearly every symbol of this length fits.
 *
 * @param length  the length of a symbol
 * @return the size, at most 65,536
 */
static inline size_t msvc_demangler_usual_size(size_t length) MSVC_DEMANGLER_NOEXCEPT
{
    return length < 16352 ? 4 * length + 128 : 65536;
}

/**
 * Demangles a symbol, as msvc_demangler_demangle does, into a buffer from malloc that holds the whole text. It reads
 * Full, or the crate's grammar with MSVC_DEMANGLER_CRATE.
 *
 * @param symbol     the input, as of msvc_demangler_demangle
 * @param length     the length of the input
 * @param flags      flags for printing and reading
 * @param max_nodes  the limit on the tree of the symbol
 * @param max_bytes  the limit on the length of the declaration
 * @param result     receives the result, unless it is null
 * @return the text, which the caller frees; null exactly if memory runs out
 *
 * @code
 * struct msvc_demangler_result result;
 * char *text = msvc_demangler_demangle_allocated("?x@@3HA", 7, MSVC_DEMANGLER_LLVM, MSVC_DEMANGLER_DEFAULT_NODES,
 *                                                MSVC_DEMANGLER_DEFAULT_BYTES, &result);
 * puts(result.status == MSVC_DEMANGLER_OK ? text : "?x@@3HA");
 * free(text);
 * @endcode
 *
 * Prints "int x".
 */
static inline char *msvc_demangler_demangle_allocated(const char *symbol, size_t length, uint32_t flags,
                                                      size_t max_nodes, size_t max_bytes,
                                                      struct msvc_demangler_result *result) MSVC_DEMANGLER_NOEXCEPT
{
    struct msvc_demangler_result found = {MSVC_DEMANGLER_OUT_OF_MEMORY, 0, 0};
    size_t size = msvc_demangler_usual_size(length);
    char *out = (char *)malloc(size);
    flags = msvc_demangler_inline_flags(flags);
    if (out != NULL) {
        found = msvc_demangler_demangle(symbol, length, flags, max_nodes, max_bytes, out, size);
        if (found.length >= size) {
            free(out);
            size = found.length + 1;
            out = (char *)malloc(size);
            if (out != NULL) {
                found = msvc_demangler_demangle(symbol, length, flags, max_nodes, max_bytes, out, size);
            }
        }
    }
    if (out == NULL || found.status == MSVC_DEMANGLER_OUT_OF_MEMORY) {
        free(out);
        out = NULL;
        found.status = MSVC_DEMANGLER_OUT_OF_MEMORY;
        found.offset = 0;
        found.length = 0;
    }
    if (result != NULL) {
        *result = found;
    }
    return out;
}

#ifdef __cplusplus
}
#endif

#if defined(__cplusplus) && __cplusplus >= 201703L
#include <new>
#include <optional>
#include <string>
#include <string_view>

namespace msvc_demangler {

/**
 * Returns the whole text of msvc_demangler_demangle, the declaration or an error message. It reads Full, or the crate's
 * grammar with MSVC_DEMANGLER_CRATE.
 *
 * @param symbol     the input, as of msvc_demangler_demangle
 * @param result     receives the result
 * @param flags      flags for printing and reading
 * @param max_nodes  the limit on the tree of the symbol
 * @param max_bytes  the limit on the length of the declaration
 * @return the text
 * @throws std::bad_alloc if memory runs out
 */
inline std::string demangle(std::string_view symbol, msvc_demangler_result &result,
                            std::uint32_t flags = MSVC_DEMANGLER_LLVM,
                            std::size_t max_nodes = MSVC_DEMANGLER_DEFAULT_NODES,
                            std::size_t max_bytes = MSVC_DEMANGLER_DEFAULT_BYTES)
{
    std::string out(msvc_demangler_usual_size(symbol.size()), '\0');
    flags = msvc_demangler_inline_flags(flags);
    result = msvc_demangler_demangle(symbol.data(), symbol.size(), flags, max_nodes, max_bytes, out.data(), out.size());
    if (result.length >= out.size()) {
        out.resize(result.length + 1);
        result =
            msvc_demangler_demangle(symbol.data(), symbol.size(), flags, max_nodes, max_bytes, out.data(), out.size());
    }
    if (result.status == MSVC_DEMANGLER_OUT_OF_MEMORY) {
        throw std::bad_alloc();
    }
    out.resize(result.length);
    return out;
}

/**
 * Returns the declaration of a symbol, if there is one. It reads Full, or the crate's grammar with
 * MSVC_DEMANGLER_CRATE.
 *
 * @param symbol     the input, as of msvc_demangler_demangle
 * @param flags      flags for printing and reading
 * @param max_nodes  the limit on the tree of the symbol
 * @param max_bytes  the limit on the length of the declaration
 * @return the declaration, or nothing if the status is not OK
 * @throws std::bad_alloc if memory runs out
 */
inline std::optional<std::string> demangle(std::string_view symbol, std::uint32_t flags = MSVC_DEMANGLER_LLVM,
                                           std::size_t max_nodes = MSVC_DEMANGLER_DEFAULT_NODES,
                                           std::size_t max_bytes = MSVC_DEMANGLER_DEFAULT_BYTES)
{
    msvc_demangler_result result;
    std::string out = demangle(symbol, result, flags, max_nodes, max_bytes);
    if (result.status != MSVC_DEMANGLER_OK) {
        return std::nullopt;
    }
    return out;
}

/**
 * Returns a text with each symbol in it replaced by its declaration, as msvc_demangler_filter writes it. It reads Full,
 * or the crate's grammar with MSVC_DEMANGLER_CRATE.
 *
 * @param text   the input, of any bytes
 * @param flags  flags for printing and reading
 * @return the filtered text
 * @throws std::bad_alloc if memory runs out
 */
inline std::string filter(std::string_view text, std::uint32_t flags = MSVC_DEMANGLER_LLVM)
{
    std::string out(text.size() + 256, '\0');
    flags = msvc_demangler_inline_flags(flags);
    msvc_demangler_result result = msvc_demangler_filter(text.data(), text.size(), flags, out.data(), out.size());
    if (result.length >= out.size()) {
        out.resize(result.length + 1);
        result = msvc_demangler_filter(text.data(), text.size(), flags, out.data(), out.size());
    }
    if (result.status == MSVC_DEMANGLER_OUT_OF_MEMORY) {
        throw std::bad_alloc();
    }
    out.resize(result.length);
    return out;
}

} // namespace msvc_demangler
#endif

#endif
