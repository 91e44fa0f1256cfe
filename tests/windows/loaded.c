/* The calls of the library by LoadLibrary and GetProcAddress: a caller that is linked with this needs no import
   library. The DLL must be in the folder of the program. */

#include <msvc_demangler.h>
#include <stdio.h>
#include <windows.h>

/* Returns the address of a call, or ends the program. */
static FARPROC found(const char *name)
{
    static HMODULE library;
    if (library == NULL) {
        library = LoadLibraryW(L"msvc_demangler.dll");
    }
    FARPROC call = library == NULL ? NULL : GetProcAddress(library, name);
    if (call == NULL) {
        fprintf(stderr, "loaded: there is no %s: error %lu\n", name, GetLastError());
        exit(2);
    }
    return call;
}

/* Defines a call that hands its arguments on. */
#define HANDS_ON(RESULT, NAME, PARAMETERS, ARGUMENTS)                                                                  \
    RESULT NAME PARAMETERS                                                                                             \
    {                                                                                                                  \
        static RESULT(*call) PARAMETERS;                                                                               \
        if (call == NULL) {                                                                                            \
            call = (RESULT(*) PARAMETERS)(void (*)(void))found(#NAME);                                                 \
        }                                                                                                              \
        return call ARGUMENTS;                                                                                         \
    }

typedef struct msvc_demangler_result result;
HANDS_ON(result, msvc_demangler_demangle,
         (const char *symbol, size_t length, uint32_t flags, size_t max_nodes, size_t max_bytes, char *out,
          size_t size),
         (symbol, length, flags, max_nodes, max_bytes, out, size))
HANDS_ON(result, msvc_demangler_prefix, (const char *symbol, size_t length, uint32_t flags, size_t max_nodes),
         (symbol, length, flags, max_nodes))
HANDS_ON(result, msvc_demangler_filter, (const char *text, size_t length, uint32_t flags, char *out, size_t size),
         (text, length, flags, out, size))
HANDS_ON(size_t, msvc_demangler_version, (char *out, size_t size), (out, size))
