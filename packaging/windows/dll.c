/* The calls of msvc_demangler.h, in Windows' convention, over those that were built for Linux. */
#include "../../include/msvc_demangler.h"
#include "sysv.h"

/* A call: its result, name, parameters and arguments. The declaration in the header must be the same. */
#define CALL(result, name, parameters, arguments) \
    result SYSV(name) parameters; \
    result name parameters \
    { \
        return sysv_##name arguments; \
    }

CALL(struct msvc_demangler_result, msvc_demangler_demangle,
     (const char *symbol, size_t length, uint32_t flags, size_t max_nodes, size_t max_bytes, char *out, size_t size),
     (symbol, length, flags, max_nodes, max_bytes, out, size))
CALL(struct msvc_demangler_result, msvc_demangler_prefix,
     (const char *symbol, size_t length, uint32_t flags, size_t max_nodes), (symbol, length, flags, max_nodes))
CALL(struct msvc_demangler_result, msvc_demangler_filter,
     (const char *text, size_t length, uint32_t flags, char *out, size_t size), (text, length, flags, out, size))
CALL(size_t, msvc_demangler_version, (char *out, size_t size), (out, size))
