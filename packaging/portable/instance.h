
/**
 * Limit on the nodes of a symbol for any max_nodes, which bounds the stack. For small stacks compile msvc_demangler.c
 * with a lower number. If the compiler doesn't optimise, a call takes half as much stack again.
 */
#ifndef MSVC_DEMANGLER_MOST_NODES
#define MSVC_DEMANGLER_MOST_NODES ((size_t)15000)
#endif

/**
 * Machine of one caller: a call with it takes no machine of the pool, and so shares nothing with other calls. It
 * begins as {NULL}. With a null pointer to it, the calls below do what those above do. No two calls may use an
 * instance at the same time.
 *
 * A machine is memory of 10 MiB from malloc, and more for large inputs and outputs and for limits above the default
 * ones, up to a workspace of 1 GiB. The pool keeps up to eight for later calls. Nothing else is kept.
 */
struct msvc_demangler_instance {
    void *machine; /**< the machine, or null */
};

/**
 * Does what msvc_demangler_demangle does, with an instance.
 *
 * @param instance   the instance, or null
 * @param symbol     the input, as of msvc_demangler_demangle
 * @param length     the length of the input
 * @param flags      flags for printing and reading
 * @param max_nodes  the limit on the tree of the symbol
 * @param max_bytes  the limit on the length of the declaration
 * @param out        the buffer
 * @param size       the size of the buffer
 * @return the result of msvc_demangler_demangle
 */
MSVC_DEMANGLER_API
struct msvc_demangler_result msvc_demangler_demangle_with(struct msvc_demangler_instance *instance, const char *symbol,
                                                          size_t length, uint32_t flags, size_t max_nodes,
                                                          size_t max_bytes, char *out,
                                                          size_t size) MSVC_DEMANGLER_NOEXCEPT;

/**
 * Does what msvc_demangler_prefix does, with an instance.
 *
 * @param instance   the instance, or null
 * @param symbol     the input, as of msvc_demangler_demangle
 * @param length     the length of the input
 * @param flags      MSVC_DEMANGLER_FULL or 0
 * @param max_nodes  the limit on the tree of the symbol
 * @return the result of msvc_demangler_prefix
 */
MSVC_DEMANGLER_API
struct msvc_demangler_result msvc_demangler_prefix_with(struct msvc_demangler_instance *instance, const char *symbol,
                                                        size_t length, uint32_t flags,
                                                        size_t max_nodes) MSVC_DEMANGLER_NOEXCEPT;

/**
 * Does what msvc_demangler_filter does, with an instance.
 *
 * @param instance  the instance, or null
 * @param text      the input: any bytes, which need not be UTF-8
 * @param length    the length of the input
 * @param flags     flags for printing and reading
 * @param out       the buffer
 * @param size      the size of the buffer
 * @return the result of msvc_demangler_filter
 */
MSVC_DEMANGLER_API
struct msvc_demangler_result msvc_demangler_filter_with(struct msvc_demangler_instance *instance, const char *text,
                                                        size_t length, uint32_t flags, char *out,
                                                        size_t size) MSVC_DEMANGLER_NOEXCEPT;

/**
 * Frees the machine of an instance, which may be used again, or the machines of the pool.
 *
 * @param instance  the instance, or null for the pool
 */
MSVC_DEMANGLER_API
void msvc_demangler_free(struct msvc_demangler_instance *instance) MSVC_DEMANGLER_NOEXCEPT;
