/* A library for LD_PRELOAD: ends the process with status 9 if an allocation function is called on the alternate stack
   of a signal handler. */

#define _GNU_SOURCE
#include <signal.h>
#include <stddef.h>
#include <unistd.h>

void *__libc_malloc(size_t size);
void *__libc_calloc(size_t count, size_t size);
void *__libc_realloc(void *memory, size_t size);
void *__libc_memalign(size_t align, size_t size);
void __libc_free(void *memory);

static void see(const char *name, size_t length)
{
    stack_t stack;
    if (sigaltstack(NULL, &stack) == 0 && (stack.ss_flags & SS_ONSTACK) != 0) {
        if (write(STDERR_FILENO, name, length) != (ssize_t)length) {
            _exit(10);
        }
        _exit(9);
    }
}

#define MESSAGE " is called in a signal handler\n"
#define SEE(name) see(name MESSAGE, sizeof(name MESSAGE) - 1)

void *malloc(size_t size)
{
    SEE("malloc");
    return __libc_malloc(size);
}

void *calloc(size_t count, size_t size)
{
    SEE("calloc");
    return __libc_calloc(count, size);
}

void *realloc(void *memory, size_t size)
{
    SEE("realloc");
    return __libc_realloc(memory, size);
}

void *memalign(size_t align, size_t size)
{
    SEE("memalign");
    return __libc_memalign(align, size);
}

void *aligned_alloc(size_t align, size_t size)
{
    SEE("aligned_alloc");
    return __libc_memalign(align, size);
}

void free(void *memory)
{
    SEE("free");
    __libc_free(memory);
}
