/* The functions by which the archive of the C library allocates. The kit has them for x86-64; these are for other
   processors. The kit's names and results are those of its liblibc_c.a. */

#include <stdbool.h>
#include <stdlib.h>

/* Whether memory was allocated, and its address; if not, some address that is not null. */
struct memory_result {
    bool is_given;
    void *memory;
};

struct memory_result rattle_alloc(size_t size, size_t align);
struct memory_result rattle_realloc(void *memory, size_t old_size, size_t size, size_t align);
void rattle_dealloc(void *memory);

static struct memory_result result(void *memory)
{
    static const char nothing;
    return (struct memory_result){memory != NULL, memory != NULL ? memory : (void *)&nothing};
}

/* No alignment exceeds that of malloc. For no bytes one unit of alignment is requested. */
struct memory_result rattle_alloc(size_t size, size_t align)
{
    return result(malloc(size != 0 ? size : align));
}

struct memory_result rattle_realloc(void *memory, size_t old_size, size_t size, size_t align)
{
    (void)old_size;
    return result(realloc(memory, size != 0 ? size : align));
}

void rattle_dealloc(void *memory)
{
    free(memory);
}
