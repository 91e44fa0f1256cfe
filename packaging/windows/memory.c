/* What both the programs and the library ask for: memory of the C runtime, and its functions for bytes. */
#include "sysv.h"

#include <stdlib.h>
#include <string.h>

void *SYSV(malloc)(size_t size)
{
    return malloc(size);
}

void *SYSV(realloc)(void *block, size_t size)
{
    return realloc(block, size);
}

void SYSV(free)(void *block)
{
    free(block);
}

void *SYSV(memcpy)(void *to, const void *from, size_t length)
{
    return memcpy(to, from, length);
}

void *SYSV(memmove)(void *to, const void *from, size_t length)
{
    return memmove(to, from, length);
}

void *SYSV(memset)(void *to, int byte, size_t length)
{
    return memset(to, byte, length);
}
