/* What the programs call and musl lacks: two functions of glibc, and the kit's function for arguments. And a faster
   memmove. All else is linked from musl and from the kit's archives. */

#include "../stand-in.h"

#include <stdint.h>
#include <string.h>
#include <unistd.h>

/* The kit's function for arguments has them from a constructor, to which glibc passes them and musl doesn't. So the
   linker, by --wrap=main, has __wrap_main called in place of the program's main, which is __real_main here. */
int __real_main(int count, char **words);

int __wrap_main(int count, char **words)
{
    argument_count = count;
    arguments = words;
    return __real_main(count, words);
}

int64_t rattle_arg(uint64_t index, char *to, uint64_t size)
{
    return argument(index, to, size);
}

const struct cpuid_feature *__x86_get_cpuid_feature_leaf(unsigned number)
{
    return cpuid_feature(number);
}

/* A program reports by this that the processor is too old. */
ssize_t __write(int file, const void *bytes, size_t length)
{
    return write(file, bytes, length);
}

/* musl's memmove is slow for the few hundred bytes at most that the programs move each time. So bytes that don't
   overlap are moved by the code that the compiler writes in place of a call of memcpy: `build` has its options. */
void *__real_memmove(void *to, const void *from, size_t length);

void *__wrap_memmove(void *to, const void *from, size_t length)
{
    uintptr_t distance = (uintptr_t)to - (uintptr_t)from;
    if (distance >= length && -distance >= length) {
        return __builtin_memcpy(to, from, length);
    }
    return __real_memmove(to, from, length);
}
