/* What the kit's programs ask for as they start, for the systems whose C library hasn't it: their arguments, and what
   the processor can do. */
#include <cpuid.h>
#include <stdint.h>
#include <string.h>

/* The arguments of main, which `main` of the system's side sets. */
static uint64_t argument_count;
static char **arguments;

/* Copies a text without its NUL. Returns its length, or -2 if it doesn't fit. */
static int64_t copied(const char *text, char *to, uint64_t size)
{
    size_t length = strlen(text);
    if (length > size) {
        return -2;
    }
    memcpy(to, text, length);
    return (int64_t)length;
}

/* Copies an argument without its NUL. Returns its length; -1 if there is no such argument, -2 if it doesn't fit. */
static int64_t argument(uint64_t index, char *to, uint64_t size)
{
    return index >= argument_count ? -1 : copied(arguments[index], to, size);
}

/* The result of a leaf of cpuid, in the registers EAX, EBX, ECX and EDX, and the part that the system enables. Both
   are the same for the features of x86-64-v2, for which a program asks as it starts. */
struct cpuid_feature {
    unsigned present[4];
    unsigned active[4];
};

/* Returns the leaf of that number in glibc's list; one that the processor lacks is zero. */
static const struct cpuid_feature *cpuid_feature(unsigned number)
{
    static const unsigned leaves[] = {1, 7, 0x80000001};
    enum { COUNT = sizeof leaves / sizeof leaves[0] };
    static struct cpuid_feature features[COUNT + 1];
    if (number >= COUNT) {
        return &features[COUNT];
    }
    struct cpuid_feature *feature = &features[number];
    unsigned *registers = feature->present;
    __get_cpuid_count(leaves[number], 0, &registers[0], &registers[1], &registers[2], &registers[3]);
    memcpy(feature->active, feature->present, sizeof feature->present);
    return feature;
}
