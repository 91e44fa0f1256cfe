/* Compares with rows the part of a text that is read. Each line of standard input is a text, the number of bytes of its
   symbol, and the number of nodes of that, or a text and the word `refused`, separated by tabs. With that limit on
   nodes the symbol is read, and with one less it is not. Prints each row that differs; the last line has the counts. */

#define _POSIX_C_SOURCE 200809L
#include <msvc_demangler.h>
#include <stdbool.h>
#include <stdio.h>

static bool agrees(const char *text, size_t length, const char *wanted)
{
    size_t bytes;
    size_t nodes;
    if (sscanf(wanted, "%zu\t%zu", &bytes, &nodes) != 2) {
        struct msvc_demangler_result result = msvc_demangler_prefix(text, length, 0, MSVC_DEMANGLER_UNLIMITED);
        return result.status == MSVC_DEMANGLER_INVALID && result.offset <= length && result.length == 0;
    }
    struct msvc_demangler_result enough = msvc_demangler_prefix(text, length, 0, nodes);
    struct msvc_demangler_result few = msvc_demangler_prefix(text, length, 0, nodes - 1);
    return enough.status == MSVC_DEMANGLER_OK && enough.offset == 0 && enough.length == bytes &&
           few.status == MSVC_DEMANGLER_TOO_MANY_NODES && few.offset <= length && few.length == 0;
}

int main(void)
{
    char *line = NULL;
    size_t capacity = 0;
    long agree = 0;
    long differ = 0;
    for (ssize_t length; (length = getline(&line, &capacity, stdin)) > 0;) {
        size_t symbol = strcspn(line, "\t");
        if (agrees(line, symbol, line + symbol + 1)) {
            agree++;
        } else {
            differ++;
            fputs(line, stdout);
        }
    }
    free(line);
    printf("%ld texts are read so far, %ld otherwise\n", agree, differ);
    return differ != 0;
}
