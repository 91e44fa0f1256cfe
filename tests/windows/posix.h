/* What the callers of tests/c have of POSIX and mingw lacks, to be included before them: getline. And standard
   streams whose bytes stay as they are. */

#include <fcntl.h>
#include <io.h>
#include <stdio.h>
#include <stdlib.h>
#include <sys/types.h>

__attribute__((constructor)) static void keep_bytes(void)
{
    _setmode(0, _O_BINARY);
    _setmode(1, _O_BINARY);
}

/* Reads a line with its line feed into a block that grows. Returns its length, or -1 at the end. */
static inline ssize_t getline(char **line, size_t *capacity, FILE *stream)
{
    size_t length = 0;
    int byte = 0;
    while (byte != '\n' && (byte = getc(stream)) != EOF) {
        if (length + 1 >= *capacity) {
            *capacity = 2 * *capacity + 128;
            *line = realloc(*line, *capacity);
        }
        (*line)[length++] = (char)byte;
    }
    if (length == 0) {
        return -1;
    }
    (*line)[length] = '\0';
    return (ssize_t)length;
}
