/* Calls the C library on a thread with a stack of KILOBYTES KB, for measure/stack, measure/limits and tests/c/test:

       stack demangle KILOBYTES NODES [FLAGS] < symbol
       stack prefix KILOBYTES NODES [FLAGS] < symbol

   The symbol is the first line of standard input. FLAGS, a hexadecimal number, are flags beside those of LLVM. Prints
   the status and, for msvc_demangler_demangle, the text. If the stack doesn't suffice for the call, a signal ends the
   program. */

#define _POSIX_C_SOURCE 200809L
#include <msvc_demangler.h>
#include <pthread.h>
#include <stdio.h>

struct work {
    char *symbol;
    size_t length;
    size_t nodes;
    uint32_t flags;
    struct msvc_demangler_result result;
    char text[256];
};

static void *demangle(void *argument)
{
    struct work *work = argument;
    work->result = msvc_demangler_demangle(work->symbol, work->length, work->flags, work->nodes,
                                           MSVC_DEMANGLER_DEFAULT_BYTES, work->text, sizeof work->text);
    return NULL;
}

static void *prefix(void *argument)
{
    struct work *work = argument;
    work->result = msvc_demangler_prefix(work->symbol, work->length, work->flags, work->nodes);
    return NULL;
}

static int fail(const char *what)
{
    fprintf(stderr, "stack: %s\n", what);
    return 1;
}

int main(int count, char **words)
{
    if (count != 4 && count != 5) {
        return fail("wants demangle or prefix, KILOBYTES, NODES and perhaps FLAGS");
    }
    static struct work work;
    size_t capacity = 0;
    ssize_t length = getline(&work.symbol, &capacity, stdin);
    if (length <= 0) {
        return fail("no symbol");
    }
    work.length = (size_t)length - (work.symbol[length - 1] == '\n');
    work.nodes = strtoul(words[3], NULL, 10);
    work.flags = MSVC_DEMANGLER_LLVM | (count == 5 ? (uint32_t)strtoul(words[4], NULL, 16) : 0);

    pthread_attr_t attributes;
    pthread_t thread;
    if (pthread_attr_init(&attributes) != 0 ||
        pthread_attr_setstacksize(&attributes, 1024 * strtoul(words[2], NULL, 10)) != 0 ||
        pthread_create(&thread, &attributes, strcmp(words[1], "prefix") == 0 ? prefix : demangle, &work) != 0 ||
        pthread_join(thread, NULL) != 0) {
        return fail("no thread with a stack of that size");
    }
    printf("%u %s\n", work.result.status, work.text);
    free(work.symbol);
    return 0;
}
