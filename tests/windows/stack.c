/* Calls the library on threads whose stack has 1 MB, the default size on Windows,
   under the default limits. Each line of standard input is a symbol. Printed are the statuses of
   msvc_demangler_demangle and of msvc_demangler_prefix. Where the stack doesn't hold a call, Windows ends the process,
   and wine the thread alone: the status is NONE then. */

#include <msvc_demangler.h>
#include <stdio.h>
#include <windows.h>

enum { STACK = 1 << 20, NONE = 99 };

struct work {
    const char *symbol;
    size_t length;
    unsigned demangled;
    unsigned measured;
};

static DWORD WINAPI call(void *argument)
{
    struct work *work = argument;
    work->demangled = msvc_demangler_demangle(work->symbol, work->length, MSVC_DEMANGLER_LLVM,
                                              MSVC_DEMANGLER_DEFAULT_NODES, MSVC_DEMANGLER_DEFAULT_BYTES, NULL, 0)
                          .status;
    work->measured = msvc_demangler_prefix(work->symbol, work->length, 0, MSVC_DEMANGLER_DEFAULT_NODES).status;
    return 0;
}

int main(void)
{
    char *line = NULL;
    size_t capacity = 0;
    for (ssize_t length; (length = getline(&line, &capacity, stdin)) > 0;) {
        struct work work = {line, (size_t)length - (line[length - 1] == '\n'), NONE, NONE};
        HANDLE thread = CreateThread(NULL, STACK, call, &work, STACK_SIZE_PARAM_IS_A_RESERVATION, NULL);
        if (thread == NULL || WaitForSingleObject(thread, INFINITE) != WAIT_OBJECT_0) {
            fputs("stack: no thread\n", stderr);
            return 1;
        }
        CloseHandle(thread);
        printf("%u %u\n", work.demangled, work.measured);
    }
    free(line);
    return 0;
}
