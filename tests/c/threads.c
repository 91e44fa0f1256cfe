/* Two threads that call at once: each result must be that of a single thread. */

#include <msvc_demangler.h>
#include <pthread.h>
#include <stdio.h>

enum { calls = 20000 };

struct work {
    const char *symbol;
    const char *text;
    int wrong;
};

static void *call_often(void *argument)
{
    struct work *work = argument;
    for (int call = 0; call < calls; call++) {
        char text[256];
        msvc_demangler_demangle_string(work->symbol, MSVC_DEMANGLER_LLVM, text, sizeof text);
        work->wrong += strcmp(text, work->text) != 0;
    }
    return NULL;
}

int main(void)
{
    struct work works[] = {
        {"?f@@YAXV?$A@PAHPAH@@PAD0@Z", "void __cdecl f(class A<int *, int *>, char *, class A<int *, int *>)", 0},
        {"?x@@3L", "unknown primitive type (offset: 6, remaining: \"\")", 0},
    };
    pthread_t threads[2];
    for (int n = 0; n < 2; n++) {
        if (pthread_create(&threads[n], NULL, call_often, &works[n]) != 0) {
            return 1;
        }
    }
    int wrong = 0;
    for (int n = 0; n < 2; n++) {
        pthread_join(threads[n], NULL);
        wrong += works[n].wrong;
    }
    printf("%d calls of two threads, %d wrong results\n", 2 * calls, wrong);
    return wrong != 0;
}
