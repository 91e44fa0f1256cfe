/* Prints the results of the calls, to compare libraries with one another:

       portable rows < rows     each row, as those of msvc_bench, under its flags, into buffers of several sizes
       portable filter < text   the filtered text
       portable held            over the file in C alone: the calls on the caller's own machines */

#define _POSIX_C_SOURCE 200809L
#include <msvc_demangler.h>
#include <stdio.h>
#ifdef _WIN32
#include <fcntl.h>
#include <io.h>
#endif

enum { most = 1 << 16 };

static const size_t sizes[] = {0, 1, 2, 3, 4, 5, 16, 17, 18, 19, 20, 64, most};
static const size_t limits[] = {0, 1, 3, 10, 100, MSVC_DEMANGLER_DEFAULT_NODES};

static char out[most];
static int wrong;

/* Prints a result, and the buffer up to the last changed byte, among the bytes that the call may write. */
static void print(const char *what, struct msvc_demangler_result result)
{
    size_t end = result.length < most - 16 ? result.length + 16 : most;
    while (end > 0 && out[end - 1] == '#') {
        end--;
    }
    printf("%s %u %lu %lu ", what, (unsigned)result.status, (unsigned long)result.offset,
           (unsigned long)result.length);
    fwrite(out, 1, end, stdout);
    putchar('\n');
    memset(out, '#', end);
}

static void try_row(const char *symbol, size_t length, uint32_t flags)
{
    const size_t nodes = MSVC_DEMANGLER_DEFAULT_NODES;
    for (size_t n = 0; n < sizeof sizes / sizeof sizes[0]; n++) {
        print("demangle", msvc_demangler_demangle(symbol, length, flags, nodes, most, out, sizes[n]));
        print("filter", msvc_demangler_filter(symbol, length, flags, out, sizes[n]));
    }
    for (size_t n = 0; n < sizeof limits / sizeof limits[0]; n++) {
        print("nodes", msvc_demangler_demangle(symbol, length, flags, limits[n], most, out, most));
        print("bytes", msvc_demangler_demangle(symbol, length, flags, nodes, limits[n], out, most));
        print("prefix", msvc_demangler_prefix(symbol, length, flags, limits[n]));
    }
}

/* Tries the rows FLAGS, tab, SYMBOL, tab. */
static void try_rows(void)
{
    static char line[most];
    memset(out, '#', sizeof out);
    while (fgets(line, sizeof line, stdin) != NULL) {
        char *symbol;
        unsigned long flags = strtoul(line, &symbol, 16);
        if (*symbol == '\t') {
            symbol++;
            try_row(symbol, strcspn(symbol, "\t\n"), (uint32_t)flags);
        }
    }
}

static void filter_input(void)
{
    char *text = NULL;
    size_t capacity = 0;
    size_t length = 0;
    do {
        capacity = 2 * capacity + most;
        text = (char *)realloc(text, capacity);
        length += fread(text + length, 1, capacity - length, stdin);
    } while (length == capacity);
    size_t size = msvc_demangler_filter(text, length, MSVC_DEMANGLER_LLVM, NULL, 0).length + 1;
    char *filtered = (char *)malloc(size);
    msvc_demangler_filter(text, length, MSVC_DEMANGLER_LLVM, filtered, size);
    fwrite(filtered, 1, size - 1, stdout);
    free(filtered);
    free(text);
}

#ifdef MSVC_DEMANGLER_MOST_NODES
static void see(int good, const char *what)
{
    if (!good) {
        printf("%s\n", what);
        wrong++;
    }
}

/* Writes the symbol of a function with so many parameters, which are pointers. */
static char *pointers(size_t parameters)
{
    char *symbol = (char *)malloc(3 * parameters + 10);
    strcpy(symbol, "?f@@YAX");
    for (size_t n = 0; n < parameters; n++) {
        memcpy(symbol + 7 + 3 * n, "PAH", 3);
    }
    strcpy(symbol + 7 + 3 * parameters, "@Z");
    return symbol;
}

static void try_held(void)
{
    struct msvc_demangler_instance left = {NULL};
    struct msvc_demangler_instance right = {NULL};
    struct msvc_demangler_result result;
    size_t any = MSVC_DEMANGLER_UNLIMITED;
    char *large;
    for (int turn = 0; turn < 3; turn++) {
        result = msvc_demangler_demangle_with(&left, "?x@@3HA", 7, MSVC_DEMANGLER_LLVM, 10, 10, out, most);
        see(result.status == MSVC_DEMANGLER_OK && strcmp(out, "int x") == 0, "demangle_with");
        result = msvc_demangler_filter_with(&right, "a ?y@@3HA", 9, MSVC_DEMANGLER_LLVM, out, most);
        see(result.status == MSVC_DEMANGLER_OK && strcmp(out, "a int y") == 0, "filter_with");
        see(msvc_demangler_prefix_with(&left, "?x@@3HA b", 9, 0, 10).length == 7, "prefix_with");
        see(left.machine != NULL && right.machine != NULL && left.machine != right.machine, "two machines");
        msvc_demangler_free(&left);
        see(left.machine == NULL, "a machine that is freed");
    }
    msvc_demangler_free(&right);

    /* UNLIMITED means the limit of the file, and a declaration may be longer than the default limit. */
    large = pointers(MSVC_DEMANGLER_MOST_NODES);
    result = msvc_demangler_demangle_with(&left, large, strlen(large), 0, any, any, out, most);
    see(result.status == MSVC_DEMANGLER_TOO_MANY_NODES, "more nodes than the file accepts");
    result = msvc_demangler_prefix_with(&left, large, strlen(large), 0, any);
    see(result.status == MSVC_DEMANGLER_TOO_MANY_NODES, "more nodes than the file measures");
    free(large);
    large = pointers(4900); /* "void __cdecl f(int *,int *)" */
    result = msvc_demangler_demangle_with(&left, large, strlen(large), 0, any, any, out, most);
    see(result.status == MSVC_DEMANGLER_OK && result.length == 6 * 4900 + 15, "a large symbol");
    free(large);
    large = (char *)"?f@@YAXPAHP6AX00@ZP6AX11@ZP6AX22@ZP6AX33@ZP6AX44@ZP6AX55@ZP6AX66@ZP6AX77@ZP6AX88@Z@Z";
    result = msvc_demangler_demangle_with(&left, large, strlen(large), 0, any, any, NULL, 0);
    see(result.status == MSVC_DEMANGLER_OK, "a long declaration");
    msvc_demangler_free(&left);
    msvc_demangler_free(NULL);
    msvc_demangler_free(NULL);
    see(msvc_demangler_prefix("?x@@3HA", 7, 0, 10).length == 7, "a call after the pool is freed");
    msvc_demangler_free(NULL);
    printf("held machines, %d wrong results\n", wrong);
}
#endif

int main(int count, char **words)
{
    const char *word = count == 2 ? words[1] : "";
#ifdef _WIN32
    _setmode(_fileno(stdin), _O_BINARY);
    _setmode(_fileno(stdout), _O_BINARY);
#endif
    if (strcmp(word, "rows") == 0) {
        try_rows();
#ifdef MSVC_DEMANGLER_MOST_NODES
    } else if (strcmp(word, "held") == 0) {
        try_held();
#endif
    } else if (strcmp(word, "filter") == 0) {
        filter_input();
    } else {
        fputs("portable: wants rows, filter or held\n", stderr);
        return 1;
    }
    return wrong != 0;
}
