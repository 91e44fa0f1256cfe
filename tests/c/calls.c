/* What the calls return and write at their edges: each row is a call and its result. */

#include <msvc_demangler.h>
#include <stdbool.h>
#include <stdio.h>

#define LLVM MSVC_DEMANGLER_LLVM
#define FULL (MSVC_DEMANGLER_LLVM | MSVC_DEMANGLER_FULL)
#define CRATE (MSVC_DEMANGLER_LLVM | MSVC_DEMANGLER_CRATE)
#define ANY MSVC_DEMANGLER_UNLIMITED

#define NO_QUESTION_MARK "does not start with b'?' (offset: 0, remaining: \"\")"
#define MANY_NODES "more nodes than allowed (offset: 9, remaining: \"EA\")"
#define LONG "longer than allowed (offset: 10, remaining: \"A\")"

static const struct row {
    const char *symbol;
    size_t length;
    uint32_t flags;
    size_t max_nodes;
    size_t max_bytes;
    enum msvc_demangler_status status;
    size_t offset;
    const char *text;
    size_t prefix; /* how many bytes the symbol takes, or 0 if it isn't read */
} rows[] = {
    {"?x@ns@@3HA", 10, LLVM, ANY, ANY, MSVC_DEMANGLER_OK, 0, "int ns::x", 10},
    {"?x@ns@@3HA", 10, MSVC_DEMANGLER_NAME_ONLY, ANY, ANY, MSVC_DEMANGLER_OK, 0, "ns::x", 10},
    {"?x@@3HA and more", 16, LLVM, ANY, ANY, MSVC_DEMANGLER_OK, 0, "int x", 7},
    /* A symbol of Full alone, and one that the grammars print and read differently. */
    {"?f@@YA?A?<auto>@@H@Z b", 22, FULL, ANY, ANY, MSVC_DEMANGLER_OK, 0, "<auto> __cdecl f(int)", 20},
    {"?f@@9", 5, FULL, ANY, ANY, MSVC_DEMANGLER_OK, 0, "extern \"C\" f", 5},
    {"?f@@9", 5, LLVM, ANY, ANY, MSVC_DEMANGLER_OK, 0, "f", 5},
    {"?x@@3HA@@3HA", 7, LLVM, ANY, ANY, MSVC_DEMANGLER_OK, 0, "int x", 7},
    {"?x@@3HA\0", 8, LLVM, ANY, ANY, MSVC_DEMANGLER_OK, 0, "int x", 7},
    {"?x@@3L", 6, LLVM, ANY, ANY, MSVC_DEMANGLER_INVALID, 6, "unknown primitive type (offset: 6, remaining: \"\")", 0},
    {"?x@@3HA", 4, LLVM, ANY, ANY, MSVC_DEMANGLER_OK, 0, "x", 4},
    {"", 0, LLVM, ANY, ANY, MSVC_DEMANGLER_INVALID, 0, NO_QUESTION_MARK, 0},
    {NULL, 0, LLVM, ANY, ANY, MSVC_DEMANGLER_INVALID, 0, NO_QUESTION_MARK, 0},
    {"", 0, LLVM, 0, 0, MSVC_DEMANGLER_INVALID, 0, NO_QUESTION_MARK, 0},
    {"?x@@3HA\xff", 8, LLVM, ANY, ANY, MSVC_DEMANGLER_NOT_UTF8, 7, "not UTF-8", 0},
    {"?x@@3HA\xff", 8, LLVM, 0, 0, MSVC_DEMANGLER_NOT_UTF8, 7, "not UTF-8", 0},
    {"?x@@3HA\xff", 7, LLVM, ANY, ANY, MSVC_DEMANGLER_OK, 0, "int x", 7},
    /* A symbol of 4 nodes, and a declaration of 6 bytes: each limit is held, exceeded, or not set. */
    {"?x@@3PEAHEA", 11, LLVM, ANY, ANY, MSVC_DEMANGLER_OK, 0, "int *x", 10},
    {"?x@@3PEAHEA", 11, LLVM, ANY, 6, MSVC_DEMANGLER_OK, 0, "int *x", 10},
    {"?x@@3PEAHEA", 11, LLVM, 4, ANY, MSVC_DEMANGLER_OK, 0, "int *x", 10},
    {"?x@@3PEAHEA", 11, LLVM, 4, 6, MSVC_DEMANGLER_OK, 0, "int *x", 10},
    {"?x@@3PEAHEA", 11, LLVM, ANY, 5, MSVC_DEMANGLER_TOO_LONG, 10, LONG, 10},
    {"?x@@3PEAHEA", 11, LLVM, 4, 5, MSVC_DEMANGLER_TOO_LONG, 10, LONG, 10},
    {"?x@@3PEAHEA", 11, LLVM, ANY, 0, MSVC_DEMANGLER_TOO_LONG, 10, LONG, 10},
    {"?x@@3PEAHEA", 11, LLVM, 3, ANY, MSVC_DEMANGLER_TOO_MANY_NODES, 9, MANY_NODES, 0},
    {"?x@@3PEAHEA", 11, LLVM, 3, 6, MSVC_DEMANGLER_TOO_MANY_NODES, 9, MANY_NODES, 0},
    {"?x@@3PEAHEA", 11, LLVM, 3, 5, MSVC_DEMANGLER_TOO_MANY_NODES, 9, MANY_NODES, 0},
    {"?x@@3PEAHEA", 11, LLVM, 0, ANY, MSVC_DEMANGLER_TOO_MANY_NODES, 1,
     "more nodes than allowed (offset: 1, remaining: \"x@@3PEAHEA\")", 0},
};

static int wrong;

static void see(bool good, const char *what, size_t row)
{
    if (!good) {
        printf("row %zu: %s\n", row, what);
        wrong++;
    }
}

static bool is_result(const struct row *row, struct msvc_demangler_result result)
{
    return result.status == (uint32_t)row->status && result.offset == row->offset &&
           result.length == strlen(row->text);
}

static bool is_prefix(const struct row *row, struct msvc_demangler_result result)
{
    if (row->prefix > 0) {
        return result.status == MSVC_DEMANGLER_OK && result.offset == 0 && result.length == row->prefix;
    }
    return result.status == (uint32_t)row->status && result.offset == row->offset && result.length == 0;
}

static void try_row(const struct row *row, size_t n)
{
    struct msvc_demangler_result result;
    char text[256];
    result = msvc_demangler_demangle(row->symbol, row->length, row->flags, row->max_nodes, row->max_bytes, text,
                                     sizeof text);
    see(is_result(row, result) && strcmp(text, row->text) == 0, text, n);

    result = msvc_demangler_demangle(row->symbol, row->length, row->flags, row->max_nodes, row->max_bytes, NULL, 0);
    see(is_result(row, result), "no buffer", n);

    char *allocated = msvc_demangler_demangle_allocated(row->symbol, row->length, row->flags | MSVC_DEMANGLER_CRATE,
                                                        row->max_nodes, row->max_bytes, &result);
    see(is_result(row, result) && strcmp(allocated, row->text) == 0, "an allocated text", n);
    free(allocated);

    see(is_prefix(row, msvc_demangler_prefix(row->symbol, row->length, row->flags, row->max_nodes)), "the prefix", n);
}

/* Flags, and whether an inline call and an exported one read Full with them. */
static const struct choice {
    uint32_t flags;
    bool is_full_inline;
    bool is_full_exported;
} choices[] = {
    {LLVM, true, false},
    {CRATE, false, false},
    {FULL, true, true},
    {FULL | CRATE, true, true},
};

/* The grammars print this symbol differently. */
static void try_choice(const struct choice *choice, size_t n)
{
    const char *const texts[] = {"f", "extern \"C\" f"};
    char text[64];
    msvc_demangler_demangle_string("?f@@9", choice->flags, text, sizeof text);
    see(strcmp(text, texts[choice->is_full_inline]) == 0, "the grammar of a string", n);

    char *allocated = msvc_demangler_demangle_allocated("?f@@9", 5, choice->flags, ANY, ANY, NULL);
    see(strcmp(allocated, texts[choice->is_full_inline]) == 0, "the grammar of an allocated text", n);
    free(allocated);

    msvc_demangler_demangle("?f@@9", 5, choice->flags, ANY, ANY, text, sizeof text);
    see(strcmp(text, texts[choice->is_full_exported]) == 0, "the grammar of an exported call", n);
}

/* A text and its filtered form. It may be truncated at any of the first bytes, which are kept ones, and after them only
   before a character. */
static const struct filtered {
    const char *text;
    size_t length;
    const char *wanted;
    size_t wanted_length;
    size_t kept;
} filtered[] = {
    {"", 0, "", 0, 0},
    {NULL, 0, "", 0, 0},
    {"no symbol", 9, "no symbol", 9, 9},
    {"a ?x@ns@@3HA b", 14, "a int ns::x b", 13, 2},
    {"?x@@3HA\n?y@@3HA\n", 16, "int x\nint y\n", 12, 0},
    {"\0?x@ns@@3HA\0b\0", 14, "\0int ns::x\0b\0", 13, 1},
    {"\xff?x@ns@@3HA\xff", 12, "\xffint ns::x\xff", 11, 1},
    {"\xc3\xa4 ?x@@3HA", 10, "\xc3\xa4 int x", 8, 3},
    {"?\xc3\xa4@@3HA.", 9, "int \xc3\xa4.", 7, 0},
    {"?x@\xe2\x82\xac@\xf0\x9f\x98\x80@@3HA", 16, "int \xf0\x9f\x98\x80::\xe2\x82\xac::x", 16, 0},
};

/* The filter writes into a buffer of this size what fits and a NUL, and changes no byte after that. */
static void try_filter(const struct filtered *row, size_t size, size_t n)
{
    char out[64];
    char wanted[64];
    memset(out, '#', sizeof out);
    memset(wanted, '#', sizeof wanted);
    if (size > 0) {
        size_t cut = row->wanted_length < size ? row->wanted_length : size - 1;
        while (cut < row->wanted_length && cut > row->kept && ((unsigned char)row->wanted[cut] & 0xC0) == 0x80) {
            cut--;
        }
        memcpy(wanted, row->wanted, cut);
        wanted[cut] = '\0';
    }
    struct msvc_demangler_result result =
        msvc_demangler_filter(row->text, row->length, LLVM, size > 0 ? out : NULL, size);
    see(result.status == MSVC_DEMANGLER_OK && result.offset == 0 && result.length == row->wanted_length,
        "the filter's result", n);
    see(memcmp(out, wanted, sizeof out) == 0, "the filter's text", n);
}

static void try_filters(void)
{
    for (size_t n = 0; n < sizeof filtered / sizeof filtered[0]; n++) {
        for (size_t size = 0; size <= filtered[n].wanted_length + 2; size++) {
            try_filter(&filtered[n], size, n);
        }
    }
    char text[16];
    struct msvc_demangler_result result =
        msvc_demangler_filter("?x@ns@@3HA", 10, MSVC_DEMANGLER_NAME_ONLY, text, sizeof text);
    see(result.length == 5 && strcmp(text, "ns::x") == 0, "the filter's flags", 0);
}

/* Each parameter takes the one before twice, so that the text is longer than its usual size. */
static void try_long_text(void)
{
    const char *symbol = "?f@@YAXPAHP6AX00@ZP6AX11@ZP6AX22@ZP6AX33@ZP6AX44@Z@Z";
    struct msvc_demangler_result result;
    char *text = msvc_demangler_demangle_allocated(symbol, strlen(symbol), LLVM, ANY, ANY, &result);
    see(result.status == MSVC_DEMANGLER_OK && result.length > msvc_demangler_usual_size(strlen(symbol)) &&
            strlen(text) == result.length && text[result.length - 1] == ')',
        "a long text", 0);
    free(text);
}

/* A symbol of so many levels, each of which doubles the declaration. */
static void make_doubled(char *symbol, size_t levels)
{
    strcpy(symbol, "?x@");
    for (size_t n = 0; n < levels; n++) {
        strcat(symbol, "?1???0?$A@Va@");
    }
    for (size_t n = 0; n < levels; n++) {
        strcat(symbol, "@@@QEAA@XZ");
    }
    strcat(symbol, "@3HA");
}

/* The declaration of ten levels has 54,224 bytes, and that of eleven exceeds the default limit. */
static void try_default_limits(void)
{
    static char text[MSVC_DEMANGLER_DEFAULT_BYTES];
    char symbol[512];
    make_doubled(symbol, 10);
    struct msvc_demangler_result result = msvc_demangler_demangle_string(symbol, LLVM, text, sizeof text);
    see(result.status == MSVC_DEMANGLER_OK && result.offset == 0 && result.length == 54224, "ten levels", 0);
    make_doubled(symbol, 11);
    result = msvc_demangler_demangle_string(symbol, LLVM, text, sizeof text);
    see(result.status == MSVC_DEMANGLER_TOO_LONG && result.offset == 260 &&
            strcmp(text, "longer than allowed (offset: 260, remaining: \"\")") == 0,
        "eleven levels", 0);
}

static void try_version(void)
{
    const char *version = MSVC_DEMANGLER_VERSION;
    for (size_t size = 0; size <= strlen(version) + 2; size++) {
        char out[16];
        char wanted[16];
        memset(out, '#', sizeof out);
        memset(wanted, '#', sizeof wanted);
        snprintf(wanted, size, "%s", version);
        see(msvc_demangler_version(out, size) == strlen(version), "the version's length", size);
        see(memcmp(out, wanted, sizeof out) == 0, "the version", size);
    }
    see(msvc_demangler_version(NULL, 0) == strlen(version), "the version without a buffer", 0);
}

int main(void)
{
    size_t count = sizeof rows / sizeof rows[0];
    for (size_t n = 0; n < count; n++) {
        try_row(&rows[n], n);
    }
    for (size_t n = 0; n < sizeof choices / sizeof choices[0]; n++) {
        try_choice(&choices[n], n);
    }
    try_filters();
    try_long_text();
    try_default_limits();
    try_version();
    printf("%zu calls, %d wrong results\n", count, wrong);
    return wrong != 0;
}
