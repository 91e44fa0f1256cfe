/* Calls what msvc_demangler_in.h has beside the calls of msvc_demangler.h, on each line of standard input:

       trees [FLAGS] < symbols

   FLAGS, a hexadecimal number, has the flag of a grammar, 0 without it. Prints what undname -v writes to its standard
   error for these lines in the crate's grammar: each one's tree or error. Ends with status 1 if a result is wrong by
   itself or beside those of the other calls. */

#include <msvc_demangler_in.h>
#include <stdio.h>
#include <stdlib.h>

enum { work_size = 1 << 24, most_text = 1 << 22, most_line = 1 << 20, most_references = 1 << 12, kept = 0x55 };

static char work[work_size];
static char line[most_line];
static char written_out[2 * most_line];
static char text[most_text], other[most_text];
static struct msvc_demangler_reference list[most_references], fewer[most_references];
static uint32_t grammar;
static unsigned long wrong;

static void check(int is, const char *what)
{
    if (!is) {
        fprintf(stderr, "%s: %s\n", line, what);
        wrong++;
    }
}

static int same(struct msvc_demangler_result one, struct msvc_demangler_result two)
{
    return one.status == two.status && one.offset == two.offset && one.length == two.length;
}

static struct msvc_demangler_result tree(size_t length, size_t bytes, char *out, size_t size)
{
    return msvc_demangler_tree_in(line, length, grammar, SIZE_MAX, work, bytes, out, size);
}

static struct msvc_demangler_result references(size_t length, size_t bytes, struct msvc_demangler_reference *out,
                                               size_t count)
{
    return msvc_demangler_references_in(line, length, grammar, SIZE_MAX, work, bytes, out, count);
}

static struct msvc_demangler_result demangled(const char *symbol, size_t length, char *out)
{
    return msvc_demangler_demangle_in(symbol, length, MSVC_DEMANGLER_LLVM | grammar, SIZE_MAX, SIZE_MAX, work,
                                      work_size, out, most_text);
}

/* Small buffers: the beginning of the text, a NUL, and no byte after that. */
static void check_buffers(size_t length, struct msvc_demangler_result whole)
{
    const size_t sizes[] = {0, 1, 2, 7, whole.length, whole.length + 1};
    for (size_t i = 0; i < sizeof sizes / sizeof *sizes; i++) {
        size_t size = sizes[i] < most_text ? sizes[i] : most_text - 1;
        size_t end;
        memset(other, kept, size + 1);
        check(same(tree(length, work_size, other, size), whole), "another result for a small buffer");
        end = size == 0 ? 0 : strlen(other) + 1;
        check(end <= size && (end == 0 || memcmp(other, text, end - 1) == 0), "another text in a small buffer");
        check(size == 0 || end > whole.length || end + 3 >= size, "a text is cut too early");
        for (; end <= size; end++) {
            check(other[end] == kept, "a byte after the NUL is written");
        }
    }
}

/* Each digit written out: the symbol has the same declaration, and ends before the same bytes. */
static void check_references(size_t length, size_t count)
{
    struct msvc_demangler_result all = demangled(line, length, text);
    size_t end = msvc_demangler_prefix_in(line, length, grammar, SIZE_MAX, work, work_size).length;
    for (size_t i = 0; i < count; i++) {
        size_t at = list[i].at, start = list[i].start, part = list[i].end - list[i].start;
        struct msvc_demangler_result result;
        check(i == 0 || list[i - 1].at < at, "the digits do not rise");
        if (!(start < list[i].end && list[i].end <= at && at < end && line[at] >= '0' && line[at] <= '9')) {
            check(0, "no back reference");
            continue;
        }
        memcpy(written_out, line, at);
        memcpy(written_out + at, line + start, part);
        memcpy(written_out + at + part, line + at + 1, length - at - 1);
        result = demangled(written_out, length + part - 1, other);
        check(same(result, all) && strcmp(text, other) == 0, "another declaration with a digit written out");
        result = msvc_demangler_prefix_in(written_out, length + part - 1, grammar, SIZE_MAX, work, work_size);
        check(result.length == end + part - 1, "another length with a digit written out");
    }
}

/* Few places: those that fit are written, and none after them. */
static void check_places(size_t length, struct msvc_demangler_result all)
{
    size_t count = all.length / 2;
    memset(fewer, kept, sizeof *fewer * (count + 1));
    check(same(references(length, work_size, fewer, count), all), "another result for few places");
    check(memcmp(fewer, list, sizeof *fewer * count) == 0, "other references for few places");
    check(((unsigned char *)(fewer + count))[0] == kept, "a place after the last is written");
}

/* Small workspaces: out of memory, or the whole result. */
static void check_workspaces(size_t length, struct msvc_demangler_result shown, struct msvc_demangler_result listed,
                             size_t step)
{
    for (size_t bytes = 0; bytes <= 65536; bytes += step) {
        struct msvc_demangler_result result = tree(length, bytes, other, most_text);
        if (result.status == MSVC_DEMANGLER_OUT_OF_MEMORY) {
            check(result.length == 13 && strcmp(other, "out of memory") == 0, "another text without memory");
        } else {
            check(same(result, shown) && strcmp(other, text) == 0, "another tree in a small workspace");
        }
        result = references(length, bytes, fewer, most_references);
        if (result.status == MSVC_DEMANGLER_OUT_OF_MEMORY) {
            check(result.length == 0, "a number of references without memory");
        } else {
            check(same(result, listed) && memcmp(fewer, list, sizeof *list * result.length) == 0,
                  "other references in a small workspace");
        }
    }
}

static void look(size_t length, size_t step)
{
    struct msvc_demangler_result shown = tree(length, work_size, text, most_text);
    struct msvc_demangler_result listed = references(length, work_size, list, most_references);
    struct msvc_demangler_result found = demangled(line, length, other);
    check(shown.status == found.status && shown.offset == found.offset, "another status than that of demangle");
    check(listed.status == found.status && listed.offset == found.offset, "another status of the references");
    check(strlen(text) == shown.length, "another length of the tree");
    if (shown.status == MSVC_DEMANGLER_OK) {
        printf("%s\n", text);
    } else {
        check(strcmp(text, other) == 0 && listed.length == 0, "another error than that of demangle");
        printf("error: %s\n", text);
    }
    check_buffers(length, shown);
    check_workspaces(length, shown, listed, step);
    if (listed.status == MSVC_DEMANGLER_OK) {
        check(listed.length <= most_references, "too many references for this test");
        check_places(length, listed);
        check_references(length, listed.length);
    }
}

int main(int count, char **words)
{
    grammar = MSVC_DEMANGLER_CRATE | (count > 1 ? (uint32_t)strtoul(words[1], NULL, 16) : 0);
    for (unsigned long lines = 0; fgets(line, sizeof line, stdin) != NULL; lines++) {
        size_t length = strcspn(line, "\n");
        line[length] = '\0';
        /* The first lines with each size of a workspace. */
        look(length, lines < 2 ? 16 : 4096);
    }
    return wrong != 0;
}
