/* Makes the system calls of the programs, and prints each result on a line. It is built for Linux, as they are: over
   glibc it prints the results that system.c and memory.c must return. It prints its arguments, and reads probe.txt,
   which has 13 bytes. It reads the variable PROBED of the environment. The status is 127. */
#include <stddef.h>
#include <stdint.h>

/* The declarations of glibc would change the names of some. */
struct cpuid_feature {
    unsigned present[4];
    unsigned active[4];
};
const struct cpuid_feature *__x86_get_cpuid_feature_leaf(unsigned number);
int64_t read(int file, void *to, size_t size);
int64_t write(int file, const void *bytes, size_t length);
int64_t __write(int file, const void *bytes, size_t length);
int open(const char *path, int flags, ...);
int close(int file);
void *__sysv_signal(int number, void *handler);
int __xpg_strerror_r(int number, char *to, size_t size);
int rattle_errno(void);
void rattle_set_errno(int number);
int64_t rattle_arg(uint64_t index, char *to, uint64_t size);
int64_t rattle_env(const char *name, char *to, uint64_t size);
int isatty(int file);
void *malloc(size_t size);
void *realloc(void *block, size_t size);
void free(void *block);
void *memset(void *to, int byte, size_t length);
void *memmove(void *to, const void *from, size_t length);
void *memcpy(void *to, const void *from, size_t length);

enum { READ_ONLY = 0400 | 02000000, BROKEN_PIPE = 13, NO_SUCH_FILE = 2, SIZE_OF_ITS_TEXT = 26 };

static char line[4096];
static size_t length;

static void print(const char *word)
{
    while (*word != 0) {
        line[length++] = *word++;
    }
}

static void say_number(int64_t number)
{
    if (number < 0) {
        print("-");
        number = -number;
    }
    if (number > 9) {
        say_number(number / 10);
    }
    line[length++] = (char)('0' + number % 10);
}

static void end_line(void)
{
    print("\n");
    __write(1, line, length);
    length = 0;
}

/* Prints what a call has returned, and the error if it has failed. */
static void result(const char *call, int64_t returned)
{
    print(call);
    print(": ");
    say_number(returned);
    if (returned < 0) {
        print(", error ");
        say_number(rattle_errno());
    }
    end_line();
}

/* Reads each argument, one that doesn't exist, and one into too small a buffer. */
static void arguments(int count)
{
    static char word[1000];
    for (int i = 1; i <= count; i++) {
        int64_t size = rattle_arg((uint64_t)i, word, sizeof word);
        result("the length of an argument", size < 0 ? 0 : size);
        for (int64_t k = 0; k < size; k++) {
            line[length++] = word[k];
        }
        end_line();
    }
    say_number(rattle_arg((uint64_t)count, word, sizeof word));
    say_number(rattle_arg(1, word, 1));
    end_line();
}

/* Reads a variable that is set, one that isn't, and one into too small a buffer. */
static void environment(void)
{
    static char value[100];
    result("the length of a variable", rattle_env("PROBED", value, sizeof value));
    print(value);
    end_line();
    say_number(rattle_env("NOT_PROBED", value, sizeof value));
    say_number(rattle_env("PROBED", value, 1));
    end_line();
}

static void texts(void)
{
    static const int numbers[] = {2, 4, 5, 9, 11, 12, 13, 16, 20, 21, 22, 24, 28, 30, 32, 34, 36, 40, 123};
    static char text[100];
    for (size_t i = 0; i < sizeof numbers / sizeof numbers[0]; i++) {
        result("the text of an error", __xpg_strerror_r(numbers[i], text, sizeof text));
        print(text);
        end_line();
    }
    result("a text in too small a buffer", __xpg_strerror_r(NO_SUCH_FILE, text, SIZE_OF_ITS_TEXT - 1));
    result("a text in a buffer of its size", __xpg_strerror_r(NO_SUCH_FILE, text, SIZE_OF_ITS_TEXT));
    rattle_set_errno(NO_SUCH_FILE);
    result("a number that is kept", rattle_errno());
}

static void files(void)
{
    static char bytes[100];
    result("open a missing file", open("gone.txt", READ_ONLY));
    result("open it in a missing folder", open("gone/gone.txt", READ_ONLY));
    result("open nothing", open("", READ_ONLY));
    result("open a name with ? and *", open("a?b*c", READ_ONLY));
    result("read what isn't open", read(77, bytes, 1));
    result("read -1", read(-1, bytes, 1));
    result("write what isn't open", write(77, bytes, 1));
    result("close what isn't open", close(77));
    int file = open("probe.txt", READ_ONLY);
    result("open", file);
    result("read", read(file, bytes, 5));
    result("read no bytes", read(file, bytes, 0));
    result("read the rest", read(file, bytes, sizeof bytes));
    result("read at the end", read(file, bytes, sizeof bytes));
    result("close", close(file));
    result("close again", close(file));
    int first = open("probe.txt", READ_ONLY);
    result("open two", first);
    result("open two", open("probe.txt", READ_ONLY));
    result("close the first", close(first));
    result("open a third", open("probe.txt", READ_ONLY));
    int folder = open(".", READ_ONLY);
    result("open a folder", folder);
    result("read a folder", read(folder, bytes, 1));
    result("a folder is a terminal", isatty(folder));
    result("what isn't open is a terminal", isatty(77));
    result("write no bytes", write(1, bytes, 0));
}

/* Features that the system, and not the processor, changes are left out: the number of the processor, and OSXSAVE. */
static void processor(void)
{
    for (unsigned i = 0; i < 3; i++) {
        const unsigned *registers = __x86_get_cpuid_feature_leaf(i)->present;
        for (unsigned k = 0; k < 4; k++) {
            say_number(i == 0 && k == 1 ? 0 : registers[k] & (i == 0 && k == 2 ? ~(1u << 27) : ~0u));
            print(" ");
        }
        end_line();
    }
}

static void memory(void)
{
    char *block = malloc(100);
    result("alignment", (int64_t)((uintptr_t)block % 16));
    memset(block, 7, 100);
    block[0] = 1;
    block = realloc(block, 100000);
    memmove(block + 1, block, 99);
    memcpy(block + 500, block, 100);
    for (int i = 500; i < 504; i++) {
        result("a byte", block[i]);
    }
    result("the last byte", block[599]);
    free(block);
}

int main(int count, char **words)
{
    (void)words;
    __sysv_signal(BROKEN_PIPE, (void *)1);
    result("the number of arguments", count);
    arguments(count);
    environment();
    texts();
    files();
    processor();
    memory();
    return 127;
}
