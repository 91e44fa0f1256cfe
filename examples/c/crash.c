/* A crash reporter: when the program crashes, a handler of SIGSEGV prints the declarations of the functions that are
   being called, innermost first. Some functions here have names as Microsoft's compiler gives them.

       cc -fno-omit-frame-pointer -mno-omit-leaf-frame-pointer -fno-optimize-sibling-calls crash.c \
           -lmsvc_demangler_in -o crash

   A handler may call only what is async-signal-safe. This one calls the library and write: the names of the functions
   are read when the program starts, and all memory is there before the crash. It is for Linux on x86-64 and AArch64. */

#define _GNU_SOURCE
#include <msvc_demangler_in.h>

#include <elf.h>
#include <fcntl.h>
#include <signal.h>
#include <stdbool.h>
#include <sys/mman.h>
#include <sys/stat.h>
#include <ucontext.h>
#include <unistd.h>

enum {
    most_functions = 1024,
    most_frames = 64,
    handler_stack = 32768 /* what a signal takes, and the frames of the handler */
};

static struct function {
    uintptr_t begin;
    uintptr_t end;
    const char *name;
    size_t length;
} functions[most_functions];

static size_t function_count;
static uintptr_t stack_end; /* of the thread whose frames are printed */

static char stack[MSVC_DEMANGLER_SMALL_STACK + handler_stack];
static char work[MSVC_DEMANGLER_SMALL_WORKSPACE];

/* The beginning of the program in memory, by the linker. */
extern const Elf64_Ehdr __ehdr_start;

static void add_function(const Elf64_Sym *symbol, const char *name, uintptr_t moved)
{
    bool is_quoted = *name == '"'; /* by clang */
    if (ELF64_ST_TYPE(symbol->st_info) != STT_FUNC || name[is_quoted] != '?' || function_count == most_functions) {
        return;
    }
    functions[function_count++] = (struct function){
        .begin = moved + symbol->st_value,
        .end = moved + symbol->st_value + symbol->st_size,
        .name = name + is_quoted,
        .length = strlen(name) - 2 * is_quoted,
    };
}

/* Reads the names of the program's functions. Its file stays mapped, since the names are there. */
static bool prepare_functions(void)
{
    struct stat status;
    int file = open("/proc/self/exe", O_RDONLY | O_CLOEXEC);
    if (file < 0 || fstat(file, &status) != 0) {
        return false;
    }
    const char *program = mmap(NULL, (size_t)status.st_size, PROT_READ, MAP_PRIVATE, file, 0);
    close(file);
    if (program == MAP_FAILED) {
        return false;
    }
    const Elf64_Ehdr *head = (const Elf64_Ehdr *)program;
    const Elf64_Phdr *segment = (const Elf64_Phdr *)(program + head->e_phoff);
    while (segment->p_type != PT_LOAD) {
        segment++;
    }
    uintptr_t moved = (uintptr_t)&__ehdr_start - segment->p_vaddr;
    const Elf64_Shdr *sections = (const Elf64_Shdr *)(program + head->e_shoff);
    for (size_t n = 0; n < head->e_shnum; n++) {
        if (sections[n].sh_type == SHT_SYMTAB) {
            const Elf64_Sym *symbols = (const Elf64_Sym *)(program + sections[n].sh_offset);
            const char *names = program + sections[sections[n].sh_link].sh_offset;
            for (size_t k = 0; k < sections[n].sh_size / sizeof *symbols; k++) {
                add_function(&symbols[k], names + symbols[k].st_name, moved);
            }
        }
    }
    return true;
}

/* From here on: what the handler runs. */

static void print(const char *text, size_t length)
{
    while (length > 0) {
        ssize_t written = write(STDERR_FILENO, text, length);
        if (written <= 0) {
            return;
        }
        text += written;
        length -= (size_t)written;
    }
}

static void print_function(const struct function *function)
{
    char text[MSVC_DEMANGLER_SMALL_BYTES + 1];
    struct msvc_demangler_result result =
        msvc_demangler_demangle_in(function->name, function->length, MSVC_DEMANGLER_LLVM, MSVC_DEMANGLER_SMALL_NODES,
                                   MSVC_DEMANGLER_SMALL_BYTES, work, sizeof work, text, sizeof text);
    if (result.status == MSVC_DEMANGLER_OK) {
        print(text, result.length);
    } else {
        print(function->name, function->length);
    }
    print("\n", 1);
}

static void print_frame(uintptr_t address)
{
    for (size_t n = 0; n < function_count; n++) {
        if (address >= functions[n].begin && address < functions[n].end) {
            print_function(&functions[n]);
            return;
        }
    }
}

/* The address of the instruction, and the frame and the end of the stack at that time. */
struct place {
    uintptr_t instruction;
    uintptr_t frame;
    uintptr_t stack;
};

static struct place place_of(const ucontext_t *context)
{
#if defined(__x86_64__)
    const greg_t *registers = context->uc_mcontext.gregs;
    return (struct place){(uintptr_t)registers[REG_RIP], (uintptr_t)registers[REG_RBP], (uintptr_t)registers[REG_RSP]};
#elif defined(__aarch64__)
    const mcontext_t *registers = &context->uc_mcontext;
    return (struct place){registers->pc, registers->regs[29], registers->sp};
#endif
}

/* A frame begins with the address of the frame before it, and the address that is returned to. */
static void report(int number, siginfo_t *info, void *context)
{
    (void)number;
    (void)info;
    struct place place = place_of(context);
    print("crashed in:\n", 12);
    print_frame(place.instruction);
    uintptr_t frame = place.frame;
    uintptr_t least = place.stack;
    for (int n = 0; n < most_frames && frame >= least && frame < stack_end && frame % sizeof(uintptr_t) == 0; n++) {
        const uintptr_t *words = (const uintptr_t *)frame;
        print_frame(words[1] - 1);
        least = frame + 1;
        frame = words[0];
    }
}

/* The handler is there for one signal alone: after it the program crashes again, as it would without a handler. */
static bool prepare_handler(void)
{
    stack_t alternate = {.ss_sp = stack, .ss_size = sizeof stack};
    struct sigaction action = {.sa_flags = SA_SIGINFO | SA_ONSTACK | SA_RESETHAND};
    action.sa_sigaction = report;
    return sigaltstack(&alternate, NULL) == 0 && sigaction(SIGSEGV, &action, NULL) == 0;
}

/* The program that crashes. GCC wants names of other characters in quotes; clang takes quotes into the name. */

#ifdef __clang__
#define NAMED(name) __asm__(name) __attribute__((noinline))
#else
#define NAMED(name) __asm__("\"" name "\"") __attribute__((noinline))
#endif

int digit(const char *text) NAMED("?digit@config@@YAHPEBD@Z");
int next(const char *text) NAMED("?next@Reader@config@@QEBA_NAEAU?$basic_string@D@std@@@Z");
int find(const char *text) NAMED("??$find@H@config@@YAPEAHAEAU?$vector@HU?$allocator@H@std@@@std@@PEBD@Z");

/* The variable is on the stack, so that this function has a frame: compilers leave out that of one that needs none. */
int digit(const char *text)
{
    volatile int value = 0;
    value += *(const volatile char *)text - '0';
    return value;
}

int next(const char *text)
{
    return digit(text) + 1;
}

int find(const char *text)
{
    return next(text) + 1;
}

int main(void)
{
    stack_end = (uintptr_t)__builtin_frame_address(0) + 1;
    if (!prepare_functions() || !prepare_handler()) {
        return 1;
    }
    return find((const char *)8);
}
