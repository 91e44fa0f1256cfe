/* Tests that the calls of the library keep the registers that only Windows' convention requires, RDI, RSI and XMM6 to
   XMM15, and those that System V's requires too, RBX, RBP and R12 to R15. It is linked with the library for Windows.
   The status is 1 if a register changes, or a result isn't the one that the header documents. */
#include "../../include/msvc_demangler.h"

#include <stdio.h>
#include <xmmintrin.h>

enum { WORDS = 8, GENERAL = 8, VECTORS = 10 };

/* A call: its function and up to eight arguments. The registers get these values before the call; after the call this
   has their values. */
struct call {
    void *function;
    uint64_t words[WORDS];
    uint64_t general[GENERAL];
    uint64_t vectors[VECTORS][2];
};

/* Calls directly, since a function in between would put back registers that it uses itself. */
void call_with_registers(struct call *call);
__asm__(".text\n"
        "call_with_registers:\n"
        "push %rbx; push %rbp; push %rdi; push %rsi; push %r12; push %r13; push %r14; push %r15\n"
        "sub $0xf8, %rsp\n" /* four words of arguments after the space for four; the call; ten registers */
        "mov %rcx, 0x40(%rsp)\n"
        "movups %xmm6, 0x50(%rsp); movups %xmm7, 0x60(%rsp); movups %xmm8, 0x70(%rsp); movups %xmm9, 0x80(%rsp)\n"
        "movups %xmm10, 0x90(%rsp); movups %xmm11, 0xa0(%rsp); movups %xmm12, 0xb0(%rsp); movups %xmm13, 0xc0(%rsp)\n"
        "movups %xmm14, 0xd0(%rsp); movups %xmm15, 0xe0(%rsp)\n"
        "mov %rcx, %rax\n"
        "mov 0x28(%rax), %r10; mov %r10, 0x20(%rsp); mov 0x30(%rax), %r10; mov %r10, 0x28(%rsp)\n"
        "mov 0x38(%rax), %r10; mov %r10, 0x30(%rsp); mov 0x40(%rax), %r10; mov %r10, 0x38(%rsp)\n"
        "mov 0x8(%rax), %rcx; mov 0x10(%rax), %rdx; mov 0x18(%rax), %r8; mov 0x20(%rax), %r9\n"
        "mov 0x48(%rax), %rbx; mov 0x50(%rax), %rbp; mov 0x58(%rax), %rdi; mov 0x60(%rax), %rsi\n"
        "mov 0x68(%rax), %r12; mov 0x70(%rax), %r13; mov 0x78(%rax), %r14; mov 0x80(%rax), %r15\n"
        "movups 0x88(%rax), %xmm6; movups 0x98(%rax), %xmm7; movups 0xa8(%rax), %xmm8; movups 0xb8(%rax), %xmm9\n"
        "movups 0xc8(%rax), %xmm10; movups 0xd8(%rax), %xmm11; movups 0xe8(%rax), %xmm12\n"
        "movups 0xf8(%rax), %xmm13; movups 0x108(%rax), %xmm14; movups 0x118(%rax), %xmm15\n"
        "call *(%rax)\n"
        "mov 0x40(%rsp), %rax\n"
        "mov %rbx, 0x48(%rax); mov %rbp, 0x50(%rax); mov %rdi, 0x58(%rax); mov %rsi, 0x60(%rax)\n"
        "mov %r12, 0x68(%rax); mov %r13, 0x70(%rax); mov %r14, 0x78(%rax); mov %r15, 0x80(%rax)\n"
        "movups %xmm6, 0x88(%rax); movups %xmm7, 0x98(%rax); movups %xmm8, 0xa8(%rax); movups %xmm9, 0xb8(%rax)\n"
        "movups %xmm10, 0xc8(%rax); movups %xmm11, 0xd8(%rax); movups %xmm12, 0xe8(%rax)\n"
        "movups %xmm13, 0xf8(%rax); movups %xmm14, 0x108(%rax); movups %xmm15, 0x118(%rax)\n"
        "movups 0x50(%rsp), %xmm6; movups 0x60(%rsp), %xmm7; movups 0x70(%rsp), %xmm8; movups 0x80(%rsp), %xmm9\n"
        "movups 0x90(%rsp), %xmm10; movups 0xa0(%rsp), %xmm11; movups 0xb0(%rsp), %xmm12; movups 0xc0(%rsp), %xmm13\n"
        "movups 0xd0(%rsp), %xmm14; movups 0xe0(%rsp), %xmm15\n"
        "add $0xf8, %rsp\n"
        "pop %r15; pop %r14; pop %r13; pop %r12; pop %rsi; pop %rdi; pop %rbp; pop %rbx\n"
        "ret\n");

static unsigned calls, wrong;

/* Calls, and counts a register that has another value afterwards. */
static void keeps(const char *name, void *function, const uint64_t *words)
{
    struct call call = {.function = function}, before;
    memcpy(call.words, words, sizeof call.words);
    for (unsigned i = 0; i < GENERAL; i++) {
        call.general[i] = 0x0123456789ABCDEFu + i * 0x1111111111111111u;
    }
    for (unsigned i = 0; i < VECTORS; i++) {
        call.vectors[i][0] = 0xFEDCBA9876543210u - i * 0x1111111111111111u;
        call.vectors[i][1] = ~call.vectors[i][0];
    }
    before = call;
    unsigned modes = _mm_getcsr();
    call_with_registers(&call);
    calls++;
    for (unsigned i = 0; i < GENERAL; i++) {
        if (call.general[i] != before.general[i]) {
            printf("registers: %s changes general register %u\n", name, i);
            wrong++;
        }
    }
    for (unsigned i = 0; i < VECTORS; i++) {
        if (memcmp(call.vectors[i], before.vectors[i], sizeof call.vectors[i]) != 0) {
            printf("registers: %s changes XMM%u\n", name, 6 + i);
            wrong++;
        }
    }
    if ((modes ^ _mm_getcsr()) & ~0x3Fu) {
        printf("registers: %s changes the modes of MXCSR\n", name);
        wrong++;
    }
}

/* Counts and prints a wrong result. */
static void expect(const char *name, int holds)
{
    if (!holds) {
        printf("registers: %s returns a wrong result\n", name);
        wrong++;
    }
}

/* Makes all calls: of a symbol, which must return the declaration, and of a text with the symbol. */
static void all_calls(const char *symbol, size_t length, uint32_t status, const char *wanted)
{
    static char out[1 << 16];
    struct msvc_demangler_result result;
    uint64_t at = (uint64_t)(uintptr_t)&result, in = (uint64_t)(uintptr_t)symbol, to = (uint64_t)(uintptr_t)out;
    uint64_t nodes = MSVC_DEMANGLER_DEFAULT_NODES, bytes = MSVC_DEMANGLER_DEFAULT_BYTES, flags = MSVC_DEMANGLER_LLVM;
    keeps("demangle", (void *)msvc_demangler_demangle,
          (uint64_t[WORDS]){at, in, length, flags, nodes, bytes, to, sizeof out});
    expect("demangle", result.status == status && strcmp(out, wanted) == 0 && result.length == strlen(wanted));
    keeps("prefix", (void *)msvc_demangler_prefix, (uint64_t[WORDS]){at, in, length, flags, nodes});
    expect("prefix", result.status == status && result.length == (status == MSVC_DEMANGLER_OK ? length : 0));
    keeps("filter", (void *)msvc_demangler_filter, (uint64_t[WORDS]){at, in, length, flags, to, sizeof out});
    expect("filter", result.status == MSVC_DEMANGLER_OK);
    keeps("version", (void *)msvc_demangler_version, (uint64_t[WORDS]){to, sizeof out});
    expect("version", strcmp(out, MSVC_DEMANGLER_VERSION) == 0);
}

int main(void)
{
    static const char deep[] = "?f@@YAXV?$A@V?$B@V?$C@V?$D@V?$E@H@@@@@@@@@@@Z";
    all_calls("?x@ns@@3HA", 10, MSVC_DEMANGLER_OK, "int ns::x");
    all_calls("?x@@3L", 6, MSVC_DEMANGLER_INVALID, "unknown primitive type (offset: 6, remaining: \"\")");
    all_calls("?f@@YAXXZ", 9, MSVC_DEMANGLER_OK, "void __cdecl f(void)");
    all_calls("\xFF", 1, MSVC_DEMANGLER_NOT_UTF8, "not UTF-8");
    all_calls(deep, sizeof deep - 1, MSVC_DEMANGLER_OK,
              "void __cdecl f(class A<class B<class C<class D<class E<int> > > > >)");
    printf("registers: %u calls, %u faults\n", calls, wrong);
    return wrong != 0;
}
