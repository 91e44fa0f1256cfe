/* The machine that the code of the module runs on: its state, its memory and its traps. The operations are adapted from
   those that wasm2c writes before a module. */

#if UINTPTR_MAX < 0xffffffff
#error "msvc_demangler.c needs addresses of 32 bits at least"
#endif

#if defined(_WIN32)
#define SWAPS_BYTES 0
#elif defined(__BYTE_ORDER__) && __BYTE_ORDER__ == __ORDER_LITTLE_ENDIAN__
#define SWAPS_BYTES 0
#elif defined(__BYTE_ORDER__) && __BYTE_ORDER__ == __ORDER_BIG_ENDIAN__
#define SWAPS_BYTES 1
#else
#error "msvc_demangler.c needs a compiler that states the order of bytes by __BYTE_ORDER__"
#endif

#if defined(__GNUC__)
#define NO_RETURN __attribute__((noreturn))
#define NO_INLINE __attribute__((noinline))
#elif defined(_MSC_VER)
#define NO_RETURN __declspec(noreturn)
#define NO_INLINE __declspec(noinline)
#else
#define NO_RETURN
#define NO_INLINE
#endif

/* setjmp of Apple and of the BSDs also keeps the mask of signals, for which it calls the system. */
#if defined(__APPLE__) || defined(__FreeBSD__) || defined(__NetBSD__) || defined(__OpenBSD__)
#define KEEP_PLACE _setjmp
#define GO_TO_PLACE _longjmp
#else
#define KEEP_PLACE setjmp
#define GO_TO_PLACE longjmp
#endif

typedef uint8_t u8;
typedef int8_t s8;
typedef uint16_t u16;
typedef int16_t s16;
typedef uint32_t u32;
typedef int32_t s32;
typedef uint64_t u64;
typedef int64_t s64;

/* The state of a machine. Its memory, of size bytes, follows it. */
typedef struct {
@GLOBALS@
    u64 size;
    jmp_buf *trapped;
} Z_module_instance_t;

/* Returns where a byte of the memory is. By its proof the code of the module reads and writes no other memory. */
static inline u8 *at(Z_module_instance_t *instance, u64 address)
{
    return (u8 *)(instance + 1) + (size_t)address;
}

/* Turns an integer into one of the memory, whose order of bytes is that of WebAssembly, or back. */
#if SWAPS_BYTES
#define LITTLE_ENDIAN_OF(value) \
    (sizeof value == 8 ? __builtin_bswap64((u64)value) \
                       : sizeof value == 4 ? __builtin_bswap32((u32)value) \
                                           : sizeof value == 2 ? __builtin_bswap16((u16)value) : (u64)value)
#else
#define LITTLE_ENDIAN_OF(value) (value)
#endif

#define LOAD(name, part, whole) \
    static inline whole name(Z_module_instance_t *instance, u64 address, u64 offset) \
    { \
        part value; \
        memcpy(&value, at(instance, address + offset), sizeof value); \
        return (whole)(part)LITTLE_ENDIAN_OF(value); \
    }

#define STORE(name, part, whole) \
    static inline void name(Z_module_instance_t *instance, u64 address, whole given, u64 offset) \
    { \
        part value = (part)given; \
        value = (part)LITTLE_ENDIAN_OF(value); \
        memcpy(at(instance, address + offset), &value, sizeof value); \
    }

LOAD(i32_load, u32, u32)
LOAD(i32_load8_s, s8, u32)
LOAD(i32_load8_u, u8, u32)
LOAD(i32_load16_s, s16, u32)
LOAD(i32_load16_u, u16, u32)
LOAD(i64_load, u64, u64)
LOAD(i64_load8_s, s8, u64)
LOAD(i64_load8_u, u8, u64)
LOAD(i64_load16_s, s16, u64)
LOAD(i64_load16_u, u16, u64)
LOAD(i64_load32_s, s32, u64)
LOAD(i64_load32_u, u32, u64)
STORE(i32_store, u32, u32)
STORE(i32_store8, u8, u32)
STORE(i32_store16, u16, u32)
STORE(i64_store, u64, u64)
STORE(i64_store8, u8, u64)
STORE(i64_store16, u16, u64)
STORE(i64_store32, u32, u64)

#define memory_copy(instance, to, from, size) memmove(at(instance, to), at(instance, from), (size_t)(size))
#define memory_fill(instance, to, value, size) memset(at(instance, to), (int)(value), (size_t)(size))

NO_RETURN static void trap(Z_module_instance_t *instance)
{
    GO_TO_PLACE(*instance->trapped, 1);
}

/* The words of the code. Its data is put into the memory of a new machine by LOAD_DATA. */
#define FUNC_PROLOGUE
#define FUNC_EPILOGUE
#define UNREACHABLE trap(instance)
#define LOAD_DATA(memory, address, bytes, size) memcpy(at(instance, address), bytes, size)
#define wasm_rt_allocate_memory(memory, pages, most_pages)

#define DIV_U(x, y) ((y) == 0 ? (trap(instance), (y)) : (x) / (y))
#define REM_U(x, y) ((y) == 0 ? (trap(instance), (y)) : (x) % (y))
#define ROTATED(x, left, right) ((x) << (left) | (x) >> (right))
#define I32_ROTL(x, y) ROTATED(x, (y) & 31, (32 - (y)) & 31)
#define I64_ROTL(x, y) ROTATED(x, (y) & 63, (64 - (y)) & 63)
#define I32_ROTR(x, y) I32_ROTL(x, 32 - (y))
#define I64_ROTR(x, y) I64_ROTL(x, 64 - (y))

#if defined(__GNUC__)
#define I32_CLZ(x) ((x) ? __builtin_clz(x) : 32)
#define I64_CLZ(x) ((x) ? __builtin_clzll(x) : 64)
#define I32_CTZ(x) ((x) ? __builtin_ctz(x) : 32)
#define I64_CTZ(x) ((x) ? __builtin_ctzll(x) : 64)
#else
static inline int zeros(u64 value, int bits, int from_above)
{
    int n = 0;
    while (n < bits && (value >> (from_above ? bits - 1 - n : n) & 1) == 0) {
        n++;
    }
    return n;
}
#define I32_CLZ(x) zeros(x, 32, 1)
#define I64_CLZ(x) zeros(x, 64, 1)
#define I32_CTZ(x) zeros(x, 32, 0)
#define I64_CTZ(x) zeros(x, 64, 0)
#endif
