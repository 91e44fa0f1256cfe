/* The calls of msvc_demangler.h. Each puts its input, a workspace and space for its output into a machine's memory,
   above the stack and the data of the module, and runs a call of the module over them. */

enum {
    result_size = 32,        /* bytes of the result, whose fields have 64 bits, and more */
    part_size = 16,          /* of a part of the workspace: its address and its size */
    least_memory = 10 << 20, /* bytes of a machine's memory */
    least_space = 1 << 16,    /* for an output, where its buffer is as large */
    pool_size = 8,
    longest_character = 4,   /* bytes */
    no_character = 0xff      /* a byte that is in no character and is no NUL */
};

/* Bytes of the workspaces that are tried. The first one suffices for each symbol of the crate's grammar within the
   default limits. */
static const u64 first_workspace = 1228800;
static const u64 last_workspace = (u64)1 << 30;

static const char no_memory[] = "out of memory";

enum kind { demangles, measures, filters };

struct call {
    enum kind kind;
    const char *input;
    size_t length;
    u32 flags;
    u64 max_nodes;
    u64 max_bytes;
    char *out;
    size_t size;
};

/* Where in the memory a call has what, and how much of it. */
struct places {
    u64 result;
    u64 arena;
    u64 arena_size;
    u64 text;
    u64 text_size;
    u64 input;
    u64 out;
    u64 out_size;
    u64 end;
};

/* Returns the first address that the module has neither for its stack nor for its data. */
static u64 heap_base(void)
{
    Z_module_instance_t machine;
    init_globals(&machine);
    return machine.w2c___heap_base;
}

/* Returns the first multiple of 16 that is no less. */
static u64 aligned(u64 bytes)
{
    return (bytes + 15) & ~(u64)15;
}

static u64 smaller(u64 left, u64 right)
{
    return left < right ? left : right;
}

/* Divides a workspace as msvc_demangler_in.h does: the memory for a declaration is at most a quarter of it. */
static struct places places_of(const struct call *call, u64 workspace, u64 space)
{
    struct places places;
    places.result = aligned(heap_base());
    places.arena = places.result + result_size + 2 * part_size;
    places.text_size = 0;
    if (call->kind != measures) {
        places.text_size = smaller(aligned(smaller(call->max_bytes, workspace)), workspace / 4);
    }
    places.arena_size = workspace - places.text_size;
    places.text = places.arena + places.arena_size;
    places.input = places.arena + workspace;
    places.out = places.input + call->length;
    places.out_size = space;
    places.end = places.out + space;
    return places;
}

/* Makes a machine of at least so much memory in place of a smaller one or of none. Returns whether there is one. */
static int is_made(Z_module_instance_t **machine, u64 memory)
{
    Z_module_instance_t *made = *machine;
    if (made != NULL && made->size >= memory) {
        return 1;
    }
    free(made);
    *machine = NULL;
    memory = memory <= least_memory ? (u64)least_memory : memory + memory / 4;
    if (memory > SIZE_MAX / 2) {
        return 0;
    }
    made = (Z_module_instance_t *)malloc(sizeof *made + (size_t)memory);
    if (made == NULL) {
        return 0;
    }
    made->size = memory;
    init_memories(made);
    *machine = made;
    return 1;
}

/* Runs the call of the module. It is no part of its caller, which a compiler must optimise less. The header has no calls
   for trees and back references; a compiler drops what the module has for them. */
NO_INLINE static void run(Z_module_instance_t *machine, const struct call *call, const struct places *places)
{
    u64 arena = places->result + result_size;
    u64 text = arena + part_size;
    (void)w2c_msvc_demangler_references_in_parts;
    (void)w2c_msvc_demangler_tree_in_parts;
    switch (call->kind) {
    case demangles:
        w2c_msvc_demangler_demangle_in_parts(machine, places->result, places->input, call->length, call->flags,
                                             call->max_nodes, call->max_bytes, arena, text, places->out,
                                             places->out_size);
        break;
    case measures:
        w2c_msvc_demangler_prefix_in_parts(machine, places->result, places->input, call->length, call->flags,
                                           call->max_nodes, arena);
        break;
    case filters:
        w2c_msvc_demangler_filter_in_parts(machine, places->result, places->input, call->length, call->flags, arena,
                                           text, places->out, places->out_size);
        break;
    }
}

/* Returns whether the call of the module returned. Its stack is below its data, and it traps when the stack is full. */
static int has_run(Z_module_instance_t *machine, const struct call *call, const struct places *places)
{
    jmp_buf place;
    init_globals(machine);
    machine->trapped = &place;
    if (KEEP_PLACE(place) != 0) {
        return 0;
    }
    run(machine, call, places);
    return 1;
}

/* Puts an address and a size into the memory, as a part of a workspace. */
static void put_part(Z_module_instance_t *machine, u64 address, u64 memory, u64 size)
{
    i64_store(machine, address, memory, 0);
    i64_store(machine, address, size, 8);
}

/* Copies a text that the module has written into the caller's buffer: no byte after the NUL, which is within the last
   bytes where the text was cut before a character. */
static void copy_out(Z_module_instance_t *machine, const struct call *call, const struct places *places, u64 length)
{
    const u8 *out = at(machine, places->out);
    size_t size = (size_t)places->out_size;
    if (length < size) {
        size = (size_t)length + 1;
    } else {
        while (size > 0 && out[size - 1] == no_character) {
            size--;
        }
    }
    if (size > 0) {
        memcpy(call->out, out, size);
    }
}

/* Writes an ASCII text by the rules of the calls, and returns its length. */
static size_t write_text(const char *text, char *out, size_t size)
{
    size_t length = strlen(text);
    if (size > 0) {
        size_t written = length < size ? length : size - 1;
        memcpy(out, text, written);
        out[written] = '\0';
    }
    return length;
}

/* Returns the result of a call for which there is no memory, and writes its text. */
static struct msvc_demangler_result without_memory(const struct call *call)
{
    struct msvc_demangler_result result = {MSVC_DEMANGLER_OUT_OF_MEMORY, 0, 0};
    if (call->kind != measures) {
        result.length = write_text(no_memory, call->out, call->size);
    }
    return result;
}

/* Makes a call once. Without memory for the machine, or after a trap, there is no machine any more, and no result. */
static struct msvc_demangler_result tried(Z_module_instance_t **machine, const struct call *call,
                                          const struct places *places)
{
    struct msvc_demangler_result result = {MSVC_DEMANGLER_OUT_OF_MEMORY, 0, 0};
    size_t marked = (size_t)smaller(places->out_size, longest_character);
    if (!is_made(machine, places->end)) {
        return result;
    }
    put_part(*machine, places->result + result_size, places->arena, places->arena_size);
    put_part(*machine, places->result + result_size + part_size, places->text, places->text_size);
    if (call->length != 0) {
        memcpy(at(*machine, places->input), call->input, call->length);
    }
    memset(at(*machine, places->end - marked), no_character, marked);
    if (!has_run(*machine, call, places)) {
        free(*machine);
        *machine = NULL;
        return result;
    }
    result.status = i32_load(*machine, places->result, 0);
    result.offset = (size_t)i64_load(*machine, places->result, 8);
    result.length = (size_t)i64_load(*machine, places->result, 16);
    return result;
}

/* Makes a call, again with a larger workspace where the module's memory ran out, or with more space where an output
   didn't fit, though its buffer is larger. */
static struct msvc_demangler_result made(Z_module_instance_t **machine, const struct call *call)
{
    u64 workspace = first_workspace;
    u64 space = smaller(call->size, (u64)least_space + 4 * (u64)call->length);
    for (;;) {
        struct places places = places_of(call, workspace, space);
        struct msvc_demangler_result result = tried(machine, call, &places);
        if (*machine == NULL) {
            return without_memory(call);
        }
        if (result.status == MSVC_DEMANGLER_OUT_OF_MEMORY && workspace < last_workspace) {
            workspace *= 2;
        } else if (result.length >= space && space < call->size) {
            space = smaller(call->size, (u64)result.length + 1);
        } else {
            copy_out(*machine, call, &places, result.length);
            return result;
        }
    }
}

/* The machines that no call uses now. With MSVC_DEMANGLER_NO_POOL, and by other compilers, there is no pool. */
#if defined(MSVC_DEMANGLER_NO_POOL)
#elif defined(__GNUC__)
static Z_module_instance_t *pool[pool_size];
#define EXCHANGE(slot, machine) __atomic_exchange_n(slot, machine, __ATOMIC_ACQ_REL)
#elif defined(_MSC_VER)
#include <intrin.h>
static void *volatile pool[pool_size];
#define EXCHANGE(slot, machine) (Z_module_instance_t *)_InterlockedExchangePointer(slot, machine)
#endif

/* Takes a machine out of the pool, if it has one. */
static Z_module_instance_t *taken(void)
{
    Z_module_instance_t *machine = NULL;
#if defined(EXCHANGE)
    for (size_t n = 0; n < pool_size && machine == NULL; n++) {
        machine = EXCHANGE(&pool[n], NULL);
    }
#endif
    return machine;
}

/* Puts a machine into the pool, or frees it, if there is no place or it has grown. */
static void put_back(Z_module_instance_t *machine)
{
#if defined(EXCHANGE)
    for (size_t n = 0; n < pool_size && machine != NULL && machine->size == least_memory; n++) {
        machine = EXCHANGE(&pool[n], machine);
    }
#endif
    free(machine);
}

/* Makes a call on the machine of an instance, or else on one of the pool. */
static struct msvc_demangler_result called(struct msvc_demangler_instance *instance, const struct call *call)
{
    Z_module_instance_t *machine = instance != NULL ? (Z_module_instance_t *)instance->machine : taken();
    struct msvc_demangler_result result = made(&machine, call);
    if (instance != NULL) {
        instance->machine = machine;
    } else {
        put_back(machine);
    }
    return result;
}

struct msvc_demangler_result msvc_demangler_demangle_with(struct msvc_demangler_instance *instance, const char *symbol,
                                                          size_t length, uint32_t flags, size_t max_nodes,
                                                          size_t max_bytes, char *out,
                                                          size_t size) MSVC_DEMANGLER_NOEXCEPT
{
    struct call call = {demangles, symbol, length, flags, 0, 0, out, size};
    call.max_nodes = smaller(max_nodes, MSVC_DEMANGLER_MOST_NODES);
    call.max_bytes = max_bytes;
    return called(instance, &call);
}

struct msvc_demangler_result msvc_demangler_prefix_with(struct msvc_demangler_instance *instance, const char *symbol,
                                                        size_t length, uint32_t flags,
                                                        size_t max_nodes) MSVC_DEMANGLER_NOEXCEPT
{
    struct call call = {measures, symbol, length, flags, 0, 0, NULL, 0};
    call.max_nodes = smaller(max_nodes, MSVC_DEMANGLER_MOST_NODES);
    return called(instance, &call);
}

struct msvc_demangler_result msvc_demangler_filter_with(struct msvc_demangler_instance *instance, const char *text,
                                                        size_t length, uint32_t flags, char *out,
                                                        size_t size) MSVC_DEMANGLER_NOEXCEPT
{
    struct call call = {filters, text, length, flags, 0, MSVC_DEMANGLER_DEFAULT_BYTES, out, size};
    return called(instance, &call);
}

void msvc_demangler_free(struct msvc_demangler_instance *instance) MSVC_DEMANGLER_NOEXCEPT
{
    if (instance != NULL) {
        free(instance->machine);
        instance->machine = NULL;
    } else {
        for (Z_module_instance_t *machine = taken(); machine != NULL; machine = taken()) {
            free(machine);
        }
    }
}

struct msvc_demangler_result msvc_demangler_demangle(const char *symbol, size_t length, uint32_t flags,
                                                     size_t max_nodes, size_t max_bytes, char *out,
                                                     size_t size) MSVC_DEMANGLER_NOEXCEPT
{
    return msvc_demangler_demangle_with(NULL, symbol, length, flags, max_nodes, max_bytes, out, size);
}

struct msvc_demangler_result msvc_demangler_prefix(const char *symbol, size_t length, uint32_t flags,
                                                   size_t max_nodes) MSVC_DEMANGLER_NOEXCEPT
{
    return msvc_demangler_prefix_with(NULL, symbol, length, flags, max_nodes);
}

struct msvc_demangler_result msvc_demangler_filter(const char *text, size_t length, uint32_t flags, char *out,
                                                   size_t size) MSVC_DEMANGLER_NOEXCEPT
{
    return msvc_demangler_filter_with(NULL, text, length, flags, out, size);
}

size_t msvc_demangler_version(char *out, size_t size) MSVC_DEMANGLER_NOEXCEPT
{
    return write_text(MSVC_DEMANGLER_VERSION, out, size);
}
