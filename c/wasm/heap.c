/* The memory functions that the library calls, where there is no C library: blocks out of WebAssembly's memory, which
 * grows when it has to. It is for wasm32, over the module of tools/archive --target wasm32.
 *
 * A block that is given back serves a later request of its size. None is ever split, joined or given back to the
 * engine. Each block has 16 bytes in front of it, for its size. Sizes are 16, 32 .. 128 bytes, and from there four to
 * each doubling, so that less than a fifth of a block is idle.
 *
 * With OWN_HEAP this file has no rattle_alloc, for programs that have one of their own (c/checks). */
#define PAGE 65536u
typedef __UINT64_TYPE__ length;         /* the library's lengths have 64 bits on wasm32 too */
typedef __UINTPTR_TYPE__ place;

extern unsigned char __heap_base;       /* by the linker: where stack and data end */
static place next, end;                 /* memory that was never handed out */
static struct block { struct block *next; } *idle[160];

/* The number of the least size that has room for so many bytes, and that size in bytes. */
static unsigned number_of(length bytes) {
    length units = bytes <= 16 ? 0 : (bytes - 1) / 16;
    if (units < 8) return (unsigned)units;
    unsigned shift = 61 - (unsigned)__builtin_clzll(units);
    return 4 * shift + (unsigned)(units >> shift);
}

static length size_of(unsigned number) {
    unsigned shift = number < 8 ? 0 : number / 4 - 1;
    return (((length)number - 4 * shift + 1) << shift) * 16;
}

static int grow(length wanted) {
    length pages = (wanted + PAGE - 1) / PAGE;
    if (pages > (__UINTPTR_MAX__ - end) / PAGE) return 0;
    return __builtin_wasm_memory_grow(0, (place)pages) != (place)-1;
}

void *heap_take(length bytes) {
    if (bytes >= (length)1 << 40) return 0;
    unsigned number = number_of(bytes);
    struct block *at = idle[number];
    if (at != 0) {
        idle[number] = at->next;
        return at;
    }
    length whole = size_of(number) + 16;
    if (next == 0) next = ((place)&__heap_base + 15) & ~(place)15;
    end = (place)__builtin_wasm_memory_size(0) * PAGE;
    if (end - next < whole) {
        if (!grow(whole - (end - next))) return 0;
        end = (place)__builtin_wasm_memory_size(0) * PAGE;
    }
    *(unsigned *)next = number;
    at = (struct block *)(next + 16);
    next += (place)whole;
    return at;
}

void heap_give(void *at) {
    if (at == 0) return;
    struct block *block = at;
    unsigned number = *(unsigned *)((place)at - 16);
    block->next = idle[number];
    idle[number] = block;
}

void *heap_change(void *at, length bytes) {
    if (at == 0) return heap_take(bytes);
    length had = size_of(*(unsigned *)((place)at - 16));
    if (bytes <= had) return at;
    void *to = heap_take(bytes);
    if (to == 0) return 0;
    __builtin_memcpy(to, at, (place)had);
    heap_give(at);
    return to;
}

#ifndef OWN_HEAP
/* As in c/heap.c, but with both fields in eight bytes each: the library's own layouts have pointers of eight bytes. */
typedef struct { length is_ok, at; } tried;
static char nothing;
static tried tell(void *at) { return (tried){at != 0, (place)(at != 0 ? at : &nothing)}; }
tried rattle_alloc(length size, length align) { return tell(heap_take(size != 0 ? size : align)); }
tried rattle_realloc(void *old, length kept, length size, length align) { (void)kept; return tell(heap_change(old, size != 0 ? size : align)); }
void rattle_dealloc(void *at) { heap_give(at); }
#endif
