/* What the library calls of C, for WebAssembly without a C library: a heap of blocks in sizes of powers of two, and shifts of numbers of 128
 * bits. Nothing of it is proved. Built with -ffreestanding. */
#include <stddef.h>
#include <stdint.h>

extern unsigned char __heap_base;
static uint64_t next;
static void *unused[64];

struct tried { uint64_t ok, at; };

static unsigned class_of(uint64_t size) {
    unsigned it = 4;
    while (((uint64_t)1 << it) < size) it++;
    return it;
}

/* The class of a block stands in the 16 bytes before it. */
static unsigned char *take(uint64_t size) {
    unsigned it;
    unsigned char *block;
    uint64_t whole;
    if (size > (uint64_t)1 << 30) return 0;
    it = class_of(size);
    block = unused[it];
    whole = ((uint64_t)1 << it) + 16;
    if (block) {
        unused[it] = *(void **)block;
        return block;
    }
    if (!next) next = ((uint64_t)(uintptr_t)&__heap_base + 15) & ~(uint64_t)15;
    while (next + whole > (uint64_t)__builtin_wasm_memory_size(0) << 16)
        if (__builtin_wasm_memory_grow(0, 16) == (size_t)-1) return 0;
    block = (unsigned char *)(uintptr_t)(next + 16);
    *(uint64_t *)(block - 16) = it;
    next += whole;
    return block;
}

struct tried rattle_alloc(uint64_t size, uint64_t align) {
    struct tried it;
    it.at = (uintptr_t)take(size + (size == 0));
    it.ok = it.at != 0;
    (void)align;
    return it;
}

void rattle_dealloc(void *block) {
    unsigned it = (unsigned)*(uint64_t *)((unsigned char *)block - 16);
    *(void **)block = unused[it];
    unused[it] = block;
}

struct tried rattle_realloc(void *block, uint64_t kept, uint64_t size, uint64_t align) {
    struct tried it;
    unsigned char *made = take(size + (size == 0));
    (void)align;
    it.at = (uintptr_t)made;
    it.ok = made != 0;
    if (made) {
        __builtin_memcpy(made, block, (size_t)kept);
        rattle_dealloc(block);
    }
    return it;
}

typedef __int128 wide;
union words { wide all; struct { uint64_t low, high; } of; };

wide __ashlti3(wide a, int n) {
    union words in = {a}, out;
    if (n == 0) return a;
    if (n & 64) { out.of.low = 0; out.of.high = in.of.low << (n & 63); }
    else { out.of.low = in.of.low << n; out.of.high = (in.of.high << n) | (in.of.low >> (64 - n)); }
    return out.all;
}

wide __lshrti3(wide a, int n) {
    union words in = {a}, out;
    if (n == 0) return a;
    if (n & 64) { out.of.high = 0; out.of.low = in.of.high >> (n & 63); }
    else { out.of.high = in.of.high >> n; out.of.low = (in.of.low >> n) | (in.of.high << (64 - n)); }
    return out.all;
}

/* For the page: room for what it hands over. */
void *web_take(uint32_t size) { return take(size); }
