/* Tries what the modules are linked with and no proof covers, compiled for this machine: the heap
 * over a memory that can be used up, and the functions of memory.c and wide.c. Sanitizers watch. */
#include <stdint.h>
#include <stdio.h>
#include <stdlib.h>
#include <string.h>

enum { MOST_PAGES = 64 };
static _Alignas(65536) uint8_t heap_base[65536 * MOST_PAGES];
static size_t pages;

static size_t memory_size(void) { return (size_t)heap_base / 65536 + pages; }
static size_t memory_grow(size_t more) {
    if (more > MOST_PAGES - pages) return (size_t)-1;
    pages += more;
    return memory_size() - more;
}

/* (in the place of wasm.h, and names that do not meet those of this machine's libraries) */
#define WASM_H
#define __heap_base heap_base
#include "heap.c"
#define memcpy our_memcpy
#define memmove our_memmove
#define memset our_memset
#define memcmp our_memcmp
#define bcmp our_bcmp
#include "memory.c"
#undef memcpy
#undef memmove
#undef memset
#undef memcmp
#define __multi3 our_multiply
#define __ashlti3 our_shift_left
#define __lshrti3 our_shift_right
#include "wide.c"

static size_t tried_ones;

static void must(int holds, const char *what) {
    tried_ones++;
    if (holds) return;
    printf("support: %s\n", what);
    exit(1);
}

static uint64_t state = 1;
static uint64_t drawn(void) {
    state = state * 6364136223846793005u + 1442695040888963407u;
    return state >> 33 ^ state << 31;
}

/* Blocks keep what is written into them while others are taken, resized and given back. */
static void try_heap(void) {
    enum { BLOCKS = 200 };
    struct {
        uint8_t *at, byte;
        size_t size;
    } blocks[BLOCKS] = {{0}};
    size_t refused = 0;
    for (int n = 0; n < 60000; n++) {
        int i = (int)(drawn() % BLOCKS);
        size_t size = drawn() % 64 ? drawn() % 5000 : drawn() % (PAGE * 20), kept = 0;
        tried got;
        if (!blocks[i].at) {
            got = rattle_alloc(size, 16);
        } else if (drawn() % 3) {
            kept = size < blocks[i].size ? size : blocks[i].size;
            got = rattle_realloc(blocks[i].at, kept, size, 16);
        } else {
            for (size_t k = 0; k < blocks[i].size; k++)
                must(blocks[i].at[k] == blocks[i].byte, "a block that is given back has changed");
            rattle_dealloc(blocks[i].at);
            blocks[i].at = NULL;
            continue;
        }
        if (!got.is_there) {
            refused++;
            continue;
        }
        uint8_t *at = (uint8_t *)got.address;
        must((got.address & 15) == 0, "a block is not aligned");
        must(at >= heap_base && at + size <= heap_base + PAGE * pages, "a block is outside");
        for (size_t k = 0; k < kept; k++) must(at[k] == blocks[i].byte, "a resized block lost a byte");
        blocks[i].at = at, blocks[i].size = size, blocks[i].byte = (uint8_t)n;
        memset(at, (uint8_t)n, size);
    }
    must(refused > 0, "the memory was never used up");
    must(!rattle_alloc(SIZE_MAX, 1).is_there, "there is memory for all addresses");
    must(!rattle_alloc((size_t)1 << 46, 1).is_there, "there is memory for 2^46 bytes");
    must(rattle_alloc(0, 1).is_there, "there is no block of no bytes");
    must(allocate(UINT32_MAX) == 0, "the host has 4 GiB");
    deallocate(0);
}

static int sign(int it) { return (it > 0) - (it < 0); }

static void try_memory(void) {
    uint8_t one[64], other[64], wanted[64];
    for (int n = 0; n < 30000; n++) {
        size_t size = drawn() % 40, at = drawn() % 20, to = drawn() % 20;
        for (int i = 0; i < 64; i++) one[i] = (uint8_t)(drawn() % 3), other[i] = (uint8_t)(drawn() % 3);
        must(sign(our_memcmp(one, other, size)) == sign(memcmp(one, other, size)), "memcmp");
        must(!our_bcmp(one, other, size) == !memcmp(one, other, size), "bcmp");
        memcpy(wanted, one, 64), memmove(wanted + to, wanted + at, size);
        our_memmove(one + to, one + at, size);
        must(!memcmp(one, wanted, 64), "memmove");
        memcpy(wanted, one, 64), memcpy(wanted + to, other + at, size);
        our_memcpy(one + to, other + at, size);
        must(!memcmp(one, wanted, 64), "memcpy");
        memset(wanted + at, n, size), our_memset(one + at, n, size);
        must(!memcmp(one, wanted, 64), "memset");
    }
}

static void try_wide(void) {
    for (int n = 0; n < 100000; n++) {
        u128 a = (u128)drawn() << 64 | drawn(), b = (u128)drawn() << 64 | drawn();
        int by = n % 128;
        must(our_multiply(a, b) == a * b, "a product of 128 bits");
        must(our_shift_left(a, by) == a << by, "a shift to the left");
        must(our_shift_right(a, by) == a >> by, "a shift to the right");
    }
}

int main(void) {
    try_heap();
    try_memory();
    try_wide();
    printf("support: %zu held\n", tried_ones);
    return 0;
}
