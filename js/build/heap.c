/* The heap that the proved code calls, as the kit's libc/src/heap.rt declares it, and what a host
 * allocates its texts by. A block has a power of two of bytes. A free one is in the list of its
 * size, from which the next block of that size is taken. New blocks come from memory.grow. */
#include "wasm.h"

/* Whether there is memory, and the address of it: the module declares both as 64-bit numbers. */
typedef struct {
    uint64_t is_there;
    uintptr_t address;
} tried;

/* The 16 bytes before each block. */
typedef struct header {
    uint64_t log2;
    struct header *next;
} header;

enum { SMALLEST = 5, LARGEST = 46, PAGE = 65536 };

static header *free_blocks[LARGEST + 1];
static uintptr_t unused, end; /* what no block has had yet */
static uint8_t nothing;

void *memcpy(void *restrict, const void *restrict, size_t);

static header *new_block(size_t bytes) {
    if (!unused) {
        unused = ((uintptr_t)__heap_base + 15) & ~(uintptr_t)15;
        end = memory_size() * PAGE;
    }
    if (bytes > end - unused) {
        size_t pages = (bytes - (end - unused) + PAGE - 1) / PAGE;
        if (memory_grow(pages) == (size_t)-1) return NULL;
        end += pages * PAGE;
    }
    header *block = (header *)unused;
    unused += bytes;
    return block;
}

static void *new_or_free_block(size_t size) {
    uint64_t log2 = SMALLEST;
    while (((size_t)1 << log2) - sizeof(header) < size)
        if (++log2 > LARGEST) return NULL;
    header *block = free_blocks[log2];
    if (block) free_blocks[log2] = block->next;
    else if (!(block = new_block((size_t)1 << log2))) return NULL;
    block->log2 = log2;
    return block + 1;
}

static tried result(void *block) {
    tried made = {block != NULL, (uintptr_t)(block ? block : &nothing)};
    return made;
}

/* (an alignment is at most 16, which each block has) */
tried rattle_alloc(size_t size, size_t align) {
    (void)align;
    return result(new_or_free_block(size));
}

void rattle_dealloc(void *block) {
    header *before = (header *)block - 1;
    before->next = free_blocks[before->log2];
    free_blocks[before->log2] = before;
}

tried rattle_realloc(void *block, size_t kept, size_t size, size_t align) {
    (void)align;
    size_t room = ((size_t)1 << ((header *)block - 1)->log2) - sizeof(header);
    if (size <= room) return result(block);
    void *made = new_or_free_block(size);
    if (made) {
        memcpy(made, block, kept);
        rattle_dealloc(block);
    }
    return result(made);
}

/* For the host: returns the address of so many bytes, or 0. */
uint32_t allocate(uint32_t size) {
    return (uint32_t)(uintptr_t)new_or_free_block(size);
}

void deallocate(uint32_t address) {
    if (address) rattle_dealloc((void *)(uintptr_t)address);
}
