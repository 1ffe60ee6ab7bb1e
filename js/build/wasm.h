/* The types of C, since the kit's clang has no headers, and what there is of the memory. */
#ifndef WASM_H
#define WASM_H
#define NULL ((void *)0)
typedef __SIZE_TYPE__ size_t;
typedef __UINTPTR_TYPE__ uintptr_t;
typedef __UINT8_TYPE__ uint8_t;
typedef __UINT32_TYPE__ uint32_t;
typedef __UINT64_TYPE__ uint64_t;

extern uint8_t __heap_base[];
static inline size_t memory_size(void) { return __builtin_wasm_memory_size(0); }
static inline size_t memory_grow(size_t pages) { return __builtin_wasm_memory_grow(0, pages); }
#endif
