/* The arithmetic of 128 bits that LLVM calls, as GCC's libgcc documents it. */
#include "wasm.h"

typedef unsigned __int128 u128;
typedef union {
    u128 whole;
    struct {
        uint64_t low, high;
    };
} halves;

u128 __multi3(u128 x, u128 y) {
    halves a = {x}, b = {y}, product;
    uint64_t a0 = (uint32_t)a.low, a1 = a.low >> 32, b0 = (uint32_t)b.low, b1 = b.low >> 32;
    uint64_t first = a0 * b0, second = a1 * b0 + (first >> 32);
    uint64_t third = a0 * b1 + (uint32_t)second;
    product.low = third << 32 | (uint32_t)first;
    product.high = a1 * b1 + (second >> 32) + (third >> 32) + a.low * b.high + a.high * b.low;
    return product.whole;
}

/* The shifts are by 0 to 127. One by 1 and then by 63 - n is one by 64 - n, defined at n = 0 too. */
u128 __ashlti3(u128 x, int n) {
    halves a = {x}, shifted;
    unsigned by = (unsigned)n & 63;
    shifted.low = n & 64 ? 0 : a.low << by;
    shifted.high = n & 64 ? a.low << by : a.high << by | a.low >> 1 >> (63 - by);
    return shifted.whole;
}

u128 __lshrti3(u128 x, int n) {
    halves a = {x}, shifted;
    unsigned by = (unsigned)n & 63;
    shifted.high = n & 64 ? 0 : a.high >> by;
    shifted.low = n & 64 ? a.high >> by : a.low >> by | a.high << 1 << (63 - by);
    return shifted.whole;
}
