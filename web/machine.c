/* The memory of a WebAssembly module, and what the compiler calls that its processor has not. */
#include "heap.h"

enum { PAGE = 65536, FEWEST = 16 };

extern unsigned char __heap_base;

unsigned char *heap_floor(void) { return &__heap_base; }

static int reaches(unsigned char *end) { return (size_t)end <= __builtin_wasm_memory_size(0) * PAGE; }

/* What memory.grow answers differs with the width of addresses, so the size is asked for anew. */
int heap_reach(unsigned char *end) {
    size_t lacks;
    if (reaches(end)) return 1;
    lacks = ((size_t)end + PAGE - 1) / PAGE - __builtin_wasm_memory_size(0);
    __builtin_wasm_memory_grow(0, lacks < FEWEST ? FEWEST : lacks);
    if (!reaches(end)) __builtin_wasm_memory_grow(0, lacks);
    return reaches(end);
}

struct wide {
    unsigned long low, high;
};

/* The product of two numbers of 128 bits. */
struct wide __multi3(unsigned long a_low, unsigned long a_high, unsigned long b_low, unsigned long b_high) {
    const unsigned long half = 0xffffffff;
    unsigned long a0 = a_low & half, a1 = a_low >> 32, b0 = b_low & half, b1 = b_low >> 32;
    unsigned long low = a0 * b0, left = a1 * b0, right = a0 * b1, high = a1 * b1;
    unsigned long middle = (low >> 32) + (left & half) + (right & half);
    struct wide product;
    product.low = (low & half) | (middle << 32);
    product.high = high + (left >> 32) + (right >> 32) + (middle >> 32) + a_low * b_high + a_high * b_low;
    return product;
}

/* A number of 128 bits, shifted up by less than 128. */
struct wide __ashlti3(unsigned long low, unsigned long high, int by) {
    struct wide shifted = {low, high};
    if (by >= 64) {
        shifted.high = low << (by - 64);
        shifted.low = 0;
    } else if (by > 0) {
        shifted.high = (high << by) | (low >> (64 - by));
        shifted.low = low << by;
    }
    return shifted;
}

/* A number of 128 bits, shifted down by less than 128. */
struct wide __lshrti3(unsigned long low, unsigned long high, int by) {
    struct wide shifted = {low, high};
    if (by >= 64) {
        shifted.low = high >> (by - 64);
        shifted.high = 0;
    } else if (by > 0) {
        shifted.low = (low >> by) | (high << (64 - by));
        shifted.high = high >> by;
    }
    return shifted;
}
