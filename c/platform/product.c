/* The product of two numbers of 128 bits, which compilers call by this name where the machine has no instruction for it, as
 * WebAssembly. */
#include <stdint.h>

__extension__ typedef unsigned __int128 u128;

u128 __multi3(u128 left, u128 right);

/* The lower 128 bits of the product, which are the same for numbers with a sign: the halves of 64 bits, multiplied by
 * halves of 32. */
u128 __multi3(u128 left, u128 right) {
    const uint64_t half = UINT64_C(0xFFFFFFFF);
    const uint64_t a = (uint64_t)left, b = (uint64_t)right;
    const uint64_t low = (a & half) * (b & half);
    const uint64_t one = ((a >> 32) * (b & half)) + (low >> 32);
    const uint64_t other = ((a & half) * (b >> 32)) + (one & half);
    const uint64_t high = ((a >> 32) * (b >> 32)) + (one >> 32) + (other >> 32);
    const uint64_t crossed = (a * (uint64_t)(right >> 64)) + ((uint64_t)(left >> 64) * b);
    return ((u128)(high + crossed) << 64) | ((other << 32) | (low & half));
}
