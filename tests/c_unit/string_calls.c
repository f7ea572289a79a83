/* What compiled code calls where there is no C library: the calls of string.h (c/platform/bytes.c), each length to 104 (three turns of their loops
 * and some) at each place modulo 16, and each overlap, compared with the plain loop over bytes; and the product of 128 bits (c/platform/product.c) along with
 * that of this machine. */
#define memcpy own_memcpy
#define memmove own_memmove
#define memset own_memset
#define memcmp own_memcmp
#include "../../c/platform/bytes.c"
#undef memcpy
#undef memmove
#undef memset
#undef memcmp
#define __multi3 own_multi3
#include "../../c/platform/product.c"
#undef __multi3

#include "medium.h"

enum { ROOM = 192, MOST = 104 };

static uint8_t found[ROOM], wanted[ROOM], before[ROOM];

static void begin(void) {
    for (unsigned i = 0; i < ROOM; i++)
        found[i] = wanted[i] = before[i] = (uint8_t)(7 * i + 1);
}

static void same(const char *what) {
    unsigned differ = 0;
    for (unsigned i = 0; i < ROOM; i++)
        differ += found[i] != wanted[i];
    is(what, differ, 0);
}

/* Numbers of any length, with and without a sign. */
static u128 some(uint64_t *seed) {
    *seed = *seed * UINT64_C(6364136223846793005) + 1;
    const uint64_t high = *seed;
    *seed = *seed * UINT64_C(6364136223846793005) + 1;
    const u128 found = ((u128)high << 64) | *seed;
    const unsigned shift = (unsigned)(high % 128u);
    return *seed % 3u == 0u ? found >> shift : *seed % 3u == 1u ? ~(found >> shift) : (u128)1 << shift;
}

static void products(void) {
    uint64_t seed = 2026;
    for (unsigned i = 0; i < 100000; i++) {
        const u128 one = some(&seed), other = some(&seed);
        is("product", own_multi3(one, other) == one * other, 1);
    }
}

int main(void) {
    products();
    for (unsigned length = 0; length <= MOST; length++)
        for (unsigned to = 0; to < 64; to++) {
            for (unsigned from = 16; from < 48; from++) {
                begin();
                for (unsigned i = 0; i < length; i++)
                    wanted[to + i] = before[from + i];
                is("memmove", own_memmove(found + to, found + from, length) == found + to, 1);
                same("moved");
                begin();
                for (unsigned i = 0; i < length; i++)
                    wanted[to + i] = before[from + i];
                is("memcpy", own_memcpy(found + to, before + from, length) == found + to, 1);
                same("copied");
            }
            begin();
            for (unsigned i = 0; i < length; i++)
                wanted[to + i] = 0xE5;
            is("memset", own_memset(found + to, 0x7E5, length) == found + to, 1);
            same("set");
            begin();
            is("memcmp of the same", own_memcmp(found + to, wanted + to, length) == 0, 1);
            if (length > 0) {
                wanted[to + length - 1]++;
                is("memcmp of less", own_memcmp(found + to, wanted + to, length) < 0, found[to + length - 1] < wanted[to + length - 1]);
                is("memcmp of more", own_memcmp(wanted + to, found + to, length) > 0, wanted[to + length - 1] > found[to + length - 1]);
            }
        }
    return report("calls of compiled code", 900000);
}
