/* The calls of string.h that compiled code asks for, where there is no C library. Each is weak: one of the maker's own
 * goes before it. Compiled with -fno-builtin, so that none becomes a call of itself. Words of 8 bytes are read and written
 * at any address, as the proved library does too. */
#include "bytes.h"

#define WEAK __attribute__((weak))

typedef uint64_t __attribute__((may_alias, aligned(1))) word;

#define WORD sizeof(word)
#define FOUR (4u * WORD)

/* Copies four words: all of them are read before one is written, so the places may overlap. */
static inline void copy_four(uint8_t *put, const uint8_t *got) {
    word *const to = (word *)(void *)put;
    const word *const from = (const word *)(const void *)got;
    const uint64_t one = from[0], two = from[1], three = from[2], four = from[3];
    to[0] = one;
    to[1] = two;
    to[2] = three;
    to[3] = four;
}

/* Copies from the first byte on: right too where `to` lies before `from`. */
static void copy_forward(uint8_t *put, const uint8_t *got, size_t count) {
    size_t i = 0;
    for (; (i + FOUR) <= count; i += FOUR) {
        copy_four(&put[i], &got[i]);
    }
    for (; (i + WORD) <= count; i += WORD) {
        *(word *)(void *)&put[i] = *(const word *)(const void *)&got[i];
    }
    for (; i < count; i++) {
        put[i] = got[i];
    }
}

/* Copies from the last byte on: right too where `to` lies beyond `from`. */
static void copy_backward(uint8_t *put, const uint8_t *got, size_t count) {
    size_t i = count;
    for (; i >= FOUR; i -= FOUR) {
        copy_four(&put[i - FOUR], &got[i - FOUR]);
    }
    for (; i >= WORD; i -= WORD) {
        *(word *)(void *)&put[i - WORD] = *(const word *)(const void *)&got[i - WORD];
    }
    for (; i > 0u; i--) {
        put[i - 1u] = got[i - 1u];
    }
}

WEAK void *memcpy(void *to, const void *from, size_t count) {
    copy_forward((uint8_t *)to, (const uint8_t *)from, count);
    return to;
}

WEAK void *memmove(void *to, const void *from, size_t count) {
    if ((uintptr_t)to <= (uintptr_t)from) {
        copy_forward((uint8_t *)to, (const uint8_t *)from, count);
    } else {
        copy_backward((uint8_t *)to, (const uint8_t *)from, count);
    }
    return to;
}

WEAK void *memset(void *to, int byte, size_t count) {
    uint8_t *const put = (uint8_t *)to;
    const uint64_t eight = UINT64_C(0x0101010101010101) * (uint8_t)byte;
    size_t i = 0;
    for (; (i + FOUR) <= count; i += FOUR) {
        word *const four = (word *)(void *)&put[i];
        four[0] = eight;
        four[1] = eight;
        four[2] = eight;
        four[3] = eight;
    }
    for (; (i + WORD) <= count; i += WORD) {
        *(word *)(void *)&put[i] = eight;
    }
    for (; i < count; i++) {
        put[i] = (uint8_t)byte;
    }
    return to;
}

WEAK int memcmp(const void *left, const void *right, size_t count) {
    const uint8_t *const one = (const uint8_t *)left;
    const uint8_t *const other = (const uint8_t *)right;
    int difference = 0;
    for (size_t i = 0; (i < count) && (difference == 0); i++) {
        difference = (int)one[i] - (int)other[i];
    }
    return difference;
}
