/* Two-level segregated fit: M. Masmano, I. Ripoll, A. Crespo, J. Real, "TLSF: a new dynamic memory allocator for
 * real-time systems", 16th Euromicro Conference on Real-Time Systems, 2004.
 *
 * The buffer is cut into blocks that lie one after the other, each with a head. A free block stands in the list of its
 * class. Classes are of two levels: the power of two below the size, and which of the 16 parts up to the next power;
 * sizes below 256 have a class for each multiple of 16. A map says which lists have a block, so the first list whose
 * blocks are all great enough is found by two searches for a lowest bit. Two free blocks never lie side by side. */
#include "pieces.h"

#include "bytes.h"

/* Of the classes: their parts, the first size that is cut into parts, and the levels. */
#define PARTS 16u
#define PARTS_LOG 4u
#define SMALL_LOG 8u
#define LEVELS 28u

/* What sizes and addresses are multiples of. */
#define UNIT ((uint64_t)16)

#define IS_FREE ((uint64_t)1)

typedef struct block block;
struct block {
    block *before;  /* the block that lies before it, or NULL */
    uint64_t size;  /* of what lies beyond this head, a multiple of UNIT, and IS_FREE */
    block *next;    /* of a free block: the next one of its list, and the one before; else the piece begins here */
    block *previous;
};

#define HEAD ((uint64_t)offsetof(block, next))

/* What lies at the beginning of the buffer. */
typedef struct {
    uint32_t levels;         /* a bit for each level that has a free block */
    uint32_t parts[LEVELS];  /* .. and for each part of it */
    block *lists[LEVELS][PARTS];
    block *end;              /* the last block, which has no bytes and is never free */
} pool;

typedef struct {
    uint32_t level, part;
} class;

static pool *our = NULL;

/* Its figures. They aren't in the buffer, which a maker may write to once nothing is out. */
static etcs_memory_info counts;

/* The place of the highest and of the lowest bit of a number that isn't 0. */
static uint32_t highest(uint64_t number) {
    uint32_t at = 0;
    for (uint32_t step = 32; step > 0u; step /= 2u) {
        if ((number >> step) != 0u) {
            number >>= step;
            at += step;
        }
    }
    return at;
}

static uint32_t lowest(uint32_t number) {
    return highest((uint64_t)number & (~(uint64_t)number + 1u));
}

static uint64_t size_of(const block *one) {
    return one->size & ~IS_FREE;
}

static int is_free(const block *one) {
    return (one->size & IS_FREE) != 0u;
}

static block *following(block *one) {
    return (block *)((uint8_t *)one + HEAD + size_of(one));
}

static void *piece_of(block *one) {
    return (uint8_t *)one + HEAD;
}

static block *block_of(void *piece) {
    return (block *)((uint8_t *)piece - HEAD);
}

static class class_of(uint64_t size) {
    class found = {0, (uint32_t)(size / UNIT)};
    if ((size >> SMALL_LOG) != 0u) {
        const uint32_t at = highest(size);
        found.level = (at - SMALL_LOG) + 1u;
        found.part = (uint32_t)(size >> (at - PARTS_LOG)) - PARTS;
    }
    return found;
}

/* The first class each of whose blocks has so many bytes. */
static class class_from(uint64_t size) {
    uint64_t least = size;
    if ((size >> SMALL_LOG) != 0u) {
        least += ((uint64_t)1 << (highest(size) - PARTS_LOG)) - 1u;
    }
    return class_of(least);
}

static void enlist(block *one) {
    const class of = class_of(size_of(one));
    block **list = &our->lists[of.level][of.part];
    one->size |= IS_FREE;
    one->next = *list;
    one->previous = NULL;
    if (*list != NULL) {
        (*list)->previous = one;
    }
    *list = one;
    our->levels |= (uint32_t)1 << of.level;
    our->parts[of.level] |= (uint32_t)1 << of.part;
}

static void delist(block *one) {
    const class of = class_of(size_of(one));
    if (one->next != NULL) {
        one->next->previous = one->previous;
    }
    if (one->previous != NULL) {
        one->previous->next = one->next;
    } else {
        our->lists[of.level][of.part] = one->next;
        if (one->next == NULL) {
            our->parts[of.level] &= ~((uint32_t)1 << of.part);
            if (our->parts[of.level] == 0u) {
                our->levels &= ~((uint32_t)1 << of.level);
            }
        }
    }
    one->size &= ~IS_FREE;
}

/* The first list at or above a class that has a block. */
static block *first_from(class at) {
    block *found = NULL;
    uint32_t level = at.level;
    uint32_t parts = our->parts[level] & ~(((uint32_t)1 << at.part) - 1u);
    if (parts == 0u) {
        const uint32_t levels = our->levels & ~(((uint32_t)2 << level) - 1u);
        level = levels != 0u ? lowest(levels) : 0u;
        parts = levels != 0u ? our->parts[level] : 0u;
    }
    if (parts != 0u) {
        found = our->lists[level][lowest(parts)];
    }
    return found;
}

/* A free block of at least so many bytes: of a class all of whose blocks are great enough, else the first one of its own
 * class where that one is. */
static block *found_for(uint64_t size) {
    const class own = class_of(size);
    block *found = first_from(class_from(size));
    if (found == NULL) {
        block *const first = our->lists[own.level][own.part];
        found = (first != NULL && size_of(first) >= size) ? first : NULL;
    }
    return found;
}

/* Joins a block that isn't free to a free one after it. */
static void join(block *one) {
    block *const next = following(one);
    if (is_free(next)) {
        delist(next);
        one->size += HEAD + next->size;
        following(one)->before = one;
    }
}

/* Cuts off what a block that isn't free has beyond so many bytes, where that makes a block. */
static void cut(block *one, uint64_t size) {
    if (size_of(one) >= (size + HEAD) + UNIT) {
        block *const rest = (block *)((uint8_t *)one + HEAD + size);
        rest->before = one;
        rest->size = one->size - size - HEAD;
        one->size = size;
        following(rest)->before = rest;
        join(rest);
        enlist(rest);
    }
}

static uint64_t rounded(uint64_t size) {
    return size == 0u ? UNIT : (size + (UNIT - 1u)) & ~(UNIT - 1u);
}

/* Whether a size is one that any buffer could have room for. */
static int is_refused(uint64_t size) {
    const int is = our == NULL || size > ETCS_MEMORY_MOST;
    if (is != 0) {
        counts.refused++;
    }
    return is;
}

static void count_taken(uint64_t more, uint64_t less) {
    counts.used = (counts.used + more) - less;
    if (counts.used > counts.most_used) {
        counts.most_used = counts.used;
    }
}

void *etcs_piece_take(uint64_t size) {
    void *piece = NULL;
    if (is_refused(size) == 0) {
        block *const one = found_for(rounded(size));
        if (one != NULL) {
            delist(one);
            cut(one, rounded(size));
            counts.pieces++;
            count_taken(HEAD + one->size, 0);
            piece = piece_of(one);
        } else {
            counts.refused++;
        }
    }
    return piece;
}

void etcs_piece_give(void *piece) {
    block *one = block_of(piece);
    counts.pieces--;
    count_taken(0, HEAD + one->size);
    join(one);
    if (one->before != NULL && is_free(one->before)) {
        one = one->before;
        delist(one);
        one->size += HEAD + following(one)->size;
        following(one)->before = one;
    }
    enlist(one);
}

/* Moves what a piece has into a greater one. */
static void *moved(void *piece, uint64_t size) {
    void *const other = etcs_piece_take(size);
    if (other != NULL) {
        (void)memcpy(other, piece, block_of(piece)->size);
        etcs_piece_give(piece);
    }
    return other;
}

void *etcs_piece_resize(void *piece, uint64_t size) {
    block *const one = block_of(piece);
    void *answer = NULL;
    if (is_refused(size) == 0) {
        const uint64_t wanted = rounded(size), had = one->size;
        block *const next = following(one);
        const uint64_t room = is_free(next) ? had + HEAD + size_of(next) : had;
        if (room >= wanted) {
            if (wanted > had) {
                join(one);
            }
            cut(one, wanted);
            count_taken(one->size, had);
            answer = piece;
        } else {
            answer = moved(piece, wanted);
        }
    }
    return answer;
}

/* The block without bytes at the end. */
static void end_at(block *end, block *before) {
    end->before = before;
    end->size = 0;
    our->end = end;
}

int etcs_piece_more(uint64_t size) {
    const uint64_t more = size & ~(UNIT - 1u);
    const int is = our != NULL && more >= HEAD && more <= ETCS_MEMORY_MOST && counts.size + more <= ETCS_MEMORY_MOST;
    if (is != 0) {
        /* The end becomes a block that is given back. */
        block *const one = our->end;
        one->size = more - HEAD;
        end_at(following(one), one);
        counts.size += more;
        counts.pieces++;
        counts.used += more;
        etcs_piece_give(piece_of(one));
    }
    return is;
}

uint32_t etcs_memory_use(void *buffer, uint64_t size) {
    uint32_t status = ETCS_UNIT_OK;
    if (buffer == NULL) {
        status = ETCS_UNIT_NULL_POINTER;
    } else if (size < ETCS_MEMORY_LEAST || size > ETCS_MEMORY_MOST) {
        status = ETCS_UNIT_OUT_OF_RANGE;
    } else if (counts.pieces > 0u) {
        status = ETCS_UNIT_IS_OPEN;
    } else {
        const uint64_t skipped = (~(uint64_t)(uintptr_t)buffer + 1u) & (UNIT - 1u);
        const uint64_t has = (size - skipped) & ~(UNIT - 1u), head = rounded(sizeof(pool));
        uint8_t *const from = (uint8_t *)buffer + skipped;
        block *const first = (block *)(void *)(from + head);
        our = (pool *)(void *)from;
        (void)memset(our, 0, sizeof(pool));
        (void)memset(&counts, 0, sizeof counts);
        first->before = NULL;
        first->size = has - head - (2u * HEAD);
        end_at(following(first), first);
        counts.size = has - head - HEAD;
        enlist(first);
    }
    return status;
}

uint32_t etcs_memory_state(etcs_memory_info *info) {
    uint32_t status = ETCS_UNIT_OK;
    if (info == NULL) {
        status = ETCS_UNIT_NULL_POINTER;
    } else if (our == NULL) {
        status = ETCS_UNIT_NOT_OPEN;
    } else {
        *info = counts;
    }
    return status;
}
