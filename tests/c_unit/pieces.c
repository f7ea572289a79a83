/* The allocator of the library without malloc (c/platform/pieces.c) compared with a plain model, which keeps a list of what is out: random requests
 * over buffers at each place that an address has modulo 32, and of sizes from the least on; until they are refused, and until all is given back.
 *
 *     pieces [STEPS [SEED]]    so many requests on each buffer
 *
 * The model says of each answer: the piece lies in the buffer, 16 divides its address, it overlaps no other one, a piece that was resized has
 * its first bytes as they were, and no byte outside the pieces' buffer was written. A request may be refused only where no gap between two pieces
 * is greater than it by a 16th. The figures of the buffer are those of the model. After the last give all bytes are one piece again. */
#include "medium.h"
#include "pieces.h"

enum { MOST = 64, GUARD = 64, ROOM = 1 << 20 };

typedef struct {
    uint8_t *at;
    uint64_t size;
    uint8_t byte;
} out;

static out outs[MOST];
static unsigned many, refusals, resizes, grown_in_place;
static uint64_t refused_since, most;
static _Alignas(32) uint8_t room[GUARD + ROOM + 2 * GUARD];
static uint8_t *buffer;
static uint64_t length;
static etcs_memory_info state;

static uint64_t next(uint64_t *seed) {
    *seed ^= *seed << 13;
    *seed ^= *seed >> 7;
    *seed ^= *seed << 17;
    return *seed;
}

static uint64_t rounded(uint64_t size) {
    return size == 0 ? 16 : (size + 15) / 16 * 16;
}

static void fill(const out *one) {
    memset(one->at, one->byte, one->size);
}

static int has(const out *one, uint64_t size) {
    for (uint64_t i = 0; i < size; i++)
        if (one->at[i] != one->byte)
            return 0;
    return 1;
}

/* The pieces in the order of their addresses, and the greatest gap that a piece could lie in, its head taken off. */
static uint64_t greatest_gap(const uint8_t *from, const uint8_t *to) {
    uint64_t gap = 0;
    const uint8_t *at = from;
    for (unsigned i = 0; i <= many; i++) {
        const uint8_t *found = to;
        const out *which = NULL;
        for (unsigned j = 0; j < many; j++)
            if (outs[j].at >= at && outs[j].at - 16 < found) {
                found = outs[j].at - 16;
                which = &outs[j];
            }
        if (found > at + 16 && (uint64_t)(found - at) - 16 > gap)
            gap = (uint64_t)(found - at) - 16;
        if (which == NULL)
            break;
        at = which->at + rounded(which->size);
    }
    return gap;
}

/* What the model says of all that is out. */
static void check(const char *what) {
    uint64_t least = 0;
    for (unsigned i = 0; i < many; i++) {
        is("16 divides the address", (uintptr_t)outs[i].at % 16, 0);
        is("in the buffer", outs[i].at >= buffer + 16 && outs[i].at + outs[i].size <= buffer + length, 1);
        is(what, (uint64_t)has(&outs[i], outs[i].size), 1);
        for (unsigned j = 0; j < i; j++)
            is("apart", outs[i].at + outs[i].size <= outs[j].at - 16 || outs[j].at + outs[j].size <= outs[i].at - 16, 1);
        least += 16 + rounded(outs[i].size);
    }
    is("state", etcs_memory_state(&state), ETCS_UNIT_OK);
    is("pieces", state.pieces, many);
    is("refused", state.refused, refused_since);
    /* (a rest of 16 bytes is too small for a block, and stays with its piece) */
    is("used", state.used >= least && state.used <= least + 16 * (uint64_t)many, 1);
    most = state.used > most ? state.used : most;
    is("most used", state.most_used >= most, 1);
    for (unsigned i = 0; i < GUARD; i++)
        is("outside", buffer[-1 - (int)i] == 0xA5 && buffer[length + i] == 0xA5, 1);
}

/* A request was refused: no gap is greater by a 16th, nor the one that a piece would grow into. */
static void refused(uint64_t size) {
    refusals++;
    refused_since++;
    is("refused without need", greatest_gap(buffer + length - length % 16 - state.size - 16, buffer + length) <= rounded(size) + rounded(size) / 16 + 16, 1);
}

static uint64_t some_size(uint64_t *seed) {
    const unsigned kind = next(seed) % 8;
    return kind == 0 ? next(seed) % 17 : kind < 5 ? next(seed) % 600 : kind < 7 ? next(seed) % 9000 : next(seed) % (length + 100);
}

static void step(uint64_t *seed) {
    const unsigned kind = next(seed) % 8;
    const uint64_t size = some_size(seed);
    const uint8_t byte = (uint8_t)next(seed);
    if (kind < 4 && many < MOST) {
        const out one = {(uint8_t *)etcs_piece_take(size), size, byte};
        if (one.at == NULL) {
            refused(size);
        } else {
            outs[many] = one;
            fill(&outs[many++]);
        }
    } else if (kind < 6 && many > 0) {
        out *const one = &outs[next(seed) % many];
        uint8_t *const at = (uint8_t *)etcs_piece_resize(one->at, size);
        if (at == NULL) {
            refused(size);
        } else {
            resizes++;
            grown_in_place += at == one->at && size > one->size;
            one->at = at;
            is("kept by a resize", (uint64_t)has(one, size < one->size ? size : one->size), 1);
            one->size = size;
            one->byte = byte;
            fill(one);
        }
    } else if (many > 0) {
        const unsigned which = (unsigned)(next(seed) % many);
        etcs_piece_give(outs[which].at);
        outs[which] = outs[--many];
    }
}

static void on_buffer(unsigned offset, uint64_t size, unsigned steps, uint64_t seed) {
    memset(room, 0xA5, sizeof room);
    buffer = room + GUARD + offset;
    length = size;
    refused_since = most = 0;
    is("use", etcs_memory_use(buffer, length), ETCS_UNIT_OK);
    check("fresh");
    const uint64_t whole = state.size - 16;
    for (unsigned i = 0; i < steps; i++) {
        step(&seed);
        if (i % 8 == 0 || i + 1 == steps)
            check("content");
    }
    if (many > 0)
        is("another while pieces are out", etcs_memory_use(buffer, length), ETCS_UNIT_IS_OPEN);
    while (many > 0)
        etcs_piece_give(outs[--many].at);
    check("given back");
    is("nothing used", state.used, 0);
    void *const all = etcs_piece_take(whole);
    is("all in one piece", all != NULL, 1);
    is("no byte more", etcs_piece_take(1) == NULL, 1);
    refused_since++;
    if (all != NULL)
        etcs_piece_give(all);
    is("a byte more than all", etcs_piece_take(whole + 1) == NULL, 1);
    refused_since++;
    is("the greatest number", etcs_piece_take(UINT64_MAX) == NULL, 1);
    refused_since++;
    check("given back");
}

int main(int count, char **words) {
    const unsigned steps = count > 1 ? (unsigned)strtoul(words[1], NULL, 10) : 300;
    const uint64_t seed = count > 2 ? strtoull(words[2], NULL, 10) : 2026;
    is("no buffer", etcs_piece_take(16) == NULL, 1);
    is("state without one", etcs_memory_state(&state), ETCS_UNIT_NOT_OPEN);
    is("state to nowhere", etcs_memory_state(NULL), ETCS_UNIT_NULL_POINTER);
    is("a null buffer", etcs_memory_use(NULL, 1 << 20), ETCS_UNIT_NULL_POINTER);
    is("too small", etcs_memory_use(room, ETCS_MEMORY_LEAST - 1), ETCS_UNIT_OUT_OF_RANGE);
    is("too great", etcs_memory_use(room, ETCS_MEMORY_MOST + 1), ETCS_UNIT_OUT_OF_RANGE);
    is("still none", etcs_memory_state(&state), ETCS_UNIT_NOT_OPEN);
    for (unsigned offset = 0; offset < 32; offset++) {
        on_buffer(offset, ETCS_MEMORY_LEAST + offset, steps / 4, seed + offset);
        on_buffer(offset, 20000 + 7 * offset, steps, seed + 100 + offset);
    }
    on_buffer(0, ROOM, 10 * steps, seed + 200);
    /* a buffer that grows at its end */
    is("use", etcs_memory_use(room, 12288), ETCS_UNIT_OK);
    void *const first = etcs_piece_take(5000);
    is("nothing for it", etcs_piece_take(5000) == NULL, 1);
    is("more", (uint64_t)etcs_piece_more(8192), 1);
    void *const second = etcs_piece_take(5000);
    is("room for it now", first != NULL && second != NULL, 1);
    etcs_piece_give(first);
    etcs_piece_give(second);
    is("state", etcs_memory_state(&state), ETCS_UNIT_OK);
    void *const all = etcs_piece_take(state.size - 16);
    is("all in one piece", all != NULL && state.used == 0 && state.pieces == 0, 1);
    printf("refusals: %u, resizes: %u, grown in place: %u\n", refusals, resizes, grown_in_place);
    is("refusals, resizes, and some in place", refusals > 1000 && resizes > 1000 && grown_in_place > 50, 1);
    return report("pieces", 100000);
}
