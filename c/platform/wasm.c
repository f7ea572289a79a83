/* What the library needs in WebAssembly with a 64-bit memory: pieces of the module's own memory, which grows as it is
 * asked for. */
#include "heap.h"
#include "pieces.h"

/* What a program in JavaScript puts its bytes into, and gives back: at an address that 16 divides, 0 where there is no
 * memory. */
void *etcs_memory_take(uint64_t size);
void etcs_memory_give(void *piece);

#define PAGE ((uint64_t)65536)

extern uint8_t __heap_base; /* the linker's: where the memory is free from */

/* The module's memory has room for so many bytes more: its end moves by whole pages, and all of it belongs to the
 * pieces. Whoever else lets it grow takes the right to from the pieces. */
static int has_grown(uint64_t size) {
    static uint64_t end = 0;
    const uint64_t had = (uint64_t)__builtin_wasm_memory_size(0) * PAGE;
    const uint64_t pages = (size / PAGE) + 2u;
    int is = 0;
    if (size <= ETCS_MEMORY_MOST && (end == 0u || end == had)
        && __builtin_wasm_memory_grow(0, (size_t)pages) != SIZE_MAX) {
        const uint64_t from = end == 0u ? (uint64_t)(uintptr_t)&__heap_base : had;
        end = had + (pages * PAGE);
        is = from == had ? etcs_piece_more(end - from) : (int)(etcs_memory_use(&__heap_base, end - from) == ETCS_UNIT_OK);
    }
    return is;
}

void *etcs_memory_take(uint64_t size) {
    void *piece = etcs_piece_take(size);
    if (piece == NULL && has_grown(size) != 0) {
        piece = etcs_piece_take(size);
    }
    return piece;
}

void etcs_memory_give(void *piece) {
    if (piece != NULL) {
        etcs_piece_give(piece);
    }
}

rattle_tried rattle_alloc(uint64_t size, uint64_t align) {
    (void)align;
    return rattle_result(etcs_memory_take(size));
}

rattle_tried rattle_realloc(void *piece, uint64_t kept, uint64_t size, uint64_t align) {
    void *other = etcs_piece_resize(piece, size);
    (void)kept;
    (void)align;
    if (other == NULL && has_grown(size) != 0) {
        other = etcs_piece_resize(piece, size);
    }
    return rattle_result(other);
}

void rattle_dealloc(void *piece) {
    etcs_piece_give(piece);
}
