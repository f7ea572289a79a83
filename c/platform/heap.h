/* What the proved library asks of its surroundings for memory, as the toolchain's own C code defines it over malloc. */
#ifndef ETCS_HEAP_H
#define ETCS_HEAP_H

#include <stddef.h>
#include <stdint.h>

/* Whether there is memory, and where. The pointer is not null in either case. */
typedef struct {
    uint64_t is_there;
    void *at;
} rattle_tried;

/* A piece of so many bytes, none included; `align` divides 16. */
rattle_tried rattle_alloc(uint64_t size, uint64_t align);

/* The same piece with so many bytes, the first `kept` of which are as they were; it may move. Where it fails the piece
 * is as it was. */
rattle_tried rattle_realloc(void *piece, uint64_t kept, uint64_t size, uint64_t align);

/* Gives back what one of the two answered. */
void rattle_dealloc(void *piece);

/* What both calls return: the piece, or that there is none. */
static inline rattle_tried rattle_result(void *at) {
    static uint8_t nothing[16];
    const rattle_tried tried = {at != NULL ? 1u : 0u, at != NULL ? at : nothing};
    return tried;
}

#endif
