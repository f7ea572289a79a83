/* What is inside the C source of the library (tools/library --c), along with the proved module: where its memory begins, and a
 * place for what a call is handed. source.c calls these. */
#include "pieces.h"

/* The bytes of that place: a handle, a struct, and what the greatest request writes. */
#define SCRATCH_BYTES 9216

uint32_t etcs_source_begin(uint64_t size);
uint8_t *etcs_source_scratch(void);
uint32_t etcs_source_scratch_bytes(void);

extern uint8_t __heap_base; /* the linker's: where the memory is free from */

/* Of a memory of so many bytes, all that is free is for pieces. */
uint32_t etcs_source_begin(uint64_t size) {
    const uint64_t from = (uint64_t)(uintptr_t)&__heap_base;
    return (size > from) ? etcs_memory_use(&__heap_base, size - from) : (uint32_t)ETCS_UNIT_OUT_OF_RANGE;
}

static _Alignas(16) uint8_t scratch[SCRATCH_BYTES];

uint8_t *etcs_source_scratch(void) {
    return scratch;
}

uint32_t etcs_source_scratch_bytes(void) {
    return SCRATCH_BYTES;
}
