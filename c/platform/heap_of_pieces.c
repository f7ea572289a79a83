/* Memory for the proved library from a buffer of the maker's own (c/include/etcs_memory.h). */
#include "heap.h"
#include "pieces.h"

rattle_tried rattle_alloc(uint64_t size, uint64_t align) {
    (void)align; /* each piece is at an address that 16 divides */
    return rattle_result(etcs_piece_take(size));
}

rattle_tried rattle_realloc(void *piece, uint64_t kept, uint64_t size, uint64_t align) {
    (void)kept; /* all that fits is kept */
    (void)align;
    return rattle_result(etcs_piece_resize(piece, size));
}

void rattle_dealloc(void *piece) {
    etcs_piece_give(piece);
}
