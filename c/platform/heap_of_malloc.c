/* Memory for the proved library from malloc, where the toolchain has no object of its own for it. */
#include <stdlib.h>

#include "heap.h"

/* malloc may answer NULL to 0, so an alignment is asked for then. */
static size_t at_least(uint64_t size, uint64_t align) {
    return (size_t)(size != 0u ? size : align);
}

rattle_tried rattle_alloc(uint64_t size, uint64_t align) {
    return rattle_result(malloc(at_least(size, align)));
}

rattle_tried rattle_realloc(void *piece, uint64_t kept, uint64_t size, uint64_t align) {
    (void)kept; /* realloc keeps all that fits */
    return rattle_result(realloc(piece, at_least(size, align)));
}

void rattle_dealloc(void *piece) {
    free(piece);
}
