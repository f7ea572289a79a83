/* The least program without a C library: it links over all of libetcs_unit_no_malloc.a, by -nostdlib and without -Wl,--gc-sections. It isn't run. */
#include "etcs_memory.h"

int main(void);
void _start(void);

static uint8_t memory[ETCS_MEMORY_BYTES(16, 32, 100, 100)];
static etcs_unit unit;

int main(void) {
    return etcs_memory_use(memory, sizeof memory) == ETCS_UNIT_OK && etcs_unit_begin(&unit, 25, ETCS_COLD_UNKNOWN) == ETCS_UNIT_OK;
}

void _start(void) {
    for (;;)
        (void)main();
}
