/* A fault of examples/bare_metal in its 50th cycle, put before its clock: the program hangs, reads where no memory is, or has
 * written below its stack. */
#ifndef __ASSEMBLER__
#include "board.h"
#include "etcs_unit.h"

static inline uint32_t faulty_clock(etcs_unit *unit, uint64_t moment_ms) {
    if (moment_ms == 5000u) {
#if defined(HANGS)
        for (;;) {
        }
#elif defined(CRASHES)
        (void)*(volatile uint8_t *)UINT64_C(0xC0000000);
#else
        *(volatile uint8_t *)&stack_guard[0xFF8] = 0;
#endif
    }
    return etcs_unit_clock(unit, moment_ms);
}

#define etcs_unit_clock faulty_clock
#endif
