/* The driver on the bare board: the script lies where QEMU's loader put it, the answers go to the serial line. */
#include "board.h"
#include "etcs_memory.h"
#include "platform.h"

static const volatile uint8_t *script = (const volatile uint8_t *)UINT64_C(0x48000000);
static _Alignas(16) uint8_t buffer[2 * ETCS_MEMORY_BYTES(264, 400, 9000, 9000)];

int next_char(void) {
    const int byte = *script;
    if (byte > 0)
        script++;
    return byte;
}

void put_char(char of) {
    board_put(of);
}

int main(void) {
    if (etcs_memory_use(buffer, sizeof buffer) == ETCS_UNIT_OK)
        drive();
    return 0;
}
