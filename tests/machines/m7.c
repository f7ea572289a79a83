/* The driver on a Cortex-M7 without an operating system: the script lies where QEMU's loader put it, the answers go to the board's serial line. */
#include "etcs_memory.h"
#include "platform.h"

static const volatile uint8_t *script = (const volatile uint8_t *)UINT32_C(0x60D00000);
static volatile uint32_t *const serial = (volatile uint32_t *)UINT32_C(0x40004000); /* data, state, control, -, divider */
static _Alignas(16) uint8_t buffer[2 * ETCS_MEMORY_BYTES(264, 400, 9000, 9000)] __attribute__((section(".large")));

int next_char(void) {
    const int byte = *script;
    if (byte > 0)
        script++;
    return byte;
}

void put_char(char of) {
    while ((serial[1] & 1u) != 0u) {
    }
    serial[0] = (uint8_t)of;
}

/* QEMU ends, with status 0 where `status` is 0. */
static void ends(uint32_t status) {
    register uint32_t call __asm__("r0") = 0x18;
    register uint32_t reason __asm__("r1") = status == 0u ? 0x20026u : 0x20023u;
    __asm__ volatile("bkpt 0xAB" : : "r"(call), "r"(reason) : "memory");
    for (;;) {
    }
}

void m7_start(void);
void m7_start(void) {
    serial[4] = 16;
    serial[2] = 1;
    if (etcs_memory_use(buffer, sizeof buffer) != ETCS_UNIT_OK)
        ends(1);
    drive();
    ends(0);
}

/* What an exception, such as an access that isn't allowed, ends in. */
static void fault(void) {
    ends(2);
}

typedef void (*vector)(void);
__attribute__((section(".vectors"), used)) static const struct {
    uint32_t stack;
    vector start, others[14];
} vectors = {UINT32_C(0x20400000), m7_start, {fault, fault, fault, fault, fault, fault, fault, fault, fault, fault, fault, fault, fault, fault}};
