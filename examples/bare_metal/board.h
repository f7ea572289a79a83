/* The board: one serial line, the stack with a guard below it, and a watchdog. */
#ifndef BOARD_H
#define BOARD_H

#include <stdint.h>

#include "etcs_executive.h"

extern uint8_t stack_guard[], stack_end[], stack_top[];

/* What an exception or the watchdog ends in, on a stack of its own (start.S): the program has it, and the board is switched
 * off after it. */
void board_brake(void);

static inline void board_put(char of) {
    *(volatile uint32_t *)UINT64_C(0x09000000) = (uint8_t)of;
}

/* Paints what of the stack isn't used yet, and the guard below it. */
static inline void board_paint(void) {
    uint8_t *const here = (uint8_t *)__builtin_frame_address(0) - 256;
    for (volatile uint8_t *at = stack_guard; at < here; at++)
        *at = ETCS_STACK_PAINT;
}

/* Feeds the watchdog: where this isn't called again within so many milliseconds, board_brake is. QEMU's `virt` has no
 * watchdog; its place is taken by the processor's virtual timer and its interrupt. Equipment has one of its own, with a clock
 * and a line to the brake that no program can stop. */
static inline void board_feed(uint64_t ms) {
    uint64_t hz;
    __asm__ volatile("mrs %0, cntfrq_el0" : "=r"(hz));
    __asm__ volatile("msr cntv_tval_el0, %0\n msr cntv_ctl_el0, %1\n isb" : : "r"(hz / 1000u * ms), "r"(UINT64_C(1)));
}

static inline void board_write(uint64_t at, uint32_t value) {
    *(volatile uint32_t *)at = value;
}

/* The moment now, by the board's clock. */
static inline uint64_t board_now_us(void) {
    uint64_t hz, count;
    __asm__ volatile("mrs %0, cntfrq_el0\n isb\n mrs %1, cntpct_el0" : "=r"(hz), "=r"(count));
    return (count / hz * 1000000u) + (count % hz * 1000000u / hz);
}

/* Sleeps until a moment. The other timer (its interrupt is 30) wakes the processor, which takes no interrupt meanwhile: that of
 * the watchdog is taken right after it. */
static inline void board_wait_until_us(uint64_t moment_us) {
    uint64_t hz;
    __asm__ volatile("mrs %0, cntfrq_el0" : "=r"(hz));
    while (board_now_us() < moment_us) {
        const uint64_t left = ((moment_us - board_now_us()) * (hz / 1000u) / 1000u) + 1u;
        __asm__ volatile("msr daifset, #2\n msr cntp_tval_el0, %0\n msr cntp_ctl_el0, %1\n isb\n wfi\n msr cntp_ctl_el0, xzr\n isb\n msr daifclr, #2\n isb"
                         : : "r"(left), "r"(UINT64_C(1)) : "memory");
    }
}

/* The board loses its power, and gets it back (PSCI). Only what lies above the program's memory stays. */
static inline void board_reset(void) {
    register uint64_t call __asm__("x0") = UINT64_C(0x84000009);
    __asm__ volatile("hvc #0" : "+r"(call) : : "memory");
}

/* Lets the timer's interrupt (27), and that of the sleep (30), through the interrupt controller to the processor, and feeds for the first time. */
static inline void board_watch(uint64_t ms) {
    board_feed(ms);
    board_write(UINT64_C(0x08000000), 1);
    board_write(UINT64_C(0x08000100), (UINT32_C(1) << 27) | (UINT32_C(1) << 30));
    board_write(UINT64_C(0x08010004), 0xFF);
    board_write(UINT64_C(0x08010000), 1);
    __asm__ volatile("msr daifclr, #2" : : : "memory");
}

/* Whether it was the watchdog that board_brake was called for. */
static inline int board_was_late(void) {
    return (*(volatile uint32_t *)UINT64_C(0x0801000C) & 0x3FFu) == 27u;
}

/* How many bytes of the stack were written to, from its beginning on. */
static inline uint64_t board_stack(void) {
    const uint8_t *at = stack_end;
    while (at < stack_top && *(const volatile uint8_t *)at == ETCS_STACK_PAINT)
        at++;
    return (uint64_t)(stack_top - at);
}

#endif
