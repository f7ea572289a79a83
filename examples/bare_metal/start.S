/* Where the board begins: one processor, in EL1. The proved library asks for what code of aarch64 for Linux asks for:
 * registers of floating point, and memory that may be read and written at any address (normal memory, so that the
 * memory management unit is on, and no check of alignment). */
    .section .text.start, "ax"
    .global _start
_start:
    ldr     x0, =stack_top
    mov     sp, x0
    ldr     x0, =vectors
    msr     vbar_el1, x0

    /* floating point and vectors */
    mov     x0, #(3 << 20)
    msr     cpacr_el1, x0
    isb

    /* the first GB is devices, the second one memory, both where they are */
    ldr     x0, =0xff00             /* kind 0: devices; kind 1: cached memory */
    msr     mair_el1, x0
    ldr     x0, =(25 | 1 << 8 | 1 << 10 | 3 << 12 | 1 << 23 | 2 << 32)
    msr     tcr_el1, x0
    ldr     x0, =spaces
    msr     ttbr0_el1, x0
    isb
    mrs     x0, sctlr_el1
    bic     x0, x0, #(1 << 1)       /* no check of alignment */
    ldr     x1, =(1 << 12 | 1 << 2 | 1)
    orr     x0, x0, x1
    dsb     sy
    msr     sctlr_el1, x0
    isb

    ldr     x0, =bss_from
    ldr     x1, =bss_to
1:  cmp     x0, x1
    b.hs    2f
    str     xzr, [x0], #8
    b       1b
2:  bl      main

    /* the board is switched off (PSCI) */
off:
    ldr     w0, =0x84000008
    hvc     #0
3:  wfi
    b       3b

    /* Each exception and the watchdog's interrupt end in the brake, on a stack of its own. A program without board_brake
     * is switched off. */
    .weak   board_brake
braked:
    ldr     x0, =brake_stack_top
    mov     sp, x0
    ldr     x0, =board_brake
    cbz     x0, off
    blr     x0
    b       off

    .balign 2048
vectors:
    .rept   16
    .balign 128
    b       braked
    .endr

    .section .data.spaces, "aw"
    .balign 4096
spaces:
    .quad   0x0060000000000401      /* devices: read and written, never run */
    .quad   0x0000000040000705      /* memory, shared */
    .fill   510, 8, 0
