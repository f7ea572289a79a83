/* QEMU's board mps2-an500, a Cortex-M7: the program at 0, which is a memory too, what is zero first and the stack
   at 0x20000000, what is large in that at 0x60000000, from
   0x60D00000 on the script. */
MEMORY {
    CODE (rx) : ORIGIN = 0x00000000, LENGTH = 4M
    DATA (rw) : ORIGIN = 0x20000000, LENGTH = 4M
    LARGE (rw) : ORIGIN = 0x60000000, LENGTH = 13M
}
ENTRY(m7_start)
SECTIONS {
    .text : { KEEP(*(.vectors)) *(.text .text.* .rodata .rodata.*) } >CODE
    .ARM.exidx : { *(.ARM.exidx*) } >CODE
    .data : { *(.data .data.*) } >CODE
    .bss (NOLOAD) : { *(.bss .bss.* COMMON) } >DATA
    .large (NOLOAD) : { *(.large) } >LARGE
}
