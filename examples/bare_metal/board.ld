/* The board `virt` of QEMU: its memory begins at 0x40000000. */
ENTRY(_start)
SECTIONS
{
    . = 0x40100000;
    .text : { KEEP(*(.text.start)) *(.text .text.*) }
    .rodata : { *(.rodata .rodata.*) }
    .data : { *(.data .data.*) *(.got .got.*) }
    . = ALIGN(16);
    bss_from = .;
    .bss : { *(.bss .bss.*) *(COMMON) }
    . = ALIGN(16);
    bss_to = .;
    stack_guard = .;
    . = . + 0x1000;
    stack_end = .;
    . = . + 0x40000; /* etcs_image_why takes most of it */
    stack_top = .;
    . = . + 0x1000;
    brake_stack_top = .;
    /DISCARD/ : { *(.comment) *(.note .note.*) *(.eh_frame*) }
}
