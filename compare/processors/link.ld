/* A program from BASE on, with a megabyte of stack after its data. */
ENTRY(_start)
SECTIONS {
    . = BASE;
    .text : { *(.text.start) *(.text*) }
    .rodata : { *(.rodata*) }
    .data : { *(.data*) *(.sdata*) *(.got*) }
    .bss : { *(.bss*) *(.sbss*) *(COMMON) }
    . = ALIGN(16) + 0x100000;
    stack_top = .;
    /DISCARD/ : { *(.comment) *(.note*) *(.eh_frame*) }
}
