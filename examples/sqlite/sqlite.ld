ENTRY(_start)

SECTIONS {
    . = 0x10000;
    .text : { *(.text .text.*) }
    . = ALIGN(0x1000) + 0x100000;
    .rodata : { *(.rodata .rodata.* .srodata .srodata.*) }
    .data : { *(.data .data.* .sdata .sdata.*) }
    .bss : { *(.bss .bss.* .sbss .sbss.* COMMON) }
    /DISCARD/ : { *(.eh_frame .comment .riscv.attributes .note*) }
}
