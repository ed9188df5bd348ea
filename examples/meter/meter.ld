/* 64 KiB of flash and 16 KiB of RAM. Text is a segment of its own, and .data is loaded into flash. Text stands last there:
   what packing frees lies behind text, so the image gets shorter by it. .bss is a segment of its own, or lld would have it
   loaded into flash behind .data. */
OUTPUT_ARCH(riscv)
ENTRY(_start)

MEMORY
{
    flash (rx) : ORIGIN = 0x00010000, LENGTH = 64K
    ram (rw) : ORIGIN = 0x20000000, LENGTH = 16K
}

PHDRS
{
    text PT_LOAD FLAGS(5);
    constants PT_LOAD FLAGS(4);
    data PT_LOAD FLAGS(6);
    zeros PT_LOAD FLAGS(6);
}

SECTIONS
{
    .rodata : { *(.rodata .rodata.* .srodata .srodata.*) . = ALIGN(4); } > flash :constants
    .data : {
        data_start = .;
        *(.data .data.* .sdata .sdata.*)
        . = ALIGN(4);
        data_end = .;
    } > ram AT > flash :data
    data_in_flash = LOADADDR(.data);
    .bss : {
        bss_start = .;
        *(.bss .bss.* .sbss .sbss.* COMMON)
        . = ALIGN(4);
        bss_end = .;
    } > ram AT > ram :zeros
    .text data_in_flash + SIZEOF(.data) : { *(.text.start) *(.text .text.*) } > flash :text
    /DISCARD/ : { *(.comment) *(.riscv.attributes) *(.eh_frame) *(.note.*) }
}
