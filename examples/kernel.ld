/* A static image for rvvbox: code at 0x10000, which is where a kernel begins, and constants and data
   after it. No segment can be both written and executed. */
ENTRY(_start)

PHDRS
{
    code PT_LOAD FLAGS(5);
    constants PT_LOAD FLAGS(4);
    data PT_LOAD FLAGS(6);
}

SECTIONS
{
    . = 0x10000;
    .text : { *(.text .text.*) } :code
    . = ALIGN(0x1000);
    .rodata : { *(.rodata .rodata.* .srodata .srodata.*) } :constants
    . = ALIGN(0x1000);
    .data : { *(.data .data.* .sdata .sdata.*) } :data
    .bss : { *(.bss .bss.* .sbss .sbss.* COMMON) } :data
    /DISCARD/ : { *(.comment .note .note.* .riscv.attributes .eh_frame) }
}
