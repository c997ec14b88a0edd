/* The guest's bytes, from its first instruction on. What begins as zeros comes after them. */
ENTRY(start)
SECTIONS
{
    . = START;
    .text : { *(.text.start) *(.text*) }
    .data : { *(.rodata* .srodata* .data* .sdata*) }
    .bss : { *(.bss* .sbss*) }
    /DISCARD/ : { *(.comment .note* .riscv.attributes .eh_frame*) }
}
