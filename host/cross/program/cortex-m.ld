/*
 * Code at 0, MEMORY bytes of memory at 0x20000000. The stack stands first and takes what the rest leaves: what runs over its
 * end is trapped.
 */
ENTRY(begin)
SECTIONS
{
    . = 0;
    .text : { KEEP(*(.vectors)) *(.text*) *(.rodata*) }
    . = 0x20000000;
    .stack (NOLOAD) : { . += (MEMORY - SIZEOF(.data) - SIZEOF(.bss) - 64) & ~7; stack_top = .; }
    .data : { *(.data*) }
    .bss : { *(.bss*) *(COMMON) }
    ASSERT(. <= 0x20000000 + MEMORY, "the program does not fit")
    /DISCARD/ : { *(.ARM.*) *(.comment) *(.note*) }
}
