/* All in memory at 0x80000000, where the board begins. The stack stands in front, with nothing before it. */
ENTRY(_start)
SECTIONS
{
    . = 0x80000000;
    .text : { KEEP(*(.vectors)) *(.text*) *(.rodata*) *(.srodata*) }
    .data : { *(.data*) *(.sdata*) }
    .bss : { *(.bss*) *(.sbss*) *(COMMON) }
    .stack (NOLOAD) : { . = ALIGN(16); . += 65536; stack_top = .; }
    /DISCARD/ : { *(.comment) *(.note*) }
}
