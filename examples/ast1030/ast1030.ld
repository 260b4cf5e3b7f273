/* The AST1030 runs from its SRAM: 768 KB at 0, into which its boot ROM, or qemu -kernel, puts the program. */
ENTRY(reset)

MEMORY { SRAM (rwx) : ORIGIN = 0, LENGTH = 768K }

SECTIONS
{
    .text : { KEEP(*(.vectors)) *(.text*) *(.rodata*) } > SRAM
    .ARM.exidx : { *(.ARM.exidx*) } > SRAM
    .data : { . = ALIGN(4); *(.data*) } > SRAM
    .bss (NOLOAD) : { . = ALIGN(4); bss_begin = .; *(.bss*) *(COMMON) . = ALIGN(4); bss_end = .; } > SRAM
    .stack (NOLOAD) : { . = ALIGN(8); stack_begin = .; . += 8K; stack_end = .; } > SRAM
}
