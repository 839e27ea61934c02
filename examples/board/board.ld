/* A small board: 64 kB of flash, 8 kB of RAM. The link fails where a program does not fit. */
MEMORY
{
    FLASH (rx) : ORIGIN = 0x00000000, LENGTH = 64K
    RAM (rwx) : ORIGIN = 0x20000000, LENGTH = 8K
}

ENTRY(reset)

stack_top = ORIGIN(RAM) + LENGTH(RAM);

SECTIONS
{
    .text : { KEEP(*(.vectors)) *(.text*) *(.rodata*) } > FLASH
    .ARM.exidx : { *(.ARM.exidx*) } > FLASH
    data_kept = LOADADDR(.data);
    .data : { data_begin = .; *(.data*) . = ALIGN(4); data_end = .; } > RAM AT > FLASH
    .bss : { bss_begin = .; *(.bss*) *(COMMON) . = ALIGN(8); bss_end = .; } > RAM
    /* What is left is the stack's: at least 2 kB. */
    .stack (NOLOAD) : { stack_limit = .; . += 2K; } > RAM
}
