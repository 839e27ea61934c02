/* What lies where: ROM and RAM are named by the script that includes this one. STACK octets at the
   end of RAM are the stack's; what is left between is the player's arena. */
SECTIONS
{
    .text :
    {
        KEEP(*(.first))
        *(.text .text.* .rodata .rodata.* .srodata .srodata.*)
        . = ALIGN(8);
    } > ROM
    .data :
    {
        data_start = .;
        *(.data .data.* .sdata .sdata.*)
        . = ALIGN(8);
        data_end = .;
    } > RAM AT > ROM
    data_load = LOADADDR(.data);
    .bss (NOLOAD) :
    {
        bss_start = .;
        *(.bss .bss.* .sbss .sbss.* COMMON)
        . = ALIGN(8);
        bss_end = .;
    } > RAM
    arena_start = bss_end;
    stack_top = ORIGIN(RAM) + LENGTH(RAM);
    arena_end = stack_top - STACK;
    ASSERT(arena_start <= arena_end, "no room for the stack")
    /DISCARD/ : { *(.ARM.exidx* .ARM.extab* .eh_frame* .comment .note*) }
}
