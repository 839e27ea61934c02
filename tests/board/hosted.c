/* The player's machine where there is an operating system. */
#include "machine.h"

#include <stdio.h>

static FILE *table;

int machine_open_table(void)
{
    table = fopen("calls.table", "rb");
    return table != NULL;
}

size_t machine_read_table(uint8_t *octets, size_t n)
{
    return fread(octets, 1, n, table);
}

uint8_t *machine_arena(size_t *size)
{
    static uint64_t arena[1 << 20];
    *size = sizeof arena;
    return (uint8_t *)arena;
}
