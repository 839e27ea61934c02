/* The player's machine on a board: the table by semihosting, the arena between data and stack. */
#include "machine.h"

#include "../../examples/board/semihosting.h"

extern uint8_t arena_start[], arena_end[];

static uintptr_t table;

int machine_open_table(void)
{
    static const char name[] = "calls.table";
    /* mode 1 reads octets */
    const uintptr_t request[3] = {(uintptr_t)name, 1, sizeof name - 1};
    table = semihosting(SEMIHOSTING_OPEN, (uintptr_t)request);
    return table != UINTPTR_MAX;
}

size_t machine_read_table(uint8_t *octets, size_t n)
{
    const uintptr_t request[3] = {table, (uintptr_t)octets, n};
    size_t missing = semihosting(SEMIHOSTING_READ, (uintptr_t)request);
    return missing > n ? 0 : n - missing;
}

uint8_t *machine_arena(size_t *size)
{
    *size = (size_t)(arena_end - arena_start);
    return arena_start;
}
