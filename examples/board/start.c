/*
 * What runs before main: data is copied from flash, the rest is cleared, and the stack is filled
 * with a pattern, so that afterwards it is seen how deep it went.
 */
#include <stdint.h>

#include "board.h"
#include "semihosting.h"

extern uint32_t data_kept[], data_begin[], data_end[], bss_begin[], bss_end[];
extern uint32_t stack_limit[], stack_top[];

static const uint32_t UNUSED = 0xA5A5A5A5u;

void reset(void);

static void fill(uint32_t *from, const uint32_t *end, uint32_t word)
{
    while (from < end)
        *from++ = word;
}

void reset(void)
{
    uint32_t *to = data_begin, *lowest;
    const uint32_t *from = data_kept;
    while (to < data_end)
        *to++ = *from++;
    fill(bss_begin, bss_end, 0);
    /* Sixteen words below the stack's end are left to the filling itself. */
    __asm__ volatile("mov %0, sp" : "=r"(lowest));
    fill(stack_limit, lowest - 16, UNUSED);
    leave(main());
}

unsigned stack_used(void)
{
    const uint32_t *lowest = stack_limit;
    while (*lowest == UNUSED)
        lowest++;
    return (unsigned)((uintptr_t)stack_top - (uintptr_t)lowest);
}

/* A fault ends the program badly; QEMU's status tells. */
static void stuck(void)
{
    leave(0);
    for (;;)
        ;
}

static const uintptr_t vectors[16]
    __attribute__((section(".vectors"), used)) = {
        (uintptr_t)stack_top, (uintptr_t)reset, (uintptr_t)stuck, (uintptr_t)stuck,
        (uintptr_t)stuck,     (uintptr_t)stuck, (uintptr_t)stuck,
};
