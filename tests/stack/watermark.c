/*
 * How much stack each exported call takes: what lies below the stack pointer is filled with a
 * pattern before the call, and the lowest octet that no longer has it is kept, less that of an
 * empty call. An octet that a call only sets aside and never writes at its lowest end is not seen;
 * docs/BOARDS.md has the compiler's own figures beside these.
 */
#include <stdio.h>

#include "inputs.h"

/* More than any call takes. */
enum { DEPTH = 6000 };

/* A register is put down whole, also one whose first octets are like the pattern. */
enum { WORD = 4 };

static inline __attribute__((always_inline)) uintptr_t stack_pointer(void)
{
    uintptr_t pointer;
#if defined __riscv
    __asm__ volatile("mv %0, sp" : "=r"(pointer));
#else
    __asm__ volatile("mov %0, sp" : "=r"(pointer));
#endif
    return pointer;
}

/* No call is made between the filling and the call that is measured: all below the pointer is
 * free. */
__attribute__((noinline)) static uintptr_t lowest_over(void (*call)(void), uint8_t pattern)
{
    volatile uint8_t *end = (volatile uint8_t *)stack_pointer(), *octet = end - DEPTH;
    while (octet < end)
        *octet++ = pattern;
    call();
    octet = end - DEPTH;
    while (*octet == pattern)
        octet++;
    return (uintptr_t)octet / WORD * WORD;
}

/* With two patterns, since a call may leave an octet that is like one of them. */
static uintptr_t lowest_of(void (*call)(void))
{
    uintptr_t one = lowest_over(call, 0xA5), other = lowest_over(call, 0x5A);
    return one < other ? one : other;
}

static void tell_figure(const char *name, unsigned octets)
{
    printf("%s %u\n", name, octets);
}

int main(void)
{
    measure_all();
    return 0;
}
