/*
 * What a debugger, or QEMU with -semihosting, does for a program on a board: Arm's semihosting, by
 * its breakpoint on Cortex-M and by its three instructions on RISC-V.
 */
#ifndef SEMIHOSTING_H
#define SEMIHOSTING_H

#include <stddef.h>
#include <stdint.h>

enum {
    SEMIHOSTING_OPEN = 0x01,
    SEMIHOSTING_WRITE_TEXT = 0x04,
    SEMIHOSTING_READ = 0x06,
    SEMIHOSTING_EXIT = 0x18
};

enum { SEMIHOSTING_ENDED_WELL = 0x20026, SEMIHOSTING_ENDED_BADLY = 0x20023 };

static inline uintptr_t semihosting(uintptr_t operation, uintptr_t argument)
{
#if defined __riscv
    register uintptr_t answer __asm__("a0") = operation;
    register uintptr_t given __asm__("a1") = argument;
    __asm__ volatile(".balign 16\n\t"
                     ".option push\n\t"
                     ".option norvc\n\t"
                     "slli zero, zero, 0x1f\n\t"
                     "ebreak\n\t"
                     "srai zero, zero, 7\n\t"
                     ".option pop"
                     : "+r"(answer)
                     : "r"(given)
                     : "memory");
#else
    register uintptr_t answer __asm__("r0") = operation;
    register uintptr_t given __asm__("r1") = argument;
    __asm__ volatile("bkpt 0xab" : "+r"(answer) : "r"(given) : "memory");
#endif
    return answer;
}

/* Text that ends with 0. */
static inline void say(const char *text)
{
    semihosting(SEMIHOSTING_WRITE_TEXT, (uintptr_t)text);
}

/* The program's end, well or badly: QEMU ends with status 0 or 1. */
static inline void leave(int well)
{
    int how = well ? SEMIHOSTING_ENDED_WELL : SEMIHOSTING_ENDED_BADLY;
    semihosting(SEMIHOSTING_EXIT, (uintptr_t)how);
}

#endif
