/* From reset to main, and the end: for Cortex-M and for RISC-V, by the symbols of sections.ld. */
#include "../../examples/board/semihosting.h"

#include <stdio.h>
#include <string.h>

extern uint8_t data_start[], data_end[], data_load[], bss_start[], bss_end[], stack_top[];

int main(void);
void begin(void);

static void end(int well)
{
    leave(well);
    for (;;) {
    }
}

/* Registers of floating point are off after reset. */
static void switch_on(void)
{
#if defined __ARM_FP
    volatile uint32_t *access = (volatile uint32_t *)0xE000ED88u;
    *access |= 0xF00000u;
    __asm__ volatile("dsb\n\tisb" : : : "memory");
#endif
}

void begin(void)
{
    switch_on();
    memcpy(data_start, data_load, (size_t)(data_end - data_start));
    memset(bss_start, 0, (size_t)(bss_end - bss_start));
    end(main() == 0);
}

#if defined __riscv

/* A fault ends the program: else the emulator would go on for ever. */
void fault(void);

__attribute__((aligned(4))) void fault(void)
{
    printf("fault\n");
    end(0);
}

__asm__(".section .first, \"ax\"\n"
        "    la sp, stack_top\n"
        "    la t0, fault\n"
        ".option push\n"
        ".option arch, +zicsr\n"
        "    csrw mtvec, t0\n"
        ".option pop\n"
        "    j begin\n"
        ".text\n");

#else

static void fault(void)
{
    printf("fault\n");
    end(0);
}

/* The stack, reset, and all exceptions that a program without interrupts can meet. */
struct vectors {
    uint8_t *stack;
    void (*entries[15])(void);
};

__attribute__((section(".first"), used)) static const struct vectors vectors = {
    stack_top,
    {begin, fault, fault, fault, fault, fault, fault, fault, fault, fault, fault, fault, fault,
     fault, fault}};

#endif
