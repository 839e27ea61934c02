/*
 * How much stack each exported call takes, on x86-64 Linux: it is run instruction by instruction
 * and the lowest stack pointer is kept, less that of an empty call. (Code for this machine may also
 * use the 128 octets below the stack pointer, which every stack has to leave free.)
 */
#define _GNU_SOURCE
#include <signal.h>
#include <stdio.h>
#include <ucontext.h>

#include "inputs.h"

enum { HANDLER_STACK = 1 << 16 };

static uint8_t handler_stack[HANDLER_STACK];
static volatile uintptr_t lowest;

static void keep_lowest(int number, siginfo_t *info, void *context)
{
    uintptr_t pointer = (uintptr_t)((ucontext_t *)context)->uc_mcontext.gregs[REG_RSP];
    (void)number, (void)info;
    if (pointer < lowest)
        lowest = pointer;
}

/* The processor's trap flag stops it after each instruction. */
static uintptr_t lowest_of(void (*call)(void))
{
    lowest = UINTPTR_MAX;
    __asm__ volatile("pushfq; orq $0x100, (%%rsp); popfq" ::: "memory", "cc");
    call();
    __asm__ volatile("pushfq; andq $-0x101, (%%rsp); popfq" ::: "memory", "cc");
    return lowest;
}

static void handle_traps(void)
{
    stack_t own = {.ss_sp = handler_stack, .ss_size = sizeof handler_stack};
    struct sigaction action = {.sa_sigaction = keep_lowest, .sa_flags = SA_SIGINFO | SA_ONSTACK};
    sigaltstack(&own, NULL);
    sigaction(SIGTRAP, &action, NULL);
}

static void tell_figure(const char *name, unsigned octets)
{
    printf("%s %u\n", name, octets);
}

int main(void)
{
    handle_traps();
    measure_all();
    return 0;
}
