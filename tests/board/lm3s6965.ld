/* The LM3S6965 board, which QEMU gives any processor of the kind: here a Cortex-M0. */
STACK = 6K;
MEMORY
{
    ROM : ORIGIN = 0x00000000, LENGTH = 256K
    RAM : ORIGIN = 0x20000000, LENGTH = 64K
}
INCLUDE sections.ld
