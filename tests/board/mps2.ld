/* Arm's MPS2 board, as QEMU's mps2-an385 (Cortex-M3) and mps2-an386 (Cortex-M4) have it. */
STACK = 64K;
MEMORY
{
    ROM : ORIGIN = 0x00000000, LENGTH = 4M
    RAM : ORIGIN = 0x21000000, LENGTH = 16M
}
INCLUDE sections.ld
