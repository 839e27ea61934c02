/* QEMU's RISC-V board "virt", which begins at its memory's first octet. */
STACK = 64K;
MEMORY
{
    ROM : ORIGIN = 0x80000000, LENGTH = 16M
    RAM : ORIGIN = 0x81000000, LENGTH = 16M
}
INCLUDE sections.ld
