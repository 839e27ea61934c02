/* What the player needs of the machine that it runs on. */
#ifndef MACHINE_H
#define MACHINE_H

#include <stddef.h>
#include <stdint.h>

/* The table is the file calls.table in the directory that the machine, or its emulator, was started
 * in. 1 if there is one. */
int machine_open_table(void);

/* Reads up to n octets of the table; fewer only at its end. */
size_t machine_read_table(uint8_t *octets, size_t n);

/* The memory that nothing else uses; it begins at a multiple of 8. */
uint8_t *machine_arena(size_t *size);

#endif
