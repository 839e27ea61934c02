/*
 * What the rows of each medium share: the meaning and the payload that rust/bench has too, and how
 * a row is called and told. tools/count-rows runs them all.
 */
#ifndef ROWS_H
#define ROWS_H

#include <stddef.h>

#include "klumdray.h"
#include "reference.h"

/* A function that makes one call of one side. The tool counts from where control leaves it for the
 * side's code until it is back, so that it must stay a function. */
#define COUNTED __attribute__((noinline)) static void

enum { PRIORITY = 3, SOURCE = 0x11FE, GROUP = 1, DESTINATION = 0x1234, COUNT = 6 };
enum { INDICATION = 0x29 };

/* The largest thing written is a tunnelling request with LG 254. */
enum { LARGEST = 274 };

/* Each octet is its place. */
extern uint8_t payload[255];

/* The answers of the last call: the library's, and the reference's as it leaves it or as a word. */
extern uint64_t library;
extern struct answer reference;
extern uint64_t word;

/* Calls one side after the other, each so often that the last call finds everything in place. */
void call_both(void (*of_library)(void), void (*of_reference)(void));

/* Ends the row of the calls just made: its name, which the tool reads, or the end of the program
 * where the two sides did not do the same, or not what the row says. */
void tell_row(int is_right, const char *form, ...);

void tell_frame_rows(void);
void tell_step_rows(void);
void tell_tracer_rows(void);
void tell_tunnelling_rows(void);
void tell_leak_rows(void);

#endif
