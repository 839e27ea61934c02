/* What the board's start gives to a program and wants of it. */
#ifndef BOARD_H
#define BOARD_H

/* Returns 1 if all went well. */
int main(void);

/* The octets of stack used since the start, at its deepest. */
unsigned stack_used(void);

#endif
