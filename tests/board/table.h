/*
 * A table of calls and answers, as rust/calls writes it and play.c and play.js play it. Every
 * number has its low octet first.
 *
 *   8 octets   mark: KDCALLS1
 *   4 octets   how many calls
 *   4 octets   for each of 13 places: the most octets that a slice in this place has
 *
 * Then the calls. A place is an argument's position in tests/emulated/calls.h, a slice being one.
 *
 *   1 octet    the function, by its position in tests/emulated/calls.h
 *              then each argument in its order, a number or a slice
 *   8 octets   the answer, as a caller widens it to 64 bits
 *              then each room in its order, as the call leaves it
 *
 * A number is 4 octets, one with a sign 8 in two's complement. A slice to read and a room are told
 * alike:
 *
 *   00h                        a null pointer with length 0
 *   01h                        what the last call with a slice here that is not null left there
 *   02h, length (4), octet     so many times this octet
 *   03h, length (4), octets    these octets
 *
 * A room afterwards, where only what changed is told: start (4), length (4) and so many octets from
 * there on. All others have to be as they were, and so has every slice that is not a room.
 */
#ifndef TABLE_H
#define TABLE_H

#define TABLE_MARK "KDCALLS1"

enum { TABLE_MARK_SIZE = 8, TABLE_PLACES = 13 };

enum { TABLE_NULL = 0, TABLE_KEPT = 1, TABLE_FILLED = 2, TABLE_SENT = 3 };

#endif
