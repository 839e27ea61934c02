/*
 * One call as it goes to the library and comes back, on a machine whose programs cannot link it. A
 * request is a head, which has the call's place in calls.h and its arguments in order, and then the
 * octets of each slice in that order. An answer is the library's number in 8 octets and then each
 * room as left, in order. Both machines have the low octet first.
 */
#ifndef CALL_H
#define CALL_H

enum call {
#define CALL(answer, name, parameters, arguments) CALL_##name,
#include "calls.h"
#undef CALL
};

enum { MOST_ARGUMENTS = 16 };

/* What an argument is; a room is a slice that is written. */
enum kind { A_NUMBER, OCTETS_LENT, ROOM_LENT };

struct argument {
    /* the number, in two's complement if it has a sign, or how many octets the slice has */
    __UINT64_TYPE__ number;
    __UINT8_TYPE__ kind;
    /* 1: a slice of length 0 that is lent as a null pointer */
    __UINT8_TYPE__ null;
    /* 1: the slice is the one sent last in this place, and is not in this request */
    __UINT8_TYPE__ kept;
    __UINT8_TYPE__ unused[5];
};

struct head {
    __UINT64_TYPE__ call;
    struct argument arguments[MOST_ARGUMENTS];
};

/* More octets than any test lends: behind a head, and as rooms. */
enum { MOST_REQUEST = 1 << 23, MOST_ROOMS = 1 << 18 };

/*
 * A slice to read as large as a filter table or a store stays with the library until another is lent
 * in the same place: sent with each call it would take most of the time.
 */
enum { LEAST_KEPT = 1 << 12, MOST_KEPT = 1 << 21 };

static inline int stays(const struct argument *a)
{
    return a->kind == OCTETS_LENT && a->number >= LEAST_KEPT && a->number <= MOST_KEPT;
}

/* How many octets of an argument stand behind the head, and how many in the answer. */
static inline __SIZE_TYPE__ sent(const struct argument *a)
{
    return a->kind == A_NUMBER || a->kept ? 0 : a->number;
}

static inline __SIZE_TYPE__ sent_back(const struct argument *a)
{
    return a->kind == ROOM_LENT ? a->number : 0;
}

#endif
