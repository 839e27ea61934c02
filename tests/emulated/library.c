/*
 * The x86-64 side: a program around the proved library, which runs under an emulator and
 * does one call for each request on its standard input. It has no C library, since a machine of
 * another kind has none for x86-64.
 */
#include "call.h"

typedef __UINT8_TYPE__ uint8_t;
typedef __UINT16_TYPE__ uint16_t;
typedef __UINT32_TYPE__ uint32_t;
typedef __UINT64_TYPE__ uint64_t;
typedef __INT64_TYPE__ int64_t;
typedef __SIZE_TYPE__ size_t;

#define CALL(answer, name, parameters, arguments) answer name parameters;
#include "calls.h"
#undef CALL

__asm__(".globl _start\n_start:\n xorl %ebp, %ebp\n andq $-16, %rsp\n call serve\n");

enum { READ = 0, WRITE = 1, EXIT = 60 };

static long kernel(long number, long first, void *second, long third)
{
    long answer;
    __asm__ volatile("syscall"
                     : "=a"(answer)
                     : "a"(number), "D"(first), "S"(second), "d"(third)
                     : "rcx", "r11", "memory");
    return answer;
}

/* Compiled code calls these wherever it finds a loop that does the same. */
void *memcpy(void *to, const void *from, size_t n)
{
    for (size_t i = 0; i < n; i++)
        ((uint8_t *)to)[i] = ((const uint8_t *)from)[i];
    return to;
}

void *memmove(void *to, const void *from, size_t n)
{
    if ((uint8_t *)to <= (const uint8_t *)from)
        return memcpy(to, from, n);
    while (n-- > 0)
        ((uint8_t *)to)[n] = ((const uint8_t *)from)[n];
    return to;
}

void *memset(void *to, int octet, size_t n)
{
    for (size_t i = 0; i < n; i++)
        ((uint8_t *)to)[i] = (uint8_t)octet;
    return to;
}

int memcmp(const void *a, const void *b, size_t n)
{
    const uint8_t *x = a, *y = b;
    for (size_t i = 0; i < n; i++)
        if (x[i] != y[i])
            return x[i] - y[i];
    return 0;
}

int bcmp(const void *a, const void *b, size_t n)
{
    return memcmp(a, b, n);
}

static uint8_t request[sizeof(struct head) + MOST_REQUEST];
static uint8_t answer[sizeof(uint64_t) + MOST_ROOMS];
static uint8_t kept[MOST_ARGUMENTS][MOST_KEPT];

/* An argument: its number, or its octets and how many they are. */
struct given {
    uint64_t number;
    uint8_t *octets;
};

#define NUMBER(place, name) (uint32_t)given[place].number
#define SIGNED(place, name) (int64_t)given[place].number
#define OCTETS(place, name, size) given[place].octets, given[place].number
#define ROOM(place, name, size) OCTETS(place, name, size)
#define CALL(answer, name, parameters, arguments) \
    case CALL_##name:                             \
        return name arguments;

static uint64_t do_call(uint64_t call, const struct given *given)
{
    switch (call) {
#include "calls.h"
    default:
        kernel(EXIT, 2, 0, 0);
        return 0;
    }
}

static size_t wanted(size_t have)
{
    const struct head *head = (const struct head *)request;
    size_t all = sizeof *head;
    if (have >= all)
        for (int i = 0; i < MOST_ARGUMENTS; i++)
            all += sent(&head->arguments[i]);
    return all;
}

static void receive(void)
{
    size_t have = 0;
    while (have < wanted(have)) {
        long more = kernel(READ, 0, request + have, (long)(sizeof request - have));
        if (more <= 0)
            kernel(EXIT, have == 0 ? 0 : 1, 0, 0);
        have += (size_t)more;
    }
}

static void reply(size_t n)
{
    for (size_t done = 0; done < n;) {
        long more = kernel(WRITE, 1, answer + done, (long)(n - done));
        if (more <= 0)
            kernel(EXIT, 1, 0, 0);
        done += (size_t)more;
    }
}

/* Lends each slice: a room where the answer is sent from, one that stays where it is kept. The
 * answer's length. */
static size_t lend(const struct head *head, struct given *given)
{
    uint8_t *octets = request + sizeof *head, *room = answer + sizeof(uint64_t);
    for (int i = 0; i < MOST_ARGUMENTS; i++) {
        const struct argument *a = &head->arguments[i];
        uint8_t *at = octets;
        if (a->kind == ROOM_LENT)
            at = memcpy(room, octets, sent(a));
        else if (stays(a))
            at = memcpy(kept[i], octets, sent(a));
        given[i] = (struct given){a->number, a->null ? 0 : at};
        octets += sent(a);
        room += sent_back(a);
    }
    return (size_t)(room - answer);
}

void serve(void)
{
    for (;;) {
        struct given given[MOST_ARGUMENTS];
        receive();
        const struct head *head = (const struct head *)request;
        size_t n = lend(head, given);
        uint64_t number = do_call(head->call, given);
        memcpy(answer, &number, sizeof number);
        reply(n);
    }
}
