/*
 * This machine's side: the functions of klumdray.h, each handed to the proved library in its
 * emulated process. EMULATOR and PROGRAM are the paths that tools/emulate-library found and made.
 */
#define _GNU_SOURCE
#include "call.h"
#include "klumdray.h"

#include <fcntl.h>
#include <stdio.h>
#include <stdlib.h>
#include <string.h>
#include <sys/uio.h>
#include <unistd.h>

/* Each thread has a process of its own, which ends when this program does. */
static __thread int to_library = -1, from_library = -1;

static void fail(const char *what)
{
    perror(what);
    abort();
}

static void start(void)
{
    int there[2], back[2];
    if (pipe2(there, O_CLOEXEC) != 0 || pipe2(back, O_CLOEXEC) != 0)
        fail("pipe");
    switch (fork()) {
    case -1:
        fail("fork");
        break;
    case 0:
        dup2(there[0], 0);
        dup2(back[1], 1);
        execl(EMULATOR, EMULATOR, PROGRAM, (char *)NULL);
        _exit(127);
    }
    close(there[0]);
    close(back[1]);
    to_library = there[1];
    from_library = back[0];
}

static void send_all(struct iovec *parts, int n)
{
    while (n > 0) {
        ssize_t sent = writev(to_library, parts, n);
        if (sent < 0)
            fail("write to the library");
        for (; n > 0 && (size_t)sent >= parts->iov_len; parts++, n--)
            sent -= (ssize_t)parts->iov_len;
        if (n > 0) {
            parts->iov_base = (char *)parts->iov_base + sent;
            parts->iov_len -= (size_t)sent;
        }
    }
}

static void receive_all(uint8_t *octets, size_t n)
{
    while (n > 0) {
        ssize_t more = read(from_library, octets, n);
        if (more <= 0)
            fail("read from the library");
        octets += more;
        n -= (size_t)more;
    }
}

static struct iovec part(const void *octets, size_t n)
{
    return (struct iovec){(void *)(uintptr_t)octets, n};
}

/* Sends a head and the parts behind it. The answer has n octets behind its number. */
static const uint8_t *exchange(struct iovec *parts, int count, size_t n)
{
    static __thread uint8_t answer[sizeof(uint64_t) + MOST_ROOMS];
    if (to_library < 0)
        start();
    send_all(parts, count);
    receive_all(answer, sizeof(uint64_t) + n);
    return answer;
}

/* As memcpy, but null pointers do where n is 0. */
static void copy(uint8_t *to, const uint8_t *from, size_t n)
{
    if (n > 0)
        memcpy(to, from, n);
}

/* A slice as it was sent last in its place. */
struct kept {
    uint8_t *octets;
    size_t length;
};

/* Whether a slice is the one sent last; if not, it is now. */
static uint8_t is_kept(struct kept *last, const uint8_t *octets, size_t n)
{
    if (n == last->length && memcmp(octets, last->octets, n) == 0)
        return 1;
    free(last->octets);
    last->octets = malloc(n);
    if (!last->octets)
        fail("malloc");
    last->length = n;
    memcpy(last->octets, octets, n);
    return 0;
}

/* An argument: its number, or its octets and how many they are. */
struct given {
    enum kind kind;
    uint64_t number;
    uint8_t *octets;
};

/* An argument as the head of a request has it. */
static struct argument described(size_t place, const struct given *given)
{
    static __thread struct kept last[MOST_ARGUMENTS];
    struct argument a = {.number = given->number, .kind = (uint8_t)given->kind};
    a.null = a.kind != A_NUMBER && !given->octets;
    a.kept = stays(&a) && is_kept(&last[place], given->octets, given->number);
    return a;
}

/* Puts the rooms, one behind the other as the library has left them, where they were lent. */
static void take_rooms(const struct given *given, size_t count, const uint8_t *rooms)
{
    for (size_t i = 0; i < count; i++)
        if (given[i].kind == ROOM_LENT) {
            copy(given[i].octets, rooms, given[i].number);
            rooms += given[i].number;
        }
}

static uint64_t hand_on(enum call call, const struct given *given, size_t count)
{
    struct head head = {.call = call};
    struct iovec parts[1 + MOST_ARGUMENTS] = {part(&head, sizeof head)};
    size_t all = 0, rooms = 0;
    uint64_t number;
    if (count > MOST_ARGUMENTS)
        fail("more arguments than a head has");
    for (size_t i = 0; i < count; i++) {
        struct argument *a = &head.arguments[i];
        *a = described(i, &given[i]);
        parts[1 + i] = part(given[i].octets, sent(a));
        all += sent(a);
        rooms += sent_back(a);
    }
    if (all > MOST_REQUEST || rooms > MOST_ROOMS)
        fail("more octets than the library's process takes");
    const uint8_t *answer = exchange(parts, 1 + (int)count, rooms);
    memcpy(&number, answer, sizeof number);
    take_rooms(given, count, answer + sizeof number);
    return number;
}

#define LISTED(...) {__VA_ARGS__}
#define NUMBER(place, name) {A_NUMBER, name, NULL}
#define SIGNED(place, name) {A_NUMBER, (uint64_t)name, NULL}
#define OCTETS(place, name, size) {OCTETS_LENT, size, (uint8_t *)(uintptr_t)name}
#define ROOM(place, name, size) {ROOM_LENT, size, name}
#define CALL(answer, name, parameters, arguments)                                   \
    answer name parameters                                                          \
    {                                                                               \
        const struct given given[] = LISTED arguments;                              \
        return (answer)hand_on(CALL_##name, given, sizeof given / sizeof given[0]); \
    }
#include "calls.h"
