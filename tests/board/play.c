/*
 * Plays a table of calls against the proved library and compares every answer, every octet of every
 * slice that was lent, and octets around each of them that were not. Ends well only if nothing
 * differs, the table was played to its end, and every function was called.
 */
#include "klumdray.h"
#include "machine.h"
#include "table.h"

#include <stdio.h>
#include <string.h>

/* The calls of the header. */
enum call {
#define CALL(answer, name, parameters, arguments) CALL_##name,
#include "../emulated/calls.h"
#undef CALL
    CALLS
};

enum kind { NO_ARGUMENT = 0, A_NUMBER, A_SIGNED_NUMBER, OCTETS_LENT, ROOM_LENT };

struct function {
    const char *name;
    uint8_t kinds[TABLE_PLACES + 1];
};

#define LISTED(...) {__VA_ARGS__}
#define NUMBER(place, name) A_NUMBER
#define SIGNED(place, name) A_SIGNED_NUMBER
#define OCTETS(place, name, size) OCTETS_LENT
#define ROOM(place, name, size) ROOM_LENT
#define CALL(answer, name, parameters, arguments) {#name, LISTED arguments},
static const struct function functions[CALLS] = {
#include "../emulated/calls.h"
};
#undef NUMBER
#undef SIGNED
#undef OCTETS
#undef ROOM
#undef CALL

/* An argument: its number, in two's complement if it has a sign, or its octets and how many they
 * are. */
struct given {
    uint64_t number;
    uint8_t *octets;
    uint64_t length;
};

#define NUMBER(place, name) (uint32_t)given[place].number
#define SIGNED(place, name) (int64_t)given[place].number
#define OCTETS(place, name, size) given[place].octets, given[place].length
#define ROOM(place, name, size) OCTETS(place, name, size)
#define CALL(answer, name, parameters, arguments) \
    case CALL_##name:                             \
        return name arguments;

static uint64_t do_call(unsigned call, const struct given *given)
{
    switch (call) {
#include "../emulated/calls.h"
    default:
        return UINT64_MAX;
    }
}

/* The octets before and behind each slice that are not lent, and what they hold. */
enum { GUARD = 16, GUARD_OCTET = 0xA5 };

/* Slices begin at every place of a word in turn, as a caller's may. */
enum { WORD = 4 };

/*
 * Where the slices of a place are lent from, and beside it how all of it has to be: the slice with
 * its guards. Both begin at the same place of a word, which the comparison is fast by.
 */
struct place {
    uint8_t *lent, *expected;
    uint32_t capacity, length, shift;
};

static struct place places[TABLE_PLACES];

/* The table is read through this; a board has little memory. */
static uint8_t chunk[256];
static size_t chunk_length, chunk_at;
/* 1 once the table has ended, or is none. */
static int is_broken;

static uint32_t calls_told, calls_done, differences;
static uint32_t calls_of[CALLS];

static void take(uint8_t *to, size_t n)
{
    while (n > 0) {
        if (chunk_at == chunk_length) {
            chunk_length = machine_read_table(chunk, sizeof chunk);
            chunk_at = 0;
        }
        size_t here = chunk_length - chunk_at < n ? chunk_length - chunk_at : n;
        if (here == 0) {
            is_broken = 1;
            memset(to, 0, n);
            return;
        }
        memcpy(to, chunk + chunk_at, here);
        to += here;
        n -= here;
        chunk_at += here;
    }
}

static uint8_t take_octet(void)
{
    uint8_t octet;
    take(&octet, 1);
    return octet;
}

static uint64_t take_number(size_t octets)
{
    uint64_t number = 0;
    for (size_t i = 0; i < octets; i++)
        number |= (uint64_t)take_octet() << 8 * i;
    return number;
}

static uint32_t take_32(void)
{
    return (uint32_t)take_number(4);
}

/* The octets of a place's memory, of which there are two. */
static size_t size_of(const struct place *place)
{
    return ((size_t)place->capacity + 2 * GUARD + 2 * WORD - 1) / WORD * WORD;
}

/* Shares the machine's memory out. 1 if it is enough. */
static int lay_out(void)
{
    size_t size, needed = 0;
    uint8_t *at = machine_arena(&size);
    for (int i = 0; i < TABLE_PLACES; i++)
        needed += 2 * size_of(&places[i]);
    printf("%u octets of memory for the slices, %u needed\n", (unsigned)size, (unsigned)needed);
    if (needed > size)
        return 0;
    for (int i = 0; i < TABLE_PLACES; i++) {
        struct place *place = &places[i];
        place->lent = at;
        place->expected = at + size_of(place);
        at += 2 * size_of(place);
        memset(place->lent, GUARD_OCTET, 2 * size_of(place));
    }
    return 1;
}

/* Reads mark, count and sizes. 1 if this is a table. */
static int take_head(void)
{
    char mark[TABLE_MARK_SIZE + 1] = {0};
    take((uint8_t *)mark, TABLE_MARK_SIZE);
    calls_told = take_32();
    for (int i = 0; i < TABLE_PLACES; i++)
        places[i].capacity = take_32();
    return !is_broken && strcmp(mark, TABLE_MARK) == 0;
}

/* The slice that a place holds. */
static uint8_t *slice_of(const struct place *place)
{
    return place->lent + GUARD + place->shift;
}

/* Takes a new slice: its octets, or one octet for all of them. */
static void take_slice(struct place *place, uint8_t how)
{
    uint32_t length = take_32();
    if (length > place->capacity) {
        is_broken = 1;
        return;
    }
    place->length = length;
    place->shift = calls_done % WORD;
    uint8_t *slice = slice_of(place);
    memset(slice - GUARD, GUARD_OCTET, GUARD);
    if (how == TABLE_FILLED)
        memset(slice, take_octet(), length);
    else
        take(slice, length);
    memset(slice + length, GUARD_OCTET, GUARD);
    memcpy(place->expected + place->shift, slice - GUARD, (size_t)length + 2 * GUARD);
}

static struct given take_argument(struct place *place, uint8_t kind)
{
    struct given given = {0, NULL, 0};
    if (kind == A_NUMBER || kind == A_SIGNED_NUMBER) {
        given.number = take_number(kind == A_NUMBER ? 4 : 8);
        return given;
    }
    uint8_t how = take_octet();
    if (how == TABLE_FILLED || how == TABLE_SENT)
        take_slice(place, how);
    else if (how != TABLE_KEPT && how != TABLE_NULL)
        is_broken = 1;
    if (how != TABLE_NULL) {
        given.octets = slice_of(place);
        given.length = place->length;
    }
    return given;
}

/* Takes what a room has to hold after the call. */
static void take_room(struct place *place, const struct given *given)
{
    uint32_t start = take_32(), length = take_32();
    if (start > given->length || length > given->length - start)
        is_broken = 1;
    else
        take(place->expected + GUARD + place->shift + start, length);
}

/* A slice with its guards: as it is, as it has to be, and how many octets that is. */
static const uint8_t *found_in(const struct place *place)
{
    return place->lent + place->shift;
}

static const uint8_t *expected_in(const struct place *place)
{
    return place->expected + place->shift;
}

static size_t compared(const struct place *place)
{
    return (size_t)place->length + 2 * GUARD;
}

/* The places in which something is not as expected, each by its bit. */
static uint32_t wrong_places(unsigned call, const struct given *given)
{
    uint32_t wrong = 0;
    for (int i = 0; functions[call].kinds[i] != NO_ARGUMENT; i++)
        if (given[i].octets &&
            memcmp(found_in(&places[i]), expected_in(&places[i]), compared(&places[i])) != 0)
            wrong |= (uint32_t)1 << i;
    return wrong;
}

/* Makes a slice as expected, so that one difference is not the next call's too. */
static void mend(const struct place *place)
{
    memcpy(place->lent + place->shift, expected_in(place), compared(place));
}

static void say_number(const char *before, uint64_t number)
{
    char digits[17];
    for (int i = 0; i < 16; i++)
        digits[i] = "0123456789ABCDEF"[number >> (60 - 4 * i) & 0xFu];
    digits[16] = 0;
    printf("%s%s", before, digits);
}

static void say_call(unsigned call, const struct given *given)
{
    printf("call %u, %s:", (unsigned)calls_done, functions[call].name);
    for (int i = 0; functions[call].kinds[i] != NO_ARGUMENT; i++)
        if (functions[call].kinds[i] == A_NUMBER)
            printf(" %u", (unsigned)given[i].number);
        else if (functions[call].kinds[i] == A_SIGNED_NUMBER)
            say_number(" ", given[i].number);
        else
            printf(" %s[%u]", given[i].octets ? "octets" : "null", (unsigned)given[i].length);
    printf("\n");
}

/* The first octet of a slice, or around it, that is not as expected. */
static void say_octet(unsigned argument, const struct place *place)
{
    const uint8_t *found = found_in(place), *expected = expected_in(place);
    size_t at = 0;
    while (found[at] == expected[at])
        at++;
    const char *before = at < GUARD ? " before the first" : "";
    unsigned octet = (unsigned)(at < GUARD ? GUARD - at : at - GUARD);
    printf("  argument %u of %u octets, octet %u%s: %x, expected %x\n", argument,
           (unsigned)place->length, octet, before, (unsigned)found[at], (unsigned)expected[at]);
}

static void say_answer(uint64_t answer, uint64_t expected)
{
    say_number("  answer ", answer);
    say_number(", expected ", expected);
    printf("\n");
}

/* Counts a call that differs, and tells the first one. */
static void differ(unsigned call, const struct given *given, uint64_t answer, uint64_t expected)
{
    uint32_t wrong = wrong_places(call, given);
    int tells = differences++ == 0;
    if (tells)
        say_call(call, given);
    if (tells && answer != expected)
        say_answer(answer, expected);
    for (unsigned i = 0; i < TABLE_PLACES; i++)
        if (wrong >> i & 1u) {
            if (tells)
                say_octet(i, &places[i]);
            mend(&places[i]);
        }
}

/* Plays one call. 0 if the table has none. */
static int play(void)
{
    struct given given[TABLE_PLACES];
    unsigned call = take_octet();
    if (is_broken || call >= CALLS)
        return 0;
    const uint8_t *kinds = functions[call].kinds;
    for (int i = 0; kinds[i] != NO_ARGUMENT; i++)
        given[i] = take_argument(&places[i], kinds[i]);
    uint64_t expected = take_number(sizeof expected);
    for (int i = 0; kinds[i] != NO_ARGUMENT; i++)
        if (kinds[i] == ROOM_LENT)
            take_room(&places[i], &given[i]);
    if (is_broken)
        return 0;
    uint64_t answer = do_call(call, given);
    if (answer != expected || wrong_places(call, given) != 0)
        differ(call, given, answer, expected);
    calls_of[call]++;
    calls_done++;
    return 1;
}

/* Whether the table ends here. */
static int is_at_end(void)
{
    if (chunk_at == chunk_length) {
        chunk_length = machine_read_table(chunk, sizeof chunk);
        chunk_at = 0;
    }
    return chunk_length == 0;
}

int main(void)
{
    unsigned called = 0;
    if (!machine_open_table() || !take_head()) {
        printf("no table in calls.table\n");
        return 1;
    }
    if (!lay_out())
        return 1;
    while (calls_done < calls_told && play()) {
    }
    int is_whole = calls_done == calls_told && is_at_end();
    if (!is_whole)
        printf("the table has %u calls and is broken behind call %u\n", (unsigned)calls_told,
               (unsigned)calls_done);
    for (int i = 0; i < CALLS; i++)
        called += calls_of[i] > 0;
    printf("%u calls over %u functions, %u differences\n", (unsigned)calls_done, called,
           (unsigned)differences);
    return is_whole && differences == 0 && called == CALLS ? 0 : 1;
}
