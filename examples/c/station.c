/*
 * A head station in C: it listens to a line and adds up the litres that a leak meter reports to
 * group 2/2/52. The line repeats a telegram, damages one on its first sending and carries another
 * group's between; the meter corrects itself once, and once it cannot measure.
 *
 * To build, from the root of the repository, after `tools/library-for x86-64` (or aarch64, on such a
 * machine):
 *
 *   gcc -std=c99 -pedantic -Wall -Wextra -Wconversion -Werror -I include examples/c/station.c \
 *       target/x86-64/libklumdray.a -o target/station
 *
 * Exit status: 0.
 */
#include "klumdray.h"

#include <stdio.h>

enum { LEAK_GROUP = 0x1234, TELEGRAM_SIZE = 11 };

/* The total and the frame remembered live in blocks of the caller's: the library keeps nothing. All
 * zero is the start; over a restart a station keeps the total's octets. */
static uint8_t total[KLUMDRAY_TOTAL_SIZE], memory[KLUMDRAY_STATION_MEMORY_SIZE];

struct received {
    const char *name;
    uint8_t octets[TELEGRAM_SIZE];
};

/* What comes from the line, in order. A station takes every frame of it, also those to others: what
 * was sent directly before tells a repetition. */
static const struct received line[] = {
    {"the meter reports:",
     {0xBC, 0x47, 0x15, 0x12, 0x34, 0xE3, 0x00, 0x80, 0x0C, 0x1A, 0x42}},
    {"the same once more, marked repeated:",
     {0x9C, 0x47, 0x15, 0x12, 0x34, 0xE3, 0x00, 0x80, 0x0C, 0x1A, 0x62}},
    {"its next telegram, damaged on the way:",
     {0xBC, 0x47, 0x15, 0x12, 0x34, 0xE3, 0x00, 0x80, 0x0C, 0x1B, 0x42}},
    {"and whole, marked repeated:",
     {0x9C, 0x47, 0x15, 0x12, 0x34, 0xE3, 0x00, 0x80, 0x0C, 0x1B, 0x63}},
    {"to group 2/2/53:",
     {0xBC, 0x47, 0x15, 0x12, 0x35, 0xE3, 0x00, 0x80, 0x0C, 0x1A, 0x43}},
    {"the meter takes a hundredth back:",
     {0xBC, 0x47, 0x15, 0x12, 0x34, 0xE3, 0x00, 0x80, 0x87, 0xFF, 0x2C}},
    {"it cannot measure:",
     {0xBC, 0x47, 0x15, 0x12, 0x34, 0xE3, 0x00, 0x80, 0x7F, 0xFF, 0xD4}},
};

static void print_octets(const char *name, const uint8_t *octets, size_t n)
{
    size_t i;
    printf("%s", name);
    for (i = 0; i < n; i++)
        printf(" %02X", octets[i]);
    printf("\n");
}

/* Digit by digit: how printf is told of 64 bits is not the same in C and in C++. */
static void print_litres(const char *name, int64_t hundredths)
{
    char text[24];
    size_t at = sizeof text - 1;
    uint64_t left = hundredths < 0 ? 0u - (uint64_t)hundredths : (uint64_t)hundredths;
    unsigned digits;
    text[at] = '\0';
    for (digits = 0; digits < 3 || left > 0; digits++) {
        if (digits == 2)
            text[--at] = '.';
        text[--at] = "0123456789"[left % 10];
        left /= 10;
    }
    printf("  %s: %s%s litres\n", name, hundredths < 0 ? "-" : "", text + at);
}

static void take(const struct received *received)
{
    static const char *const what[] = {"not taken", "counted", "a repetition", "of another group",
                                       "no increment"};
    uint32_t answer = klumdray_take(total, sizeof total, memory, sizeof memory, LEAK_GROUP,
                                    received->octets, sizeof received->octets);
    uint8_t number = klumdray_number(answer);
    print_octets(received->name, received->octets, sizeof received->octets);
    printf("  number: %u, %s\n", (unsigned)number, klumdray_words(number));
    printf("  the frame is: %s\n", what[klumdray_taken(answer)]);
    if (klumdray_taken(answer) == KLUMDRAY_COUNTED)
        print_litres("increment", klumdray_hundredths(klumdray_float_value(klumdray_code(answer))));
    print_litres("total", klumdray_total(total));
}

int main(void)
{
    size_t i;
    for (i = 0; i < sizeof line / sizeof line[0]; i++)
        take(&line[i]);
    return 0;
}
