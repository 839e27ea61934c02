/*
 * A coupler in C. Reads a TP1 frame, runs one step of the coupler of line 4.7 with it, then, if it
 * is not refused, one with the same frame marked repeated, and prints what happened. Without octets
 * it takes the telegram of a leak meter on line 4.7 that reports 21 litres to group 2/2/52.
 *
 * To build, from the root of the repository, after `tools/library-for x86-64` (or aarch64, on such a
 * machine):
 *
 *   gcc -std=c99 -pedantic -Wall -Wextra -Wconversion -Werror -I include examples/c/coupler.c \
 *       target/x86-64/libklumdray.a -o target/coupler
 *
 * To run: target/coupler, or target/coupler B0 AF FE 00 00 E1 01 00 FE
 * Exit status: 0; 1 if the frame is refused; 2 if the octets are not hexadecimal.
 */
#include "klumdray.h"

#include <ctype.h>
#include <stdio.h>
#include <stdlib.h>
#include <string.h>

enum { LINE = 0x47, LEAK_GROUP = 0x1234 };

/* Line; the codes main to sub, then sub to main; the medium of the main side. In both directions:
 * individual addresses by place, broadcast open, groups below 7000h by the filter table, the others
 * closed. */
static const uint8_t settings[KLUMDRAY_SETTINGS_SIZE] = {LINE, 1, 2, 1, 0, 1, 2, 1, 0,
                                                         KLUMDRAY_TP1};
static uint8_t table[KLUMDRAY_TABLE_SIZE];

/* What the coupler remembers between frames is lent to every step: the library keeps nothing. All
 * zero is the start, when no frame is remembered. */
static uint8_t memory[KLUMDRAY_MEMORY_SIZE];

/* Puts the octets of a text behind the n that are there, `most` in all, and leaves out what is
 * more. Returns 0 if the text is not hexadecimal. */
static int add_octets(const char *text, uint8_t *octets, size_t most, size_t *n)
{
    for (text += strspn(text, " "); *text != '\0'; text += strspn(text, " ")) {
        char digits[3] = {text[0], text[1], '\0'};
        if (!isxdigit((unsigned char)digits[0]) || !isxdigit((unsigned char)digits[1]))
            return 0;
        if (*n < most)
            octets[(*n)++] = (uint8_t)strtoul(digits, NULL, 16);
        text += 2;
    }
    return 1;
}

static void print_octets(const char *name, const uint8_t *octets, size_t n)
{
    size_t i;
    printf("%s", name);
    for (i = 0; i < n; i++)
        printf(" %02X", octets[i]);
    printf("%s\n", n == 0 ? " none" : "");
}

/* Every answer carries its number in the same place: 0, or the refusal's. */
static void print_number(uint64_t answer)
{
    uint8_t number = klumdray_number(answer);
    printf("  number: %u, %s\n", (unsigned)number, klumdray_words(number));
}

static void print_meaning(uint64_t answer, const uint8_t *octets)
{
    unsigned priority = klumdray_priority(answer), count = klumdray_count(answer);
    unsigned source = klumdray_source(answer), to = klumdray_destination(answer);
    printf("  format: %s\n", klumdray_extended(answer) ? "extended" : "standard");
    printf("  repeat flag: %s\n", klumdray_first_sending(answer) ? "first sending" : "repeated");
    printf("  priority: bits %u%u\n", priority >> 1, priority & 1);
    printf("  source: %u.%u.%u\n", source >> 12, source >> 8 & 15, source & 255);
    if (klumdray_group(answer))
        printf("  AT: 1, group\n  destination: %u/%u/%u\n", to >> 11, to >> 8 & 7, to & 255);
    else
        printf("  AT: 0, individual\n  destination: %u.%u.%u\n", to >> 12, to >> 8 & 15, to & 255);
    printf("  hop count: %u\n", count);
    /* The payload is not copied: it lies in the octets that were read. */
    print_octets("  payload:", octets + klumdray_tp1_payload_start(answer),
                 klumdray_payload_length(answer));
}

/* A frame from the coupler's own line, its sub side. What the answer says to send is sent, here
 * printed, whatever its number is. Returns the number. */
static uint8_t step(const char *name, const uint8_t *octets, size_t n)
{
    uint8_t room[KLUMDRAY_ROOM_SIZE];
    uint64_t answer = klumdray_step(settings, sizeof settings, table, sizeof table, KLUMDRAY_SUB,
                                    memory, sizeof memory, octets, n, room, sizeof room);
    print_octets(name, octets, n);
    print_number(answer);
    if (klumdray_acknowledgement(answer) != 0)
        printf("  acknowledgement: %02Xh\n", klumdray_acknowledgement(answer));
    else
        printf("  acknowledgement: none\n");
    printf("  for itself: %s\n", klumdray_own(answer) ? "yes" : "no");
    print_octets("  forwarded:", room, klumdray_forwarded(answer));
    return klumdray_number(answer);
}

/* Writes the frame that was read once more, with the repeat flag saying repeated: the writer puts
 * the check octet right. */
static size_t write_repeated(uint64_t read, const uint8_t *octets, uint8_t *room, size_t m)
{
    uint64_t answer = klumdray_tp1_write(
        klumdray_extended(read), 0, klumdray_priority(read), klumdray_source(read),
        klumdray_group(read), klumdray_destination(read), klumdray_count(read),
        octets + klumdray_tp1_payload_start(read), klumdray_payload_length(read), room, m);
    return (size_t)klumdray_written(answer);
}

int main(int argc, char **argv)
{
    static const uint8_t leak[] = {0xBC, 0x47, 0x15, 0x12, 0x34, 0xE3,
                                   0x00, 0x80, 0x0C, 0x1A, 0x42};
    /* One octet more than any frame has, so that what is too long is refused for it (5). */
    uint8_t octets[KLUMDRAY_FRAME_SIZE + 1], repeated[KLUMDRAY_FRAME_SIZE];
    size_t n = argc > 1 ? 0 : sizeof leak;
    uint64_t answer;
    int i;
    memcpy(octets, leak, n);
    for (i = 1; i < argc; i++)
        if (!add_octets(argv[i], octets, sizeof octets, &n)) {
            fprintf(stderr, "coupler: two hexadecimal digits an octet expected: %s\n", argv[i]);
            return 2;
        }
    table[LEAK_GROUP / 8] |= 1u << LEAK_GROUP % 8;

    print_octets("frame:", octets, n);
    answer = klumdray_tp1_read(octets, n);
    print_number(answer);
    if (klumdray_number(answer) == 0)
        print_meaning(answer, octets);
    if (step("coupler 4.7 receives from its own line:", octets, n) != 0)
        return 1;
    n = write_repeated(answer, octets, repeated, sizeof repeated);
    return step("and once more, marked repeated:", repeated, n) != 0;
}
