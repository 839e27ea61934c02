/*
 * A laptop on the line, in C: a tunnelling server's side of one channel. A laptop asks the line for a
 * leak meter's reading; the network repeats its request, damages a copy and lets one come late. Then
 * the meter's telegram goes out to the laptop, and its acknowledgement comes.
 *
 * To build, from the root of the repository, after `tools/library-for x86-64` (or aarch64, on such a
 * machine):
 *
 *   gcc -std=c99 -pedantic -Wall -Wextra -Wconversion -Werror -I include examples/c/laptop.c \
 *       target/x86-64/libklumdray.a -o target/laptop
 *
 * Exit status: 0.
 */
#include "klumdray.h"

#include <stdio.h>
#include <string.h>

enum { CHANNEL = 1, LEAK_GROUP = 0x1234, METER = 0x4715, REQUEST_SIZE = 21 };

/* The counters live in a block of the caller's: the library keeps nothing. All zero is the start,
 * when every channel is closed. */
static uint8_t channels[KLUMDRAY_CHANNELS_SIZE];

static void print_octets(const char *name, const uint8_t *octets, size_t n)
{
    size_t i;
    printf("%s", name);
    for (i = 0; i < n; i++)
        printf(" %02X", octets[i]);
    printf("%s\n", n == 0 ? " none" : "");
}

static void print_number(uint64_t answer)
{
    uint8_t number = klumdray_number(answer);
    printf("  number: %u, %s\n", (unsigned)number, klumdray_words(number));
}

static void print_counters(void)
{
    printf("  channel %u: receive counter %u, send counter %u\n", (unsigned)CHANNEL,
           (unsigned)klumdray_channel_receive(channels, CHANNEL),
           (unsigned)klumdray_channel_send(channels, CHANNEL));
}

/* A datagram from the laptop. What is acknowledged is sent back whether it is delivered or not; what
 * is delivered goes to the line, as the very octets received. */
static void receive(const char *name, const uint8_t *octets, size_t n)
{
    uint8_t room[KLUMDRAY_ACK_SIZE];
    uint64_t answer = klumdray_tunnelling_receive(channels, sizeof channels, octets, n, room,
                                                  sizeof room);
    int acknowledged = klumdray_number(answer) == 0;
    size_t start = klumdray_tunnelling_message_start();
    print_octets(name, octets, n);
    print_number(answer);
    print_octets("  back to the laptop:", room, acknowledged ? sizeof room : 0u);
    print_octets("  to the line:", octets + start, klumdray_delivered(answer) ? n - start : 0u);
    print_counters();
}

/* A laptop's request with this counter: a read of the leak group. Returns its size. */
static size_t ask(uint32_t counter, uint8_t *octets, size_t most)
{
    static const uint8_t read[] = {0x00, 0x00};
    return klumdray_written(klumdray_tunnelling_request_write(
        CHANNEL, counter, 0x11, 0, 0, 1, 3, 0, 1, LEAK_GROUP, 6, read, sizeof read, octets, most));
}

/* The meter's answer from the line goes out on the channel, with the channel's send counter. */
static void send(const char *name)
{
    static const uint8_t litres[] = {0x00, 0x40, 0x0C, 0x1A};
    uint8_t room[64];
    uint64_t answer = klumdray_tunnelling_send(channels, sizeof channels, CHANNEL, 0x29, 0, 0, 1, 3,
                                               METER, 1, LEAK_GROUP, 6, litres, sizeof litres, room,
                                               sizeof room);
    print_octets(name, room, klumdray_written(answer));
    print_number(answer);
    print_counters();
}

static void confirm(const char *name, uint32_t counter, uint32_t status)
{
    uint8_t room[KLUMDRAY_ACK_SIZE];
    uint32_t answer;
    klumdray_tunnelling_ack_write(CHANNEL, counter, status, room, sizeof room);
    answer = klumdray_tunnelling_confirm(channels, sizeof channels, room, sizeof room);
    print_octets(name, room, sizeof room);
    print_number(answer);
    printf("  send counter raised: %s\n", klumdray_raised(answer) ? "yes" : "no");
    print_counters();
}

int main(void)
{
    uint8_t first[REQUEST_SIZE], second[REQUEST_SIZE], damaged[REQUEST_SIZE];
    size_t n = ask(0, first, sizeof first);
    ask(1, second, sizeof second);
    memcpy(damaged, second, sizeof damaged);
    damaged[10] = 0x00;

    receive("before the channel is open:", first, n);
    channels[0] = 1;
    receive("the laptop asks:", first, n);
    receive("the same once more, our acknowledgement having been lost:", first, n);
    receive("its next request, damaged on the way:", damaged, n);
    receive("and whole:", second, n);
    receive("the first one again, late:", first, n);
    send("the meter's answer to the laptop:");
    send("and again, since nothing came back:");
    confirm("the laptop cannot take it:", 0, 0x29);
    confirm("the laptop acknowledges:", 0, 0);
    return 0;
}
