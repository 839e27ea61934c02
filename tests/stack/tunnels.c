/*
 * Requests of 21, 35 and 274 octets received and delivered, and as many sent, then an
 * acknowledgement that raises the send counter: each once, from `counted`, so that QEMU's list of
 * the instructions carried out shows where it begins and ends. tools/measure-targets counts them.
 */
#include <stdio.h>

#include "klumdray.h"

enum call { RECEIVE, SEND, CONFIRM };

/* Channel 4 is open. */
enum { CHANNEL = 4 };
static uint8_t channels[KLUMDRAY_CHANNELS_SIZE] = {0, 0, 0, 0, 0, 0, 0, 0, 0, 1, 0, 0};
static uint8_t datagram[300], payload[255], room[300];

__attribute__((noinline)) void counted(enum call call, uint32_t extended, size_t n);

static uint64_t answer;

void counted(enum call call, uint32_t extended, size_t n)
{
    if (call == RECEIVE)
        answer = klumdray_tunnelling_receive(channels, sizeof channels, datagram, n, room,
                                             sizeof room);
    else if (call == SEND)
        answer = klumdray_tunnelling_send(channels, sizeof channels, CHANNEL, 0x11, 0, extended, 1,
                                          3, 0x1101, 1, 0x1234, 6, payload, n, room, sizeof room);
    else
        answer = klumdray_tunnelling_confirm(channels, sizeof channels, datagram, n);
}

static int is_delivered(uint32_t extended, size_t n)
{
    uint64_t written = klumdray_tunnelling_request_write(CHANNEL, channels[10], 0x11, 0, extended,
                                                         1, 3, 0x1101, 1, 0x1234, 6, payload, n,
                                                         datagram, sizeof datagram);
    counted(RECEIVE, 0, klumdray_written(written));
    return klumdray_delivered(answer);
}

static int is_sent(uint32_t extended, size_t n)
{
    counted(SEND, extended, n);
    return klumdray_written(answer) == n + 19;
}

static int is_raised(void)
{
    uint64_t written =
        klumdray_tunnelling_ack_write(CHANNEL, channels[11], 0, datagram, sizeof datagram);
    counted(CONFIRM, 0, klumdray_written(written));
    return klumdray_raised((uint32_t)answer);
}

int main(void)
{
    int right = is_delivered(0, 2) & is_delivered(0, 16) & is_delivered(1, 255);
    right &= is_sent(0, 2) & is_sent(0, 16) & is_sent(1, 255);
    right &= is_raised();
    printf("%s\n", right ? "exchanged" : "not exchanged");
    return !right;
}
