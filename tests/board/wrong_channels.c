/*
 * A library whose tunnelling is wrong in one way, to try the tables of calls: linked with --wrap
 * for the three calls on a table of channels, it makes the call and does what none may do. WRONG
 * says which.
 */
#include "klumdray.h"

enum {
    RAISED_BEHIND = 1,
    NOT_ROUND,
    ACKNOWLEDGED_REFUSED,
    OPEN_BY_2,
    LONGER_BLOCK,
    RAISED_SENT,
    CHANNEL_CUT,
    CHANNEL_RANGE,
    RAISED_BY_STATUS,
    OTHER_COUNTER
};

typedef uint64_t receive_call(uint8_t *channels, uint64_t channels_length, const uint8_t *octets,
                              uint64_t length, uint8_t *room, uint64_t room_length);
typedef uint64_t send_call(const uint8_t *channels, uint64_t channels_length, uint32_t channel,
                           uint32_t code, uint32_t error_mark, uint32_t extended,
                           uint32_t first_sending, uint32_t priority, uint32_t source,
                           uint32_t group, uint32_t destination, uint32_t count,
                           const uint8_t *payload, uint64_t n, uint8_t *room, uint64_t m);
typedef uint32_t confirm_call(uint8_t *channels, uint64_t channels_length, const uint8_t *octets,
                              uint64_t length);

receive_call __real_klumdray_tunnelling_receive, __wrap_klumdray_tunnelling_receive;
send_call __real_klumdray_tunnelling_send, __wrap_klumdray_tunnelling_send;
confirm_call __real_klumdray_tunnelling_confirm, __wrap_klumdray_tunnelling_confirm;

/* The three octets of a channel. */
static uint8_t *channel_in(uint8_t *channels, uint32_t number)
{
    return channels + KLUMDRAY_CHANNEL_SIZE * (number - 1);
}

/* The octet for open of the channel that a datagram names, if it is 02h, which is closed. */
static uint8_t *closed_by_2(uint8_t *channels, uint64_t channels_length, const uint8_t *octets,
                            uint64_t length)
{
    if (channels_length != KLUMDRAY_CHANNELS_SIZE || length < KLUMDRAY_ACK_SIZE ||
        octets[7] - 1u >= KLUMDRAY_CHANNELS || *channel_in(channels, octets[7]) != 2)
        return NULL;
    return channel_in(channels, octets[7]);
}

uint64_t __wrap_klumdray_tunnelling_receive(uint8_t *channels, uint64_t channels_length,
                                            const uint8_t *octets, uint64_t length, uint8_t *room,
                                            uint64_t room_length)
{
    uint8_t *open = closed_by_2(channels, channels_length, octets, length);
    uint64_t answer;
    if (WRONG == LONGER_BLOCK && channels_length > KLUMDRAY_CHANNELS_SIZE)
        channels_length = KLUMDRAY_CHANNELS_SIZE;
    if (WRONG == OPEN_BY_2 && open)
        *open = 1;
    answer = __real_klumdray_tunnelling_receive(channels, channels_length, octets, length, room,
                                                room_length);
    if (WRONG == OPEN_BY_2 && open)
        *open = 2;
    if (WRONG == ACKNOWLEDGED_REFUSED && klumdray_number(answer) == 21)
        klumdray_tunnelling_ack_write(octets[7], octets[8], 0, room, room_length);
    if (klumdray_number(answer) != 0)
        return answer;
    if (WRONG == RAISED_BEHIND && !klumdray_delivered(answer))
        channel_in(channels, octets[7])[1]++;
    if (WRONG == NOT_ROUND && klumdray_delivered(answer) && octets[8] == 255)
        channel_in(channels, octets[7])[1] = 255;
    return answer;
}

uint64_t __wrap_klumdray_tunnelling_send(const uint8_t *channels, uint64_t channels_length,
                                         uint32_t channel, uint32_t code, uint32_t error_mark,
                                         uint32_t extended, uint32_t first_sending,
                                         uint32_t priority, uint32_t source, uint32_t group,
                                         uint32_t destination, uint32_t count,
                                         const uint8_t *payload, uint64_t n, uint8_t *room,
                                         uint64_t m)
{
    uint64_t answer;
    if (WRONG == CHANNEL_CUT)
        channel &= 255;
    answer = __real_klumdray_tunnelling_send(channels, channels_length, channel, code, error_mark,
                                             extended, first_sending, priority, source, group,
                                             destination, count, payload, n, room, m);
    if (WRONG == CHANNEL_RANGE && klumdray_number(answer) == 20 && channel > KLUMDRAY_CHANNELS)
        return 14;
    if (WRONG == RAISED_SENT && klumdray_number(answer) == 0)
        channel_in((uint8_t *)(uintptr_t)channels, channel)[2]++;
    return answer;
}

uint32_t __wrap_klumdray_tunnelling_confirm(uint8_t *channels, uint64_t channels_length,
                                            const uint8_t *octets, uint64_t length)
{
    uint32_t answer =
        __real_klumdray_tunnelling_confirm(channels, channels_length, octets, length);
    if (klumdray_number(answer) != 0)
        return answer;
    if (WRONG == RAISED_BY_STATUS && !klumdray_raised(answer))
        channel_in(channels, octets[7])[2]++;
    if (WRONG == OTHER_COUNTER && klumdray_raised(answer))
        channel_in(channels, octets[7])[2]--, channel_in(channels, octets[7])[1]++;
    return answer;
}
