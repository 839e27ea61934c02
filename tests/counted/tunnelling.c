/*
 * Rows for a table of channels: a request received, delivered, acknowledged again and refused by
 * 21; a request sent; an acknowledgement that raises the send counter.
 */
#include "rows.h"

#include <string.h>

enum { CHANNEL = 2, OTHER_COUNTER = 21 };

/* Where the channel's two counters stand in the block. */
enum { COUNTERS = 3 * (CHANNEL - 1) + 1 };

/* All four channels open and fresh. */
static const uint8_t fresh[KLUMDRAY_CHANNELS_SIZE] = {1, 0, 0, 1, 0, 0, 1, 0, 0, 1, 0, 0};

static uint8_t block[KLUMDRAY_CHANNELS_SIZE], datagram[LARGEST];
static struct channels channels;
static uint8_t library_room[LARGEST], reference_room[LARGEST];
static size_t room_length, size, length;
static uint32_t expected, extended;
static struct given given;

/* Before each call the counters are set back, so that each has the same outcome. */
static void set_back_block(void)
{
    memcpy(block, fresh, sizeof block);
    block[COUNTERS] = (uint8_t)expected;
}

COUNTED counted_library_receive(void)
{
    set_back_block();
    library = klumdray_tunnelling_receive(block, sizeof block, datagram, size, library_room,
                                          room_length);
}

COUNTED counted_reference_receive(void)
{
    lend_channels(&channels, expected);
    reference = reference_receive(&channels, datagram, size, reference_room, room_length);
}

COUNTED counted_library_send(void)
{
    library = klumdray_tunnelling_send(block, sizeof block, CHANNEL, INDICATION, 0, extended, 1,
                                       PRIORITY, SOURCE, GROUP, DESTINATION, COUNT, payload, length,
                                       library_room, room_length);
}

COUNTED counted_reference_send(void)
{
    reference = reference_send(&channels, CHANNEL, INDICATION, 0, &given, payload, length,
                               reference_room, room_length);
}

COUNTED counted_library_confirm(void)
{
    set_back_block();
    library = klumdray_tunnelling_confirm(block, sizeof block, datagram, size);
}

COUNTED counted_reference_confirm(void)
{
    lend_channels(&channels, expected);
    word = reference_confirm(&channels, datagram, size);
}

static void prepare(uint32_t expected_counter, size_t length_of_room)
{
    expected = expected_counter;
    room_length = length_of_room;
    set_back_block();
    lend_channels(&channels, expected);
    memset(library_room, 0, sizeof library_room);
    memset(reference_room, 0, sizeof reference_room);
}

/* Both sides leave the same room and the same counters, which are these. */
static int are_left(uint8_t receive, uint8_t send)
{
    uint8_t counters[2];
    told_counters(&channels, counters);
    return memcmp(library_room, reference_room, sizeof library_room) == 0 &&
           memcmp(block + COUNTERS, counters, sizeof counters) == 0 && counters[0] == receive &&
           counters[1] == send;
}

static void tell_receive_row(unsigned lg, const char *outcome, uint32_t expected_counter)
{
    int is_delivered = expected_counter == 0, is_refused = expected_counter == 2;
    prepare(expected_counter, KLUMDRAY_ACK_SIZE);
    call_both(counted_library_receive, counted_reference_receive);
    tell_row(library == told_receive(&reference) &&
                 klumdray_number(library) == (is_refused ? OTHER_COUNTER : 0) &&
                 klumdray_delivered(library) == is_delivered &&
                 (library_room[0] == 0) == is_refused &&
                 are_left((uint8_t)(is_delivered ? 1 : expected_counter), 0),
             "receive, LG %u, %s", lg, outcome);
}

static void tell_rows_of(uint32_t is_extended, unsigned lg)
{
    extended = is_extended;
    length = lg + 1;
    size = klumdray_written(klumdray_tunnelling_request_write(
        CHANNEL, 0, INDICATION, 0, extended, 1, PRIORITY, SOURCE, GROUP, DESTINATION, COUNT,
        payload, length, datagram, sizeof datagram));
    tell_receive_row(lg, "delivered", 0);
    tell_receive_row(lg, "again", 1);
    tell_receive_row(lg, "refused by 21", 2);
    prepare(0, LARGEST);
    lend_given(&given, extended, 1);
    call_both(counted_library_send, counted_reference_send);
    tell_row(library == told_written(&reference) && klumdray_written(library) == size &&
                 memcmp(library_room, datagram, size) == 0 && are_left(0, 0),
             "send, LG %u", lg);
}

void tell_tunnelling_rows(void)
{
    tell_rows_of(0, 4), tell_rows_of(0, 15), tell_rows_of(1, 254);
    prepare(0, 0);
    size = klumdray_written(
        klumdray_tunnelling_ack_write(CHANNEL, 0, 0, datagram, KLUMDRAY_ACK_SIZE));
    call_both(counted_library_confirm, counted_reference_confirm);
    tell_row(library == told_confirm(&word) && klumdray_raised((uint32_t)library) && are_left(0, 1),
             "confirm");
}
