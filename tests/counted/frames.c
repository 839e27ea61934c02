/*
 * Rows for TP1 frames, cEMI messages and routing datagrams: read, write, check octet.
 */
#include "rows.h"

#include <string.h>

static uint8_t frame[LARGEST], library_room[LARGEST], reference_room[LARGEST];
static uint32_t extended;
static size_t size, length;
static struct given given;

COUNTED counted_library_check_octet(void)
{
    library = klumdray_check_octet(frame, size);
}

COUNTED counted_reference_check_octet(void)
{
    word = reference_check_octet(frame, size);
}

COUNTED counted_library_tp1_read(void)
{
    library = klumdray_tp1_read(frame, size);
}

COUNTED counted_reference_tp1_read(void)
{
    reference = reference_tp1_read(frame, size);
}

COUNTED counted_library_tp1_write(void)
{
    library = klumdray_tp1_write(extended, 1, PRIORITY, SOURCE, GROUP, DESTINATION, COUNT, payload,
                                 length, library_room, sizeof library_room);
}

COUNTED counted_reference_tp1_write(void)
{
    reference = reference_tp1_write(&given, payload, length, reference_room, sizeof reference_room);
}

COUNTED counted_library_cemi_read(void)
{
    library = klumdray_cemi_read(frame, size);
}

COUNTED counted_reference_cemi_read(void)
{
    reference = reference_cemi_read(frame, size);
}

COUNTED counted_library_cemi_write(void)
{
    library = klumdray_cemi_write(INDICATION, 0, extended, 1, PRIORITY, SOURCE, GROUP, DESTINATION,
                                  COUNT, payload, length, library_room, sizeof library_room);
}

COUNTED counted_reference_cemi_write(void)
{
    reference = reference_cemi_write(INDICATION, 0, &given, payload, length, reference_room,
                                     sizeof reference_room);
}

COUNTED counted_library_routing_read(void)
{
    library = klumdray_routing_read(frame, size);
}

COUNTED counted_reference_routing_read(void)
{
    reference = reference_routing_read(frame, size);
}

COUNTED counted_library_routing_write(void)
{
    library = klumdray_routing_write(INDICATION, 0, extended, 1, PRIORITY, SOURCE, GROUP,
                                     DESTINATION, COUNT, payload, length, library_room,
                                     sizeof library_room);
}

COUNTED counted_reference_routing_write(void)
{
    reference = reference_routing_write(INDICATION, 0, &given, payload, length, reference_room,
                                        sizeof reference_room);
}

/* The frame that is read is the one that is written. */
static void prepare(uint32_t is_extended, size_t payload_length, size_t head)
{
    extended = is_extended;
    length = payload_length;
    size = payload_length + head;
    lend_given(&given, extended, 1);
    memset(library_room, 0, sizeof library_room);
    memset(reference_room, 0, sizeof reference_room);
}

static int is_written(void)
{
    return library == told_written(&reference) && klumdray_number(library) == 0 &&
           klumdray_written(library) == size &&
           memcmp(library_room, reference_room, sizeof library_room) == 0;
}

static int is_read(uint64_t told)
{
    return library == told && klumdray_number(library) == 0 &&
           klumdray_payload_length(library) == length;
}

static void tell_tp1_rows(uint32_t is_extended, size_t payload_length)
{
    unsigned octets;
    prepare(is_extended, payload_length, is_extended ? 8 : 7);
    octets = (unsigned)size;
    klumdray_tp1_write(extended, 1, PRIORITY, SOURCE, GROUP, DESTINATION, COUNT, payload, length,
                       frame, sizeof frame);
    call_both(counted_library_tp1_read, counted_reference_tp1_read);
    tell_row(is_read(told_tp1(&reference)), "TP1 read, %u octets", octets);
    call_both(counted_library_tp1_write, counted_reference_tp1_write);
    tell_row(is_written(), "TP1 write, %u octets", octets);
    call_both(counted_library_check_octet, counted_reference_check_octet);
    tell_row(library == word, "TP1 check octet, %u octets", octets);
}

static void tell_cemi_rows(uint32_t is_extended, unsigned lg)
{
    prepare(is_extended, lg + 1, 9);
    klumdray_cemi_write(INDICATION, 0, extended, 1, PRIORITY, SOURCE, GROUP, DESTINATION, COUNT,
                        payload, length, frame, sizeof frame);
    call_both(counted_library_cemi_read, counted_reference_cemi_read);
    tell_row(is_read(told_message(&reference)), "cEMI read, LG %u", lg);
    call_both(counted_library_cemi_write, counted_reference_cemi_write);
    tell_row(is_written(), "cEMI write, LG %u", lg);
}

static void tell_routing_rows(uint32_t is_extended, unsigned lg)
{
    prepare(is_extended, lg + 1, 15);
    klumdray_routing_write(INDICATION, 0, extended, 1, PRIORITY, SOURCE, GROUP, DESTINATION, COUNT,
                           payload, length, frame, sizeof frame);
    call_both(counted_library_routing_read, counted_reference_routing_read);
    tell_row(is_read(told_message(&reference)), "routing read, LG %u", lg);
    call_both(counted_library_routing_write, counted_reference_routing_write);
    tell_row(is_written(), "routing write, LG %u", lg);
}

void tell_frame_rows(void)
{
    tell_tp1_rows(0, 1), tell_tp1_rows(0, 16), tell_tp1_rows(1, 255);
    tell_cemi_rows(0, 1), tell_cemi_rows(0, 15), tell_cemi_rows(1, 254);
    tell_routing_rows(0, 1), tell_routing_rows(0, 15), tell_routing_rows(1, 254);
}
