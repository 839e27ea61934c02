/*
 * Rows for one coupler step: a group frame forwarded, and stopped by the filter table; and marked
 * repeated, stopped as a repetition, and forwarded since it differs from the frame remembered.
 */
#include "rows.h"

#include <string.h>

/* The receiving side, and the medium of the main side. */
struct way {
    const char *name;
    uint32_t side, medium;
};

static const struct way ways[] = {{"TP1 to TP1", KLUMDRAY_MAIN, KLUMDRAY_TP1},
                                  {"IP to TP1", KLUMDRAY_MAIN, KLUMDRAY_IP},
                                  {"TP1 to IP", KLUMDRAY_SUB, KLUMDRAY_IP}};

struct frame {
    uint8_t octets[KLUMDRAY_ROOM_SIZE];
    size_t size;
};

/* Open, and groups by the filter table. The last octet is the medium of the way. */
static uint8_t settings[KLUMDRAY_SETTINGS_SIZE] = {0x11, 2, 2, 1, 1, 2, 2, 1, 1};
static uint8_t all[KLUMDRAY_TABLE_SIZE];
static const uint8_t none[KLUMDRAY_TABLE_SIZE];

static const struct way *way;
static const uint8_t *table;
static struct coupler coupler;
static struct memory memory;
static uint8_t block[KLUMDRAY_MEMORY_SIZE];
static uint8_t library_room[KLUMDRAY_ROOM_SIZE], reference_room[KLUMDRAY_ROOM_SIZE];

/* The frame's size on TP1, whatever it is received by. */
static unsigned octets;

/* The frame sent first; marked repeated; and so with another last bit of payload. */
static struct frame first, same, other;

/* The frames of a row are taken in turns, the second first. Each side has its own turn. */
static const struct frame *turns[2];
static unsigned library_turn, reference_turn;

static const struct frame *next(unsigned *turn)
{
    *turn = 1 - *turn;
    return turns[*turn];
}

COUNTED counted_library_step(void)
{
    const struct frame *frame = next(&library_turn);
    library = klumdray_step(settings, sizeof settings, table, KLUMDRAY_TABLE_SIZE, way->side, block,
                            sizeof block, frame->octets, frame->size, library_room,
                            sizeof library_room);
}

COUNTED counted_reference_step(void)
{
    const struct frame *frame = next(&reference_turn);
    reference = reference_step(&coupler, way->side, way->medium, &memory, frame->octets,
                               frame->size, reference_room, sizeof reference_room);
}

static int is_from_ip(void)
{
    return way->side == KLUMDRAY_MAIN && way->medium == KLUMDRAY_IP;
}

/* The frame as it is received, its last octet of payload being this one. */
static void receive(struct frame *frame, uint32_t first_sending, size_t length, uint8_t last)
{
    uint32_t extended = length > 16;
    uint8_t before = payload[length - 1];
    payload[length - 1] = last;
    frame->size = klumdray_written(
        is_from_ip()
            ? klumdray_routing_write(INDICATION, 0, extended, first_sending, PRIORITY, SOURCE,
                                     GROUP, DESTINATION, COUNT, payload, length, frame->octets,
                                     sizeof frame->octets)
            : klumdray_tp1_write(extended, first_sending, PRIORITY, SOURCE, GROUP, DESTINATION,
                                 COUNT, payload, length, frame->octets, sizeof frame->octets));
    payload[length - 1] = before;
}

/* Both remember the first sending; then the rooms are empty. */
static void remember_first(void)
{
    settings[9] = (uint8_t)way->medium;
    lend_coupler(&coupler, &memory, settings, table, KLUMDRAY_TABLE_SIZE);
    memset(block, 0, sizeof block);
    klumdray_step(settings, sizeof settings, table, KLUMDRAY_TABLE_SIZE, way->side, block,
                  sizeof block, first.octets, first.size, library_room, sizeof library_room);
    reference_step(&coupler, way->side, way->medium, &memory, first.octets, first.size,
                   reference_room, sizeof reference_room);
    memset(library_room, 0, sizeof library_room);
    memset(reference_room, 0, sizeof reference_room);
    library_turn = reference_turn = 0;
}

/* What was counted is what the row says: accepted, acknowledged and forwarded or not. */
static int is_right(int is_acknowledged, int is_forwarded)
{
    return library == told_step(&reference) && klumdray_number(library) == 0 &&
           klumdray_acknowledgement(library) == (is_acknowledged && !is_from_ip() ? 0xCC : 0) &&
           (klumdray_forwarded(library) > 0) == is_forwarded &&
           (library_room[0] != 0) == is_forwarded &&
           memcmp(library_room, reference_room, sizeof library_room) == 0;
}

static void tell_step_row(const struct frame *one, const struct frame *two, const char *outcome)
{
    int is_stopped = strcmp(outcome, "stopped") == 0;
    int is_forwarded = !is_stopped && strcmp(outcome, "repetition") != 0;
    table = is_stopped ? none : all;
    turns[0] = one, turns[1] = two;
    remember_first();
    call_both(counted_library_step, counted_reference_step);
    tell_row(is_right(!is_stopped, is_forwarded), "%s, %u octets, %s", way->name, octets, outcome);
}

static void tell_rows_of(size_t length)
{
    uint8_t last = payload[length - 1];
    octets = (unsigned)length + (length > 16 ? 8 : 7);
    receive(&first, 1, length, last);
    tell_step_row(&first, &first, "forwarded");
    tell_step_row(&first, &first, "stopped");
    /* IP has neither memory nor acknowledgement. */
    if (is_from_ip())
        return;
    receive(&same, 0, length, last);
    receive(&other, 0, length, last ^ 1);
    tell_step_row(&same, &same, "repetition");
    tell_step_row(&same, &other, "differing");
}

void tell_step_rows(void)
{
    memset(all, 0xFF, sizeof all);
    for (way = ways; way < ways + sizeof ways / sizeof *ways; way++)
        tell_rows_of(2), tell_rows_of(16), tell_rows_of(255);
}
