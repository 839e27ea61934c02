/*
 * Rows for the tracer: a site with every coupler fitted, and filter tables in both stores.
 */
#include "rows.h"

#include <string.h>

enum { COUPLERS = 255, TABLES = 16, START = 0x11 };
enum { STORE = TABLES * KLUMDRAY_TABLE_SIZE };

/* Individual addresses and groups under code 1, broadcast open. */
static const uint8_t codes[8] = {1, 2, 1, 1, 1, 2, 1, 1};

static uint8_t records[COUPLERS * KLUMDRAY_RECORD_SIZE], project[STORE], own[STORE];
static uint8_t library_room[KLUMDRAY_LIST_ROOM_SIZE], reference_room[KLUMDRAY_LIST_ROOM_SIZE];
static struct site site;
static struct query query;
static uint32_t kind, destination, line;

COUNTED counted_library_trace(void)
{
    library = klumdray_trace(START, kind, destination, COUNT, records, sizeof records, project,
                             sizeof project, own, sizeof own, library_room, sizeof library_room);
}

COUNTED counted_reference_trace(void)
{
    reference = reference_trace(&query, &site, reference_room, sizeof reference_room);
}

COUNTED counted_library_why(void)
{
    library = klumdray_why(START, kind, destination, COUNT, records, sizeof records, project,
                           sizeof project, own, sizeof own, line);
}

COUNTED counted_reference_why(void)
{
    word = reference_why(&query, &site, line);
}

/* Lines take the 32 tables in turn. */
static void fit_couplers(void)
{
    unsigned fitted;
    for (fitted = 1; fitted <= COUPLERS; fitted++) {
        uint8_t *record = records + (fitted - 1) * KLUMDRAY_RECORD_SIZE;
        record[0] = 0x43, record[1] = 0x50, record[2] = (uint8_t)fitted;
        memcpy(record + 3, codes, sizeof codes);
        record[11] = (uint8_t)(fitted % 16 + fitted / 16 % 2 * 128);
    }
}

/* The group is in every table but one, which no area coupler has. */
static void fill_stores(void)
{
    unsigned place;
    for (place = 0; place < TABLES; place++)
        if (place != 5)
            project[place * KLUMDRAY_TABLE_SIZE + DESTINATION / 8] = 1 << DESTINATION % 8;
    memcpy(own, project, sizeof own);
}

static void ask(uint32_t asked_kind, uint32_t asked_destination)
{
    kind = asked_kind;
    destination = asked_destination;
    lend_query(&query, START, kind, destination, COUNT);
}

static void tell_trace_row(const char *name, size_t listed)
{
    memset(library_room, 0, sizeof library_room);
    memset(reference_room, 0, sizeof reference_room);
    call_both(counted_library_trace, counted_reference_trace);
    tell_row(library == told_trace(&reference) && klumdray_number(library) == 0 &&
                 klumdray_listed(library) == listed &&
                 memcmp(library_room, reference_room, sizeof library_room) == 0,
             "trace, 255 couplers, %s", name);
}

static void tell_why_row(const char *name, uint32_t asked_line, uint8_t reason)
{
    line = asked_line;
    call_both(counted_library_why, counted_reference_why);
    tell_row(library == told_why(&word) && klumdray_number(library) == 0 &&
                 klumdray_reason((uint32_t)library) == reason,
             "why, 255 couplers, %s", name);
}

void tell_tracer_rows(void)
{
    fit_couplers();
    fill_stores();
    lend_site(&site, records, sizeof records, project, sizeof project, own, sizeof own);
    ask(KLUMDRAY_GROUP, DESTINATION);
    tell_trace_row("group", 240);
    ask(KLUMDRAY_GROUP, 0);
    tell_trace_row("broadcast", 256);
    ask(KLUMDRAY_INDIVIDUAL, 0x4711);
    tell_trace_row("individual", 5);
    ask(KLUMDRAY_GROUP, DESTINATION);
    tell_why_row("reached", 0xFF, KLUMDRAY_REACHED);
    tell_why_row("stopped", 0xF5, KLUMDRAY_NOT_IN_TABLE);
}
