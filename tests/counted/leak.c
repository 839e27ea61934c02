/*
 * Rows for the two-octet float, the total and the station: a code read, numbers written with E 0, 6
 * and 15, an increment added, and a frame taken that is counted, a repetition or of another group.
 */
#include "rows.h"

#include <string.h>

/* A code, and the hundredths that it stands for. */
enum { CODE = 0x0C1A, VALUE = 2100 };

/* What a station takes a frame for. */
enum { COUNTED_ONE = 1, A_REPETITION = 2, OF_ANOTHER_GROUP = 3 };

enum { TOTAL_SIZE = 8, STATION_MEMORY_SIZE = 265 };

static const uint8_t code_octets[2] = {CODE >> 8, CODE & 0xFF};
static int64_t hundredths;

static uint8_t total[TOTAL_SIZE], memory[STATION_MEMORY_SIZE];
static struct station station;

struct frame {
    uint8_t octets[LARGEST];
    size_t size;
};

/* The frame remembered, and the one that the row is about. */
static struct frame first, taken;

COUNTED counted_library_value(void)
{
    library = klumdray_float_value(CODE);
}

COUNTED counted_reference_value(void)
{
    word = reference_float_value(CODE);
}

COUNTED counted_library_read(void)
{
    library = klumdray_float_read(code_octets, sizeof code_octets);
}

COUNTED counted_reference_read(void)
{
    word = reference_float_read(code_octets, sizeof code_octets);
}

COUNTED counted_library_write(void)
{
    library = klumdray_float_write(hundredths);
}

COUNTED counted_reference_write(void)
{
    word = reference_float_write(hundredths);
}

/* Before each call the total is set back. */
COUNTED counted_library_add(void)
{
    memset(total, 0, sizeof total);
    library = klumdray_total_add(total, sizeof total, CODE);
}

COUNTED counted_reference_add(void)
{
    reference = reference_total_add(0, CODE);
}

COUNTED counted_library_take(void)
{
    library = klumdray_take(total, sizeof total, memory, sizeof memory, DESTINATION, taken.octets,
                            taken.size);
}

COUNTED counted_reference_take(void)
{
    word = reference_take(&station, taken.octets, taken.size);
}

/* The total in the block. */
static int64_t total_in_block(void)
{
    uint64_t number = 0;
    size_t place;
    for (place = 0; place < sizeof total; place++)
        number = number << 8 | total[place];
    return (int64_t)number;
}

static void tell_read_rows(void)
{
    call_both(counted_library_value, counted_reference_value);
    tell_row(library == told_value(&word) && library == (uint64_t)VALUE << 32, "float value");
    call_both(counted_library_read, counted_reference_read);
    tell_row(library == told_value(&word) && library == (uint64_t)VALUE << 32, "float read");
}

static void tell_write_row(const char *name, int64_t written, uint32_t code)
{
    hundredths = written;
    call_both(counted_library_write, counted_reference_write);
    tell_row(library == told_code(&word) && library == (uint64_t)code << 16, "float write, %s",
             name);
}

/* A telegram with the increment. */
static void send(struct frame *frame, uint32_t first_sending, uint32_t destination)
{
    static const uint8_t increment[] = {0x00, 0x80, CODE >> 8, CODE & 0xFF};
    frame->size = klumdray_written(
        klumdray_tp1_write(0, first_sending, PRIORITY, SOURCE, GROUP, destination, COUNT, increment,
                           sizeof increment, frame->octets, sizeof frame->octets));
}

/* Both remember the first sending, and have counted it. */
static void remember_first(void)
{
    memset(total, 0, sizeof total);
    memset(memory, 0, sizeof memory);
    klumdray_take(total, sizeof total, memory, sizeof memory, DESTINATION, first.octets,
                  first.size);
    lend_station(&station, DESTINATION);
    reference_take(&station, first.octets, first.size);
}

static void tell_take_row(uint32_t kind, const char *outcome)
{
    uint64_t code = kind == COUNTED_ONE ? CODE : 0;
    int64_t added = kind == COUNTED_ONE ? VALUE : 0;
    remember_first();
    call_both(counted_library_take, counted_reference_take);
    tell_row(library == told_taken(&word) && library == (code << 16 | kind << 8) &&
                 total_in_block() == told_total_of(&station) &&
                 (total_in_block() > VALUE) == (added > 0),
             "take, %s", outcome);
}

void tell_leak_rows(void)
{
    tell_read_rows();
    tell_write_row("small", 21, 0x0015);
    tell_write_row("middle", 123457, 0x3789);
    tell_write_row("largest", 67043328, 0x7FFE);
    call_both(counted_library_add, counted_reference_add);
    tell_row(library == told_sum(&reference) && library == 0 && total_in_block() == VALUE &&
                 told_total(&reference) == VALUE,
             "total, add");
    send(&first, 1, DESTINATION);
    taken = first;
    tell_take_row(COUNTED_ONE, "counted");
    send(&taken, 0, DESTINATION);
    tell_take_row(A_REPETITION, "repetition");
    send(&taken, 1, DESTINATION + 1);
    tell_take_row(OF_ANOTHER_GROUP, "another group");
}
