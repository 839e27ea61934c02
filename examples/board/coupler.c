/*
 * A coupler between two TP1 lines on a small board: line 4.7, on which a leak meter reports litres,
 * and its main line 4.0. No heap and no C library; settings and filter table stay in flash. In
 * place of two UARTs a table gives the octets that arrive, and what would be sent is told by the
 * debugger.
 *
 * examples/board/run builds it for a Cortex-M4 with Debian's gcc-arm-none-eabi and runs it in QEMU.
 */
#include "klumdray.h"

#include "board.h"
#include "semihosting.h"

enum { LINE = 0x47, LEAK_GROUP = 0x1234, MOST_STACK = 1024 };

/* In flash. In both directions individual addresses by place, broadcast open, groups below 7000h
 * by the filter table; groups from 7000h on closed down, open up. */
static const uint8_t settings[KLUMDRAY_SETTINGS_SIZE] = {LINE, 1, 2, 1, 0, 1, 2, 1, 2,
                                                         KLUMDRAY_TP1};
static const uint8_t table[KLUMDRAY_TABLE_SIZE] = {[LEAK_GROUP / 8] = 1 << LEAK_GROUP % 8};

/*
 * In RAM, three blocks that lie apart: what the coupler remembers, all 0 at the start; the frame
 * being received; the room for what is sent on. The buffer has one octet more than the longest
 * frame, so that a frame that is too long is refused (5) and not taken for one that was cut.
 */
static uint8_t memory[KLUMDRAY_MEMORY_SIZE];
static uint8_t received[KLUMDRAY_FRAME_SIZE + 1];
static uint8_t room[KLUMDRAY_ROOM_SIZE];

/* What arrives on the two lines. */
struct arrival {
    const char *story;
    uint8_t side;
    uint16_t size;
    const uint8_t *octets;
};

static const uint8_t litres[] = {0xBC, 0x47, 0x15, 0x12, 0x34, 0xE3, 0x00, 0x80, 0x0C, 0x1A, 0x42};
static const uint8_t repeated[] = {0x9C, 0x47, 0x15, 0x12, 0x34, 0xE3,
                                   0x00, 0x80, 0x0C, 0x1A, 0x62};
static const uint8_t damaged[] = {0xBC, 0x47, 0x15, 0x12, 0x34, 0xE3, 0x00, 0x80, 0x0C, 0x1B, 0x42};
static const uint8_t sent_again[] = {0x9C, 0x47, 0x15, 0x12, 0x34, 0xE3,
                                     0x00, 0x80, 0x0C, 0x1B, 0x63};
static const uint8_t another[] = {0xBC, 0x47, 0x15, 0x12, 0x35, 0xE3, 0x00, 0x80, 0x0C, 0x1A, 0x43};
static const uint8_t used_up[] = {0xBC, 0x47, 0x15, 0x12, 0x34, 0x83, 0x00, 0x80, 0x0C, 0x1A, 0x22};
static const uint8_t to_meter[] = {0xBC, 0x11, 0x01, 0x47, 0x15, 0x61, 0x00, 0x80, 0xE0};
static const uint8_t to_coupler[] = {0xB0, 0x40, 0x02, 0x47, 0x00, 0x61, 0x01, 0x00, 0x2A};
static const uint8_t broadcast[] = {0xBC, 0x47, 0x15, 0x00, 0x00, 0xE1, 0x01, 0x00, 0xF1};
static const uint8_t longest[KLUMDRAY_FRAME_SIZE] = {
    0x3C, 0xE0, 0x47, 0x15, 0x12, 0x34, 0xFE, [KLUMDRAY_FRAME_SIZE - 1] = 0xA9};
static const uint8_t too_long[KLUMDRAY_FRAME_SIZE + 9] = {
    0x3C, 0xE0, 0x47, 0x15, 0x12, 0x34, 0xFE, [KLUMDRAY_FRAME_SIZE - 1] = 0xA9};

#define ARRIVAL(side, octets, story) {story, side, sizeof octets, octets}
static const struct arrival wire[] = {
    ARRIVAL(KLUMDRAY_SUB, litres, "the leak meter 4.7.21 reports litres to group 2/2/52"),
    ARRIVAL(KLUMDRAY_SUB, repeated, "the same, marked repeated"),
    ARRIVAL(KLUMDRAY_SUB, damaged, "its next report, one bit damaged on the way"),
    ARRIVAL(KLUMDRAY_SUB, sent_again, "that report, marked repeated"),
    ARRIVAL(KLUMDRAY_SUB, another, "to group 2/2/53, which is not in the table"),
    ARRIVAL(KLUMDRAY_SUB, used_up, "its count is used up"),
    ARRIVAL(KLUMDRAY_MAIN, to_meter, "1.1.1 asks the leak meter"),
    ARRIVAL(KLUMDRAY_MAIN, to_coupler, "to the coupler itself"),
    ARRIVAL(KLUMDRAY_SUB, broadcast, "broadcast"),
    ARRIVAL(KLUMDRAY_SUB, longest, "the longest frame"),
    ARRIVAL(KLUMDRAY_SUB, too_long, "nine octets more than the longest frame"),
};

static const char *line_of(unsigned side)
{
    return side == KLUMDRAY_SUB ? "4.7" : "4.0";
}

static void say_octets(const uint8_t *octets, size_t n)
{
    static const char digits[] = "0123456789ABCDEF";
    size_t i, most = n > 12 ? 12 : n;
    for (i = 0; i < most; i++) {
        char text[4] = {' ', digits[octets[i] >> 4], digits[octets[i] & 15], '\0'};
        say(text);
    }
    if (n > most)
        say(" ..");
}

/* What two UARTs would do: the octets of one frame into the buffer, no more than it holds. */
static size_t receive(const struct arrival *arrival)
{
    size_t n;
    for (n = 0; n < arrival->size && n < sizeof received; n++)
        received[n] = arrival->octets[n];
    return n;
}

/* Sends what the answer says, whatever its number is. */
static void act_on(uint64_t answer, unsigned side)
{
    if (klumdray_number(answer) != 0) {
        say("    refused: ");
        say(klumdray_words(klumdray_number(answer)));
        say("\n");
    }
    if (klumdray_acknowledgement(answer) != 0) {
        say("    acknowledged on ");
        say(line_of(side));
        say("\n");
    }
    if (klumdray_own(answer))
        say("    for the coupler itself\n");
    if (klumdray_forwarded(answer) > 0) {
        say("    sent on ");
        say(line_of(1 - side));
        say(":");
        say_octets(room, klumdray_forwarded(answer));
        say("\n");
    }
}

static uint64_t step(unsigned side, size_t n, uint8_t *to)
{
    return klumdray_step_checked(settings, sizeof settings, table, sizeof table, side, memory,
                                 sizeof memory, received, n, to, sizeof room);
}

int main(void)
{
    size_t i;
    for (i = 0; i < sizeof wire / sizeof wire[0]; i++) {
        size_t n = receive(&wire[i]);
        say("on ");
        say(line_of(wire[i].side));
        say(":");
        say_octets(received, n);
        say(" (");
        say(wire[i].story);
        say(")\n");
        act_on(step(wire[i].side, n, room), wire[i].side);
    }
    /* A room that is the receive buffer would be written while it is read. */
    say("the receive buffer lent as the room\n");
    act_on(step(KLUMDRAY_SUB, receive(&wire[0]), received), KLUMDRAY_SUB);
    say(stack_used() < MOST_STACK ? "stack below 1,024 octets\n"
                                  : "stack of 1,024 octets or more\n");
    return stack_used() < MOST_STACK;
}
