/*
 * The C surface as a C program meets it: empty slices, document 01's P1 to P6, P7's datagram, steps
 * of a coupler with P7 to P10, repetitions and frames that differ from one in a bit, sites with P12
 * and P13, tunnelling on four channels, two-octet floats, totals and a station that keeps one,
 * numbers with more bits than their ranges have, and slices that overlap or adjoin.
 *
 * It also runs on boards: no assumption about the width of a pointer, and of the C library only
 * memcpy, memset, memcmp, strcmp and printf with %s and %u.
 */
#include "klumdray.h"

#include <stdio.h>
#include <string.h>

static unsigned passed, failed;

/* Counts a check, and begins the line that names it. */
static void count(int holds)
{
    printf("%s", holds ? "ok" : "FAILED");
    if (holds)
        passed++;
    else
        failed++;
}

static void check(const char *name, int holds)
{
    count(holds);
    printf(" %s\n", name);
}

static const uint8_t P1[12] = {0xBC, 0x00, 0x00, 0x12, 0x34, 0xB4,
                               0x00, 0x80, 0x56, 0x78, 0x9A, 0xE5};

static const uint8_t P7[20] = {0x06, 0x10, 0x05, 0x30, 0x00, 0x14, 0x29, 0x00, 0xBC, 0xC0,
                               0x00, 0x00, 0x12, 0x34, 0x04, 0x00, 0x80, 0x56, 0x78, 0x9A};

static uint64_t write_p1(const uint8_t *payload, size_t n, uint8_t *room, size_t m)
{
    return klumdray_tp1_write(0, 1, 3, 0x0000, 1, 0x1234, 3, payload, n, room, m);
}

static int untouched(const uint8_t *room, size_t n)
{
    while (n > 0)
        if (room[--n] != 0x55)
            return 0;
    return 1;
}

static void empty_slices(void)
{
    uint8_t room[16];
    memset(room, 0x55, sizeof room);
    check("read of a null slice is 1", klumdray_tp1_read(NULL, 0) == 1);
    check("check octet of a null slice is FFh", klumdray_check_octet(NULL, 0) == 0xFF);
    check("write of a null payload is 14", write_p1(NULL, 0, room, sizeof room) == 14);
    check("write of a null payload leaves the room", untouched(room, sizeof room));
    check("write into a null room is 13", write_p1(P1 + 6, 5, NULL, 0) == 13);
    check("14 comes before 13", write_p1(NULL, 0, NULL, 0) == 14);
}

static void empty_slices_of_the_others(void)
{
    check("cEMI read of a null slice is 1", klumdray_cemi_read(NULL, 0) == 1);
    check("routing read of a null slice is 1", klumdray_routing_read(NULL, 0) == 1);
    check("cEMI write of a null payload is 14",
          klumdray_cemi_write(0x29, 0, 0, 1, 3, 0, 1, 0x1234, 4, NULL, 0, NULL, 0) == 14);
    check("cEMI write into a null room is 13",
          klumdray_cemi_write(0x29, 0, 0, 1, 3, 0, 1, 0x1234, 4, P7 + 15, 5, NULL, 0) == 13);
    check("routing write of a null payload is 14",
          klumdray_routing_write(0x29, 0, 0, 1, 3, 0, 1, 0x1234, 4, NULL, 0, NULL, 0) == 14);
    check("routing write into a null room is 13",
          klumdray_routing_write(0x29, 0, 0, 1, 3, 0, 1, 0x1234, 4, P7 + 15, 5, NULL, 0) == 13);
}

static void accepted(void)
{
    uint64_t answer = klumdray_tp1_read(P1, sizeof P1);
    check("P1 is accepted", klumdray_number(answer) == 0);
    check("P1 is standard", klumdray_extended(answer) == 0);
    check("P1 is a first sending", klumdray_first_sending(answer) == 1);
    check("P1 has priority bits 11", klumdray_priority(answer) == 3);
    check("P1 has source 0000h", klumdray_source(answer) == 0x0000);
    check("P1 is to a group", klumdray_group(answer) == 1);
    check("P1 has destination 1234h", klumdray_destination(answer) == 0x1234);
    check("P1 has count 3", klumdray_count(answer) == 3);
    check("P1 has LG 4", klumdray_payload_length(answer) == 5);
    check("P1's payload begins at octet 6", klumdray_tp1_payload_start(answer) == 6);
    check("P1's other bits are 0", answer >> 56 == 0);
    check("P1 has no message code", klumdray_message_code(answer) == 0);
    check("P1's check octet", klumdray_check_octet(P1, sizeof P1 - 1) == 0xE5);
    check("a check octet compares with an octet of a frame",
          klumdray_check_octet(P1, sizeof P1 - 1) == P1[sizeof P1 - 1]);
}

static uint8_t folded(const uint8_t *octets, size_t n)
{
    uint8_t sum = 0xFF;
    while (n > 0)
        sum = (uint8_t)(sum ^ octets[--n]);
    return sum;
}

/* Each bit of each octet counts, once: so does every octet of every length. */
static int counts_each_octet(uint8_t *octets, size_t n)
{
    uint32_t before = klumdray_check_octet(octets, n);
    size_t at;
    int right = 1;
    for (at = 0; at < n; at++) {
        uint8_t bit = (uint8_t)(1u << at % 8);
        octets[at] = (uint8_t)(octets[at] ^ bit);
        right &= klumdray_check_octet(octets, n) == (before ^ bit);
        octets[at] = (uint8_t)(octets[at] ^ bit);
    }
    return right;
}

/* R-3: it is worked out by fours of octets, from whatever address and whatever their number. */
static void check_octets(void)
{
    uint8_t octets[280];
    size_t n, from;
    int all = 1, each = 1;
    for (n = 0; n < sizeof octets; n++)
        octets[n] = (uint8_t)(n * 37 + n / 7);
    for (n = 0; n <= 272; n++)
        for (from = 0; from < 8; from++)
            all &= klumdray_check_octet(octets + from, n) == folded(octets + from, n);
    for (n = 0; n < 24; n++)
        each &= counts_each_octet(octets + n % 4, n);
    check("check octets of 0 to 272 octets from eight addresses are those of a loop", all);
    check("each octet of up to 23 counts in the check octet", each);
    check("each octet of 263 counts in the check octet", counts_each_octet(octets + 1, 263));
}

static void refused(void)
{
    static const uint8_t p4[] = {0xCC};
    static const uint8_t p5[] = {0x34, 0xE1, 0xAF, 0xFE, 0x00, 0x00, 0x00};
    static const uint8_t p6[] = {0x34, 0x60, 0xAF, 0xFE, 0xFF, 0x00, 0xFF};
    uint8_t p2[sizeof P1];
    uint8_t longer[sizeof P1 + 1] = {0};
    memcpy(p2, P1, sizeof P1);
    memcpy(longer, P1, sizeof P1);
    p2[11] = 0xE4;
    check("P2 is 6", klumdray_tp1_read(p2, sizeof p2) == 6);
    check("P3 is 1", klumdray_tp1_read(P1, 0) == 1);
    check("P4 is 2", klumdray_tp1_read(p4, sizeof p4) == 2);
    check("P5 is 3", klumdray_tp1_read(p5, sizeof p5) == 3);
    check("P6 is 4", klumdray_tp1_read(p6, sizeof p6) == 4);
    check("P1 without its last octet is 1", klumdray_tp1_read(P1, sizeof P1 - 1) == 1);
    check("P1 with one octet more is 5", klumdray_tp1_read(longer, sizeof longer) == 5);
}

static void words(void)
{
    check("0 in words", strcmp(klumdray_words(0), "not a refusal") == 0);
    check("6 in words", strcmp(klumdray_words(6), "wrong check octet") == 0);
    check("18 in words", strcmp(klumdray_words(18), "filter table missing or of wrong size") == 0);
    check("21 in words",
          strcmp(klumdray_words(21), "counter not one that the channel awaits") == 0);
    check("22 is no number", strcmp(klumdray_words(22), "not a number of these calls") == 0);
    check("23 in words",
          strcmp(klumdray_words(23), "two-octet float 7FFFh, which is invalid") == 0);
    check("24 in words", strcmp(klumdray_words(24), "sum past the 64 bits of the total") == 0);
    check("25 is no number", strcmp(klumdray_words(25), "not a number of these calls") == 0);
    check("255 is no number", strcmp(klumdray_words(255), "not a number of these calls") == 0);
}

static void written(void)
{
    uint8_t room[16];
    uint64_t answer;
    memset(room, 0x55, sizeof room);
    check("P1 into 11 octets is 13", write_p1(P1 + 6, 5, room, 11) == 13);
    check("a refused room is untouched", untouched(room, sizeof room));
    check("priority 4 is 14",
          klumdray_tp1_write(0, 1, 4, 0, 1, 0x1234, 3, P1 + 6, 5, room, sizeof room) == 14);
    check("count 8 is 14",
          klumdray_tp1_write(0, 1, 3, 0, 1, 0x1234, 8, P1 + 6, 5, room, sizeof room) == 14);
    check("the room is still untouched", untouched(room, sizeof room));
    answer = write_p1(P1 + 6, 5, room, sizeof room);
    check("P1 is written", klumdray_number(answer) == 0);
    check("P1 is 12 octets", klumdray_written(answer) == sizeof P1);
    check("P1's octets are written", memcmp(room, P1, sizeof P1) == 0);
    check("octets behind P1 stay", untouched(room + sizeof P1, sizeof room - sizeof P1));
}

static void datagram(void)
{
    uint64_t answer = klumdray_routing_read(P7, sizeof P7);
    size_t start = klumdray_routing_payload_start(answer, sizeof P7);
    check("P7 is accepted", klumdray_number(answer) == 0);
    check("P7 is standard", klumdray_extended(answer) == 0);
    check("P7 is a first sending", klumdray_first_sending(answer) == 1);
    check("P7 has priority bits 11", klumdray_priority(answer) == 3);
    check("P7 has source 0000h", klumdray_source(answer) == 0x0000);
    check("P7 is to a group", klumdray_group(answer) == 1);
    check("P7 has destination 1234h", klumdray_destination(answer) == 0x1234);
    check("P7 has count 4", klumdray_count(answer) == 4);
    check("P7 is an indication", klumdray_message(answer) == KLUMDRAY_INDICATION);
    check("P7's code is the octet 29h", klumdray_message_code(answer) == 0x29);
    check("P7 has no error mark", klumdray_error_mark(answer) == 0);
    check("P7's other bits are 0", answer >> 59 == 0);
    check("P7 has 5 octets of payload", klumdray_payload_length(answer) == 5);
    check("P7's payload is P1's", start == 15 && memcmp(P7 + start, P1 + 6, 5) == 0);
    check("P7 has no information", klumdray_routing_information_length(answer, sizeof P7) == 0);
    check("P7's message alone is read the same",
          klumdray_cemi_read(P7 + 6, sizeof P7 - 6) == answer);
    check("P7 without its last octet is 12", klumdray_routing_read(P7, sizeof P7 - 1) == 12);
}

static void message(void)
{
    static const uint8_t confirmation[] = {0x2E, 0x03, 0x01, 0x02, 0x03, 0xBD, 0xC0,
                                           0x00, 0x00, 0x12, 0x34, 0x00, 0x7F};
    size_t n = sizeof confirmation;
    uint64_t answer = klumdray_cemi_read(confirmation, n);
    check("a confirmation is accepted", klumdray_number(answer) == 0);
    check("it is a confirmation", klumdray_message(answer) == KLUMDRAY_CONFIRMATION);
    check("its code is the octet 2Eh", klumdray_message_code(answer) == 0x2E);
    check("it has its error mark", klumdray_error_mark(answer) == 1);
    check("its information has 3 octets", klumdray_cemi_information_length(answer, n) == 3);
    check("its information begins at octet 2", klumdray_cemi_information_start() == 2);
    check("its payload is its last octet", klumdray_cemi_payload_start(answer, n) == n - 1);
    check("a request is 7 in routing",
          klumdray_routing_read((const uint8_t *)"\x06\x10\x05\x30\x00\x07\x11", 7) == 7);
}

static void datagram_written(void)
{
    uint8_t room[24];
    uint64_t answer;
    memset(room, 0x55, sizeof room);
    check("a request in routing is 14",
          klumdray_routing_write(0x11, 0, 0, 1, 3, 0, 1, 0x1234, 4, P7 + 15, 5, room, 24) == 14);
    check("an error mark in an indication is 14",
          klumdray_cemi_write(0x29, 1, 0, 1, 3, 0, 1, 0x1234, 4, P7 + 15, 5, room, 24) == 14);
    check("P7 into 19 octets is 13",
          klumdray_routing_write(0x29, 0, 0, 1, 3, 0, 1, 0x1234, 4, P7 + 15, 5, room, 19) == 13);
    check("a refused room is untouched by routing", untouched(room, sizeof room));
    answer = klumdray_routing_write(0x29, 0, 0, 1, 3, 0, 1, 0x1234, 4, P7 + 15, 5, room, 24);
    check("P7 is written", klumdray_number(answer) == 0);
    check("P7 is 20 octets", klumdray_written(answer) == sizeof P7);
    check("P7's octets are written", memcmp(room, P7, sizeof P7) == 0);
    check("octets behind P7 stay", untouched(room + sizeof P7, sizeof room - sizeof P7));
    answer = klumdray_cemi_write(0x29, 0, 0, 1, 3, 0, 1, 0x1234, 4, P7 + 15, 5, room, 24);
    check("P7's message is 14 octets", klumdray_written(answer) == sizeof P7 - 6);
    check("P7's message is written", memcmp(room, P7 + 6, sizeof P7 - 6) == 0);
}

/* What is left of an answer with one bit, where so many are taken from a bit on. A length is a
 * size_t, which has fewer bits than an answer on some machines. */
static uint64_t taken(unsigned bit, unsigned from, unsigned width)
{
    return bit >= from && bit < from + width ? (uint64_t)1 << (bit - from) : 0;
}

#define TAKES_OF(type, helper, from, width)                                                        \
    do {                                                                                           \
        unsigned bit;                                                                              \
        int holds = 1;                                                                             \
        for (bit = 0; bit < 8 * sizeof(type); bit++)                                               \
            holds &= helper((type)1 << bit) == (size_t)taken(bit, from, width);                    \
        check(#helper " takes " #width " bits from " #from " on", holds);                          \
    } while (0)

#define TAKES(helper, from, width) TAKES_OF(uint64_t, helper, from, width)

/* Each helper takes the bits that its definition has in crates/klumdray/specs/Decoding.antt: what is
 * proved there is so proved of these. */
static void helpers(void)
{
    TAKES(klumdray_number, 0, 8);
    TAKES(klumdray_written, 8, 56);
    TAKES(klumdray_extended, 8, 1);
    TAKES(klumdray_first_sending, 9, 1);
    TAKES(klumdray_priority, 10, 2);
    TAKES(klumdray_group, 12, 1);
    TAKES(klumdray_count, 13, 3);
    TAKES(klumdray_source, 16, 16);
    TAKES(klumdray_destination, 32, 16);
    TAKES(klumdray_payload_length, 48, 8);
    TAKES(klumdray_message, 56, 2);
    TAKES(klumdray_error_mark, 58, 1);
    TAKES(klumdray_acknowledgement, 8, 8);
    TAKES(klumdray_own, 16, 1);
    TAKES(klumdray_forwarded, 32, 32);
    TAKES(klumdray_listed, 8, 16);
    TAKES(klumdray_forwardings, 24, 16);
    TAKES_OF(uint32_t, klumdray_reason, 8, 8);
    TAKES_OF(uint32_t, klumdray_stopping_line, 16, 8);
    TAKES_OF(uint32_t, klumdray_stopping_side, 24, 1);
    TAKES_OF(uint32_t, klumdray_ack_channel, 8, 8);
    TAKES_OF(uint32_t, klumdray_ack_counter, 16, 8);
    TAKES_OF(uint32_t, klumdray_ack_status, 24, 8);
    TAKES_OF(uint32_t, klumdray_raised, 8, 1);
    TAKES_OF(uint32_t, klumdray_code, 16, 16);
    TAKES_OF(uint32_t, klumdray_is_increment, 8, 1);
    TAKES_OF(uint32_t, klumdray_taken, 8, 8);
    check("an extended payload begins at octet 7", klumdray_tp1_payload_start(1u << 8) == 7);
    check("a datagram's information begins at octet 8", klumdray_routing_information_start() == 8);
    check("1 is the octet 11h", klumdray_message_code((uint64_t)KLUMDRAY_REQUEST << 56) == 0x11);
}

/* No step gives such an answer, but each part is read from it as if the others were not there. */
static void parts_with_a_refusal(void)
{
    uint64_t answer = (uint64_t)270 << 32 | 1u << 16 | 0xCCu << 8 | 6u;
    check("a number beside other parts is read", klumdray_number(answer) == 6);
    check("an acknowledgement beside a number is read", klumdray_acknowledgement(answer) == 0xCC);
    check("for itself beside a number is read", klumdray_own(answer) == 1);
    check("octets forwarded beside a number are read", klumdray_forwarded(answer) == 270);
}

/* A coupler's settings, memory and room. */
struct coupler {
    uint8_t settings[KLUMDRAY_SETTINGS_SIZE];
    uint8_t memory[KLUMDRAY_MEMORY_SIZE];
    uint8_t room[KLUMDRAY_ROOM_SIZE];
};

/* A coupler whose eight codes are all the same, with nothing remembered. */
static struct coupler coupler(uint8_t line, uint8_t code, uint8_t medium)
{
    struct coupler c;
    c.settings[0] = line;
    memset(c.settings + 1, code, 8);
    c.settings[9] = medium;
    memset(c.memory, 0, sizeof c.memory);
    memset(c.room, 0x55, sizeof c.room);
    return c;
}

/* A step without a filter table. */
static uint64_t step(struct coupler *c, uint32_t side, const uint8_t *octets, size_t n)
{
    return klumdray_step(c->settings, sizeof c->settings, NULL, 0, side, c->memory,
                         sizeof c->memory, octets, n, c->room, sizeof c->room);
}

static int is_forwarded(const struct coupler *c, uint64_t answer, const uint8_t *octets, size_t n)
{
    return klumdray_forwarded(answer) == n && memcmp(c->room, octets, n) == 0 &&
           untouched(c->room + n, sizeof c->room - n);
}

/* "On a refusal: its number, none, not, 0." Each part by its helper, and no other bit. */
static int is_refused(uint64_t answer, uint8_t number)
{
    return klumdray_number(answer) == number && klumdray_acknowledgement(answer) == 0 &&
           klumdray_own(answer) == 0 && klumdray_forwarded(answer) == 0 && answer == number;
}

static int is_blank(const uint8_t *memory)
{
    static const uint8_t blank[KLUMDRAY_MEMORY_SIZE];
    return memcmp(memory, blank, sizeof blank) == 0;
}

/* P7 with another octet of AT and count, from IP. */
static uint64_t step_from_ip(struct coupler *c, uint8_t ctrl2)
{
    uint8_t datagram[sizeof P7];
    memcpy(datagram, P7, sizeof P7);
    datagram[9] = ctrl2;
    return step(c, KLUMDRAY_MAIN, datagram, sizeof datagram);
}

static void steps_from_ip(void)
{
    static const uint8_t p9[] = {0xBC, 0x00, 0x00, 0x12, 0x34, 0xF4,
                                 0x00, 0x80, 0x56, 0x78, 0x9A, 0xA5};
    struct coupler c = coupler(0x11, 2, KLUMDRAY_IP);
    uint64_t answer = step_from_ip(&c, 0xC0);
    check("P7 is accepted by a step", klumdray_number(answer) == 0);
    check("P7 gives P1", is_forwarded(&c, answer, P1, sizeof P1));
    check("nothing from IP is acknowledged", klumdray_acknowledgement(answer) == 0);
    check("P7 is not for the coupler itself", klumdray_own(answer) == 0);
    check("the step's other bits are 0", answer == (uint64_t)sizeof P1 << 32);
    c = coupler(0x11, 2, KLUMDRAY_IP);
    check("P8 is not forwarded", step_from_ip(&c, 0x80) == 0);
    check("P8 leaves the room", untouched(c.room, sizeof c.room));
    check("P9 keeps count 7", is_forwarded(&c, step_from_ip(&c, 0xF0), p9, sizeof p9));
    check("nothing from IP is remembered", is_blank(c.memory));
}

static const uint8_t P10[9] = {0xB0, 0xAF, 0xFE, 0x00, 0x00, 0xE1, 0x01, 0x00, 0xFE};

static void steps_from_tp1(void)
{
    static const uint8_t onward[] = {0xB0, 0xAF, 0xFE, 0x00, 0x00, 0xD1, 0x01, 0x00, 0xCE};
    static const uint8_t repeated[] = {0x90, 0xAF, 0xFE, 0x00, 0x00, 0xE1, 0x01, 0x00, 0xDE};
    struct coupler c = coupler(0xFF, 0, KLUMDRAY_TP1);
    uint64_t answer;
    c.settings[2] = 2;
    answer = step(&c, KLUMDRAY_MAIN, P10, sizeof P10);
    check("P10 is acknowledged", klumdray_acknowledgement(answer) == 0xCC);
    check("P10 is forwarded", is_forwarded(&c, answer, onward, sizeof onward));
    check("P10's size is remembered", klumdray_remembered_size(c.memory, KLUMDRAY_MAIN) == 9);
    check("P10 is remembered",
          memcmp(klumdray_remembered(c.memory, KLUMDRAY_MAIN), P10, sizeof P10) == 0);
    check("nothing of the other side is", klumdray_remembered_size(c.memory, KLUMDRAY_SUB) == 0);
    memset(c.room, 0x55, sizeof c.room);
    answer = step(&c, KLUMDRAY_MAIN, repeated, sizeof repeated);
    check("a repetition is acknowledged", klumdray_acknowledgement(answer) == 0xCC);
    check("a repetition is not forwarded", klumdray_forwarded(answer) == 0);
    check("a repetition leaves the room", untouched(c.room, sizeof c.room));
    check("a repetition is remembered",
          memcmp(klumdray_remembered(c.memory, KLUMDRAY_MAIN), repeated, sizeof repeated) == 0);
    answer = step(&c, KLUMDRAY_SUB, repeated, sizeof repeated);
    check("from the other side it is closed", answer == 0);
    check("and remembered", klumdray_remembered_size(c.memory, KLUMDRAY_SUB) == sizeof repeated);
}

/* A leak meter's telegrams from line 4.7 to group 2/2/52: one, and two, which differs in a bit. */
enum { METER = 11 };

static const uint8_t ONE[METER] = {0xBC, 0x47, 0x15, 0x12, 0x34, 0xE3,
                                   0x00, 0x80, 0x0C, 0x1A, 0x42};
static const uint8_t ONE_REPEATED[METER] = {0x9C, 0x47, 0x15, 0x12, 0x34, 0xE3,
                                            0x00, 0x80, 0x0C, 0x1A, 0x62};
static const uint8_t TWO_REPEATED[METER] = {0x9C, 0x47, 0x15, 0x12, 0x34, 0xE3,
                                            0x00, 0x80, 0x0C, 0x1B, 0x63};
static const uint8_t TWO_ONWARD[METER] = {0xBC, 0x47, 0x15, 0x12, 0x34, 0xD3,
                                          0x00, 0x80, 0x0C, 0x1B, 0x73};

/* Coupler 4.7, open, after telegram one; the room is as if nothing had been forwarded. */
static struct coupler after_one(void)
{
    struct coupler c = coupler(0x47, 2, KLUMDRAY_TP1);
    uint64_t answer = step(&c, KLUMDRAY_SUB, ONE, sizeof ONE);
    check("telegram one is forwarded", klumdray_forwarded(answer) == sizeof ONE);
    memset(c.room, 0x55, sizeof c.room);
    return c;
}

/* "A repetition isn't forwarded", but acknowledged. */
static int is_repetition(const struct coupler *c, uint64_t answer)
{
    return answer == 0xCC00 && untouched(c->room, sizeof c->room);
}

/* "all octets must agree except the repeat bit and the check octet" */
static void near_repetitions(void)
{
    static const uint8_t count_5[METER] = {0x9C, 0x47, 0x15, 0x12, 0x34, 0xD3,
                                           0x00, 0x80, 0x0C, 0x1A, 0x52};
    static const uint8_t count_4[METER] = {0xBC, 0x47, 0x15, 0x12, 0x34, 0xC3,
                                           0x00, 0x80, 0x0C, 0x1A, 0x62};
    struct coupler c = after_one();
    uint64_t answer = step(&c, KLUMDRAY_SUB, TWO_REPEATED, METER);
    check("one payload bit different is forwarded", is_forwarded(&c, answer, TWO_ONWARD, METER));
    check("and acknowledged", klumdray_acknowledgement(answer) == 0xCC);
    c = after_one();
    answer = step(&c, KLUMDRAY_SUB, count_5, METER);
    check("equal payload but another count is forwarded", is_forwarded(&c, answer, count_4, METER));
    check("and acknowledged too", klumdray_acknowledgement(answer) == 0xCC);
    c = after_one();
    answer = step(&c, KLUMDRAY_SUB, ONE, sizeof ONE);
    check("marked first sending the same is forwarded", klumdray_forwarded(answer) == METER);
}

static void repeats_of_repeats(void)
{
    struct coupler c = after_one();
    uint64_t answer = step(&c, KLUMDRAY_SUB, ONE_REPEATED, METER);
    check("a repeat is stopped", is_repetition(&c, answer));
    answer = step(&c, KLUMDRAY_SUB, ONE_REPEATED, METER);
    check("a repeat of a repeat is stopped", is_repetition(&c, answer));
    answer = step(&c, KLUMDRAY_SUB, TWO_REPEATED, METER);
    check("after it another frame is not", is_forwarded(&c, answer, TWO_ONWARD, METER));
    answer = step(&c, KLUMDRAY_SUB, ONE_REPEATED, METER);
    check("nor is the frame before that one", klumdray_forwarded(answer) == METER);
}

/* Telegram two is damaged on its first sending: its repeat is no repetition of telegram one. */
static void repeats_of_damaged_frames(void)
{
    static const uint8_t damaged[METER] = {0xBC, 0x47, 0x15, 0x12, 0x34, 0xE3,
                                           0x00, 0x80, 0x0C, 0x1B, 0x42};
    struct coupler c = after_one(), before = c;
    uint64_t answer = step(&c, KLUMDRAY_SUB, damaged, sizeof damaged);
    check("telegram two with a wrong check octet is 6", is_refused(answer, 6));
    check("it leaves the room", untouched(c.room, sizeof c.room));
    check("telegram one stays remembered", memcmp(c.memory, before.memory, sizeof c.memory) == 0);
    answer = step(&c, KLUMDRAY_SUB, TWO_REPEATED, METER);
    check("the repeat of telegram two is acknowledged", klumdray_acknowledgement(answer) == 0xCC);
    check("it is forwarded", is_forwarded(&c, answer, TWO_ONWARD, METER));
    memset(c.room, 0x55, sizeof c.room);
    answer = step(&c, KLUMDRAY_SUB, TWO_REPEATED, METER);
    check("its next repeat is stopped", is_repetition(&c, answer));
}

/* Every bit but the repeat flag, format, LG, the control octet's fixed ones and the check octet. */
static void one_bit_other(void)
{
    static const uint8_t bits[METER - 1] = {0x0C, 0xFF, 0xFF, 0xFF, 0xFF,
                                            0xF0, 0xFF, 0xFF, 0xFF, 0xFF};
    const struct coupler before = after_one();
    unsigned i, tried = 0, forwarded = 0;
    for (i = 0; i < 8 * sizeof bits; i++) {
        struct coupler c = before;
        uint8_t frame[METER], bit = (uint8_t)(1u << i % 8);
        if ((bits[i / 8] & bit) == 0)
            continue;
        memcpy(frame, ONE_REPEATED, METER);
        frame[i / 8] ^= bit;
        frame[METER - 1] ^= bit;
        tried++;
        forwarded += klumdray_forwarded(step(&c, KLUMDRAY_SUB, frame, METER)) == METER;
    }
    check("a repeat with any other bit is forwarded", tried == 70 && forwarded == tried);
}

/* The longest frame is compared to its last octet of payload. */
static void longest_repetitions(void)
{
    enum { N = KLUMDRAY_FRAME_SIZE };
    uint8_t frame[N] = {0x3C, 0xE0, 0x47, 0x15, 0x12, 0x34, 0xFE};
    struct coupler c = coupler(0x47, 2, KLUMDRAY_TP1);
    frame[N - 1] = (uint8_t)klumdray_check_octet(frame, N - 1);
    check("the longest frame is forwarded",
          klumdray_forwarded(step(&c, KLUMDRAY_SUB, frame, N)) == N);
    memset(c.room, 0x55, sizeof c.room);
    frame[0] ^= 0x20;
    frame[N - 1] ^= 0x20;
    check("its repeat is stopped", is_repetition(&c, step(&c, KLUMDRAY_SUB, frame, N)));
    frame[N - 2] ^= 0x80;
    frame[N - 1] ^= 0x80;
    check("with one bit other in the last octet of payload it is forwarded",
          klumdray_forwarded(step(&c, KLUMDRAY_SUB, frame, N)) == N);
}

static void repetitions(void)
{
    near_repetitions();
    repeats_of_repeats();
    repeats_of_damaged_frames();
    one_bit_other();
    longest_repetitions();
}

/* Octets that the header has a word for although no step leaves them so. */
static void steps_with_odd_memories(void)
{
    static const uint8_t repeated[] = {0x90, 0xAF, 0xFE, 0x00, 0x00, 0x60, 0x00, 0x5E};
    struct coupler c = coupler(0x11, 2, KLUMDRAY_TP1);
    unsigned size, forwarded = 0;
    for (size = 1; size <= 7; size++) {
        memcpy(c.memory + 2, repeated, sizeof repeated);
        c.memory[1] = (uint8_t)size;
        forwarded += klumdray_forwarded(step(&c, KLUMDRAY_MAIN, repeated, 8)) == 8;
    }
    check("of a size from 1 to 7 no frame is a repetition", forwarded == 7);
    c.memory[9] ^= 0xFF;
    check("of octets with a wrong check octet a frame is one",
          step(&c, KLUMDRAY_MAIN, repeated, sizeof repeated) == 0xCC00);
    c.memory[0] = 1;
    check("a size of 264 is none", klumdray_remembered_size(c.memory, KLUMDRAY_MAIN) == 0);
    check("and no frame is repeated",
          klumdray_forwarded(step(&c, KLUMDRAY_MAIN, repeated, 8)) == 8);
}

static void steps_for_itself_and_to_ip(void)
{
    static const uint8_t own[] = {0xB0, 0xAF, 0xFE, 0x47, 0x00, 0x60, 0x00, 0x39};
    uint8_t datagram[sizeof P7];
    struct coupler c = coupler(0x47, 2, KLUMDRAY_IP);
    uint64_t answer = step(&c, KLUMDRAY_SUB, own, sizeof own);
    check("a frame for 4.7.0 is for coupler 4.7 itself", klumdray_own(answer) == 1);
    check("it is acknowledged", klumdray_acknowledgement(answer) == 0xCC);
    check("it is not forwarded", klumdray_forwarded(answer) == 0);
    memcpy(datagram, P7, sizeof P7);
    datagram[9] = 0xA0;
    answer = step(&c, KLUMDRAY_SUB, P1, sizeof P1);
    check("P1 to IP is acknowledged", klumdray_acknowledgement(answer) == 0xCC);
    check("P1 to IP is a datagram", is_forwarded(&c, answer, datagram, sizeof datagram));
}

/*
 * Two places for large slices: filter tables, stores, and slices that overlap. The second also keeps
 * what the first was.
 */
enum { LARGE = KLUMDRAY_TABLE_SIZE + 2048 };

static uint8_t large[LARGE], other[LARGE];

static void steps_with_a_table(void)
{
    uint8_t *const table = large;
    const size_t n = KLUMDRAY_TABLE_SIZE;
    struct coupler c = coupler(0x11, 0, KLUMDRAY_TP1);
    uint64_t answer;
    c.settings[3] = 1;
    check("no filter table where code 1 asks for one is 18",
          is_refused(step(&c, KLUMDRAY_MAIN, P1, sizeof P1), 18));
    memset(table, 0, n);
    table[0x1234 / 8] = 1u << 0x1234 % 8;
    answer = klumdray_step(c.settings, sizeof c.settings, table, n, KLUMDRAY_MAIN, c.memory,
                           sizeof c.memory, P1, sizeof P1, c.room, sizeof c.room);
    check("a group in the filter table is forwarded", klumdray_forwarded(answer) == sizeof P1);
    table[0x1234 / 8] ^= 0xFF;
    answer = klumdray_step(c.settings, sizeof c.settings, table, n, KLUMDRAY_MAIN, c.memory,
                           sizeof c.memory, P1, sizeof P1, c.room, sizeof c.room);
    check("another group is not", klumdray_number(answer) == 0 && klumdray_forwarded(answer) == 0);
}

static void refused_blocks_and_rooms(void)
{
    struct coupler c = coupler(0x11, 2, KLUMDRAY_TP1);
    uint8_t *memory = c.memory, *room = c.room;
    uint64_t answer = klumdray_step(c.settings, 10, NULL, 0, 0, NULL, 0, P1, 12, room, 272);
    check("a null memory is 14", is_refused(answer, 14));
    answer = klumdray_step(c.settings, 10, NULL, 0, 0, memory, 529, P1, 12, room, 272);
    check("a memory of 529 octets is 14", is_refused(answer, 14));
    answer = klumdray_step(c.settings, 10, NULL, 0, 0, memory, 530, P1, 12, NULL, 0);
    check("a null room is 13", is_refused(answer, 13));
    answer = klumdray_step(c.settings, 10, NULL, 0, 0, memory, 530, P1, 12, room, 271);
    check("a room of 271 octets is 13", is_refused(answer, 13));
    c.settings[0] = 0x00;
    answer = klumdray_step(c.settings, 10, NULL, 0, 2, NULL, 0, NULL, 0, NULL, 0);
    check("a null memory is 14 before 15 and 13", is_refused(answer, 14));
    check("their room is untouched", untouched(room, sizeof c.room));
    check("their memory is untouched", is_blank(memory));
}

/* Settings of another size than 10 are refused first of all. */
static void refused_settings(void)
{
    uint8_t settings[KLUMDRAY_SETTINGS_SIZE + 1] = {0x11, 2, 2, 2, 2, 2, 2, 2, 2};
    struct coupler c = coupler(0x11, 2, KLUMDRAY_TP1);
    uint8_t *memory = c.memory, *room = c.room;
    uint64_t answer = klumdray_step(NULL, 0, NULL, 0, 0, memory, 530, P1, 12, room, 272);
    check("null settings are 14", is_refused(answer, 14));
    answer = klumdray_step(settings, 9, NULL, 0, 0, memory, 530, P1, 12, room, 272);
    check("settings of 9 octets are 14", is_refused(answer, 14));
    answer = klumdray_step(settings, 11, NULL, 0, 0, memory, 530, P1, 12, room, 272);
    check("settings of 11 octets are 14", is_refused(answer, 14));
    settings[0] = 0x00;
    answer = klumdray_step(settings, 9, P1, 12, 2, memory, 530, NULL, 0, NULL, 0);
    check("settings of 9 octets are 14 before 15, 18, 13 and 1", is_refused(answer, 14));
    answer = klumdray_step(settings, 11, P1, 12, 0, memory, 530, NULL, 0, NULL, 0);
    check("so are settings of 11 octets", is_refused(answer, 14));
    check("their room and memory are untouched",
          untouched(room, sizeof c.room) && is_blank(memory));
}

static void refused_steps(void)
{
    struct coupler c = coupler(0x11, 2, KLUMDRAY_TP1);
    struct coupler on_ip = coupler(0x11, 2, KLUMDRAY_IP);
    struct coupler on_another = coupler(0x11, 2, 2);
    struct coupler closed = coupler(0x00, 3, 2);
    check("line 00h is 15", is_refused(step(&closed, 2, NULL, 0), 15));
    check("side 2 is 14", is_refused(step(&c, 2, P1, sizeof P1), 14));
    check("medium 2 is 14", is_refused(step(&on_another, KLUMDRAY_SUB, P1, sizeof P1), 14));
    check("no octets are 1", is_refused(step(&c, KLUMDRAY_SUB, NULL, 0), 1));
    check("P1 without its check octet is 1",
          is_refused(step(&c, KLUMDRAY_SUB, P1, sizeof P1 - 1), 1));
    check("P1 from IP is 10", is_refused(step(&on_ip, KLUMDRAY_MAIN, P1, sizeof P1), 10));
    check("refused rooms are untouched",
          untouched(c.room, sizeof c.room) && untouched(on_ip.room, sizeof on_ip.room) &&
              untouched(on_another.room, sizeof on_another.room) &&
              untouched(closed.room, sizeof closed.room));
    check("refused memories are untouched", is_blank(c.memory) && is_blank(on_ip.memory) &&
                                                is_blank(on_another.memory) &&
                                                is_blank(closed.memory));
}

/* Frames that are acknowledged, forwarded or for the coupler itself as soon as their check octet is
 * right. */
static void damaged_frames(void)
{
    uint8_t own_frame[] = {0xB0, 0xAF, 0xFE, 0x47, 0x00, 0x60, 0x00, 0x38};
    uint8_t p2[sizeof P1];
    struct coupler c = coupler(0x47, 2, KLUMDRAY_TP1);
    uint64_t answer;
    memcpy(p2, P1, sizeof P1);
    p2[11] = 0xE4;
    check("a step with P2 is 6", is_refused(step(&c, KLUMDRAY_MAIN, p2, 12), 6));
    check("so is one with a damaged frame for 4.7.0",
          is_refused(step(&c, KLUMDRAY_SUB, own_frame, sizeof own_frame), 6));
    check("damaged frames leave the room", untouched(c.room, sizeof c.room));
    check("damaged frames are not remembered", is_blank(c.memory));
    own_frame[7] = 0x39;
    answer = step(&c, KLUMDRAY_SUB, own_frame, sizeof own_frame);
    check("the frame for 4.7.0 with its check octet is acknowledged and own",
          klumdray_number(answer) == 0 && klumdray_acknowledgement(answer) == 0xCC &&
              klumdray_own(answer) == 1 && klumdray_forwarded(answer) == 0);
    answer = step(&c, KLUMDRAY_MAIN, P1, sizeof P1);
    check("P1 is acknowledged and forwarded",
          klumdray_number(answer) == 0 && klumdray_acknowledgement(answer) == 0xCC &&
              klumdray_own(answer) == 0 && klumdray_forwarded(answer) == sizeof P1);
}

enum { MOST_RECORDS = 4 };

/* A site of up to four couplers, with one filter table in each store, and a room. */
struct site {
    uint8_t records[MOST_RECORDS * KLUMDRAY_RECORD_SIZE];
    size_t length, project_length, own_length;
    uint8_t room[KLUMDRAY_LIST_ROOM_SIZE + 8];
};

static uint8_t *const project = large, *const own = other;

/* Couplers without a filter table, whose eight codes are all as given but broadcast's, open. */
static struct site site(const uint8_t *lines, size_t couplers, uint8_t code)
{
    struct site s;
    size_t i;
    memset(&s, 0, sizeof s);
    memset(s.room, 0x55, sizeof s.room);
    s.length = couplers * KLUMDRAY_RECORD_SIZE;
    for (i = 0; i < couplers; i++) {
        uint8_t *record = s.records + i * KLUMDRAY_RECORD_SIZE;
        record[0] = 0x43;
        record[1] = 0x50;
        record[2] = lines[i];
        memset(record + 3, code, 8);
        record[4] = record[8] = 2;
        record[11] = 0xFF;
    }
    return s;
}

static uint64_t trace(struct site *s, uint32_t start, uint32_t kind, uint32_t destination,
                      uint32_t count)
{
    return klumdray_trace(start, kind, destination, count, s->records, s->length, project,
                          s->project_length, own, s->own_length, s->room, sizeof s->room);
}

static uint32_t why(const struct site *s, uint32_t start, uint32_t kind, uint32_t destination,
                    uint32_t count, uint32_t line)
{
    return klumdray_why(start, kind, destination, count, s->records, s->length, project,
                        s->project_length, own, s->own_length, line);
}

/* The answer, the list and nothing behind it. */
static int is_traced(const struct site *s, uint64_t answer, const uint8_t *list, size_t n,
                     size_t forwardings)
{
    return klumdray_number(answer) == 0 && answer >> 40 == 0 &&
           klumdray_listed(answer) * KLUMDRAY_LISTED_SIZE == n &&
           klumdray_forwardings(answer) == forwardings && memcmp(s->room, list, n) == 0 &&
           untouched(s->room + n, sizeof s->room - n);
}

static const uint8_t LINES[4] = {0x20, 0x40, 0x45, 0x47};

static void traces_of_groups(void)
{
    static const uint8_t two[] = {0x00, 0, 2, 0x40, 1, 1, 0x45, 0, 2, 0x47, 2, 0};
    static const uint8_t none[] = {0x47, 0, 0};
    static const uint8_t seven[] = {0x00, 7, 2, 0x20, 7, 3, 0x40, 7, 1, 0x45, 7, 2, 0x47, 7, 0};
    struct site s = site(LINES, 4, 2);
    uint64_t answer = trace(&s, 0x47, KLUMDRAY_GROUP, 0x1234, 2);
    check("P12 with count 2", is_traced(&s, answer, two, sizeof two, 3));
    check("P12's second listed line",
          klumdray_listed_line(s.room, 1) == 0x40 && klumdray_listed_count(s.room, 1) == 1 &&
              klumdray_listed_crossed(s.room, 1) == 1);
    s = site(LINES, 4, 2);
    answer = trace(&s, 0x47, KLUMDRAY_GROUP, 0x1234, 0);
    check("P12 with count 0", is_traced(&s, answer, none, sizeof none, 0));
    s = site(LINES, 4, 2);
    answer = trace(&s, 0x47, KLUMDRAY_GROUP, 0x1234, 7);
    check("P12 with count 7", is_traced(&s, answer, seven, sizeof seven, 4));
    s = site(LINES, 0, 2);
    answer = klumdray_trace(0x47, KLUMDRAY_GROUP, 0x1234, 0, NULL, 0, NULL, 0, NULL, 0, s.room,
                            KLUMDRAY_LIST_ROOM_SIZE);
    check("a site of null slices", is_traced(&s, answer, none, sizeof none, 0));
}

static void traces_of_individual_addresses(void)
{
    static const uint8_t own_address[] = {0x00, 5, 1, 0x20, 6, 0, 0x40, 4, 2};
    static const uint8_t not_above[] = {0x40, 5, 1, 0x47, 6, 0};
    struct site s = site(LINES, 4, 0);
    size_t i;
    for (i = 0; i < 4; i++)
        s.records[12 * i + 3] = s.records[12 * i + 7] = 1;
    check("P13 to 4700h",
          is_traced(&s, trace(&s, 0x20, KLUMDRAY_INDIVIDUAL, 0x4700, 6), own_address, 9, 2));
    memset(s.room, 0x55, sizeof s.room);
    check("P13 to 4901h",
          is_traced(&s, trace(&s, 0x47, KLUMDRAY_INDIVIDUAL, 0x4901, 6), not_above, 6, 1));
}

static void traces_with_tables(void)
{
    static const uint8_t both[] = {0x00, 7, 0, 0x20, 7, 1, 0x40, 7, 1};
    struct site s = site(LINES, 2, 1);
    s.project_length = s.own_length = KLUMDRAY_TABLE_SIZE;
    s.records[11] = 0;
    s.records[23] = 128;
    memset(project, 0, KLUMDRAY_TABLE_SIZE);
    memset(own, 0, KLUMDRAY_TABLE_SIZE);
    project[0x1234 / 8] = 1u << 0x1234 % 8;
    check("a group in the project store's table",
          is_traced(&s, trace(&s, 0x00, KLUMDRAY_GROUP, 0x1234, 7), both, 6, 1));
    own[0x1234 / 8] = 1u << 0x1234 % 8;
    memset(s.room, 0x55, sizeof s.room);
    check("and in the site's own",
          is_traced(&s, trace(&s, 0x00, KLUMDRAY_GROUP, 0x1234, 7), both, 9, 2));
}

/* The number of a refusal, if trace and why give the same and the room stays; else 255. */
static uint64_t refused_site(struct site s)
{
    uint64_t answer = trace(&s, 0x00, KLUMDRAY_GROUP, 0x1234, 7);
    uint64_t explained = why(&s, 0x00, KLUMDRAY_GROUP, 0x1234, 7, 0x20);
    return answer == explained && untouched(s.room, sizeof s.room) ? answer : 255;
}

static void refused_sites(void)
{
    static const uint8_t twice[] = {0x20, 0x20};
    struct site s = site(LINES, 4, 2);
    check("a room of 767 octets is 13",
          klumdray_trace(0, 1, 0x1234, 7, s.records, 48, NULL, 0, NULL, 0, s.room, 767) == 13);
    check("a null room is 13",
          klumdray_trace(0, 1, 0x1234, 7, s.records, 48, NULL, 0, NULL, 0, NULL, 0) == 13);
    check("kind 2 is 14", trace(&s, 0, 2, 0x1234, 7) == 14 && why(&s, 0, 2, 0x1234, 7, 0) == 14);
    check("count 8 is 14", trace(&s, 0, 1, 0x1234, 8) == 14 && why(&s, 0, 1, 0x1234, 8, 0) == 14);
    check("14 comes before 13",
          klumdray_trace(0, 2, 0x1234, 7, NULL, 0, NULL, 0, NULL, 0, NULL, 0) == 14);
    check("those rooms are untouched", untouched(s.room, sizeof s.room));
    s.records[2] = 0x00;
    check("line 00h in a site is 15", refused_site(s) == 15);
    s.records[1] = 0x51;
    check("a wrong mark is 16", refused_site(s) == 16);
    s = site(LINES, 4, 2);
    s.length = 47;
    check("a site of 47 octets is 16", refused_site(s) == 16);
    s.own_length = 1;
    check("a store of 1 octet is 18", refused_site(s) == 18);
    check("one line twice is 17", refused_site(site(twice, 2, 2)) == 17);
    check("a missing filter table is 18", refused_site(site(LINES, 4, 1)) == 18);
}

/* A why's answer that is a reason. */
static int is_stopped(uint32_t answer, uint8_t reason, uint8_t line, uint8_t side)
{
    return klumdray_number(answer) == 0 && klumdray_reason(answer) == reason &&
           klumdray_stopping_line(answer) == line && klumdray_stopping_side(answer) == side &&
           answer >> 25 == 0;
}

static void reasons(void)
{
    struct site s = site(LINES, 4, 2);
    check("P12's lines are reached", why(&s, 0x47, KLUMDRAY_GROUP, 0x1234, 2, 0x45) == 0);
    check("the count is used up",
          is_stopped(why(&s, 0x47, KLUMDRAY_GROUP, 0x1234, 2, 0x20), KLUMDRAY_COUNT_USED_UP, 0x20,
                     KLUMDRAY_MAIN));
    check("no coupler fitted",
          is_stopped(why(&s, 0x47, KLUMDRAY_GROUP, 0x1234, 2, 0x49), KLUMDRAY_NOT_FITTED, 0x49,
                     KLUMDRAY_MAIN));
    check("its own address",
          is_stopped(why(&s, 0x47, KLUMDRAY_INDIVIDUAL, 0x4700, 6, 0x20), KLUMDRAY_OWN_ADDRESS,
                     0x47, KLUMDRAY_SUB));
    s = site(LINES, 4, 0);
    check("the code is closed",
          is_stopped(why(&s, 0x20, KLUMDRAY_GROUP, 0x1234, 0, 0x47), KLUMDRAY_CLOSED, 0x20,
                     KLUMDRAY_SUB));
    s.records[3] = s.records[7] = s.records[15] = s.records[19] = 1;
    check("code 1 and not below",
          is_stopped(why(&s, 0x40, KLUMDRAY_INDIVIDUAL, 0x3001, 6, 0x20), KLUMDRAY_NOT_BELOW, 0x20,
                     KLUMDRAY_MAIN));
    check("code 1 and not above",
          is_stopped(why(&s, 0x40, KLUMDRAY_INDIVIDUAL, 0x4901, 6, 0x20), KLUMDRAY_NOT_ABOVE, 0x40,
                     KLUMDRAY_SUB));
    s = site(LINES, 1, 1);
    s.own_length = KLUMDRAY_TABLE_SIZE;
    s.records[11] = 128;
    memset(own, 0, KLUMDRAY_TABLE_SIZE);
    check("code 1 and not in its table",
          is_stopped(why(&s, 0x00, KLUMDRAY_GROUP, 0x1234, 6, 0x20), KLUMDRAY_NOT_IN_TABLE, 0x20,
                     KLUMDRAY_MAIN));
}

/* P7's message in a request with counter 0 on channel 1, and an acknowledgement of that request. */
static const uint8_t REQUEST[24] = {0x06, 0x10, 0x04, 0x20, 0x00, 0x18, 0x04, 0x01,
                                    0x00, 0x00, 0x29, 0x00, 0xBC, 0xC0, 0x00, 0x00,
                                    0x12, 0x34, 0x04, 0x00, 0x80, 0x56, 0x78, 0x9A};
static const uint8_t ACK[KLUMDRAY_ACK_SIZE] = {0x06, 0x10, 0x04, 0x21, 0x00,
                                               0x0A, 0x04, 0x01, 0x00, 0x00};

/* Octets received, more than are lent of them. */
struct datagram {
    uint8_t octets[sizeof REQUEST + 4];
};

static struct datagram request(uint8_t channel, uint8_t counter)
{
    struct datagram d;
    memset(&d, 0x55, sizeof d);
    memcpy(d.octets, REQUEST, sizeof REQUEST);
    d.octets[7] = channel;
    d.octets[8] = counter;
    return d;
}

static struct datagram acknowledgement(uint8_t channel, uint8_t counter, uint8_t status)
{
    struct datagram d;
    memset(&d, 0x55, sizeof d);
    memcpy(d.octets, ACK, sizeof ACK);
    d.octets[7] = channel;
    d.octets[8] = counter;
    d.octets[9] = status;
    return d;
}

static void requests_read(void)
{
    struct datagram d = request(3, 0xFF);
    uint64_t answer = klumdray_tunnelling_request_read(d.octets, sizeof REQUEST);
    check("a request is accepted", klumdray_number(answer) == 0);
    check("its answer is its message's", answer == klumdray_cemi_read(P7 + 6, sizeof P7 - 6));
    check("its channel is read", klumdray_tunnelling_channel(d.octets) == 3);
    check("its counter is read", klumdray_tunnelling_counter(d.octets) == 0xFF);
    check("its message begins at octet 10", klumdray_tunnelling_message_start() == 10);
    check("its payload is P1's",
          klumdray_tunnelling_payload_start(answer, sizeof REQUEST) == 19 &&
              memcmp(d.octets + 19, P1 + 6, klumdray_payload_length(answer)) == 0);
    check("it has no information",
          klumdray_tunnelling_information_length(answer, sizeof REQUEST) == 0);
    d.octets[9] = 0xFF;
    check("its octet 00h is not read",
          klumdray_tunnelling_request_read(d.octets, sizeof REQUEST) == answer);
    d.octets[10] = 0x11;
    check("a request's 11h is read",
          klumdray_message_code(klumdray_tunnelling_request_read(d.octets, 24)) == 0x11);
    d.octets[10] = 0x2E;
    d.octets[12] |= 1u;
    answer = klumdray_tunnelling_request_read(d.octets, 24);
    check("a confirmation's 2Eh and its error mark are read",
          klumdray_message_code(answer) == 0x2E && klumdray_error_mark(answer) == 1);
}

static void information_read(void)
{
    static const uint8_t octets[] = {0x06, 0x10, 0x04, 0x20, 0x00, 0x17, 0x04, 0x01,
                                     0x00, 0x00, 0x29, 0x03, 0x01, 0x02, 0x03, 0xBC,
                                     0xC0, 0x00, 0x00, 0x12, 0x34, 0x00, 0x7F};
    size_t n = sizeof octets;
    uint64_t answer = klumdray_tunnelling_request_read(octets, n);
    check("a request with information is accepted", klumdray_number(answer) == 0);
    check("a request's information begins at octet 12",
          klumdray_tunnelling_information_start() == 12);
    check("it has 3 octets of it", klumdray_tunnelling_information_length(answer, n) == 3);
    check("and its last octet is its payload",
          klumdray_tunnelling_payload_start(answer, n) == n - 1);
}

/*
 * A datagram with a fault for every number up to 19, of which the first is mended again and again:
 * so each number is seen to come before all those behind it. The rest is judged by its channel.
 */
struct rung {
    size_t n;
    uint8_t number;
    uint8_t place, mended;
};

enum { RUNGS = 7 };

static const struct rung LADDER[RUNGS] = {
    {5, 1, 0, 0x07},  {9, 10, 0, 0x06}, {9, 10, 1, 0x10},  {9, 11, 2, 0x04},
    {9, 12, 5, 0x09}, {9, 1, 5, 0x0B},  {11, 19, 6, 0x04},
};

/* The octets before any is mended, of a request (20h) or an acknowledgement (21h). */
static struct datagram faulty(uint8_t service)
{
    static const uint8_t front[] = {0x07, 0x11, 0x05, 0x00, 0x00, 0x00, 0x05, 0x05, 0x80, 0x80};
    struct datagram d;
    memset(&d, 0xFF, sizeof d);
    memcpy(d.octets, front, sizeof front);
    d.octets[3] = service;
    return d;
}

/* A number that a datagram draws, 255 where something was written nevertheless. */
typedef uint64_t judge(struct datagram *d, size_t n);

static uint64_t judge_request(struct datagram *d, size_t n)
{
    return klumdray_tunnelling_request_read(d->octets, n);
}

static uint64_t judge_ack(struct datagram *d, size_t n)
{
    return klumdray_tunnelling_ack_read(d->octets, n);
}

/* Climbs the ladder; what is left is 11 octets long and has no fault up to 19. */
static void climb(const char *whose, judge *call, struct datagram *d)
{
    size_t i;
    int holds = 1;
    for (i = 0; i < RUNGS; i++) {
        holds &= call(d, LADDER[i].n) == LADDER[i].number;
        d->octets[LADDER[i].place] = LADDER[i].mended;
    }
    count(holds);
    printf(" %s refuses by 1, 10, 11, 12, 1, 19 in this order\n", whose);
}

static void readers_refuse(void)
{
    struct datagram d = faulty(0x20);
    climb("klumdray_tunnelling_request_read", judge_request, &d);
    check("then by the message's 7", judge_request(&d, 11) == 7);
    d.octets[10] = 0x29;
    check("and its 1", judge_request(&d, 11) == 1);
    d.octets[5] = 10;
    check("a request of 10 octets is 1", judge_request(&d, 10) == 1);
    d = faulty(0x21);
    climb("klumdray_tunnelling_ack_read", judge_ack, &d);
    check("then by 5", judge_ack(&d, 11) == 5);
    d.octets[5] = 10;
    check("an acknowledgement of any channel and counter is read",
          judge_ack(&d, 10) == 0x80800500u);
    check("an acknowledgement is 11 as a request", judge_request(&d, 10) == 11);
    check("a request is 11 as an acknowledgement",
          klumdray_tunnelling_ack_read(REQUEST, sizeof REQUEST) == 11);
    check("null slices are 1", klumdray_tunnelling_request_read(NULL, 0) == 1 &&
                                   klumdray_tunnelling_ack_read(NULL, 0) == 1);
}

static uint64_t write_request(uint8_t *room, size_t m)
{
    return klumdray_tunnelling_request_write(1, 0, 0x29, 0, 0, 1, 3, 0, 1, 0x1234, 4, P1 + 6, 5,
                                             room, m);
}

static void requests_written(void)
{
    uint8_t room[sizeof REQUEST + 2];
    uint64_t answer;
    memset(room, 0x55, sizeof room);
    check("a request into 23 octets is 13", write_request(room + 1, 23) == 13);
    check("a request into a null room is 13", write_request(NULL, 0) == 13);
    check("channel 256 is 14 before 13",
          klumdray_tunnelling_request_write(256, 0, 0x29, 0, 0, 1, 3, 0, 1, 0x1234, 4, P1 + 6, 5,
                                            NULL, 0) == 14);
    check("refused requests write nothing", untouched(room, sizeof room));
    answer = write_request(room + 1, 24);
    check("a request is 24 octets", answer == 24u << 8 && klumdray_written(answer) == 24);
    check("a request is written", memcmp(room + 1, REQUEST, sizeof REQUEST) == 0);
    check("octets around it stay", room[0] == 0x55 && room[25] == 0x55);
    memset(room, 0x55, sizeof room);
    check("a request into 25 octets is 24", write_request(room, 25) == 24u << 8);
    check("octets behind it stay", room[24] == 0x55 && room[25] == 0x55);
}

static void acknowledgements_written(void)
{
    static const uint8_t highest[] = {0x06, 0x10, 0x04, 0x21, 0x00, 0x0A, 0x04, 0xFF, 0xFF, 0xFF};
    uint8_t room[KLUMDRAY_ACK_SIZE + 2];
    uint32_t answer;
    memset(room, 0x55, sizeof room);
    check("an acknowledgement into 9 octets is 13",
          klumdray_tunnelling_ack_write(1, 0, 0, room + 1, 9) == 13);
    check("status 256 is 14 before 13", klumdray_tunnelling_ack_write(1, 0, 256, NULL, 0) == 14);
    check("refused acknowledgements write nothing", untouched(room, sizeof room));
    check("an acknowledgement is 10 octets",
          klumdray_tunnelling_ack_write(1, 0, 0, room + 1, 10) == 10u << 8);
    check("it is written", memcmp(room + 1, ACK, sizeof ACK) == 0);
    check("octets around it stay as they were", room[0] == 0x55 && room[11] == 0x55);
    check("with 255 three times it is written",
          klumdray_tunnelling_ack_write(255, 255, 255, room, 11) == 10u << 8 &&
              memcmp(room, highest, 10) == 0 && room[11] == 0x55);
    answer = klumdray_tunnelling_ack_read(room, 10);
    check("and read", klumdray_number(answer) == 0 && klumdray_ack_channel(answer) == 255 &&
                          klumdray_ack_counter(answer) == 255 &&
                          klumdray_ack_status(answer) == 255);
    check("channel, counter and status are told apart",
          klumdray_tunnelling_ack_write(2, 7, 0x29, room, 10) == 10u << 8 &&
              klumdray_tunnelling_ack_read(room, 10) == 0x29070200);
}

/* A table of channels and a room, each with octets behind it that are not lent. */
struct tunnel {
    uint8_t channels[KLUMDRAY_CHANNELS_SIZE + 1];
    uint8_t room[KLUMDRAY_ACK_SIZE + 2];
};

/* All four channels open: receive counters 0, 1, 128, 255 and send counters 255, 2, 0, 129. */
static struct tunnel tunnel(void)
{
    static const uint8_t channels[] = {1, 0, 255, 1, 1, 2, 1, 128, 0, 1, 255, 129};
    struct tunnel t;
    memset(&t, 0x55, sizeof t);
    memcpy(t.channels, channels, sizeof channels);
    return t;
}

static uint64_t receive(struct tunnel *t, const uint8_t *octets, size_t n)
{
    return klumdray_tunnelling_receive(t->channels, KLUMDRAY_CHANNELS_SIZE, octets, n, t->room,
                                       KLUMDRAY_ACK_SIZE);
}

static uint32_t confirm(struct tunnel *t, const uint8_t *octets, size_t n)
{
    return klumdray_tunnelling_confirm(t->channels, KLUMDRAY_CHANNELS_SIZE, octets, n);
}

/* Whether a table is as it was before but for one counter, which is one more. */
static int is_raised(const struct tunnel *t, struct tunnel before, size_t place)
{
    before.channels[place]++;
    return memcmp(t->channels, before.channels, sizeof t->channels) == 0;
}

/* Whether the room has the acknowledgement of a datagram, and nothing behind it. */
static int is_acknowledged(const struct tunnel *t, const struct datagram *d)
{
    struct datagram a = acknowledgement(d->octets[7], d->octets[8], 0x00);
    return memcmp(t->room, a.octets, KLUMDRAY_ACK_SIZE) == 0 &&
           untouched(t->room + KLUMDRAY_ACK_SIZE, sizeof t->room - KLUMDRAY_ACK_SIZE);
}

/* Octet 9 is neither read nor copied as the status. */
static int is_received(uint32_t channel)
{
    struct tunnel t = tunnel(), before = t;
    uint8_t expected = klumdray_channel_receive(t.channels, channel);
    struct datagram d = request((uint8_t)channel, expected);
    uint64_t answer;
    d.octets[9] = 0x29;
    answer = receive(&t, d.octets, sizeof REQUEST);
    return answer == klumdray_tunnelling_request_read(d.octets, sizeof REQUEST) &&
           klumdray_number(answer) == 0 && klumdray_delivered(answer) == 1 &&
           is_raised(&t, before, 3 * (channel - 1) + 1) && is_acknowledged(&t, &d) &&
           klumdray_channel_receive(t.channels, channel) == (uint8_t)(expected + 1);
}

static int is_received_again(uint32_t channel)
{
    struct tunnel t = tunnel(), before = t;
    uint8_t behind = (uint8_t)(klumdray_channel_receive(t.channels, channel) - 1);
    struct datagram d = request((uint8_t)channel, behind);
    uint64_t answer = receive(&t, d.octets, sizeof REQUEST);
    return answer == 0 && klumdray_delivered(answer) == 0 && is_acknowledged(&t, &d) &&
           memcmp(t.channels, before.channels, sizeof t.channels) == 0;
}

/* Whether every other counter of a channel is 21, and leaves table and room. */
static int is_refused_otherwise(uint32_t channel)
{
    struct tunnel t = tunnel(), before = t;
    unsigned ahead;
    int holds = 1;
    for (ahead = 1; ahead < 255; ahead++) {
        uint8_t counter = (uint8_t)(klumdray_channel_receive(t.channels, channel) + ahead);
        struct datagram d = request((uint8_t)channel, counter);
        holds &= receive(&t, d.octets, sizeof REQUEST) == 21;
    }
    return holds && memcmp(&t, &before, sizeof t) == 0;
}

static void requests_received(void)
{
    uint32_t channel;
    int expected = 1, behind = 1, otherwise = 1, bit, delivered = 1;
    for (channel = 1; channel <= KLUMDRAY_CHANNELS; channel++) {
        expected &= is_received(channel);
        behind &= is_received_again(channel);
        otherwise &= is_refused_otherwise(channel);
    }
    check("the expected counter is delivered, acknowledged and raised on each channel", expected);
    check("one behind is acknowledged again and changes nothing", behind);
    check("every other counter is 21 and writes nothing", otherwise);
    for (bit = 0; bit < 64; bit++)
        delivered &= klumdray_delivered((uint64_t)1 << bit) == (bit == 56 || bit == 57);
    check("klumdray_delivered asks for the message code", delivered);
}

/* Each request twice, so often that the counter goes round more than twice. */
static void counters_go_round(void)
{
    struct tunnel t = tunnel();
    uint8_t *channel = t.channels + 3;
    unsigned i;
    int delivered = 1, again = 1, raised = 1;
    channel[1] = channel[2] = 0;
    for (i = 0; i < 600; i++) {
        struct datagram d = request(2, (uint8_t)i), a = acknowledgement(2, (uint8_t)i, 0);
        delivered &= klumdray_delivered(receive(&t, d.octets, sizeof REQUEST));
        again &= receive(&t, d.octets, sizeof REQUEST) == 0;
        raised &= confirm(&t, a.octets, sizeof ACK) == 1u << 8;
        raised &= confirm(&t, a.octets, sizeof ACK) == 21;
    }
    check("600 requests in order are delivered once each", delivered && again);
    check("600 acknowledgements in order raise the send counter once each", raised);
    check("then both counters are 600 less 512",
          klumdray_channel_receive(t.channels, 2) == 88 &&
              klumdray_channel_send(t.channels, 2) == 88);
}

/* On a fresh channel 255 is one behind, although nothing was received. */
static void fresh_channels(void)
{
    struct tunnel t = tunnel(), before;
    struct datagram d = request(3, 255);
    memset(t.channels, 0, KLUMDRAY_CHANNELS_SIZE);
    check("at the start every channel is closed",
          !klumdray_channel_open(t.channels, 1) && !klumdray_channel_open(t.channels, 4) &&
              receive(&t, d.octets, sizeof REQUEST) == 20);
    t.channels[6] = 1;
    before = t;
    check("a channel is opened by 01h", klumdray_channel_open(t.channels, 3));
    check("255 is one behind on a fresh channel",
          receive(&t, d.octets, sizeof REQUEST) == 0 && is_acknowledged(&t, &d) &&
              memcmp(t.channels, before.channels, sizeof t.channels) == 0);
    d = request(3, 0);
    check("0 is expected there", klumdray_delivered(receive(&t, d.octets, sizeof REQUEST)));
}

static uint64_t send(const struct tunnel *t, uint32_t channel, uint8_t *room, size_t m)
{
    return klumdray_tunnelling_send(t->channels, KLUMDRAY_CHANNELS_SIZE, channel, 0x29, 0, 0, 1, 3,
                                    0, 1, 0x1234, 4, P1 + 6, 5, room, m);
}

/* Whether a channel of this number is 20 to all three calls, and everything stays. */
static int is_closed(struct tunnel *t, uint32_t channel)
{
    struct tunnel before = *t;
    struct datagram d = request((uint8_t)channel, 0), a = acknowledgement((uint8_t)channel, 0, 0);
    uint8_t room[sizeof REQUEST];
    memset(room, 0x55, sizeof room);
    return receive(t, d.octets, sizeof REQUEST) == 20 && confirm(t, a.octets, sizeof ACK) == 20 &&
           send(t, channel, room, sizeof room) == 20 && memcmp(t, &before, sizeof *t) == 0 &&
           untouched(room, sizeof room);
}

static void closed_channels(void)
{
    static const uint8_t none[] = {0, 5, 6, 16, 17, 128, 254, 255};
    static const uint8_t values[] = {0, 2, 3, 128, 255};
    struct tunnel t = tunnel();
    size_t i;
    int holds = 1;
    for (i = 0; i < sizeof none; i++)
        holds &= is_closed(&t, none[i]);
    check("a number that is no channel's is 20 although all four are open", holds);
    for (i = 0, holds = 1; i < sizeof values; i++) {
        t.channels[3] = values[i];
        t.channels[4] = t.channels[5] = 0;
        holds &= is_closed(&t, 2) && !klumdray_channel_open(t.channels, 2);
    }
    check("an open octet other than 01h is closed", holds);
    check("a channel of more than 8 bits is not open",
          send(&t, 0x101, t.room, sizeof t.room) == 20 && send(&t, 300, t.room, 0) == 20 &&
              send(&t, 0x80000001, NULL, 0) == 20);
}

/* A tunnel for the judges below, whose tables and rooms must stay. */
static struct tunnel judged;

static uint64_t judge_received(struct datagram *d, size_t n)
{
    struct tunnel before = judged;
    uint64_t answer = receive(&judged, d->octets, n);
    return memcmp(&judged, &before, sizeof judged) == 0 ? answer : 255;
}

static uint64_t judge_confirmed(struct datagram *d, size_t n)
{
    struct tunnel before = judged;
    uint64_t answer = confirm(&judged, d->octets, n);
    return memcmp(&judged, &before, sizeof judged) == 0 ? answer : 255;
}

static void refused_requests(void)
{
    struct datagram d = faulty(0x20);
    judged = tunnel();
    climb("klumdray_tunnelling_receive", judge_received, &d);
    check("then by 20", judge_received(&d, 11) == 20);
    d.octets[7] = 4;
    check("then by 21", judge_received(&d, 11) == 21);
    d.octets[8] = 255;
    check("then by the message's 7 with the expected counter", judge_received(&d, 11) == 7);
    d.octets[8] = 254;
    check("and with one behind", judge_received(&d, 11) == 7);
    d.octets[5] = 10;
    check("a request of 10 octets one behind is 1", judge_received(&d, 10) == 1);
    d.octets[8] = 253;
    check("with another counter it is 21", judge_received(&d, 10) == 21);
    d = request(4, 255);
    d.octets[11] = 0xFF;
    check("a = 255 in the expected one is 8", judge_received(&d, sizeof REQUEST) == 8);
    d = request(4, 254);
    d.octets[5]++;
    check("octets left in one behind are 5", judge_received(&d, sizeof REQUEST + 1) == 5);
}

static void refused_acknowledgements(void)
{
    struct datagram d = faulty(0x21);
    judged = tunnel();
    climb("klumdray_tunnelling_confirm", judge_confirmed, &d);
    check("then by 20 too", judge_confirmed(&d, 11) == 20);
    d.octets[7] = 4;
    check("then by 21 too", judge_confirmed(&d, 11) == 21);
    d.octets[8] = 129;
    check("then by 5 too", judge_confirmed(&d, 11) == 5);
    d.octets[5] = 10;
    check("a status of 80h is accepted and changes nothing", judge_confirmed(&d, 10) == 0);
    d.octets[8] = 128;
    check("with one behind it is 21", judge_confirmed(&d, 10) == 21);
    d.octets[8] = 130;
    check("and with one ahead", judge_confirmed(&d, 10) == 21);
}

/* Every status on each channel. */
static void statuses(void)
{
    uint32_t channel;
    unsigned status;
    int holds = 1;
    for (channel = 1; channel <= KLUMDRAY_CHANNELS; channel++)
        for (status = 0; status < 256; status++) {
            struct tunnel t = tunnel(), before = t;
            uint8_t counter = klumdray_channel_send(t.channels, channel);
            struct datagram a = acknowledgement((uint8_t)channel, counter, (uint8_t)status);
            uint32_t answer = confirm(&t, a.octets, sizeof ACK);
            holds &= klumdray_number(answer) == 0 && klumdray_raised(answer) == (status == 0) &&
                     answer >> 9 == 0;
            holds &= status == 0 ? is_raised(&t, before, 3 * (channel - 1) + 2)
                                 : memcmp(&t, &before, sizeof t) == 0;
        }
    check("status 00h alone raises the send counter, of its channel alone", holds);
}

/* The table's length is the first thing that is judged. */
static void lengths_of_tables(void)
{
    struct tunnel t = tunnel(), before = t;
    struct datagram d = request(1, 0), a = acknowledgement(1, 255, 0);
    size_t n;
    int received = 1, confirmed = 1, sent = 1;
    for (n = 0; n <= 13; n += n < 11 ? 11 : 2) {
        uint8_t *channels = n == 0 ? NULL : t.channels;
        received &= klumdray_tunnelling_receive(channels, n, d.octets, 24, t.room, 10) == 14;
        received &= klumdray_tunnelling_receive(channels, n, NULL, 0, NULL, 0) == 14;
        confirmed &= klumdray_tunnelling_confirm(channels, n, a.octets, 10) == 14;
        confirmed &= klumdray_tunnelling_confirm(channels, n, NULL, 0) == 14;
        sent &= klumdray_tunnelling_send(channels, n, 5, 0x29, 0, 0, 1, 3, 0, 1, 0x1234, 4, P1 + 6,
                                         5, NULL, 0) == 14;
    }
    check("a table of 0, 11 or 13 octets is 14 before 13 and 1", received);
    check("also where an acknowledgement arrives", confirmed);
    check("also in sending, before 20 and 13", sent);
    check("such tables and their rooms stay", memcmp(&t, &before, sizeof t) == 0);
}

/* Then the room. */
static void rooms_of_receivers(void)
{
    struct tunnel t = tunnel(), before = t;
    struct datagram d = request(1, 0), closed = request(5, 9);
    uint8_t *c = t.channels;
    check("a room of 9 octets is 13",
          klumdray_tunnelling_receive(c, 12, d.octets, 24, t.room, 9) == 13);
    check("a null room is 13 before 1",
          klumdray_tunnelling_receive(c, 12, NULL, 0, NULL, 0) == 13);
    check("a room of 9 octets is 13 before 20 and 21",
          klumdray_tunnelling_receive(c, 12, closed.octets, 24, t.room, 9) == 13);
    check("such rooms and their tables stay", memcmp(&t, &before, sizeof t) == 0);
    check("a room of 11 octets is written as far as the tenth",
          klumdray_delivered(klumdray_tunnelling_receive(c, 12, d.octets, 24, t.room, 11)) &&
              is_acknowledged(&t, &d) && is_raised(&t, before, 1));
}

static void requests_sent(void)
{
    struct tunnel t = tunnel(), before = t;
    struct datagram d = request(2, 2);
    uint8_t room[sizeof REQUEST + 2];
    memset(room, 0x55, sizeof room);
    check("sending into 23 octets is 13", send(&t, 2, room + 1, 23) == 13);
    check("sending into a null room is 13", send(&t, 2, NULL, 0) == 13);
    check("a closed channel is 20 before 13", send(&t, 0, NULL, 0) == 20);
    check("code 2Bh is 14 before 20 and 13",
          klumdray_tunnelling_send(t.channels, 12, 0, 0x2B, 0, 0, 1, 3, 0, 1, 0x1234, 4, P1 + 6, 5,
                                   NULL, 0) == 14);
    check("an empty payload too",
          klumdray_tunnelling_send(t.channels, 12, 0, 0x29, 0, 0, 1, 3, 0, 1, 0x1234, 4, NULL, 0,
                                   NULL, 0) == 14);
    check("refused sendings write nothing", untouched(room, sizeof room));
    check("a request goes out with the send counter",
          send(&t, 2, room + 1, 24) == 24u << 8 && memcmp(room + 1, d.octets, 24) == 0);
    check("it is written between its neighbours", room[0] == 0x55 && room[25] == 0x55);
    memset(room, 0x55, sizeof room);
    check("sent again it has the same counter",
          send(&t, 2, room, 25) == 24u << 8 && memcmp(room, d.octets, 24) == 0);
    check("and nothing is written behind it", room[24] == 0x55 && room[25] == 0x55);
    check("sending leaves the table", memcmp(&t, &before, sizeof t) == 0);
}

static void tunnelling(void)
{
    requests_read();
    information_read();
    readers_refuse();
    requests_written();
    acknowledgements_written();
    requests_received();
    counters_go_round();
    fresh_channels();
    closed_channels();
    refused_requests();
    refused_acknowledgements();
    statuses();
    lengths_of_tables();
    rooms_of_receivers();
    requests_sent();
}

/* R-4: sign and mantissa of a code "form a twelve-bit two's complement number M". */
static int32_t mantissa(uint32_t code)
{
    return (int32_t)(code & 0x7FFu) - (code >> 15 == 0 ? 0 : 2048);
}

static uint32_t exponent(uint32_t code)
{
    return code >> 11 & 15u;
}

/* Whether both readers say that a code stands for these hundredths, and nothing else. */
static int is_worth(uint32_t code, int32_t hundredths)
{
    uint8_t octets[2];
    uint64_t answer = klumdray_float_value(code);
    octets[0] = (uint8_t)(code >> 8);
    octets[1] = (uint8_t)(code & 0xFFu);
    return answer << 32 == 0 && klumdray_number(answer) == 0 &&
           klumdray_hundredths(answer) == hundredths && klumdray_float_read(octets, 2) == answer;
}

static void floats_read(void)
{
    static const uint32_t mantissas[] = {0, 1, 2, 1023, 1024, 1025, 2045, 2046, 2047};
    uint32_t high;
    size_t i;
    int holds = 1;
    check("0C1Ah is 2,100", is_worth(0x0C1A, 2100));
    check("87FFh is -1", is_worth(0x87FF, -1));
    check("F800h is -67,108,864", is_worth(0xF800, -67108864));
    check("7FFEh is 67,043,328", is_worth(0x7FFE, 67043328));
    check("0000h is 0, and so is 7800h", is_worth(0x0000, 0) && is_worth(0x7800, 0));
    check("07FFh is 2,047, 8000h is -2,048", is_worth(0x07FF, 2047) && is_worth(0x8000, -2048));
    check("FFFFh is -32,768", is_worth(0xFFFF, -32768));
    /* Sign and exponent are the five high bits. */
    for (high = 0; high < 32; high++)
        for (i = 0; i < sizeof mantissas / sizeof mantissas[0]; i++) {
            uint32_t code = high << 11 | mantissas[i];
            holds &= code == 0x7FFF ||
                     is_worth(code, mantissa(code) * ((int32_t)1 << exponent(code)));
        }
    check("each sign and exponent scales its mantissa", holds);
}

static void floats_refused(void)
{
    static const uint8_t invalid[] = {0x7F, 0xFF, 0x00};
    check("7FFFh is 23", klumdray_float_value(0x7FFF) == 23);
    check("its octets are 23", klumdray_float_read(invalid, 2) == 23);
    check("a code above FFFFh is 14",
          klumdray_float_value(0x10000) == 14 && klumdray_float_value(0x10C1A) == 14 &&
              klumdray_float_value(0x80000C1A) == 14 && klumdray_float_value(0xFFFFFFFF) == 14);
    check("14 comes before 23", klumdray_float_value(0x17FFF) == 14);
    check("no octet of a float is 1", klumdray_float_read(NULL, 0) == 1);
    check("one octet is 1", klumdray_float_read(invalid, 1) == 1);
    check("three octets are 5 before 23", klumdray_float_read(invalid, 3) == 5);
    check("many octets are 5", klumdray_float_read(P1, sizeof P1) == 5);
}

/*
 * Whether hundredths are written as the request says, or refused where they are to be: the nearest
 * M, a tie at an even one, and with an exponent of one less the nearest does not fit. Of a tie
 * there 2,047.5 goes to 2,048, which does not, and -2,048.5 to -2,048, which does.
 */
static int is_written(int64_t hundredths)
{
    uint32_t answer = klumdray_float_write(hundredths), code = klumdray_code(answer);
    int64_t unit = (int64_t)1 << exponent(code), twice = 2 * (hundredths - mantissa(code) * unit);
    int nearest, smallest;
    if (hundredths < -67108864 || hundredths > 67043328)
        return answer == 14;
    nearest = twice == unit || twice == -unit ? code % 2 == 0 : twice < unit && twice > -unit;
    smallest = exponent(code) == 0 || 4 * hundredths >= 4095 * unit ||
               4 * hundredths < -4097 * unit;
    return answer == code << 16 && code != 0x7FFF && nearest && smallest;
}

static uint32_t code_of(int64_t hundredths)
{
    uint32_t answer = klumdray_float_write(hundredths);
    return klumdray_number(answer) == 0 ? klumdray_code(answer) : 0x10000;
}

static void floats_written(void)
{
    check("2,100 is written as 0C1Ah", code_of(2100) == 0x0C1A);
    check("-1 is written as 87FFh", code_of(-1) == 0x87FF);
    check("0 is written as 0000h", code_of(0) == 0x0000);
    check("2,047 is written as 07FFh, 2,048 as 0C00h",
          code_of(2047) == 0x07FF && code_of(2048) == 0x0C00);
    check("-2,048 is written as 8000h, -2,049 as 8C00h",
          code_of(-2048) == 0x8000 && code_of(-2049) == 0x8C00);
    check("a tie goes to the even one above", code_of(2051) == 0x0C02 && is_worth(0x0C02, 2052));
    check("and to the even one below", code_of(2049) == 0x0C00 && is_worth(0x0C00, 2048));
    check("4,095 is written as 1400h", code_of(4095) == 0x1400 && is_worth(0x1400, 4096));
    check("-4,097 is written as 8800h", code_of(-4097) == 0x8800 && is_worth(0x8800, -4096));
    check("-67,108,864 is written as F800h", code_of(-67108864) == 0xF800);
    check("67,043,328 is written as 7FFEh", code_of(67043328) == 0x7FFE);
    check("-67,108,865 is 14", klumdray_float_write(-67108865) == 14);
    check("67,043,329 is 14", klumdray_float_write(67043329) == 14);
}

/* Whole numbers and ties at the borders of every exponent, one more and one less. */
static void floats_nearest(void)
{
    static const int64_t sizes[] = {0, 1, 2, 3, 1023, 1024, 1025, 2045, 2046, 2047, 2048};
    unsigned scale, i, j;
    int holds = 1;
    for (scale = 0; scale < 16; scale++)
        for (i = 0; i < sizeof sizes / sizeof sizes[0]; i++)
            for (j = 0; j < 6; j++) {
                int64_t unit = (int64_t)1 << scale, tie = j < 3 ? 0 : unit / 2;
                int64_t hundredths = sizes[i] * unit + tie + (int64_t)(j % 3) - 1;
                holds &= is_written(hundredths) && is_written(-hundredths);
            }
    check("the smallest exponent with the nearest mantissa is written", holds);
}

/* With the bits that 32 have not, numbers whose lower half alone is in its range. */
static void wide_hundredths(void)
{
    static const int64_t halves[] = {0, 2100, -1, -67108864, 67043328};
    size_t i;
    unsigned bit;
    int holds = 1;
    for (i = 0; i < sizeof halves / sizeof halves[0]; i++)
        for (bit = 32; bit < 63; bit++) {
            holds &= klumdray_float_write(halves[i] + ((int64_t)1 << bit)) == 14;
            holds &= klumdray_float_write(halves[i] - ((int64_t)1 << bit)) == 14;
        }
    check("hundredths of more than 32 bits are 14", holds);
    check("so are those at the ends of 64 bits",
          klumdray_float_write(INT64_MAX) == 14 && klumdray_float_write(INT64_MIN) == 14);
    check("and at the ends of 32 bits", klumdray_float_write(INT32_MAX) == 14 &&
                                            klumdray_float_write(INT32_MIN) == 14 &&
                                            klumdray_float_write((int64_t)UINT32_MAX) == 14);
}

static void increments(void)
{
    uint8_t payload[] = {0x00, 0x80, 0x0C, 0x1A, 0x00};
    uint32_t answer = klumdray_increment(payload, 4);
    unsigned bit;
    int holds = 1;
    check("00 80 0C 1A is an increment of 0C1Ah", klumdray_is_increment(answer) == 1 &&
                                                      klumdray_code(answer) == 0x0C1A &&
                                                      klumdray_number(answer) == 0);
    check("the answer's other bits are 0", answer == 0x0C1A0100u);
    check("no octets are no increment", klumdray_increment(NULL, 0) == 0);
    check("nor are one, two, three or five",
          klumdray_increment(payload, 1) == 0 && klumdray_increment(payload, 2) == 0 &&
              klumdray_increment(payload, 3) == 0 && klumdray_increment(payload, 5) == 0);
    for (bit = 0; bit < 16; bit++) {
        payload[bit / 8] ^= (uint8_t)(1u << bit % 8);
        holds &= klumdray_increment(payload, 4) == 0;
        payload[bit / 8] ^= (uint8_t)(1u << bit % 8);
    }
    check("with any other bit before the float it is none", holds);
    payload[2] = 0x7F;
    payload[3] = 0xFF;
    check("with 7FFFh it is one", klumdray_increment(payload, 4) == 0x7FFF0100u);
    payload[2] = payload[3] = 0x00;
    check("with 0000h it is one", klumdray_increment(payload, 4) == 0x00000100u);
}

/* Whether adding a code to a total draws a number and leaves a total, and nothing around it is
 * written. */
static int is_added(int64_t start, uint32_t code, uint32_t number, int64_t end)
{
    uint8_t block[KLUMDRAY_TOTAL_SIZE + 2];
    memset(block, 0x55, sizeof block);
    klumdray_total_put(block + 1, start);
    return klumdray_total_add(block + 1, KLUMDRAY_TOTAL_SIZE, code) == number &&
           klumdray_total(block + 1) == end && block[0] == 0x55 &&
           block[KLUMDRAY_TOTAL_SIZE + 1] == 0x55;
}

static void totals(void)
{
    int64_t half = (int64_t)1 << 32, sum = -1000000;
    uint8_t total[KLUMDRAY_TOTAL_SIZE] = {0};
    uint32_t i;
    int holds = 1;
    check("0C1Ah adds 2,100", is_added(0, 0x0C1A, 0, 2100));
    check("87FFh takes 1 off", is_added(0, 0x87FF, 0, -1));
    check("a negative total is added to", is_added(-5000, 0x0C1A, 0, -2900));
    check("and back to 0", is_added(-2100, 0x0C1A, 0, 0));
    check("0000h leaves a total", is_added(-half, 0x0000, 0, -half));
    check("a sum goes past 32 bits", is_added(half - 1, 0x0001, 0, half));
    check("and back", is_added(half, 0x87FF, 0, half - 1));
    check("so it does below 0", is_added(-half, 0x87FF, 0, -half - 1));
    check("the greatest and the least value are added",
          is_added(half, 0x7FFE, 0, half + 67043328) && is_added(half, 0xF800, 0, half - 67108864));
    klumdray_total_put(total, sum);
    for (i = 0; i < 500; i++) {
        uint32_t code = (i * 40503u + 7u) & 0xFFFFu;
        holds &= klumdray_total_add(total, sizeof total, code) == 0;
        sum += (int64_t)mantissa(code) * ((int64_t)1 << exponent(code));
    }
    check("after 500 increments the total is the start and their sum",
          holds && klumdray_total(total) == sum);
}

static void totals_refused(void)
{
    int64_t most = INT64_MAX, least = INT64_MIN;
    uint8_t block[KLUMDRAY_TOTAL_SIZE + 1];
    size_t n;
    int holds = 1;
    check("a sum of the greatest total is added", is_added(most - 2100, 0x0C1A, 0, most));
    check("one more is 24", is_added(most - 2099, 0x0C1A, 24, most - 2099));
    check("1 added to the greatest is 24", is_added(most, 0x0001, 24, most));
    check("a sum of the least total is added", is_added(least + 1, 0x87FF, 0, least));
    check("one less is 24", is_added(least, 0x87FF, 24, least));
    check("far less is 24", is_added(least + 67108863, 0xF800, 24, least + 67108863));
    check("0 is added at both ends",
          is_added(most, 0x0000, 0, most) && is_added(least, 0x7800, 0, least));
    check("the ends are left by the other sign",
          is_added(most, 0x87FF, 0, most - 1) && is_added(least, 0x0001, 0, least + 1));
    check("7FFFh is 23 and adds nothing", is_added(-1, 0x7FFF, 23, -1));
    check("23 comes before 24", is_added(most, 0x7FFF, 23, most));
    check("a code above FFFFh is 14 before 23 and 24",
          is_added(0, 0x10000, 14, 0) && is_added(most, 0x10001, 14, most) &&
              is_added(7, 0x17FFF, 14, 7) && is_added(7, 0x80000C1A, 14, 7));
    memset(block, 0x55, sizeof block);
    for (n = 0; n <= sizeof block; n++)
        if (n != KLUMDRAY_TOTAL_SIZE)
            holds &= klumdray_total_add(block, n, 0x0C1A) == 14 &&
                     klumdray_total_add(block, n, 0x7FFF) == 14;
    check("a total of 0 to 7 or of 9 octets is 14 before 23", holds);
    check("so is a null one", klumdray_total_add(NULL, 0, 0x0C1A) == 14);
    check("such octets stay", untouched(block, sizeof block));
}

/* Every bit of a total on its way into the block and back, with both signs. */
static void totals_kept(void)
{
    static const uint8_t rising[KLUMDRAY_TOTAL_SIZE] = {1, 2, 3, 4, 5, 6, 7, 8};
    static const uint8_t below[KLUMDRAY_TOTAL_SIZE] = {0xFF, 0xFF, 0xFF, 0xFF,
                                                       0xFF, 0xFF, 0xF7, 0xCC};
    uint8_t total[KLUMDRAY_TOTAL_SIZE];
    unsigned bit;
    int holds = 1;
    for (bit = 0; bit < 63; bit++) {
        int64_t one = (int64_t)1 << bit;
        klumdray_total_put(total, one);
        holds &= klumdray_total(total) == one && total[7 - bit / 8] == 1u << bit % 8;
        klumdray_total_put(total, -1 - one);
        holds &= klumdray_total(total) == -1 - one &&
                 total[7 - bit / 8] == (uint8_t)~(1u << bit % 8);
    }
    check("each bit of a total is put and read", holds);
    klumdray_total_put(total, INT64_MAX);
    check("so is the greatest total", klumdray_total(total) == INT64_MAX && total[0] == 0x7F);
    klumdray_total_put(total, INT64_MIN);
    check("so is the least total", klumdray_total(total) == INT64_MIN && total[0] == 0x80);
    check("the high octet of a total is the first",
          klumdray_total(rising) == ((int64_t)0x01020304 << 32 | 0x05060708));
    klumdray_total_put(total, -2100);
    check("-2,100 is in two's complement", memcmp(total, below, sizeof below) == 0);
}

static void hundredths_in_answers(void)
{
    unsigned bit;
    int holds = 1;
    for (bit = 0; bit < 63; bit++)
        holds &= klumdray_hundredths((uint64_t)1 << bit) ==
                 (bit < 32 ? 0 : (int32_t)((uint32_t)1 << (bit - 32)));
    check("klumdray_hundredths takes 32 bits from 32 on", holds);
    check("the highest of them is the sign",
          klumdray_hundredths((uint64_t)1 << 63) == INT32_MIN &&
              klumdray_hundredths((uint64_t)0xFFFFFFFF << 32) == -1 &&
              klumdray_hundredths((uint64_t)0x7FFFFFFF << 32) == INT32_MAX);
}

/* A station's blocks, each with an octet behind it that is not lent. */
struct station {
    uint8_t total[KLUMDRAY_TOTAL_SIZE + 1];
    uint8_t memory[KLUMDRAY_STATION_MEMORY_SIZE + 1];
};

/* With nothing remembered. */
static struct station station(int64_t total)
{
    struct station s;
    memset(&s, 0, sizeof s);
    klumdray_total_put(s.total, total);
    s.total[KLUMDRAY_TOTAL_SIZE] = s.memory[KLUMDRAY_STATION_MEMORY_SIZE] = 0x55;
    return s;
}

enum { LEAK_GROUP = 0x1234 };

static uint32_t take(struct station *s, const uint8_t *octets, size_t n)
{
    return klumdray_take(s->total, KLUMDRAY_TOTAL_SIZE, s->memory, KLUMDRAY_STATION_MEMORY_SIZE,
                         LEAK_GROUP, octets, n);
}

/* Whether a frame is taken for what it is to be: the answer, the total and all octets of both
 * blocks. */
static int is_taken(struct station *s, const uint8_t *octets, size_t n, uint32_t what,
                    uint32_t code, int64_t total)
{
    struct station after = *s;
    uint32_t answer = take(s, octets, n);
    klumdray_total_put(after.total, total);
    after.memory[0] = (uint8_t)(n >> 8);
    after.memory[1] = (uint8_t)(n & 0xFFu);
    memcpy(after.memory + 2, octets, n);
    return klumdray_number(answer) == 0 && klumdray_taken(answer) == what &&
           klumdray_code(answer) == code && answer == (what << 8 | code << 16) &&
           memcmp(s, &after, sizeof *s) == 0;
}

/* Whether a frame is refused by a number, and both blocks stay. */
static int is_not_taken(struct station *s, const uint8_t *octets, size_t n, uint8_t number)
{
    struct station before = *s;
    uint32_t answer = take(s, octets, n);
    return answer == number && klumdray_number(answer) == number &&
           klumdray_taken(answer) == KLUMDRAY_NOT_TAKEN && klumdray_code(answer) == 0 &&
           memcmp(s, &before, sizeof *s) == 0;
}

/* Telegram two whole, and with a wrong check octet; telegram one to the group beside. */
static const uint8_t TWO[METER] = {0xBC, 0x47, 0x15, 0x12, 0x34, 0xE3,
                                   0x00, 0x80, 0x0C, 0x1B, 0x43};
static const uint8_t TWO_DAMAGED[METER] = {0xBC, 0x47, 0x15, 0x12, 0x34, 0xE3,
                                           0x00, 0x80, 0x0C, 0x1B, 0x42};
static const uint8_t BESIDE[METER] = {0xBC, 0x47, 0x15, 0x12, 0x35, 0xE3,
                                      0x00, 0x80, 0x0C, 0x1A, 0x43};
static const uint8_t BESIDE_REPEATED[METER] = {0x9C, 0x47, 0x15, 0x12, 0x35, 0xE3,
                                               0x00, 0x80, 0x0C, 0x1A, 0x63};

/* The customer's circuit: telegram two is damaged on its first sending. */
static void story_of_a_station(void)
{
    struct station s = station(0);
    check("telegram one is counted", is_taken(&s, ONE, METER, KLUMDRAY_COUNTED, 0x0C1A, 2100));
    check("its repeat is a repetition",
          is_taken(&s, ONE_REPEATED, METER, KLUMDRAY_REPETITION, 0, 2100));
    check("and the repeat of that",
          is_taken(&s, ONE_REPEATED, METER, KLUMDRAY_REPETITION, 0, 2100));
    check("telegram two, damaged, is 6", is_not_taken(&s, TWO_DAMAGED, METER, 6));
    check("its repeat is counted",
          is_taken(&s, TWO_REPEATED, METER, KLUMDRAY_COUNTED, 0x0C1B, 4202));
    check("its next repeat is a repetition",
          is_taken(&s, TWO_REPEATED, METER, KLUMDRAY_REPETITION, 0, 4202));
    check("another group's telegram adds nothing",
          is_taken(&s, BESIDE, METER, KLUMDRAY_OTHER_GROUP, 0, 4202));
    check("a further increment is counted",
          is_taken(&s, TWO, METER, KLUMDRAY_COUNTED, 0x0C1B, 6304));
    check("the same once more, as a first sending, is counted",
          is_taken(&s, TWO, METER, KLUMDRAY_COUNTED, 0x0C1B, 8406));
    check("another group's repeat adds nothing",
          is_taken(&s, BESIDE_REPEATED, METER, KLUMDRAY_OTHER_GROUP, 0, 8406));
    check("behind it a repeat is none of telegram two",
          is_taken(&s, TWO_REPEATED, METER, KLUMDRAY_COUNTED, 0x0C1B, 10508));
    check("the remembered frame is read from its block",
          klumdray_remembered_size(s.memory, KLUMDRAY_MAIN) == METER &&
              memcmp(klumdray_remembered(s.memory, KLUMDRAY_MAIN), TWO_REPEATED, METER) == 0);
}

/* What a frame is: another group's before a repetition, a repetition before no increment. */
static void frames_taken(void)
{
    static const uint8_t asked[] = {0xBC, 0x11, 0x01, 0x12, 0x34, 0xE1, 0x00, 0x00, 0x94};
    static const uint8_t asked_repeated[] = {0x9C, 0x11, 0x01, 0x12, 0x34, 0xE1, 0x00, 0x00, 0xB4};
    static const uint8_t individual[METER] = {0xBC, 0x47, 0x15, 0x12, 0x34, 0x63,
                                              0x00, 0x80, 0x0C, 0x1A, 0xC2};
    static const uint8_t extended[] = {0x3C, 0xE0, 0x47, 0x15, 0x12, 0x34,
                                       0x03, 0x00, 0x80, 0x0C, 0x1A, 0xC2};
    struct station s = station(-2101);
    check("another group's frame is taken",
          is_taken(&s, BESIDE, METER, KLUMDRAY_OTHER_GROUP, 0, -2101));
    check("a repetition of it is of another group",
          is_taken(&s, BESIDE_REPEATED, METER, KLUMDRAY_OTHER_GROUP, 0, -2101));
    check("who asks for the total adds nothing",
          is_taken(&s, asked, sizeof asked, KLUMDRAY_NO_INCREMENT, 0, -2101));
    check("a repetition of it is a repetition",
          is_taken(&s, asked_repeated, sizeof asked, KLUMDRAY_REPETITION, 0, -2101));
    check("marked repeated, behind another frame, it is no increment",
          is_taken(&s, BESIDE, METER, KLUMDRAY_OTHER_GROUP, 0, -2101) &&
              is_taken(&s, asked_repeated, sizeof asked, KLUMDRAY_NO_INCREMENT, 0, -2101));
    check("an individual address of the same number is no group's",
          is_taken(&s, individual, METER, KLUMDRAY_OTHER_GROUP, 0, -2101));
    check("an extended frame is counted",
          is_taken(&s, extended, sizeof extended, KLUMDRAY_COUNTED, 0x0C1A, -1));
    check("a standard one, marked repeated, is no repetition of it",
          is_taken(&s, ONE_REPEATED, METER, KLUMDRAY_COUNTED, 0x0C1A, 2099));
    check("P10's broadcast is of another group",
          is_taken(&s, P10, sizeof P10, KLUMDRAY_OTHER_GROUP, 0, 2099));
}

/* Each group address by its two octets, 0000h and FFFFh among them. */
static void groups_taken(void)
{
    static const uint32_t groups[] = {0x0000, 0x0001, 0x1200, 0x1234, 0x3412, 0xFF00, 0xFFFF};
    size_t i, j;
    int holds = 1;
    for (i = 0; i < sizeof groups / sizeof groups[0]; i++)
        for (j = 0; j < sizeof groups / sizeof groups[0]; j++) {
            struct station s = station(0);
            uint8_t frame[METER];
            uint32_t answer;
            memcpy(frame, ONE, METER);
            frame[3] = (uint8_t)(groups[i] >> 8);
            frame[4] = (uint8_t)(groups[i] & 0xFFu);
            frame[METER - 1] = (uint8_t)klumdray_check_octet(frame, METER - 1);
            answer = klumdray_take(s.total, KLUMDRAY_TOTAL_SIZE, s.memory,
                                   KLUMDRAY_STATION_MEMORY_SIZE, groups[j], frame, METER);
            holds &= klumdray_taken(answer) == (i == j ? KLUMDRAY_COUNTED : KLUMDRAY_OTHER_GROUP) &&
                     klumdray_total(s.total) == (i == j ? 2100 : 0);
        }
    check("a frame is counted for its own group alone", holds);
}

/* Why each group has a memory of its own: telegram two, damaged on its first sending, is handed over
 * for two groups from one memory and from two. */
static void memories_of_two_groups(void)
{
    struct station s = station(0), beside = station(0);
    klumdray_take(beside.total, 8, beside.memory, 265, LEAK_GROUP + 1, TWO_REPEATED, METER);
    check("from a memory of its own a group's repeat is counted",
          is_taken(&s, TWO_REPEATED, METER, KLUMDRAY_COUNTED, 0x0C1B, 2102));
    check("from that of another group it would be a repetition",
          is_taken(&beside, TWO_REPEATED, METER, KLUMDRAY_REPETITION, 0, 0));
}

/* Behind the reader's refusals, and of a frame to be counted only. */
static void sums_not_taken(void)
{
    static const uint8_t invalid[METER] = {0xBC, 0x47, 0x15, 0x12, 0x34, 0xE3,
                                           0x00, 0x80, 0x7F, 0xFF, 0xD4};
    static const uint8_t invalid_repeated[METER] = {0x9C, 0x47, 0x15, 0x12, 0x34, 0xE3,
                                                    0x00, 0x80, 0x7F, 0xFF, 0xF4};
    struct station s = station(INT64_MAX);
    check("a telegram with 7FFFh is 23", is_not_taken(&s, invalid, METER, 23));
    check("its repeat is 23 too", is_not_taken(&s, invalid_repeated, METER, 23));
    check("a sum past the total is 24", is_not_taken(&s, ONE, METER, 24));
    check("its repeat is 24 too", is_not_taken(&s, ONE_REPEATED, METER, 24));
    check("another group's telegram is none",
          is_taken(&s, BESIDE, METER, KLUMDRAY_OTHER_GROUP, 0, INT64_MAX));
    check("a damaged one is 6 before 24", is_not_taken(&s, TWO_DAMAGED, METER, 6));
    s = station(INT64_MAX - 2100);
    check("the greatest total is counted",
          is_taken(&s, ONE, METER, KLUMDRAY_COUNTED, 0x0C1A, INT64_MAX));
    check("a repetition at it is none of 24",
          is_taken(&s, ONE_REPEATED, METER, KLUMDRAY_REPETITION, 0, INT64_MAX));
    check("what is 23 leaves the frame remembered before",
          is_not_taken(&s, invalid_repeated, METER, 23) &&
              is_taken(&s, ONE_REPEATED, METER, KLUMDRAY_REPETITION, 0, INT64_MAX));
}

/* The reader's refusals, with a frame remembered. */
static void frames_not_taken(void)
{
    static const uint8_t p5[] = {0x34, 0xE1, 0xAF, 0xFE, 0x00, 0x00, 0x00};
    static const uint8_t p6[] = {0x34, 0x60, 0xAF, 0xFE, 0xFF, 0x00, 0xFF};
    static const uint8_t other_kind[] = {0xCC};
    uint8_t longer[METER + 1] = {0};
    struct station s = station(-7);
    memcpy(longer, ONE, METER);
    check("telegram one is counted from -7",
          is_taken(&s, ONE, METER, KLUMDRAY_COUNTED, 0x0C1A, 2093));
    check("no octets are 1 to a station", is_not_taken(&s, NULL, 0, 1));
    check("a control octet of another kind is 2", is_not_taken(&s, other_kind, 1, 2));
    check("P5 is 3 to a station", is_not_taken(&s, p5, sizeof p5, 3));
    check("P6 is 4 to a station", is_not_taken(&s, p6, sizeof p6, 4));
    check("telegram one without its check octet is 1", is_not_taken(&s, ONE, METER - 1, 1));
    check("with one octet more it is 5", is_not_taken(&s, longer, sizeof longer, 5));
    check("telegram two with a wrong one is 6", is_not_taken(&s, TWO_DAMAGED, METER, 6));
    check("telegram one stays remembered through all of them",
          is_taken(&s, ONE_REPEATED, METER, KLUMDRAY_REPETITION, 0, 2093));
}

/* Blocks of other sizes and groups of more bits are 14 before all else. */
static void blocks_not_taken(void)
{
    static const uint32_t groups[] = {0x10000, 0x11234, 0x1001234, 0x80001234, 0xFFFFFFFF};
    static const size_t sizes[] = {0, 263, 264, 266};
    struct station s = station(0), before;
    size_t i, n;
    int totals = 1, memories = 1, wide = 1;
    memset(&s, 0x55, sizeof s);
    before = s;
    for (n = 0; n <= 9; n++)
        if (n != 8) {
            totals &= klumdray_take(n == 0 ? NULL : s.total, n, s.memory, 265, LEAK_GROUP, ONE,
                                    METER) == 14;
            totals &= klumdray_take(s.total, n, s.memory, 265, LEAK_GROUP, NULL, 0) == 14;
        }
    for (i = 0; i < sizeof sizes / sizeof sizes[0]; i++) {
        memories &= klumdray_take(s.total, 8, i == 0 ? NULL : s.memory, sizes[i], LEAK_GROUP, ONE,
                                  METER) == 14;
        memories &= klumdray_take(s.total, 8, s.memory, sizes[i], LEAK_GROUP, NULL, 0) == 14;
    }
    for (i = 0; i < sizeof groups / sizeof groups[0]; i++) {
        wide &= klumdray_take(s.total, 8, s.memory, 265, groups[i], ONE, METER) == 14;
        wide &= klumdray_take(s.total, 8, s.memory, 265, groups[i], NULL, 0) == 14;
    }
    check("a total of 0 to 7 or of 9 octets is 14 before 1", totals);
    check("a memory of 0, 263, 264 or 266 octets is 14 before 1", memories);
    check("a group of more than 16 bits is 14 before 1", wide);
    check("such blocks stay", memcmp(&s, &before, sizeof s) == 0);
}

/* Octets that the header has a word for although no call leaves them so, and the longest frame. */
static void memories_of_stations(void)
{
    enum { N = KLUMDRAY_FRAME_SIZE };
    uint8_t frame[N] = {0x3C, 0xE0, 0x47, 0x15, 0x12, 0x34, 0xFE};
    struct station s = station(0);
    unsigned size, counted = 0;
    for (size = 1; size <= 7; size++) {
        memcpy(s.memory + 2, ONE_REPEATED, METER);
        s.memory[1] = (uint8_t)size;
        counted += klumdray_taken(take(&s, ONE_REPEATED, METER)) == KLUMDRAY_COUNTED;
    }
    check("of a remembered size from 1 to 7 no frame is a repetition", counted == 7);
    s.memory[2 + METER - 1] ^= 0xFF;
    check("of a frame with a wrong check octet one is",
          is_taken(&s, ONE_REPEATED, METER, KLUMDRAY_REPETITION, 0, 14700));
    s.memory[0] = 1;
    check("a remembered size of 267 is none",
          is_taken(&s, ONE_REPEATED, METER, KLUMDRAY_COUNTED, 0x0C1A, 16800));
    frame[N - 1] = (uint8_t)klumdray_check_octet(frame, N - 1);
    check("the longest frame is taken", is_taken(&s, frame, N, KLUMDRAY_NO_INCREMENT, 0, 16800));
    frame[0] ^= 0x20;
    frame[N - 1] ^= 0x20;
    check("and its repeat", is_taken(&s, frame, N, KLUMDRAY_REPETITION, 0, 16800));
    frame[N - 2] ^= 0x01;
    frame[N - 1] ^= 0x01;
    check("with one bit other in its last octet of payload it is none",
          is_taken(&s, frame, N, KLUMDRAY_NO_INCREMENT, 0, 16800));
    check("octets behind a shorter frame stay",
          is_taken(&s, ONE, METER, KLUMDRAY_COUNTED, 0x0C1A, 18900) &&
              memcmp(s.memory + 2 + METER, frame + METER, N - METER) == 0);
}

static void litres(void)
{
    floats_read();
    floats_refused();
    floats_written();
    floats_nearest();
    wide_hundredths();
    increments();
    totals();
    totals_refused();
    totals_kept();
    hundredths_in_answers();
    story_of_a_station();
    frames_taken();
    groups_taken();
    memories_of_two_groups();
    sums_not_taken();
    frames_not_taken();
    blocks_not_taken();
    memories_of_stations();
}

/* A number in its range; one of 16 bits has no wider one below 65,536. */
struct number {
    const char *name;
    uint32_t valid;
    int has_16_bits;
};

/* Those of a writer of messages; a writer of TP1 frames lacks the first two, and only a writer of
 * requests has the last two. */
static const struct number GIVEN[] = {
    {"code", 0x29, 0},       {"error_mark", 0, 0},       {"extended", 0, 0},
    {"first_sending", 1, 0}, {"priority", 3, 0},         {"source", 0, 1},
    {"group", 1, 0},         {"destination", 0x1234, 1}, {"count", 4, 0},
    {"channel", 1, 0},       {"counter", 0, 0},
};

static const struct number ACKNOWLEDGED[] = {
    {"channel", 1, 0},
    {"counter", 0, 0},
    {"status", 0, 0},
};

static const struct number ASKED[] = {
    {"start", 0x47, 0}, {"kind", 1, 0},    {"destination", 0x1234, 1},
    {"count", 2, 0},    {"line", 0x45, 0},
};

enum { MOST_NUMBERS = sizeof GIVEN / sizeof GIVEN[0] };

/* A call with its numbers in the order above. */
typedef uint64_t numbered(const uint32_t *n, uint8_t *room, size_t m);

static uint64_t tp1_of(const uint32_t *n, uint8_t *room, size_t m)
{
    return klumdray_tp1_write(n[2], n[3], n[4], n[5], n[6], n[7], n[8], P1 + 6, 5, room, m);
}

static uint64_t cemi_of(const uint32_t *n, uint8_t *room, size_t m)
{
    return klumdray_cemi_write(n[0], n[1], n[2], n[3], n[4], n[5], n[6], n[7], n[8], P1 + 6, 5,
                               room, m);
}

static uint64_t routing_of(const uint32_t *n, uint8_t *room, size_t m)
{
    return klumdray_routing_write(n[0], n[1], n[2], n[3], n[4], n[5], n[6], n[7], n[8], P1 + 6, 5,
                                  room, m);
}

static uint64_t request_of(const uint32_t *n, uint8_t *room, size_t m)
{
    return klumdray_tunnelling_request_write(n[9], n[10], n[0], n[1], n[2], n[3], n[4], n[5], n[6],
                                             n[7], n[8], P1 + 6, 5, room, m);
}

static uint64_t send_of(const uint32_t *n, uint8_t *room, size_t m)
{
    struct tunnel t = tunnel();
    return klumdray_tunnelling_send(t.channels, KLUMDRAY_CHANNELS_SIZE, 1, n[0], n[1], n[2], n[3],
                                    n[4], n[5], n[6], n[7], n[8], P1 + 6, 5, room, m);
}

static uint64_t ack_of(const uint32_t *n, uint8_t *room, size_t m)
{
    return klumdray_tunnelling_ack_write(n[0], n[1], n[2], room, m);
}

static uint64_t trace_of(const uint32_t *n, uint8_t *room, size_t m)
{
    return klumdray_trace(n[0], n[1], n[2], n[3], NULL, 0, NULL, 0, NULL, 0, room, m);
}

static uint64_t why_of(const uint32_t *n, uint8_t *room, size_t m)
{
    (void)room, (void)m;
    return klumdray_why(n[0], n[1], n[2], n[3], NULL, 0, NULL, 0, NULL, 0, n[4]);
}

/* Whether a call refuses numbers by 14, whatever its room is, and leaves the room. */
static int is_out_of_range(numbered *call, const uint32_t *n)
{
    int holds;
    memset(large, 0x55, KLUMDRAY_LIST_ROOM_SIZE);
    holds = call(n, large, KLUMDRAY_LIST_ROOM_SIZE) == 14 && call(n, large, 1) == 14 &&
            call(n, NULL, 0) == 14;
    return holds && untouched(large, KLUMDRAY_LIST_ROOM_SIZE);
}

/* Each of some numbers with a bit that its range lacks: the lowest above 8 bits or above 16, the
 * highest. */
static void wide_numbers(const char *whose, numbered *call, const struct number *numbers,
                         size_t from, size_t to)
{
    static const uint32_t bits[] = {0x100, 0x10000, 0x80000000};
    uint32_t n[MOST_NUMBERS];
    size_t place, bit;
    for (place = 0; place < to; place++)
        n[place] = numbers[place].valid;
    count(klumdray_number(call(n, large, KLUMDRAY_LIST_ROOM_SIZE)) == 0);
    printf(" %s takes numbers in their ranges\n", whose);
    for (place = from; place < to; place++) {
        int holds = 1;
        for (bit = numbers[place].has_16_bits ? 1 : 0; bit < 3; bit++) {
            n[place] = numbers[place].valid | bits[bit];
            holds &= is_out_of_range(call, n);
        }
        n[place] = numbers[place].valid;
        count(holds);
        printf(" %s refuses a wider %s\n", whose, numbers[place].name);
    }
}

static void wide_numbers_of_writers(void)
{
    wide_numbers("klumdray_tp1_write", tp1_of, GIVEN, 2, 9);
    wide_numbers("klumdray_cemi_write", cemi_of, GIVEN, 0, 9);
    wide_numbers("klumdray_routing_write", routing_of, GIVEN, 0, 9);
    wide_numbers("klumdray_tunnelling_request_write", request_of, GIVEN, 0, 11);
    wide_numbers("klumdray_tunnelling_send", send_of, GIVEN, 0, 9);
    wide_numbers("klumdray_tunnelling_ack_write", ack_of, ACKNOWLEDGED, 0, 3);
}

/* In its order: behind 15 and 18, before 13. */
static void wide_sides(void)
{
    static const uint32_t sides[] = {0x100, 0x101, 0x10000, 0x10001, 0x80000000, 0x80000001};
    struct coupler c = coupler(0x11, 2, KLUMDRAY_TP1);
    int holds = 1, line = 1, table = 1, room = 1;
    size_t i;
    for (i = 0; i < sizeof sides / sizeof sides[0]; i++) {
        holds &= is_refused(step(&c, sides[i], P1, sizeof P1), 14);
        room &= is_refused(
            klumdray_step(c.settings, 10, NULL, 0, sides[i], c.memory, 530, NULL, 0, NULL, 0), 14);
        c.settings[3] = 1;
        table &= is_refused(step(&c, sides[i], P1, sizeof P1), 18);
        c.settings[0] = 0x00;
        line &= is_refused(step(&c, sides[i], P1, sizeof P1), 15);
        c = coupler(0x11, 2, KLUMDRAY_TP1);
    }
    check("a side of more than 8 bits is 14", holds);
    check("it is 14 before 13 and 1", room);
    check("18 comes before it", table);
    check("15 comes before it", line);
    check("room and memory of a wide side are untouched",
          untouched(c.room, sizeof c.room) && is_blank(c.memory));
}

static void wide_numbers_of_queries(void)
{
    wide_numbers("klumdray_trace", trace_of, ASKED, 0, 4);
    wide_numbers("klumdray_why", why_of, ASKED, 0, 5);
}

static void overlaps(void)
{
    const uint8_t *a = large;
    check("a slice overlaps itself", klumdray_overlap(a, 1, a, 1));
    check("slices of two octets overlap by one",
          klumdray_overlap(a, 2, a + 1, 2) && klumdray_overlap(a + 1, 2, a, 2));
    check("a slice overlaps what lies within it",
          klumdray_overlap(a, 9, a + 4, 1) && klumdray_overlap(a + 4, 1, a, 9));
    check("adjoining slices do not overlap",
          !klumdray_overlap(a, 3, a + 3, 4) && !klumdray_overlap(a + 3, 4, a, 3));
    check("slices apart do not overlap",
          !klumdray_overlap(a, 3, a + 9, 4) && !klumdray_overlap(a + 9, 4, a, 3));
    check("an empty slice overlaps none",
          !klumdray_overlap(a + 2, 0, a, 9) && !klumdray_overlap(a, 9, a + 2, 0) &&
              !klumdray_overlap(a, 0, a, 9) && !klumdray_overlap(a, 9, a, 0) &&
              !klumdray_overlap(a, 0, a, 0));
    check("nor does a null one", !klumdray_overlap(NULL, 0, a, 9) &&
                                     !klumdray_overlap(a, 9, NULL, 0) &&
                                     !klumdray_overlap(NULL, 0, NULL, 0));
    check("no length is cut", klumdray_overlap(a, (uint64_t)1 << 32, a + 1, 1) &&
                                  klumdray_overlap(a + 1, 1, a, (uint64_t)1 << 63) &&
                                  !klumdray_overlap(a + 1, (uint64_t)1 << 63, a, 1));
}

struct slice {
    uint8_t *octets;
    size_t n;
};

/* A slice that a call is lent: its size, the octets at its front and those behind them. */
struct lent {
    const char *name;
    size_t n;
    const uint8_t *front;
    size_t front_length;
    uint8_t behind;
    int is_written;
};

enum { MOST_LENT = 5 };

/* A call that writes, and its checked form, with slices that neither refuses. */
struct form {
    const char *name;
    uint64_t (*call)(const struct slice *s);
    uint64_t (*checked)(const struct slice *s);
    size_t count;
    struct lent lent[MOST_LENT];
};

#define WRITER(name, numbers)                                                                      \
    static uint64_t name(const struct slice *s)                                                    \
    {                                                                                              \
        return klumdray_##name(numbers, s[0].octets, s[0].n, s[1].octets, s[1].n);                 \
    }
#define FRAME 0, 1, 3, 0x0000, 1, 0x1234, 3
#define MESSAGE 0x29, 0, FRAME
#define REQUESTED 1, 0, MESSAGE

WRITER(tp1_write, FRAME)
WRITER(tp1_write_checked, FRAME)
WRITER(cemi_write, MESSAGE)
WRITER(cemi_write_checked, MESSAGE)
WRITER(routing_write, MESSAGE)
WRITER(routing_write_checked, MESSAGE)
WRITER(tunnelling_request_write, REQUESTED)
WRITER(tunnelling_request_write_checked, REQUESTED)

static uint64_t receive_of(const struct slice *s)
{
    return klumdray_tunnelling_receive(s[0].octets, s[0].n, s[1].octets, s[1].n, s[2].octets,
                                       s[2].n);
}

static uint64_t receive_checked(const struct slice *s)
{
    return klumdray_tunnelling_receive_checked(s[0].octets, s[0].n, s[1].octets, s[1].n,
                                               s[2].octets, s[2].n);
}

static uint64_t send_message(const struct slice *s)
{
    return klumdray_tunnelling_send(s[0].octets, s[0].n, 1, MESSAGE, s[1].octets, s[1].n,
                                    s[2].octets, s[2].n);
}

static uint64_t send_message_checked(const struct slice *s)
{
    return klumdray_tunnelling_send_checked(s[0].octets, s[0].n, 1, MESSAGE, s[1].octets, s[1].n,
                                            s[2].octets, s[2].n);
}

static uint64_t confirm_of(const struct slice *s)
{
    return klumdray_tunnelling_confirm(s[0].octets, s[0].n, s[1].octets, s[1].n);
}

static uint64_t confirm_checked(const struct slice *s)
{
    return klumdray_tunnelling_confirm_checked(s[0].octets, s[0].n, s[1].octets, s[1].n);
}

static uint64_t take_of(const struct slice *s)
{
    return klumdray_take(s[0].octets, s[0].n, s[1].octets, s[1].n, LEAK_GROUP, s[2].octets, s[2].n);
}

static uint64_t take_checked(const struct slice *s)
{
    return klumdray_take_checked(s[0].octets, s[0].n, s[1].octets, s[1].n, LEAK_GROUP, s[2].octets,
                                 s[2].n);
}

static uint64_t step_of(const struct slice *s)
{
    return klumdray_step(s[0].octets, s[0].n, s[1].octets, s[1].n, KLUMDRAY_MAIN, s[2].octets,
                         s[2].n, s[3].octets, s[3].n, s[4].octets, s[4].n);
}

static uint64_t step_checked(const struct slice *s)
{
    return klumdray_step_checked(s[0].octets, s[0].n, s[1].octets, s[1].n, KLUMDRAY_MAIN,
                                 s[2].octets, s[2].n, s[3].octets, s[3].n, s[4].octets, s[4].n);
}

static uint64_t trace_site(const struct slice *s)
{
    return klumdray_trace(0x00, KLUMDRAY_GROUP, 0x1234, 6, s[0].octets, s[0].n, s[1].octets, s[1].n,
                          s[2].octets, s[2].n, s[3].octets, s[3].n);
}

static uint64_t trace_site_checked(const struct slice *s)
{
    return klumdray_trace_checked(0x00, KLUMDRAY_GROUP, 0x1234, 6, s[0].octets, s[0].n, s[1].octets,
                                  s[1].n, s[2].octets, s[2].n, s[3].octets, s[3].n);
}

static const uint8_t BY_TABLE[KLUMDRAY_SETTINGS_SIZE] = {0x11, 2, 2, 1, 1, 2, 2, 1, 1, 0};
static const uint8_t BY_PROJECT[] = {0x43, 0x50, 0x40, 2, 2, 1, 1, 2, 2, 1, 1, 0};
static const uint8_t BY_OWN[] = {0x43, 0x50, 0x40, 2, 2, 1, 1, 2, 2, 1, 1, 128};

/* Channel 1 is open and fresh. */
static const uint8_t OPENED[KLUMDRAY_CHANNELS_SIZE] = {1};

#define CHANNELS(is_written)                                                                       \
    {                                                                                              \
        "channels", sizeof OPENED, OPENED, sizeof OPENED, 0, is_written                            \
    }
#define PAYLOAD                                                                                    \
    {                                                                                              \
        "payload", 5, P1 + 6, 5, 0, 0                                                              \
    }
#define ROOM(n)                                                                                    \
    {                                                                                              \
        "room", n, NULL, 0, 0x55, 1                                                                \
    }
#define TABLE(name)                                                                                \
    {                                                                                              \
        name, KLUMDRAY_TABLE_SIZE, NULL, 0, 0xFF, 0                                                \
    }
#define NONE(name)                                                                                 \
    {                                                                                              \
        name, 0, NULL, 0, 0, 0                                                                     \
    }
#define SITE(records)                                                                              \
    {                                                                                              \
        "site", sizeof records, records, sizeof records, 0, 0                                      \
    }

static const struct form FORMS[] = {
    {"klumdray_tp1_write_checked", tp1_write, tp1_write_checked, 2, {PAYLOAD, ROOM(16)}},
    {"klumdray_cemi_write_checked", cemi_write, cemi_write_checked, 2, {PAYLOAD, ROOM(16)}},
    {"klumdray_routing_write_checked",
     routing_write,
     routing_write_checked,
     2,
     {PAYLOAD, ROOM(24)}},
    {"klumdray_step_checked",
     step_of,
     step_checked,
     5,
     {{"settings", sizeof BY_TABLE, BY_TABLE, sizeof BY_TABLE, 0, 0},
      TABLE("table"),
      {"memory", KLUMDRAY_MEMORY_SIZE, NULL, 0, 0x00, 1},
      {"octets", sizeof P1, P1, sizeof P1, 0, 0},
      ROOM(KLUMDRAY_ROOM_SIZE)}},
    {"klumdray_trace_checked",
     trace_site,
     trace_site_checked,
     4,
     {SITE(BY_PROJECT), TABLE("project"), NONE("own"), ROOM(KLUMDRAY_LIST_ROOM_SIZE)}},
    {"klumdray_trace_checked",
     trace_site,
     trace_site_checked,
     4,
     {SITE(BY_OWN), NONE("project"), TABLE("own"), ROOM(KLUMDRAY_LIST_ROOM_SIZE)}},
    {"klumdray_tunnelling_request_write_checked",
     tunnelling_request_write,
     tunnelling_request_write_checked,
     2,
     {PAYLOAD, ROOM(28)}},
    {"klumdray_tunnelling_receive_checked",
     receive_of,
     receive_checked,
     3,
     {CHANNELS(1), {"octets", sizeof REQUEST, REQUEST, sizeof REQUEST, 0, 0}, ROOM(12)}},
    {"klumdray_tunnelling_send_checked",
     send_message,
     send_message_checked,
     3,
     {CHANNELS(0), PAYLOAD, ROOM(28)}},
    {"klumdray_tunnelling_confirm_checked",
     confirm_of,
     confirm_checked,
     2,
     {CHANNELS(1), {"octets", sizeof ACK, ACK, sizeof ACK, 0, 0}}},
    {"klumdray_take_checked",
     take_of,
     take_checked,
     3,
     {{"total", KLUMDRAY_TOTAL_SIZE, NULL, 0, 0x00, 1},
      {"memory", KLUMDRAY_STATION_MEMORY_SIZE, NULL, 0, 0x00, 1},
      {"octets", METER, ONE, METER, 0, 0}}},
};

/* Puts a slice down, and says where the next may begin. */
static uint8_t *put(const struct lent *lent, struct slice *slice, uint8_t *at)
{
    slice->octets = at;
    slice->n = lent->n;
    memset(at, lent->behind, lent->n);
    if (lent->front_length > 0)
        memcpy(at, lent->front, lent->front_length);
    return at + lent->n;
}

/* All slices one behind the other, two of them first. */
static void put_adjoining(const struct form *f, struct slice *s, size_t first, size_t second)
{
    uint8_t *at = large;
    size_t i;
    memset(large, 0xA5, sizeof large);
    at = put(&f->lent[first], &s[first], at);
    at = put(&f->lent[second], &s[second], at);
    for (i = 0; i < f->count; i++)
        if (i != first && i != second)
            at = put(&f->lent[i], &s[i], at);
}

/* No slice that is moved over another is longer. */
enum { MARGIN = 544, LONGEST_MOVED = KLUMDRAY_MEMORY_SIZE, SHORTENED = 3 };

/* A slice with a margin on either side, and all but one other slice behind that. */
static void put_apart(const struct form *f, struct slice *s, size_t one, size_t without)
{
    uint8_t *at;
    size_t i;
    memset(large, 0xA5, sizeof large);
    at = put(&f->lent[one], &s[one], large + MARGIN) + MARGIN;
    for (i = 0; i < f->count; i++)
        if (i != one && i != without)
            at = put(&f->lent[i], &s[i], at);
}

static void check_pair(const struct form *f, size_t one, size_t another, const char *how, int holds)
{
    count(holds);
    printf(" %s: %s, %s %s\n", f->name, f->lent[one].name, f->lent[another].name, how);
}

/* Whether the checked form refuses slices by 14 and writes nothing. */
static int is_overlap_refused(const struct form *f, const struct slice *s)
{
    memcpy(other, large, sizeof large);
    return f->checked(s) == 14 && memcmp(other, large, sizeof large) == 0;
}

/*
 * A slice that is written and another, moved over it. A store or a filter table is lent shorter,
 * which the call itself would refuse by 18.
 */
static void overlapping(const struct form *f, size_t written, size_t moved)
{
    struct slice s[MOST_LENT];
    struct slice *w = &s[written], *m = &s[moved];
    put_apart(f, s, written, moved);
    m->n = f->lent[moved].n > LONGEST_MOVED ? (size_t)SHORTENED : f->lent[moved].n;
    m->octets = w->octets - (m->n - 1);
    check_pair(f, written, moved, "overlaps its first octet", is_overlap_refused(f, s));
    m->octets = w->octets + (w->n - 1);
    check_pair(f, written, moved, "overlaps its last octet", is_overlap_refused(f, s));
    if (m->n <= w->n)
        m->octets = w->octets + (w->n - m->n) / 2;
    else
        m->octets = w->octets - (m->n - w->n) / 2;
    check_pair(f, written, moved, "overlaps by all of the shorter", is_overlap_refused(f, s));
    m->octets = w->octets;
    check_pair(f, written, moved, "overlaps from the first octet on", is_overlap_refused(f, s));
    m->n = w->n;
    check_pair(f, written, moved, "overlaps wholly", is_overlap_refused(f, s));
}

/* Whether the checked form answers, and leaves all octets, as the call itself, where two slices lie
 * first and the second of them is perhaps another. */
static int is_the_same(const struct form *f, size_t first, size_t second,
                       const struct slice *instead, uint64_t *answer)
{
    struct slice s[MOST_LENT];
    put_adjoining(f, s, first, second);
    if (instead)
        s[second] = *instead;
    *answer = f->call(s);
    memcpy(other, large, sizeof large);
    put_adjoining(f, s, first, second);
    if (instead)
        s[second] = *instead;
    return f->checked(s) == *answer && memcmp(other, large, sizeof large) == 0;
}

static void adjoining(const struct form *f, size_t written, size_t another)
{
    uint64_t answer;
    int holds = is_the_same(f, written, another, NULL, &answer);
    check_pair(f, written, another, "adjoins behind it", holds && klumdray_number(answer) == 0);
    holds = is_the_same(f, another, written, NULL, &answer);
    check_pair(f, written, another, "adjoins before it", holds && klumdray_number(answer) == 0);
}

/* An empty slice at the front of another, within it, behind it and null. */
static void empty_beside(const struct form *f, size_t one, size_t empty)
{
    struct slice none = {NULL, 0};
    uint64_t answer;
    int holds = is_the_same(f, one, empty, &none, &answer);
    none.octets = large;
    holds &= is_the_same(f, one, empty, &none, &answer);
    none.octets = large + 1;
    holds &= is_the_same(f, one, empty, &none, &answer);
    none.octets = large + f->lent[one].n;
    holds &= is_the_same(f, one, empty, &none, &answer);
    check_pair(f, one, empty, "is empty beside it", holds);
}

static void checked_forms(void)
{
    size_t i, written, another;
    for (i = 0; i < sizeof FORMS / sizeof FORMS[0]; i++) {
        const struct form *f = &FORMS[i];
        for (written = 0; written < f->count; written++)
            for (another = 0; another < f->count; another++) {
                if (written == another || !f->lent[written].is_written || f->lent[another].n == 0)
                    continue;
                overlapping(f, written, another);
                adjoining(f, written, another);
                empty_beside(f, written, another);
                empty_beside(f, another, written);
            }
    }
}

int main(void)
{
    empty_slices();
    empty_slices_of_the_others();
    accepted();
    check_octets();
    refused();
    words();
    written();
    datagram();
    message();
    datagram_written();
    helpers();
    steps_from_ip();
    steps_from_tp1();
    repetitions();
    steps_with_odd_memories();
    steps_for_itself_and_to_ip();
    steps_with_a_table();
    parts_with_a_refusal();
    refused_blocks_and_rooms();
    refused_settings();
    refused_steps();
    damaged_frames();
    traces_of_groups();
    traces_of_individual_addresses();
    traces_with_tables();
    refused_sites();
    reasons();
    tunnelling();
    litres();
    wide_numbers_of_writers();
    wide_sides();
    wide_numbers_of_queries();
    overlaps();
    checked_forms();
    printf("%u passed, %u failed\n", passed, failed);
    return failed == 0 ? 0 : 1;
}
