/*
 * The inputs over which the stack of each exported call is measured: the longest frames of both
 * formats, every direction of a step, a repetition, refusals, traces and explanations on a site of
 * 255 couplers with filter tables, over the longest path, requests and acknowledgements with every
 * outcome, floats of either sign, and frames that are each thing to a station.
 * Who includes this file measures one call by `lowest_of`, the lowest place of the stack that a
 * function without parameters comes to, and tells a figure by `tell_figure`.
 */
#ifndef INPUTS_H
#define INPUTS_H

#include "klumdray.h"

static uintptr_t lowest_of(void (*call)(void));
static void tell_figure(const char *name, unsigned octets);

enum { COUPLERS = 255 };

static uint8_t payload[255], tp1[KLUMDRAY_FRAME_SIZE], cemi[300], datagram[300], room[800];
static uint8_t memory[KLUMDRAY_MEMORY_SIZE];
/* Every group is in it. Not to be written, so that on a board it lies in flash. */
static const uint8_t table[KLUMDRAY_TABLE_SIZE] = {[0 ... KLUMDRAY_TABLE_SIZE - 1] = 0xFF};
static uint8_t site[COUPLERS * KLUMDRAY_RECORD_SIZE];
static uint8_t settings[KLUMDRAY_SETTINGS_SIZE] = {0x47, 1, 2, 1, 1, 1, 2, 1, 1, KLUMDRAY_TP1};
/* Channel 2 is open, with the receive counter that a request is to meet. */
static uint8_t channels[KLUMDRAY_CHANNELS_SIZE] = {0, 0, 0, 1, 0, 0}, expected;
static uint8_t request[300], acknowledgement[KLUMDRAY_ACK_SIZE];
static size_t tp1_length, cemi_length, datagram_length, request_length;
static uint32_t side, kind, start, line, channel = 2;
/* A leak meter's telegram, what a station is lent, and what it takes. */
static uint8_t telegram[11] = {0xBC, 0x47, 0x15, 0x12, 0x34, 0xE3, 0x00, 0x80, 0x0C, 0x1A, 0x42};
static uint8_t total[KLUMDRAY_TOTAL_SIZE], station[KLUMDRAY_STATION_MEMORY_SIZE];
static const uint8_t *taken;
static size_t taken_length;
static uint32_t code, group;
static int64_t hundredths;
static uint64_t answer;

static void nothing(void)
{
    answer = 0;
}

static void check_octet(void)
{
    answer = klumdray_check_octet(tp1, tp1_length);
}

static void tp1_read(void)
{
    answer = klumdray_tp1_read(tp1, tp1_length);
}

static void cemi_read(void)
{
    answer = klumdray_cemi_read(cemi, cemi_length);
}

static void routing_read(void)
{
    answer = klumdray_routing_read(datagram, datagram_length);
}

static void tp1_write(void)
{
    answer = klumdray_tp1_write(1, 1, 3, 0x1101, 1, 0x1234, 6, payload, 255, room, sizeof room);
}

static void cemi_write(void)
{
    answer = klumdray_cemi_write(0x29, 0, 1, 1, 3, 0x1101, 1, 0x1234, 6, payload, 255, room,
                                 sizeof room);
}

static void routing_write(void)
{
    answer = klumdray_routing_write(0x29, 0, 1, 1, 3, 0x1101, 1, 0x1234, 6, payload, 255, room,
                                    sizeof room);
}

static void step(void)
{
    int ip = side == KLUMDRAY_MAIN && settings[9] == KLUMDRAY_IP;
    answer = klumdray_step(settings, sizeof settings, table, sizeof table, side, memory,
                           sizeof memory, ip ? datagram : tp1, ip ? datagram_length : tp1_length,
                           room, sizeof room);
}

static void trace(void)
{
    answer = klumdray_trace(start, kind, 0x1234, 6, site, sizeof site, table, sizeof table, NULL, 0,
                            room, sizeof room);
}

static void why(void)
{
    answer = klumdray_why(start, kind, 0x1234, 6, site, sizeof site, table, sizeof table, NULL, 0,
                          line);
}

static void request_read(void)
{
    answer = klumdray_tunnelling_request_read(request, request_length);
}

static void request_write(void)
{
    answer = klumdray_tunnelling_request_write(channel, 0, 0x11, 0, 1, 1, 3, 0x1101, 1, 0x1234, 6,
                                               payload, 255, room, sizeof room);
}

static void ack_read(void)
{
    answer = klumdray_tunnelling_ack_read(acknowledgement, sizeof acknowledgement);
}

static void ack_write(void)
{
    answer = klumdray_tunnelling_ack_write(channel, 0, 0, room, sizeof room);
}

static void receive(void)
{
    channels[4] = expected;
    answer = klumdray_tunnelling_receive(channels, sizeof channels, request, request_length, room,
                                         sizeof room);
}

static void send(void)
{
    answer = klumdray_tunnelling_send(channels, sizeof channels, channel, 0x11, 0, 1, 1, 3, 0x1101,
                                      1, 0x1234, 6, payload, 255, room, sizeof room);
}

static void confirm(void)
{
    channels[5] = 0;
    answer = klumdray_tunnelling_confirm(channels, sizeof channels, acknowledgement,
                                         sizeof acknowledgement);
}

static void float_value(void)
{
    answer = klumdray_float_value(code);
}

static void float_read(void)
{
    answer = klumdray_float_read(telegram + 8, 2);
}

static void float_write(void)
{
    answer = klumdray_float_write(hundredths);
}

static void increment(void)
{
    answer = klumdray_increment(telegram + 6, 4);
}

static void total_add(void)
{
    answer = klumdray_total_add(total, sizeof total, code);
}

static void take(void)
{
    answer = klumdray_take(total, sizeof total, station, sizeof station, group, taken,
                           taken_length);
}

static unsigned most;

static void try_call(void (*call)(void))
{
    unsigned own = (unsigned)(lowest_of(nothing) - lowest_of(call));
    if (own > most)
        most = own;
}

static void tell(const char *name)
{
    tell_figure(name, most);
    most = 0;
}

static void copy(uint8_t *to, const uint8_t *from, size_t n)
{
    while (n-- > 0)
        to[n] = from[n];
}

static void prepare(void)
{
    size_t i;
    for (i = 0; i < COUPLERS; i++) {
        uint8_t *record = site + i * KLUMDRAY_RECORD_SIZE;
        record[0] = 0x43, record[1] = 0x50, record[2] = (uint8_t)(i + 1);
        copy(record + 3, settings + 1, 8);
        record[11] = 0;
    }
    tp1_write();
    tp1_length = klumdray_written(answer);
    copy(tp1, room, tp1_length);
    cemi_write();
    cemi_length = klumdray_written(answer);
    copy(cemi, room, cemi_length);
    routing_write();
    datagram_length = klumdray_written(answer);
    copy(datagram, room, datagram_length);
    request_write();
    request_length = klumdray_written(answer);
    copy(request, room, request_length);
    ack_write();
    copy(acknowledgement, room, sizeof acknowledgement);
}

/* Marked repeated, the frame is compared with the one remembered; and back. */
static void mark(void)
{
    tp1[0] ^= 0x20, tp1[tp1_length - 1] ^= 0x20;
}

static void steps(void)
{
    for (side = 0; side < 2; side++)
        for (settings[9] = 0; settings[9] < 2; settings[9]++) {
            tp1[2] ^= 1, tp1[tp1_length - 1] ^= 1;
            try_call(step);
            mark();
            try_call(step);
            mark();
        }
    side = 2;
    try_call(step);
    tell("klumdray_step");
}

static void traces(void)
{
    for (kind = 0; kind < 2; kind++)
        for (start = 0x46; start < 0x48; start++)
            try_call(trace);
    kind = 2;
    try_call(trace);
    tell("klumdray_trace");
    start = 0x46;
    for (kind = 0; kind < 3; kind++)
        for (line = 0x47; line < 0x60; line += 8)
            try_call(why);
    tell("klumdray_why");
}

/* A request arrives with the counter expected, with the one behind, with neither; an
 * acknowledgement with and without a status; each call then on a channel that is closed. */
static void tunnels(void)
{
    for (expected = 0; expected < 3; expected++)
        try_call(receive);
    request[7] = 1;
    try_call(receive), tell("klumdray_tunnelling_receive");
    try_call(send);
    channel = 1;
    try_call(send), tell("klumdray_tunnelling_send");
    try_call(confirm);
    acknowledgement[9] = 0x21;
    try_call(confirm);
    acknowledgement[7] = 1;
    try_call(confirm), tell("klumdray_tunnelling_confirm");
}

static void floats(void)
{
    static const uint32_t codes[] = {0x0C1A, 0xF800, 0x7FFF, 0x10000};
    static const int64_t values[] = {2100, 67043328, -4097, -67108864, -67108865};
    size_t i;
    for (i = 0; i < sizeof codes / sizeof codes[0]; i++)
        code = codes[i], try_call(float_value);
    tell("klumdray_float_value");
    try_call(float_read), tell("klumdray_float_read");
    for (i = 0; i < sizeof values / sizeof values[0]; i++)
        hundredths = values[i], try_call(float_write);
    tell("klumdray_float_write");
    try_call(increment), tell("klumdray_increment");
    for (i = 0; i < sizeof codes / sizeof codes[0]; i++)
        code = codes[i], try_call(total_add);
    /* The least total, from which nothing is taken. */
    total[0] = 0x80, code = 0xF800;
    try_call(total_add), tell("klumdray_total_add");
}

/* The longest frame, which is no increment, and its repeat; then a telegram that is counted, that is
 * past the total, and that is refused; each also to another group, and with no group at all. */
static void takes(void)
{
    static const uint32_t groups[] = {0x1235, 0x1234, 0x10000};
    size_t i;
    for (i = 0; i < sizeof groups / sizeof groups[0]; i++) {
        group = groups[i];
        taken = tp1, taken_length = tp1_length;
        try_call(take);
        mark();
        try_call(take);
        mark();
        taken = telegram, taken_length = sizeof telegram;
        total[0] = 0x00;
        try_call(take);
        total[0] = 0x7F, total[1] = total[2] = total[3] = total[4] = total[5] = 0xFF;
        total[6] = total[7] = 0xFF;
        try_call(take);
        taken_length--;
        try_call(take);
    }
    tell("klumdray_take");
}

static void measure_all(void)
{
    prepare();
    try_call(check_octet), tell("klumdray_check_octet");
    try_call(tp1_read), tell("klumdray_tp1_read");
    try_call(tp1_write), tell("klumdray_tp1_write");
    try_call(cemi_read), tell("klumdray_cemi_read");
    try_call(cemi_write), tell("klumdray_cemi_write");
    try_call(routing_read), tell("klumdray_routing_read");
    try_call(routing_write), tell("klumdray_routing_write");
    steps();
    traces();
    try_call(request_read), tell("klumdray_tunnelling_request_read");
    try_call(request_write), tell("klumdray_tunnelling_request_write");
    try_call(ack_read), tell("klumdray_tunnelling_ack_read");
    try_call(ack_write), tell("klumdray_tunnelling_ack_write");
    tunnels();
    floats();
    takes();
}

#endif
