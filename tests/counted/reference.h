/*
 * The reference's calls as rust/counted has them, for tools/count-rows. What the reference is lent
 * and what it answers are Rust's types, which C has room for and does not look into.
 */
#ifndef REFERENCE_H
#define REFERENCE_H

#include <stdint.h>

/* An answer, and what lies behind it: so large that C has it written to memory, as Rust does. */
struct answer {
    uint64_t words[8];
};

struct given {
    uint64_t words[2];
};
struct coupler {
    uint64_t words[4];
};
struct memory {
    uint64_t words[68];
};
struct query {
    uint64_t words[1];
};
struct site {
    uint64_t words[6];
};
struct channels {
    uint64_t words[2];
};
struct station {
    uint64_t words[36];
};

/* What is lent: the meaning of every row with a format and a repeat flag; a coupler with a memory
 * at the start; a table with all four channels open and fresh, but for the counter that is expected
 * on channel 2; a station with nothing counted or remembered. What is lent to them in turn stays as
 * long as they do. */
void lend_given(struct given *given, uint32_t extended, uint32_t first_sending);
void lend_coupler(struct coupler *coupler, struct memory *memory, const uint8_t *settings,
                  const uint8_t *table, uint64_t table_length);
void lend_query(struct query *query, uint32_t start, uint32_t kind, uint32_t destination,
                uint32_t count);
void lend_site(struct site *site, const uint8_t *records, uint64_t records_length,
               const uint8_t *project, uint64_t project_length, const uint8_t *own,
               uint64_t own_length);
void lend_channels(struct channels *channels, uint32_t expected);
void lend_station(struct station *station, uint32_t group);

/* The calls that are counted. */
uint8_t reference_check_octet(const uint8_t *octets, uint64_t n);
struct answer reference_tp1_read(const uint8_t *octets, uint64_t n);
struct answer reference_tp1_write(const struct given *given, const uint8_t *payload, uint64_t n,
                                  uint8_t *room, uint64_t m);
struct answer reference_cemi_read(const uint8_t *octets, uint64_t n);
struct answer reference_cemi_write(uint32_t code, uint32_t error_mark, const struct given *given,
                                   const uint8_t *payload, uint64_t n, uint8_t *room, uint64_t m);
struct answer reference_routing_read(const uint8_t *octets, uint64_t n);
struct answer reference_routing_write(uint32_t code, uint32_t error_mark, const struct given *given,
                                      const uint8_t *payload, uint64_t n, uint8_t *room,
                                      uint64_t m);
struct answer reference_step(const struct coupler *coupler, uint32_t side, uint32_t medium,
                             struct memory *memory, const uint8_t *octets, uint64_t n,
                             uint8_t *room, uint64_t m);
struct answer reference_trace(const struct query *query, const struct site *site, uint8_t *room,
                              uint64_t n);
uint64_t reference_why(const struct query *query, const struct site *site, uint32_t line);
struct answer reference_receive(struct channels *channels, const uint8_t *octets, uint64_t n,
                                uint8_t *room, uint64_t m);
struct answer reference_send(const struct channels *channels, uint32_t channel, uint32_t code,
                             uint32_t error_mark, const struct given *given,
                             const uint8_t *payload, uint64_t n, uint8_t *room, uint64_t m);
uint64_t reference_confirm(struct channels *channels, const uint8_t *octets, uint64_t n);
uint64_t reference_float_value(uint32_t code);
uint64_t reference_float_read(const uint8_t *octets, uint64_t n);
uint64_t reference_float_write(int64_t hundredths);
struct answer reference_total_add(int64_t total, uint32_t code);
uint64_t reference_take(struct station *station, const uint8_t *octets, uint64_t n);

/* Answers in the bits of klumdray.h, the two counters of channel 2, and totals in hundredths. */
uint64_t told_tp1(const struct answer *answer);
uint64_t told_message(const struct answer *answer);
uint64_t told_written(const struct answer *answer);
uint64_t told_step(const struct answer *answer);
uint64_t told_trace(const struct answer *answer);
uint64_t told_why(const uint64_t *answer);
uint64_t told_receive(const struct answer *answer);
uint64_t told_confirm(const uint64_t *answer);
void told_counters(const struct channels *channels, uint8_t counters[2]);
uint64_t told_value(const uint64_t *answer);
uint64_t told_code(const uint64_t *answer);
uint64_t told_sum(const struct answer *answer);
uint64_t told_taken(const uint64_t *answer);
int64_t told_total(const struct answer *answer);
int64_t told_total_of(const struct station *station);

#endif
