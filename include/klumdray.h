/*
 * Klumdray: the surface of the proved library libklumdray.a, numbers and octets only.
 *
 * Document 01 ("Frame layouts", "Refusal numbers", "The coupler", "Sites and the tracer") and
 * document 02 (R-1, tunnelling; R-2, repetitions; R-4, the leak total) say what each call does;
 * each call is proved to do it for every input. So is what this file says of the numbers' ranges
 * (crates/promises/proofs/Given.antt), of the answers' bits, of the parts of the caller's octets,
 * of the list in a trace's room, of the frame in a step's or a station's memory, of the channels in
 * their table and of the total in its block, as the helpers at its end read them (Surface.antt,
 * SurfaceTunnelling.antt and SurfaceLitres.antt there), and of the test for an overlap
 * (Overlap.antt).
 *
 * Octets. A slice is a pointer and then a length of 64 bits, on every machine; a null pointer with
 * length 0 is an empty slice. Otherwise the pointer must have that many octets behind it. All
 * octets stay the caller's: a call reads those lent as const, writes only the room, the memory, the
 * table of channels and the total lent for it, keeps no pointer and no memory of its own between
 * calls. Calls may be made from several threads.
 *
 * Apart. What is lent to be written must not overlap anything else lent to the same call: what the
 * proof says of a call it says of slices that lie apart, and the library is compiled for no others
 * (each pointer without const is noalias, C's restrict). Each call that writes and is lent two
 * slices or more has a checked form, named by "_checked" behind its name: the same call, which
 * first refuses an overlap by 14.
 *
 * Numbers. "10h" is hexadecimal. A field of two octets has the high octet first. A number is given
 * as 32 bits, hundredths as 64 with a sign, and answered as 32 or 64: none is cut on its way, and
 * one outside its range is refused.
 *
 * Linking. The library has no data that is written, no start-up and no allocation. What it leaves to
 * the program is the compiler's own: memcpy, memmove and memset by these names or, on Arm, by those
 * of its run-time ABI (__aeabi_memcpy and its kin), and on Cortex-M0 the multiplication of 64 bits,
 * __aeabi_lmul. A C library and libgcc have them; docs/BOARDS.md lists them for each target.
 *
 * Refusals. Every answer but that of klumdray_check_octet, which is never refused, carries a
 * number. A refused call has written nothing.
 *
 *    0  not a refusal
 *    1  fewer octets than the frame needs
 *    2  TP1 control octet of another kind
 *    3  EFF not 0000
 *    4  LG octet 255
 *    5  octets left after the frame
 *    6  wrong check octet
 *    7  message code not 11h, 2Eh, 29h; in routing, not 29h
 *    8  a = 255
 *    9  cEMI standard with LG above 15
 *   10  KNXnet/IP header length not 06h or version not 10h
 *   11  service not the one wanted
 *   12  total length differs from the datagram's
 *   13  lent room too small
 *   14  a number given by the caller is outside its range
 *   15  own line 00h, or a setting code not allowed
 *   16  site length not a multiple of 12, or a wrong mark
 *   17  one line twice in a site
 *   18  filter table missing or of wrong size
 *   19  connection header's first octet not 04h
 *   20  channel not open
 *   21  counter not one that the channel awaits
 *   23  two-octet float 7FFFh, which is invalid
 *   24  sum past the 64 bits of the total
 *
 * A reader's answer is one number of 64 bits. With a refusal every bit above 7 is 0.
 *
 *   bits  0 to  7  the number
 *   bit   8        format: 1 extended, 0 standard
 *   bit   9        repeat flag as the bit stands: 1 first sending, 0 repeated; in a cEMI request
 *                  1 asks for repetitions
 *   bits 10 to 11  priority, the two bits
 *   bit  12        AT: 1 group address, 0 individual
 *   bits 13 to 15  hop count
 *   bits 16 to 31  source
 *   bits 32 to 47  destination
 *   bits 48 to 55  payload length, TPCI onward, 1 to 255
 *   bits 56 to 57  message code: 0 none (TP1), 1 request, 2 confirmation, 3 indication
 *   bit  58        error mark, in a confirmation only
 *   bits 59 to 63  0
 *
 * The payload is a part of the caller's octets, not copied, and so is cEMI's additional
 * information: the helpers at the end of this file say where each begins and how long it is.
 *
 * A writer's answer: bits 0 to 7 the number, bits 8 to 63 the octets written, 0 with a refusal.
 * The frame is the first octets of the room; those behind it stay as they were.
 *
 * A line is named by one octet, area times 16 plus line: line 4.7 is 47h. The coupler of line n,
 * 01h to FFh, has the own address n followed by 00h. Its sub side is n. Its main side is n with the
 * low four bits cleared if those are not zero, else 00h: of 47h it is 40h, of 40h it is 00h.
 *
 * A coupler's settings are a block of 10 octets. Octets 1 to 4 are the four codes main to sub,
 * octets 5 to 8 the four codes sub to main.
 *
 *   octet  0        own line n, 01h to FFh
 *   octets 1 and 5  code for individual addresses: 0, 1, 2
 *   octets 2 and 6  code for broadcast, which is group 0000h: 0, 2
 *   octets 3 and 7  code for groups 0001h to 6FFFh: 0, 1, 2
 *   octets 4 and 8  code for groups 7000h to FFFFh: 0, 1, 2
 *   octet  9        medium of the main side: 0 TP1, 1 IP; the sub side is TP1
 *
 * Code 0 is closed, 2 open. Code 1 for groups: forward if the group's bit in the filter table is
 * one. Code 1 for individual addresses: where n mod 16 is not 0, down (main to sub) if the
 * destination's high octet is n, up if it isn't; otherwise down if the destination's area is the
 * coupler's area, up if it isn't.
 *
 * A filter table is 8,192 octets. The bit of group g is bit g mod 8 (bit 0 is worth 1) of octet
 * g div 8. Broadcast is never looked up in it.
 *
 * A step's answer has four parts and says all four whatever the number is: each is read from its
 * own bits, of a refused step too. On a refusal they are: its number, none, not, 0.
 *
 *   bits  0 to  7  the number
 *   bits  8 to 15  acknowledgement: CCh, or 0 for none
 *   bit  16        for the coupler itself
 *   bits 17 to 31  0
 *   bits 32 to 63  octets forwarded, the first of the room, at most 270; 0 if none
 *
 * A step's memory is a block of 530 octets, which the caller lends to every step of one coupler. At
 * the start all of them are 0.
 *
 *   octets   0 to   1  size of the frame remembered of the main side, high octet first; 0: none
 *   octets   2 to 264  that frame, from octet 2 on
 *   octets 265 to 266  size of the frame remembered of the sub side, high octet first; 0: none
 *   octets 267 to 529  that frame, from octet 267 on
 *
 * A size above 263 counts as none. No step leaves one, nor a size from 1 to 7, nor octets that are
 * no frame; a step compares these as they stand. After a TP1 frame that is not refused, the
 * receiving side's size is the frame's and its octets are the frame; those behind the frame and the
 * other side's stay. After a frame from IP, and after a refusal, the whole block is as it was.
 *
 * A site is a record of 12 octets for each coupler fitted, 0 to 255 of them, in any order.
 *
 *   octets  0 to  1  mark: 43h 50h
 *   octet   2        line, 01h to FFh, each once at most
 *   octets  3 to  6  four codes main to sub, in the order above
 *   octets  7 to 10  four codes sub to main
 *   octet  11        table number: 0 to 127 count in the project store, 128 to 254 in the site's
 *                    own store from its start, FFh is none
 *
 * A store is filter tables one after the other, a multiple of 8,192 octets: at most 128 tables in
 * the project store and 127 in the site's own. FFh is allowed where no group code of that record
 * is 1; every other number must lie in its store.
 *
 * A trace's answer. With a refusal every bit above 7 is 0.
 *
 *   bits  0 to  7  the number
 *   bits  8 to 23  how many lines are listed, 1 to 256
 *   bits 24 to 39  the forwardings made on the site: the lines listed less one
 *   bits 40 to 63  0
 *
 * The list is the first octets of the room, three for each listed line, in rising order of the
 * lines: line, count on arrival (7 where the query's is 7, else that less the couplers crossed),
 * couplers crossed (0 to 4). The octets behind it stay as they were.
 *
 * A why's answer is one number of 32 bits. With a refusal, and where the line is reached, every
 * other bit is 0.
 *
 *   bits  0 to  7  the number
 *   bits  8 to 15  the reason
 *                    0  the line is reached
 *                    1  no coupler fitted
 *                    2  the destination is the coupler's own address
 *                    3  the code is closed
 *                    4  code 1, and the destination is not below
 *                    5  code 1, and the destination is not above
 *                    6  code 1, and the group is not in its table
 *                    7  the count is used up
 *   bits 16 to 23  the line of the coupler that stops it
 *   bit  24        the direction: 0 main to sub, 1 sub to main
 *   bits 25 to 31  0
 *
 * A table of channels is a block of 12 octets, three for each of the channels 1 to 4, which the
 * caller lends to every call that receives, sends or confirms on them. At the start all of them are
 * 0: every channel is closed.
 *
 *   octets 0 to  2  channel 1: open, receive counter, send counter
 *   octets 3 to  5  channel 2, in the same order
 *   octets 6 to  8  channel 3
 *   octets 9 to 11  channel 4
 *
 * Open is 01h; every other value is closed, and the counters of a closed channel mean nothing. The
 * receive counter is the one expected in the next request received, the send counter that of the
 * request to send until it is acknowledged. The caller opens a channel by writing 01h 00h 00h to
 * its three octets and closes it by writing 00h to the first. A call changes one octet at most, a
 * counter, which it raises by one, 255 going to 0.
 *
 * A TUNNELLING_REQUEST and a TUNNELLING_ACK begin alike.
 *
 *   octets 0 to 5  KNXnet/IP header: 06h, 10h, service (0420h, 0421h), total length
 *   octet  6       04h
 *   octet  7       channel
 *   octet  8       counter
 *   octet  9       00h in a request, where it is not read; the status in an acknowledgement
 *
 * A cEMI message follows in a request, nothing in an acknowledgement.
 *
 * The answer of the acknowledgement's reader is one number of 32 bits. With a refusal every bit
 * above 7 is 0.
 *
 *   bits  0 to  7  the number
 *   bits  8 to 15  channel
 *   bits 16 to 23  counter
 *   bits 24 to 31  status
 *
 * A receive's answer has the bits of a reader's. With number 0 the acknowledgement is the first 10
 * octets of the room, and those behind it stay as they were. If the request is delivered, the answer
 * is that of klumdray_tunnelling_request_read, whose message code is not 0; if it is acknowledged
 * again, every bit is 0. With a refusal every bit above 7 is 0.
 *
 * A confirm's answer is one number of 32 bits. With a refusal every bit above 7 is 0.
 *
 *   bits  0 to  7  the number
 *   bit   8        1 if the send counter was raised, 0 if a status other than 00h left it
 *   bits  9 to 31  0
 *
 * A code is the two octets of a KNX two-octet float (DPT 9) as one number, 0000h to FFFFh, the high
 * octet first.
 *
 *   bits  0 to 10  mantissa
 *   bits 11 to 14  exponent E, 0 to 15
 *   bit  15        sign
 *
 * Sign and mantissa form a twelve-bit two's complement number M, -2,048 to 2,047. The code stands
 * for M times 2 to the E hundredths: 0C1Ah for 2,100, by which a meter reports 21 litres, 87FFh for
 * -1, F800h for -67,108,864. 7FFFh is invalid.
 *
 * The answer to reading a float is one number of 64 bits. With a refusal every bit above 7 is 0.
 *
 *   bits  0 to  7  the number
 *   bits  8 to 31  0
 *   bits 32 to 63  the hundredths in two's complement, -67,108,864 to 67,043,328
 *
 * The answer to writing one is one number of 32 bits. With a refusal every bit above 7 is 0.
 *
 *   bits  0 to  7  the number
 *   bits  8 to 15  0
 *   bits 16 to 31  the code
 *
 * A payload's answer, of 32 bits too, says whether it is an increment. If not, every bit is 0.
 *
 *   bits  0 to  7  the number, which is 0
 *   bit   8        1 if the payload is an increment
 *   bits  9 to 15  0
 *   bits 16 to 31  the code that it carries
 *
 * A total is a block of 8 octets, which the caller lends to every call that adds to it: hundredths,
 * 64 bits in two's complement, the high octet first. All 0 is a total of 0.
 *
 * A station's memory is a block of 265 octets, which the caller lends to every klumdray_take of one
 * group on one line. At the start all of them are 0.
 *
 *   octets 0 to   1  size of the frame remembered, high octet first; 0: none
 *   octets 2 to 264  that frame, from octet 2 on
 *
 * A size above 263 counts as none. No call leaves one, nor a size from 1 to 7, nor octets that are
 * no frame; a call compares these as they stand. After a frame that is not refused, the size is the
 * frame's and its octets are the frame; those behind the frame stay. After a refusal the whole
 * block is as it was. It is laid out as the main side's part of a step's memory, and
 * klumdray_remembered_size and klumdray_remembered read it as that.
 *
 * A take's answer is one number of 32 bits. With a refusal every bit above 7 is 0.
 *
 *   bits  0 to  7  the number
 *   bits  8 to 15  what the frame is
 *                    0  refused
 *                    1  counted
 *                    2  a repetition
 *                    3  of another group
 *                    4  no increment
 *   bits 16 to 31  the code that was added; 0 if the frame is not counted
 */
#ifndef KLUMDRAY_H
#define KLUMDRAY_H

#include <stddef.h>
#include <stdint.h>

/* 0.5.0, of this file and of the library that it is shipped with: two digits for each part. */
#define KLUMDRAY_VERSION 0x000500

#ifdef __cplusplus
extern "C" {
#endif

/* The ones' complement of the exclusive or of all octets given; FFh of none. */
uint32_t klumdray_check_octet(const uint8_t *octets, uint64_t n);

/*
 * Reads a TP1 L_Data frame, standard or extended.
 * Refusals, the first that applies: no octet (1), control octet (2), fewer than 6 (standard) or 7
 * (extended) octets (1), 3, 4, 1, 5, 6.
 */
uint64_t klumdray_tp1_read(const uint8_t *octets, uint64_t n);

/*
 * Writes a TP1 L_Data frame to the front of the room.
 *   extended 0, 1   first_sending 0, 1   priority 0 to 3   group 0, 1   count 0 to 7
 *   source, destination 0000h to FFFFh
 *   payload: TPCI onward, 1 to 16 octets standard, 1 to 255 extended
 * Refusals: a number or the payload's length outside its range (14); then the room below the
 * frame's size (13), which is payload length + 7 standard, + 8 extended.
 */
uint64_t klumdray_tp1_write(uint32_t extended, uint32_t first_sending, uint32_t priority,
                            uint32_t source, uint32_t group, uint32_t destination, uint32_t count,
                            const uint8_t *payload, uint64_t n, uint8_t *room, uint64_t m);

/*
 * Reads a cEMI L_Data request (11h), confirmation (2Eh) or indication (29h).
 * Refusals, the first that applies: no octet (1), 7, no second octet (1), 8, the message ends
 * before or without LG (1), 3, 4, 9, 1, 5.
 */
uint64_t klumdray_cemi_read(const uint8_t *octets, uint64_t n);

/*
 * Writes a cEMI L_Data message in the plain form, without additional information, to the front of
 * the room.
 *   code 11h, 2Eh, 29h   error_mark 0, 1 in a confirmation (2Eh), else 0   others as on TP1
 * Refusals: a number or the payload's length outside its range (14); then the room below the
 * message's size (13), which is payload length + 9.
 */
uint64_t klumdray_cemi_write(uint32_t code, uint32_t error_mark, uint32_t extended,
                             uint32_t first_sending, uint32_t priority, uint32_t source,
                             uint32_t group, uint32_t destination, uint32_t count,
                             const uint8_t *payload, uint64_t n, uint8_t *room, uint64_t m);

/*
 * Reads a KNXnet/IP ROUTING_INDICATION (0530h) with one cEMI indication.
 * Refusals, the first that applies: fewer than 6 octets (1), 10, 11, 12, then as
 * klumdray_cemi_read, where 7 is any message code but 29h.
 */
uint64_t klumdray_routing_read(const uint8_t *octets, uint64_t n);

/*
 * Writes a routing datagram with a plain indication to the front of the room.
 *   code 29h   error_mark 0   others as on TP1
 * Refusals: a number or the payload's length outside its range (14); then the room below the
 * datagram's size (13), which is payload length + 15.
 */
uint64_t klumdray_routing_write(uint32_t code, uint32_t error_mark, uint32_t extended,
                                uint32_t first_sending, uint32_t priority, uint32_t source,
                                uint32_t group, uint32_t destination, uint32_t count,
                                const uint8_t *payload, uint64_t n, uint8_t *room, uint64_t m);

/* The coupler's numbers and sizes; a TP1 frame is at most KLUMDRAY_FRAME_SIZE octets long. */
enum {
    KLUMDRAY_MAIN = 0,
    KLUMDRAY_SUB = 1,
    KLUMDRAY_TP1 = 0,
    KLUMDRAY_IP = 1,
    KLUMDRAY_FRAME_SIZE = 263,
    KLUMDRAY_SETTINGS_SIZE = 10,
    KLUMDRAY_TABLE_SIZE = 8192,
    KLUMDRAY_MEMORY_SIZE = 530,
    KLUMDRAY_ROOM_SIZE = 272
};

/*
 * One coupler step: a frame received from one side is acknowledged or not, forwarded to the other
 * side or not, and remembered.
 *   settings: 10 octets, laid out as above
 *   table: the filter table, 8,192 octets, or 0 octets where none of the four group codes is 1
 *   side: the receiving side, 0 main, 1 sub
 *   memory: 530 octets, laid out as above
 *   octets: a TP1 frame, or a routing datagram where side is 0 and the main side's medium is 1
 *   room: at least 272 octets
 * A frame with AT 0 to the coupler's own address is for itself and never forwarded, under any code.
 * Count 0 is never forwarded; counts 1 to 6 go on lowered by one, 7 stays. A forwarded frame keeps
 * format, priority, addresses and payload and says first sending; on IP it is a plain indication in
 * a routing datagram. A TP1 frame marked repeated is a repetition if the frame remembered of its
 * side is as long and all octets agree except the repeat bit and the check octet: it is not
 * forwarded. A TP1 frame gets CCh exactly if it is for the coupler itself or, repetition or not,
 * its address, codes and count allow forwarding. IP has neither memory nor acknowledgement.
 * Refusals, the first that applies: settings not 10 or memory not 530 octets long (14), line or a
 * code (15), the table's length (18), side or medium (14), room (13), then as klumdray_tp1_read or,
 * from IP, klumdray_routing_read. A refused step leaves room and memory as they were.
 * Room and memory lie apart from each other and from all that is read: never lend the buffer that a
 * frame was received into as the room. The answer would look right, and on TP1 the frame remembered
 * would be the one forwarded, on IP the datagram would be corrupt. klumdray_step_checked refuses it.
 * The answer is read by klumdray_number, klumdray_acknowledgement, klumdray_own and
 * klumdray_forwarded, each of them whatever the number is: a caller sends on either side what the
 * answer says, without asking first whether it is a refusal.
 */
uint64_t klumdray_step(const uint8_t *settings, uint64_t settings_length, const uint8_t *table,
                       uint64_t table_length, uint32_t side, uint8_t *memory,
                       uint64_t memory_length, const uint8_t *octets, uint64_t length,
                       uint8_t *room, uint64_t room_length);

/* The tracer's numbers and sizes. */
enum {
    KLUMDRAY_INDIVIDUAL = 0,
    KLUMDRAY_GROUP = 1,
    KLUMDRAY_RECORD_SIZE = 12,
    KLUMDRAY_LISTED_SIZE = 3,
    KLUMDRAY_LIST_ROOM_SIZE = 768
};

/*
 * Lists the lines of a site that a telegram reaches from its starting line, which is always listed.
 *   start: the starting line, 00h to FFh   kind: 0 individual, 1 group
 *   destination: 0000h to FFFFh; group 0000h is broadcast
 *   count: on the starting line, 0 to 7
 *   site, project, own: the records, the project store and the site's own store, laid out as above
 *   room: at least 768 octets
 * Refusals, the first that applies: one of these numbers (14), room (13), a store's size (18), the
 * site's length (16), then record by record: mark (16), line or codes (15), table number (18), the
 * line a second time (17).
 */
uint64_t klumdray_trace(uint32_t start, uint32_t kind, uint32_t destination, uint32_t count,
                        const uint8_t *site, uint64_t site_length, const uint8_t *project,
                        uint64_t project_length, const uint8_t *own, uint64_t own_length,
                        uint8_t *room, uint64_t room_length);

/*
 * Why a telegram does not reach a line: the first coupler on the path from the starting line that
 * does not hand it on, and the first reason in the order of their numbers. A line is reached
 * exactly if klumdray_trace lists it.
 *   line: 00h to FFh   others as for klumdray_trace
 * Refusals: those of klumdray_trace in its order, the line among its numbers, without 13.
 */
uint32_t klumdray_why(uint32_t start, uint32_t kind, uint32_t destination, uint32_t count,
                      const uint8_t *site, uint64_t site_length, const uint8_t *project,
                      uint64_t project_length, const uint8_t *own, uint64_t own_length,
                      uint32_t line);

/* The tunnelling's numbers and sizes. */
enum {
    KLUMDRAY_CHANNELS = 4,
    KLUMDRAY_CHANNEL_SIZE = 3,
    KLUMDRAY_CHANNELS_SIZE = 12,
    KLUMDRAY_ACK_SIZE = 10
};

/*
 * Reads a KNXnet/IP TUNNELLING_REQUEST (0420h) with one cEMI request, confirmation or indication,
 * whatever its channel and counter are. Of an accepted one they are read by
 * klumdray_tunnelling_channel and klumdray_tunnelling_counter.
 * Refusals, the first that applies: fewer than 6 octets (1), 10, 11, 12, fewer than 10 octets (1),
 * 19, then as klumdray_cemi_read.
 */
uint64_t klumdray_tunnelling_request_read(const uint8_t *octets, uint64_t n);

/*
 * Writes a request with a plain message, on any channel and with any counter, to the front of the
 * room.
 *   channel, counter 0 to 255   others as for klumdray_cemi_write
 * Refusals: a number or the payload's length outside its range (14); then the room below the
 * datagram's size (13), which is payload length + 19.
 */
uint64_t klumdray_tunnelling_request_write(uint32_t channel, uint32_t counter, uint32_t code,
                                           uint32_t error_mark, uint32_t extended,
                                           uint32_t first_sending, uint32_t priority,
                                           uint32_t source, uint32_t group, uint32_t destination,
                                           uint32_t count, const uint8_t *payload, uint64_t n,
                                           uint8_t *room, uint64_t m);

/*
 * Reads a KNXnet/IP TUNNELLING_ACK (0421h), whatever its channel, counter and status are.
 * Refusals, the first that applies: fewer than 6 octets (1), 10, 11, 12, fewer than 10 octets (1),
 * 19, 5.
 */
uint32_t klumdray_tunnelling_ack_read(const uint8_t *octets, uint64_t n);

/*
 * Writes an acknowledgement, 10 octets, to the front of the room.
 *   channel, counter, status 0 to 255
 * Refusals: a number outside its range (14); then the room below 10 octets (13).
 */
uint64_t klumdray_tunnelling_ack_write(uint32_t channel, uint32_t counter, uint32_t status,
                                       uint8_t *room, uint64_t m);

/*
 * A request arrives. With the counter expected on its channel it is delivered, acknowledged, and
 * the receive counter raised. One behind that counter, 255 being behind 0, it is acknowledged again
 * and not delivered. Any other is refused, and no refused request is acknowledged. The
 * acknowledgement has the request's channel and counter and status 00h.
 *   channels: the table, 12 octets, laid out as above
 *   octets: the datagram received; who sent it is not asked
 *   room: at least 10 octets
 * Refusals, the first that applies: the table's length (14), room (13), fewer than 6 octets (1),
 * 10, 11, 12, fewer than 10 octets (1), 19, the channel not open, whatever its number (20), the
 * counter neither expected nor one behind (21), then as klumdray_cemi_read, which a request one
 * behind can draw too. A refused call leaves room and table as they were, and a request that is
 * acknowledged again leaves the table.
 * The answer is read by klumdray_number: with 0 the acknowledgement is to be sent. Then it is read
 * by klumdray_delivered: with 1 the frame is taken as from klumdray_tunnelling_request_read.
 */
uint64_t klumdray_tunnelling_receive(uint8_t *channels, uint64_t channels_length,
                                     const uint8_t *octets, uint64_t length, uint8_t *room,
                                     uint64_t room_length);

/*
 * Writes a request with the channel's send counter, which stays until klumdray_tunnelling_confirm
 * raises it: a request sent again has the same one.
 *   channels: the table, 12 octets, laid out as above
 *   channel: any number; one that is no channel's is not open
 *   others as for klumdray_cemi_write
 * Refusals, the first that applies: the table's length or a number or the payload's length outside
 * its range (14), the channel not open (20), the room below the datagram's size (13), which is
 * payload length + 19.
 */
uint64_t klumdray_tunnelling_send(const uint8_t *channels, uint64_t channels_length,
                                  uint32_t channel, uint32_t code, uint32_t error_mark,
                                  uint32_t extended, uint32_t first_sending, uint32_t priority,
                                  uint32_t source, uint32_t group, uint32_t destination,
                                  uint32_t count, const uint8_t *payload, uint64_t n,
                                  uint8_t *room, uint64_t m);

/*
 * An acknowledgement arrives. With its channel's send counter and status 00h it raises that
 * counter; with another status it changes nothing. Whether a request was sent is not asked.
 *   channels: the table, 12 octets, laid out as above
 *   octets: the datagram received; who sent it is not asked
 * Refusals, the first that applies: the table's length (14), fewer than 6 octets (1), 10, 11, 12,
 * fewer than 10 octets (1), 19, the channel not open, whatever its number (20), another counter
 * (21), 5. A refused call leaves the table as it was.
 */
uint32_t klumdray_tunnelling_confirm(uint8_t *channels, uint64_t channels_length,
                                     const uint8_t *octets, uint64_t length);

/* The sizes of a total and of a station's memory. */
enum {
    KLUMDRAY_TOTAL_SIZE = 8,
    KLUMDRAY_STATION_MEMORY_SIZE = 265
};

/*
 * Reads a two-octet float, given as its code: the hundredths that it stands for.
 *   code 0000h to FFFFh
 * Refusals, the first that applies: the code outside its range (14), 23.
 * The answer is read by klumdray_number and klumdray_hundredths.
 */
uint64_t klumdray_float_value(uint32_t code);

/*
 * Reads a two-octet float, given as its octets.
 * Refusals, the first that applies: fewer than two octets (1), more than two (5), 23.
 */
uint64_t klumdray_float_read(const uint8_t *octets, uint64_t length);

/*
 * Writes hundredths as a two-octet float, with the smallest E for which the nearest M, ties to even
 * M, fits: what the code stands for is off by at most half of 2 to the E. 7FFFh is never written.
 *   hundredths -67,108,864 to 67,043,328
 * Refusal: the hundredths outside their range (14).
 * The answer is read by klumdray_number and klumdray_code. In a payload the code's high octet comes
 * first.
 */
uint32_t klumdray_float_write(int64_t hundredths);

/*
 * Whether a payload is an increment: a GroupValueWrite of a two-octet float, which is the four
 * octets 00h 80h and the float's two. It is never refused, and the code is not judged: 7FFFh is an
 * increment too, which klumdray_total_add refuses.
 *   payload: TPCI onward, of any length
 * The answer is read by klumdray_is_increment and klumdray_code.
 */
uint32_t klumdray_increment(const uint8_t *payload, uint64_t length);

/*
 * Adds what a code stands for to a total.
 *   total: 8 octets, laid out as above
 *   code 0000h to FFFFh
 * Refusals, the first that applies: the total's length or the code outside its range (14), 23, the
 * sum past 64 bits (24). A refused call leaves the total as it was.
 */
uint32_t klumdray_total_add(uint8_t *total, uint64_t total_length, uint32_t code);

/*
 * A station that listens to one TP1 line takes a frame for the total of one group. A frame that is
 * not to the group address, AT 1 and this destination, is of another group. One that is, and is
 * marked repeated, is a repetition if the frame remembered is as long and all octets agree except
 * the repeat bit and the check octet. Otherwise it is no increment if its payload is not one
 * (klumdray_increment). What remains is counted: what its code stands for is added to the total.
 *   total: 8 octets, laid out as above
 *   memory: 265 octets, laid out as above
 *   group: the group address, 0000h to FFFFh
 *   octets: the frame received; which device sent it is not asked
 * Refusals, the first that applies: the total's or the memory's length or the group outside its
 * range (14), then as klumdray_tp1_read, then of a frame to be counted 23, the sum past 64 bits
 * (24). A refused call leaves total and memory as they were. Every frame that is not refused is the
 * one remembered, whatever it is; only one that is counted changes the total.
 * Hand over every frame of the line, also those to others: what was sent directly before tells a
 * repetition. A station that counts two groups has a total and a memory for each and hands each
 * frame over twice: from one memory for both, the second would take the frame for a repetition of
 * itself where its first sending was damaged.
 * The answer is read by klumdray_number, klumdray_taken and klumdray_code.
 */
uint32_t klumdray_take(uint8_t *total, uint64_t total_length, uint8_t *memory,
                       uint64_t memory_length, uint32_t group, const uint8_t *octets,
                       uint64_t length);

/*
 * The checked forms. What is lent to be written and overlaps anything else lent is refused by 14,
 * and nothing is written; otherwise the answer is the call's own.
 */

/* 1 if two slices have an octet in common, else 0. */
static inline int klumdray_overlap(const uint8_t *slice, uint64_t n, const uint8_t *other,
                                   uint64_t m)
{
    uintptr_t from = (uintptr_t)slice, other_from = (uintptr_t)other;
    return from <= other_from ? other_from - from < n && m > 0 : from - other_from < m && n > 0;
}

/* Written by tools/make-surface from the calls above. */

static inline uint64_t klumdray_tp1_write_checked(uint32_t extended, uint32_t first_sending,
                                                  uint32_t priority, uint32_t source,
                                                  uint32_t group, uint32_t destination,
                                                  uint32_t count, const uint8_t *payload,
                                                  uint64_t n, uint8_t *room, uint64_t m)
{
    if (klumdray_overlap(payload, n, room, m))
        return 14u;
    return klumdray_tp1_write(extended, first_sending, priority, source, group, destination, count,
                              payload, n, room, m);
}

static inline uint64_t klumdray_cemi_write_checked(uint32_t code, uint32_t error_mark,
                                                   uint32_t extended, uint32_t first_sending,
                                                   uint32_t priority, uint32_t source,
                                                   uint32_t group, uint32_t destination,
                                                   uint32_t count, const uint8_t *payload,
                                                   uint64_t n, uint8_t *room, uint64_t m)
{
    if (klumdray_overlap(payload, n, room, m))
        return 14u;
    return klumdray_cemi_write(code, error_mark, extended, first_sending, priority, source, group,
                               destination, count, payload, n, room, m);
}

static inline uint64_t klumdray_routing_write_checked(uint32_t code, uint32_t error_mark,
                                                      uint32_t extended, uint32_t first_sending,
                                                      uint32_t priority, uint32_t source,
                                                      uint32_t group, uint32_t destination,
                                                      uint32_t count, const uint8_t *payload,
                                                      uint64_t n, uint8_t *room, uint64_t m)
{
    if (klumdray_overlap(payload, n, room, m))
        return 14u;
    return klumdray_routing_write(code, error_mark, extended, first_sending, priority, source,
                                  group, destination, count, payload, n, room, m);
}

static inline uint64_t klumdray_step_checked(const uint8_t *settings, uint64_t settings_length,
                                             const uint8_t *table, uint64_t table_length,
                                             uint32_t side, uint8_t *memory, uint64_t memory_length,
                                             const uint8_t *octets, uint64_t length, uint8_t *room,
                                             uint64_t room_length)
{
    if (klumdray_overlap(settings, settings_length, memory, memory_length) ||
        klumdray_overlap(settings, settings_length, room, room_length) ||
        klumdray_overlap(table, table_length, memory, memory_length) ||
        klumdray_overlap(table, table_length, room, room_length) ||
        klumdray_overlap(memory, memory_length, octets, length) ||
        klumdray_overlap(memory, memory_length, room, room_length) ||
        klumdray_overlap(octets, length, room, room_length))
        return 14u;
    return klumdray_step(settings, settings_length, table, table_length, side, memory,
                         memory_length, octets, length, room, room_length);
}

static inline uint64_t klumdray_trace_checked(uint32_t start, uint32_t kind, uint32_t destination,
                                              uint32_t count, const uint8_t *site,
                                              uint64_t site_length, const uint8_t *project,
                                              uint64_t project_length, const uint8_t *own,
                                              uint64_t own_length, uint8_t *room,
                                              uint64_t room_length)
{
    if (klumdray_overlap(site, site_length, room, room_length) ||
        klumdray_overlap(project, project_length, room, room_length) ||
        klumdray_overlap(own, own_length, room, room_length))
        return 14u;
    return klumdray_trace(start, kind, destination, count, site, site_length, project,
                          project_length, own, own_length, room, room_length);
}

static inline uint64_t klumdray_tunnelling_request_write_checked(uint32_t channel, uint32_t counter,
                                                                 uint32_t code, uint32_t error_mark,
                                                                 uint32_t extended,
                                                                 uint32_t first_sending,
                                                                 uint32_t priority, uint32_t source,
                                                                 uint32_t group,
                                                                 uint32_t destination,
                                                                 uint32_t count,
                                                                 const uint8_t *payload, uint64_t n,
                                                                 uint8_t *room, uint64_t m)
{
    if (klumdray_overlap(payload, n, room, m))
        return 14u;
    return klumdray_tunnelling_request_write(channel, counter, code, error_mark, extended,
                                             first_sending, priority, source, group, destination,
                                             count, payload, n, room, m);
}

static inline uint64_t klumdray_tunnelling_receive_checked(uint8_t *channels,
                                                           uint64_t channels_length,
                                                           const uint8_t *octets, uint64_t length,
                                                           uint8_t *room, uint64_t room_length)
{
    if (klumdray_overlap(channels, channels_length, octets, length) ||
        klumdray_overlap(channels, channels_length, room, room_length) ||
        klumdray_overlap(octets, length, room, room_length))
        return 14u;
    return klumdray_tunnelling_receive(channels, channels_length, octets, length, room,
                                       room_length);
}

static inline uint64_t klumdray_tunnelling_send_checked(const uint8_t *channels,
                                                        uint64_t channels_length, uint32_t channel,
                                                        uint32_t code, uint32_t error_mark,
                                                        uint32_t extended, uint32_t first_sending,
                                                        uint32_t priority, uint32_t source,
                                                        uint32_t group, uint32_t destination,
                                                        uint32_t count, const uint8_t *payload,
                                                        uint64_t n, uint8_t *room, uint64_t m)
{
    if (klumdray_overlap(channels, channels_length, room, m) ||
        klumdray_overlap(payload, n, room, m))
        return 14u;
    return klumdray_tunnelling_send(channels, channels_length, channel, code, error_mark, extended,
                                    first_sending, priority, source, group, destination, count,
                                    payload, n, room, m);
}

static inline uint32_t klumdray_tunnelling_confirm_checked(uint8_t *channels,
                                                           uint64_t channels_length,
                                                           const uint8_t *octets, uint64_t length)
{
    if (klumdray_overlap(channels, channels_length, octets, length))
        return 14u;
    return klumdray_tunnelling_confirm(channels, channels_length, octets, length);
}

static inline uint32_t klumdray_take_checked(uint8_t *total, uint64_t total_length, uint8_t *memory,
                                             uint64_t memory_length, uint32_t group,
                                             const uint8_t *octets, uint64_t length)
{
    if (klumdray_overlap(total, total_length, memory, memory_length) ||
        klumdray_overlap(total, total_length, octets, length) ||
        klumdray_overlap(memory, memory_length, octets, length))
        return 14u;
    return klumdray_take(total, total_length, memory, memory_length, group, octets, length);
}

/* The checked forms end here. */

/*
 * The helpers. Of every answer that a call gives they give back just what the call found: no field
 * overflows or reaches into another.
 */

/* The number in any answer: 0, or the refusal's. */
static inline uint8_t klumdray_number(uint64_t answer)
{
    return (uint8_t)(answer & 0xFFu);
}

/* What a number says: the words of the table at the head of this file. */
static inline const char *klumdray_words(uint32_t number)
{
    static const char *const words[] = {
        "not a refusal",
        "fewer octets than the frame needs",
        "TP1 control octet of another kind",
        "EFF not 0000",
        "LG octet 255",
        "octets left after the frame",
        "wrong check octet",
        "message code not 11h, 2Eh, 29h; in routing, not 29h",
        "a = 255",
        "cEMI standard with LG above 15",
        "KNXnet/IP header length not 06h or version not 10h",
        "service not the one wanted",
        "total length differs from the datagram's",
        "lent room too small",
        "a number given by the caller is outside its range",
        "own line 00h, or a setting code not allowed",
        "site length not a multiple of 12, or a wrong mark",
        "one line twice in a site",
        "filter table missing or of wrong size",
        "connection header's first octet not 04h",
        "channel not open",
        "counter not one that the channel awaits",
        "not a number of these calls",
        "two-octet float 7FFFh, which is invalid",
        "sum past the 64 bits of the total"
    };
    return number < sizeof words / sizeof words[0] ? words[number] : "not a number of these calls";
}

/* A writer's answer: the octets written. */
static inline size_t klumdray_written(uint64_t answer)
{
    return (size_t)(answer >> 8);
}

/* A reader's answer, field by field. */
static inline uint8_t klumdray_extended(uint64_t answer)
{
    return (uint8_t)(answer >> 8 & 1u);
}

static inline uint8_t klumdray_first_sending(uint64_t answer)
{
    return (uint8_t)(answer >> 9 & 1u);
}

static inline uint8_t klumdray_priority(uint64_t answer)
{
    return (uint8_t)(answer >> 10 & 3u);
}

static inline uint8_t klumdray_group(uint64_t answer)
{
    return (uint8_t)(answer >> 12 & 1u);
}

static inline uint8_t klumdray_count(uint64_t answer)
{
    return (uint8_t)(answer >> 13 & 7u);
}

static inline uint16_t klumdray_source(uint64_t answer)
{
    return (uint16_t)(answer >> 16 & 0xFFFFu);
}

static inline uint16_t klumdray_destination(uint64_t answer)
{
    return (uint16_t)(answer >> 32 & 0xFFFFu);
}

static inline size_t klumdray_payload_length(uint64_t answer)
{
    return (size_t)(answer >> 48 & 0xFFu);
}

/* Where the payload begins in the octets of an accepted TP1 frame. */
static inline size_t klumdray_tp1_payload_start(uint64_t answer)
{
    return klumdray_extended(answer) ? 7u : 6u;
}

/* The message code's place in the answer: 0 none, as on TP1. */
enum {
    KLUMDRAY_NO_MESSAGE = 0,
    KLUMDRAY_REQUEST = 1,
    KLUMDRAY_CONFIRMATION = 2,
    KLUMDRAY_INDICATION = 3
};

static inline uint8_t klumdray_message(uint64_t answer)
{
    return (uint8_t)(answer >> 56 & 3u);
}

/* The message code as the octet that the writers take: 11h, 2Eh or 29h; 00h if there is none. */
static inline uint8_t klumdray_message_code(uint64_t answer)
{
    static const uint8_t codes[] = {0x00, 0x11, 0x2E, 0x29};
    return codes[klumdray_message(answer)];
}

static inline uint8_t klumdray_error_mark(uint64_t answer)
{
    return (uint8_t)(answer >> 58 & 1u);
}

/* Where the payload begins in the n octets of an accepted cEMI message, routing datagram or
 * tunnelling request. */
static inline size_t klumdray_cemi_payload_start(uint64_t answer, size_t n)
{
    return n - klumdray_payload_length(answer);
}

static inline size_t klumdray_routing_payload_start(uint64_t answer, size_t n)
{
    return n - klumdray_payload_length(answer);
}

static inline size_t klumdray_tunnelling_payload_start(uint64_t answer, size_t n)
{
    return n - klumdray_payload_length(answer);
}

/* Where additional information begins in the n octets of an accepted message, datagram or request,
 * and how many octets it has. */
static inline size_t klumdray_cemi_information_start(void)
{
    return 2u;
}

static inline size_t klumdray_cemi_information_length(uint64_t answer, size_t n)
{
    return n - klumdray_payload_length(answer) - 9u;
}

static inline size_t klumdray_routing_information_start(void)
{
    return 8u;
}

static inline size_t klumdray_routing_information_length(uint64_t answer, size_t n)
{
    return n - klumdray_payload_length(answer) - 15u;
}

static inline size_t klumdray_tunnelling_information_start(void)
{
    return 12u;
}

static inline size_t klumdray_tunnelling_information_length(uint64_t answer, size_t n)
{
    return n - klumdray_payload_length(answer) - 19u;
}

/* A step's answer, whatever its number is: the acknowledgement, CCh, or 0 for none. */
static inline uint8_t klumdray_acknowledgement(uint64_t answer)
{
    return (uint8_t)(answer >> 8 & 0xFFu);
}

/* A step's answer, whatever its number is: 1 if the frame is for the coupler itself, else 0. */
static inline uint8_t klumdray_own(uint64_t answer)
{
    return (uint8_t)(answer >> 16 & 1u);
}

/* A step's answer, whatever its number is: the octets forwarded, 0 if none. */
static inline size_t klumdray_forwarded(uint64_t answer)
{
    return (size_t)(answer >> 32);
}

/* Where a side's part of the memory begins: its size, then its frame. */
static inline const uint8_t *klumdray_remembered_part(const uint8_t *memory, uint32_t side)
{
    return memory + (side == KLUMDRAY_SUB ? KLUMDRAY_MEMORY_SIZE / 2 : 0);
}

/* The size of the frame remembered of a side, 0 if there is none, and where it begins. */
static inline size_t klumdray_remembered_size(const uint8_t *memory, uint32_t side)
{
    const uint8_t *part = klumdray_remembered_part(memory, side);
    size_t size = (size_t)part[0] << 8 | part[1];
    return size > KLUMDRAY_FRAME_SIZE ? 0u : size;
}

static inline const uint8_t *klumdray_remembered(const uint8_t *memory, uint32_t side)
{
    return klumdray_remembered_part(memory, side) + 2;
}

/* A trace's answer: how many lines are listed. */
static inline size_t klumdray_listed(uint64_t answer)
{
    return (size_t)(answer >> 8 & 0xFFFFu);
}

/* A trace's answer: the forwardings made on the site. */
static inline size_t klumdray_forwardings(uint64_t answer)
{
    return (size_t)(answer >> 24 & 0xFFFFu);
}

/* The list in the room of a trace: line, count on arrival and couplers crossed of the listed line
 * at a place, counted from 0. */
static inline uint8_t klumdray_listed_line(const uint8_t *room, size_t place)
{
    return room[3u * place];
}

static inline uint8_t klumdray_listed_count(const uint8_t *room, size_t place)
{
    return room[3u * place + 1u];
}

static inline uint8_t klumdray_listed_crossed(const uint8_t *room, size_t place)
{
    return room[3u * place + 2u];
}

/* The reason in a why's answer. */
enum {
    KLUMDRAY_REACHED = 0,
    KLUMDRAY_NOT_FITTED = 1,
    KLUMDRAY_OWN_ADDRESS = 2,
    KLUMDRAY_CLOSED = 3,
    KLUMDRAY_NOT_BELOW = 4,
    KLUMDRAY_NOT_ABOVE = 5,
    KLUMDRAY_NOT_IN_TABLE = 6,
    KLUMDRAY_COUNT_USED_UP = 7
};

static inline uint8_t klumdray_reason(uint32_t answer)
{
    return (uint8_t)(answer >> 8 & 0xFFu);
}

/* A why's answer: the line of the coupler that stops the telegram. */
static inline uint8_t klumdray_stopping_line(uint32_t answer)
{
    return (uint8_t)(answer >> 16 & 0xFFu);
}

/* A why's answer: the side that this coupler receives the telegram from, KLUMDRAY_MAIN where it
 * goes from main to sub, KLUMDRAY_SUB where it goes from sub to main. */
static inline uint8_t klumdray_stopping_side(uint32_t answer)
{
    return (uint8_t)(answer >> 24 & 1u);
}

/* Channel and counter in the octets of an accepted request or acknowledgement, and where the cEMI
 * message of a request begins. */
static inline uint8_t klumdray_tunnelling_channel(const uint8_t *octets)
{
    return octets[7];
}

static inline uint8_t klumdray_tunnelling_counter(const uint8_t *octets)
{
    return octets[8];
}

static inline size_t klumdray_tunnelling_message_start(void)
{
    return 10u;
}

/* The answer of the acknowledgement's reader, field by field. */
static inline uint8_t klumdray_ack_channel(uint32_t answer)
{
    return (uint8_t)(answer >> 8 & 0xFFu);
}

static inline uint8_t klumdray_ack_counter(uint32_t answer)
{
    return (uint8_t)(answer >> 16 & 0xFFu);
}

static inline uint8_t klumdray_ack_status(uint32_t answer)
{
    return (uint8_t)(answer >> 24 & 0xFFu);
}

/* A receive's answer: 1 if the request is delivered, 0 if it is acknowledged again or refused. */
static inline uint8_t klumdray_delivered(uint64_t answer)
{
    return klumdray_message(answer) != KLUMDRAY_NO_MESSAGE;
}

/* A confirm's answer: 1 if the send counter was raised, else 0. */
static inline uint8_t klumdray_raised(uint32_t answer)
{
    return (uint8_t)(answer >> 8 & 1u);
}

/* Where a channel's three octets begin in a table of channels; the number is 1 to 4. */
static inline const uint8_t *klumdray_channel(const uint8_t *channels, uint32_t number)
{
    return channels + KLUMDRAY_CHANNEL_SIZE * (number - 1u);
}

/* 1 if the channel is open, else 0. */
static inline uint8_t klumdray_channel_open(const uint8_t *channels, uint32_t number)
{
    return klumdray_channel(channels, number)[0] == 1u;
}

/* The counter expected in the next request received, and that of the request to send. */
static inline uint8_t klumdray_channel_receive(const uint8_t *channels, uint32_t number)
{
    return klumdray_channel(channels, number)[1];
}

static inline uint8_t klumdray_channel_send(const uint8_t *channels, uint32_t number)
{
    return klumdray_channel(channels, number)[2];
}

/* The answer to reading a float: the hundredths, 0 with a refusal. (What a cast of bits above the
 * positive range gives is each compiler's own, so that they are counted down from -1.) */
static inline int32_t klumdray_hundredths(uint64_t answer)
{
    uint32_t bits = (uint32_t)(answer >> 32);
    return bits >> 31 == 0 ? (int32_t)bits : -1 - (int32_t)(0xFFFFFFFFu - bits);
}

/* The answer to writing a float, a payload's and a take's: the code, 0 if there is none. */
static inline uint16_t klumdray_code(uint32_t answer)
{
    return (uint16_t)(answer >> 16 & 0xFFFFu);
}

/* A payload's answer: 1 if it is an increment, else 0. */
static inline uint8_t klumdray_is_increment(uint32_t answer)
{
    return (uint8_t)(answer >> 8 & 1u);
}

/* What the frame is, in a take's answer. */
enum {
    KLUMDRAY_NOT_TAKEN = 0,
    KLUMDRAY_COUNTED = 1,
    KLUMDRAY_REPETITION = 2,
    KLUMDRAY_OTHER_GROUP = 3,
    KLUMDRAY_NO_INCREMENT = 4
};

static inline uint8_t klumdray_taken(uint32_t answer)
{
    return (uint8_t)(answer >> 8 & 0xFFu);
}

/* The hundredths in a total's 8 octets. */
static inline int64_t klumdray_total(const uint8_t *total)
{
    uint64_t bits = 0;
    size_t place;
    for (place = 0; place < KLUMDRAY_TOTAL_SIZE; place++)
        bits = bits << 8 | total[place];
    return bits >> 63 == 0 ? (int64_t)bits : -1 - (int64_t)~bits;
}

/* Puts hundredths, any, into a total's 8 octets. */
static inline void klumdray_total_put(uint8_t *total, int64_t hundredths)
{
    uint64_t bits = (uint64_t)hundredths;
    size_t place;
    for (place = KLUMDRAY_TOTAL_SIZE; place > 0; place--) {
        total[place - 1] = (uint8_t)(bits & 0xFFu);
        bits >>= 8;
    }
}

#ifdef __cplusplus
}
#endif

#endif
