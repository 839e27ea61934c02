/*
 * The calls of klumdray.h, each with its parameters, and with its arguments by position, a slice being
 * one. Who includes this file says before by CALL, NUMBER, SIGNED, OCTETS and ROOM what is made of
 * them; SIGNED is a number of 64 bits with a sign. tools/make-surface writes it from the header.
 */
CALL(uint32_t, klumdray_check_octet,
     (const uint8_t *octets, uint64_t n),
     (OCTETS(0, octets, n)))
CALL(uint64_t, klumdray_tp1_read,
     (const uint8_t *octets, uint64_t n),
     (OCTETS(0, octets, n)))
CALL(uint64_t, klumdray_tp1_write,
     (uint32_t extended, uint32_t first_sending, uint32_t priority, uint32_t source, uint32_t group,
      uint32_t destination, uint32_t count, const uint8_t *payload, uint64_t n, uint8_t *room,
      uint64_t m),
     (NUMBER(0, extended), NUMBER(1, first_sending), NUMBER(2, priority), NUMBER(3, source),
      NUMBER(4, group), NUMBER(5, destination), NUMBER(6, count), OCTETS(7, payload, n),
      ROOM(8, room, m)))
CALL(uint64_t, klumdray_cemi_read,
     (const uint8_t *octets, uint64_t n),
     (OCTETS(0, octets, n)))
CALL(uint64_t, klumdray_cemi_write,
     (uint32_t code, uint32_t error_mark, uint32_t extended, uint32_t first_sending,
      uint32_t priority, uint32_t source, uint32_t group, uint32_t destination, uint32_t count,
      const uint8_t *payload, uint64_t n, uint8_t *room, uint64_t m),
     (NUMBER(0, code), NUMBER(1, error_mark), NUMBER(2, extended), NUMBER(3, first_sending),
      NUMBER(4, priority), NUMBER(5, source), NUMBER(6, group), NUMBER(7, destination),
      NUMBER(8, count), OCTETS(9, payload, n), ROOM(10, room, m)))
CALL(uint64_t, klumdray_routing_read,
     (const uint8_t *octets, uint64_t n),
     (OCTETS(0, octets, n)))
CALL(uint64_t, klumdray_routing_write,
     (uint32_t code, uint32_t error_mark, uint32_t extended, uint32_t first_sending,
      uint32_t priority, uint32_t source, uint32_t group, uint32_t destination, uint32_t count,
      const uint8_t *payload, uint64_t n, uint8_t *room, uint64_t m),
     (NUMBER(0, code), NUMBER(1, error_mark), NUMBER(2, extended), NUMBER(3, first_sending),
      NUMBER(4, priority), NUMBER(5, source), NUMBER(6, group), NUMBER(7, destination),
      NUMBER(8, count), OCTETS(9, payload, n), ROOM(10, room, m)))
CALL(uint64_t, klumdray_step,
     (const uint8_t *settings, uint64_t settings_length, const uint8_t *table,
      uint64_t table_length, uint32_t side, uint8_t *memory, uint64_t memory_length,
      const uint8_t *octets, uint64_t length, uint8_t *room, uint64_t room_length),
     (OCTETS(0, settings, settings_length), OCTETS(1, table, table_length), NUMBER(2, side),
      ROOM(3, memory, memory_length), OCTETS(4, octets, length), ROOM(5, room, room_length)))
CALL(uint64_t, klumdray_trace,
     (uint32_t start, uint32_t kind, uint32_t destination, uint32_t count, const uint8_t *site,
      uint64_t site_length, const uint8_t *project, uint64_t project_length, const uint8_t *own,
      uint64_t own_length, uint8_t *room, uint64_t room_length),
     (NUMBER(0, start), NUMBER(1, kind), NUMBER(2, destination), NUMBER(3, count),
      OCTETS(4, site, site_length), OCTETS(5, project, project_length), OCTETS(6, own, own_length),
      ROOM(7, room, room_length)))
CALL(uint32_t, klumdray_why,
     (uint32_t start, uint32_t kind, uint32_t destination, uint32_t count, const uint8_t *site,
      uint64_t site_length, const uint8_t *project, uint64_t project_length, const uint8_t *own,
      uint64_t own_length, uint32_t line),
     (NUMBER(0, start), NUMBER(1, kind), NUMBER(2, destination), NUMBER(3, count),
      OCTETS(4, site, site_length), OCTETS(5, project, project_length), OCTETS(6, own, own_length),
      NUMBER(7, line)))
CALL(uint64_t, klumdray_tunnelling_request_read,
     (const uint8_t *octets, uint64_t n),
     (OCTETS(0, octets, n)))
CALL(uint64_t, klumdray_tunnelling_request_write,
     (uint32_t channel, uint32_t counter, uint32_t code, uint32_t error_mark, uint32_t extended,
      uint32_t first_sending, uint32_t priority, uint32_t source, uint32_t group,
      uint32_t destination, uint32_t count, const uint8_t *payload, uint64_t n, uint8_t *room,
      uint64_t m),
     (NUMBER(0, channel), NUMBER(1, counter), NUMBER(2, code), NUMBER(3, error_mark),
      NUMBER(4, extended), NUMBER(5, first_sending), NUMBER(6, priority), NUMBER(7, source),
      NUMBER(8, group), NUMBER(9, destination), NUMBER(10, count), OCTETS(11, payload, n),
      ROOM(12, room, m)))
CALL(uint32_t, klumdray_tunnelling_ack_read,
     (const uint8_t *octets, uint64_t n),
     (OCTETS(0, octets, n)))
CALL(uint64_t, klumdray_tunnelling_ack_write,
     (uint32_t channel, uint32_t counter, uint32_t status, uint8_t *room, uint64_t m),
     (NUMBER(0, channel), NUMBER(1, counter), NUMBER(2, status), ROOM(3, room, m)))
CALL(uint64_t, klumdray_tunnelling_receive,
     (uint8_t *channels, uint64_t channels_length, const uint8_t *octets, uint64_t length,
      uint8_t *room, uint64_t room_length),
     (ROOM(0, channels, channels_length), OCTETS(1, octets, length), ROOM(2, room, room_length)))
CALL(uint64_t, klumdray_tunnelling_send,
     (const uint8_t *channels, uint64_t channels_length, uint32_t channel, uint32_t code,
      uint32_t error_mark, uint32_t extended, uint32_t first_sending, uint32_t priority,
      uint32_t source, uint32_t group, uint32_t destination, uint32_t count, const uint8_t *payload,
      uint64_t n, uint8_t *room, uint64_t m),
     (OCTETS(0, channels, channels_length), NUMBER(1, channel), NUMBER(2, code),
      NUMBER(3, error_mark), NUMBER(4, extended), NUMBER(5, first_sending), NUMBER(6, priority),
      NUMBER(7, source), NUMBER(8, group), NUMBER(9, destination), NUMBER(10, count),
      OCTETS(11, payload, n), ROOM(12, room, m)))
CALL(uint32_t, klumdray_tunnelling_confirm,
     (uint8_t *channels, uint64_t channels_length, const uint8_t *octets, uint64_t length),
     (ROOM(0, channels, channels_length), OCTETS(1, octets, length)))
CALL(uint64_t, klumdray_float_value,
     (uint32_t code),
     (NUMBER(0, code)))
CALL(uint64_t, klumdray_float_read,
     (const uint8_t *octets, uint64_t length),
     (OCTETS(0, octets, length)))
CALL(uint32_t, klumdray_float_write,
     (int64_t hundredths),
     (SIGNED(0, hundredths)))
CALL(uint32_t, klumdray_increment,
     (const uint8_t *payload, uint64_t length),
     (OCTETS(0, payload, length)))
CALL(uint32_t, klumdray_total_add,
     (uint8_t *total, uint64_t total_length, uint32_t code),
     (ROOM(0, total, total_length), NUMBER(1, code)))
CALL(uint32_t, klumdray_take,
     (uint8_t *total, uint64_t total_length, uint8_t *memory, uint64_t memory_length,
      uint32_t group, const uint8_t *octets, uint64_t length),
     (ROOM(0, total, total_length), ROOM(1, memory, memory_length), NUMBER(2, group),
      OCTETS(3, octets, length)))
