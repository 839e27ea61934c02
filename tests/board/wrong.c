/*
 * A library that is wrong in one way, to try the player: linked with --wrap=klumdray_tp1_write, it
 * makes the call and then does what no call may do. WRONG says which.
 */
#include "klumdray.h"

enum { BEFORE_ROOM = 1, BEHIND_ROOM = 2, BEHIND_FRAME = 3, PAYLOAD = 4, HIGH_HALF = 5 };

typedef uint64_t write_call(uint32_t extended, uint32_t first_sending, uint32_t priority,
                            uint32_t source, uint32_t group, uint32_t destination, uint32_t count,
                            const uint8_t *payload, uint64_t n, uint8_t *room, uint64_t m);

write_call __real_klumdray_tp1_write, __wrap_klumdray_tp1_write;

/* Changes one octet that has to stay. */
static void spoil(uint8_t *octet)
{
    *octet = (uint8_t)(*octet ^ 0x10u);
}

uint64_t __wrap_klumdray_tp1_write(uint32_t extended, uint32_t first_sending, uint32_t priority,
                                   uint32_t source, uint32_t group, uint32_t destination,
                                   uint32_t count, const uint8_t *payload, uint64_t n,
                                   uint8_t *room, uint64_t m)
{
    uint64_t answer = __real_klumdray_tp1_write(extended, first_sending, priority, source, group,
                                                destination, count, payload, n, room, m);
    size_t size = klumdray_written(answer);
    if (klumdray_number(answer) != 0 || size == m)
        return answer;
    if (WRONG == BEFORE_ROOM)
        spoil(room - 1);
    if (WRONG == BEHIND_ROOM)
        spoil(room + m);
    if (WRONG == BEHIND_FRAME)
        spoil(room + size);
    if (WRONG == PAYLOAD)
        spoil((uint8_t *)(uintptr_t)payload);
    return WRONG == HIGH_HALF ? answer | (uint64_t)1 << 63 : answer;
}
