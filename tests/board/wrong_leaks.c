/*
 * A library whose float, total or station is wrong in one way, to try the tables of calls: linked
 * with --wrap for these calls, it makes the call and does what none may do. WRONG says which.
 */
#include "klumdray.h"

#include <string.h>

enum {
    SIGN_APART = 1,
    TIES_FROM_ZERO,
    NEAREST_THAT_FITS,
    HUNDREDTHS_CUT,
    LONGER_TAKEN,
    SUM_WRAPS,
    REFUSED_SUM_WRITTEN,
    CODE_CUT,
    REPETITION_COUNTED,
    OTHER_GROUP_FORGOTTEN,
    REFUSED_REMEMBERED
};

/* Refusals, and what a station takes a frame for. */
enum { PAST_TOTAL = 24, REPETITION = 2, ANOTHER_GROUP = 3 };

enum { TOTAL_SIZE = 8, STATION_MEMORY_SIZE = 265 };

typedef uint64_t value_call(uint32_t code);
typedef uint32_t write_call(int64_t hundredths);
typedef uint32_t increment_call(const uint8_t *payload, uint64_t length);
typedef uint32_t add_call(uint8_t *total, uint64_t total_length, uint32_t code);
typedef uint32_t take_call(uint8_t *total, uint64_t total_length, uint8_t *memory,
                           uint64_t memory_length, uint32_t group, const uint8_t *octets,
                           uint64_t length);

value_call __real_klumdray_float_value, __wrap_klumdray_float_value;
write_call __real_klumdray_float_write, __wrap_klumdray_float_write;
increment_call __real_klumdray_increment, __wrap_klumdray_increment;
add_call __real_klumdray_total_add, __wrap_klumdray_total_add;
take_call __real_klumdray_take, __wrap_klumdray_take;

/* The hundredths of a code that is not refused. */
static int32_t value_of(uint32_t code)
{
    return (int32_t)(__real_klumdray_float_value(code) >> 32);
}

uint64_t __wrap_klumdray_float_value(uint32_t code)
{
    uint64_t answer = __real_klumdray_float_value(code);
    if (WRONG == SIGN_APART && (answer & 255u) == 0 && code >= 0x8000u)
        answer = (uint64_t)(uint32_t)-value_of(code & 0x7FFFu) << 32;
    return answer;
}

uint32_t __wrap_klumdray_float_write(int64_t hundredths)
{
    uint32_t answer, code, exponent;
    int64_t unit, off;
    if (WRONG == HUNDREDTHS_CUT)
        hundredths = (int32_t)(uint32_t)(uint64_t)hundredths;
    answer = __real_klumdray_float_write(hundredths);
    if ((answer & 255u) != 0)
        return answer;
    code = answer >> 16, exponent = code >> 11 & 15u;
    unit = (int64_t)1 << exponent, off = hundredths - value_of(code);
    if (WRONG == TIES_FROM_ZERO && 2 * off == unit && hundredths > 0)
        return (code + 1) << 16;
    if (WRONG == TIES_FROM_ZERO && -2 * off == unit && hundredths < 0)
        return (code - 1) << 16;
    if (WRONG == NEAREST_THAT_FITS && (code & 0x87FFu) == 0x0400u && -4 * off == unit)
        return ((exponent - 1) << 11 | 0x07FFu) << 16;
    return answer;
}

uint32_t __wrap_klumdray_increment(const uint8_t *payload, uint64_t length)
{
    if (WRONG == LONGER_TAKEN && length > 4)
        length = 4;
    return __real_klumdray_increment(payload, length);
}

/* Adds a value to the octets of a total, past its range or not. */
static void add_wrapped(uint8_t *total, int32_t value)
{
    uint64_t sum = 0;
    int place;
    for (place = 0; place < TOTAL_SIZE; place++)
        sum = sum << 8 | total[place];
    sum += (uint64_t)(int64_t)value;
    for (place = TOTAL_SIZE; place-- > 0; sum >>= 8)
        total[place] = (uint8_t)sum;
}

uint32_t __wrap_klumdray_total_add(uint8_t *total, uint64_t total_length, uint32_t code)
{
    uint32_t answer;
    if (WRONG == CODE_CUT)
        code &= 0xFFFFu;
    answer = __real_klumdray_total_add(total, total_length, code);
    if ((WRONG == SUM_WRAPS || WRONG == REFUSED_SUM_WRITTEN) && answer == PAST_TOTAL) {
        add_wrapped(total, value_of(code));
        return WRONG == SUM_WRAPS ? 0 : answer;
    }
    return answer;
}

/* Lets the memory hold a frame. */
static void remember(uint8_t *memory, const uint8_t *octets, uint64_t length)
{
    memory[0] = (uint8_t)(length >> 8);
    memory[1] = (uint8_t)length;
    memcpy(memory + 2, octets, (size_t)length);
}

uint32_t __wrap_klumdray_take(uint8_t *total, uint64_t total_length, uint8_t *memory,
                              uint64_t memory_length, uint32_t group, const uint8_t *octets,
                              uint64_t length)
{
    static uint8_t before[STATION_MEMORY_SIZE];
    uint32_t answer, number, kind;
    if (memory_length == sizeof before)
        memcpy(before, memory, sizeof before);
    answer = __real_klumdray_take(total, total_length, memory, memory_length, group, octets, length);
    number = answer & 255u, kind = answer >> 8 & 255u;
    /* The last octets of a frame with an increment are its code and the check octet. */
    if (WRONG == REPETITION_COUNTED && kind == REPETITION)
        __real_klumdray_total_add(total, total_length,
                                  (uint32_t)octets[length - 3] << 8 | octets[length - 2]);
    if (WRONG == OTHER_GROUP_FORGOTTEN && kind == ANOTHER_GROUP)
        memcpy(memory, before, sizeof before);
    if (WRONG == REFUSED_REMEMBERED && (number == PAST_TOTAL - 1 || number == PAST_TOTAL))
        remember(memory, octets, length);
    return answer;
}
