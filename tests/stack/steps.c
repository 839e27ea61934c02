/*
 * Steps of 9, 23 and 263 octets, from TP1 to TP1, forwarded through the filter table: each once,
 * from `counted`, so that QEMU's list of the instructions carried out shows where it begins and
 * ends. tools/measure-targets counts them.
 */
#include <stdio.h>

#include "klumdray.h"

static const uint8_t settings[KLUMDRAY_SETTINGS_SIZE] = {0x47, 1, 2, 1, 1, 1, 2, 1, 1,
                                                         KLUMDRAY_TP1};
static uint8_t table[KLUMDRAY_TABLE_SIZE], memory[KLUMDRAY_MEMORY_SIZE], room[KLUMDRAY_ROOM_SIZE];
static uint8_t frame[KLUMDRAY_FRAME_SIZE], payload[255];

__attribute__((noinline)) void counted(size_t n);

static uint64_t answer;

void counted(size_t n)
{
    answer = klumdray_step(settings, sizeof settings, table, sizeof table, KLUMDRAY_SUB, memory,
                           sizeof memory, frame, n, room, sizeof room);
}

static int is_forwarded(uint32_t extended, size_t n)
{
    uint64_t written = klumdray_tp1_write(extended, 1, 3, 0x4715, 1, 0x1234, 6, payload, n, frame,
                                          sizeof frame);
    size_t size = klumdray_written(written);
    counted(size);
    return klumdray_forwarded(answer) == size;
}

int main(void)
{
    int right;
    table[0x1234 / 8] = 1 << 0x1234 % 8;
    right = is_forwarded(0, 2) & is_forwarded(0, 16) & is_forwarded(1, 255);
    printf("%s\n", right ? "forwarded" : "not forwarded");
    return !right;
}
