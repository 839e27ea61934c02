/*
 * Check octets of 8, 23 and 263 octets, which begin at an odd address, by the library and by a loop
 * over the octets: each once, from `counted`, so that QEMU's list of the instructions carried out
 * shows where it begins and ends. tools/measure-targets counts them.
 */
#include <stdio.h>

#include "klumdray.h"

uint32_t octet_loop(const uint8_t *octets, uint64_t n);

typedef uint32_t form(const uint8_t *octets, uint64_t n);

static uint8_t octets[264];

__attribute__((noinline)) void counted(form *worked_out, size_t n);

static uint32_t answer;

void counted(form *worked_out, size_t n)
{
    answer = worked_out(octets + 1, n);
}

static int are_one(size_t n)
{
    uint32_t by_octets;
    counted(octet_loop, n);
    by_octets = answer;
    counted(klumdray_check_octet, n);
    return answer == by_octets;
}

int main(void)
{
    int right;
    size_t i;
    for (i = 0; i < sizeof octets; i++)
        octets[i] = (uint8_t)(i * 37 + i / 7);
    right = are_one(8) & are_one(23) & are_one(263);
    printf("%s\n", right ? "the same" : "not the same");
    return !right;
}
