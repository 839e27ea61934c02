/*
 * The rows of rust/bench that call the C surface, each called from C: by the library and by the
 * reference, on the same input, with the same answer. The program writes the rows' names;
 * tools/count-rows counts the instructions of the last call of each side.
 */
#include "rows.h"

#include <stdarg.h>
#include <stdio.h>
#include <stdlib.h>

/* The tool looks for so many calls of each side in a row. */
enum { CALLS = 3 };

uint8_t payload[255];
uint64_t library, word;
struct answer reference;

/* Stands for what of `core` the reference's module only names: no input here comes to a panic. */
void absent(void);

void absent(void)
{
    abort();
}

void call_both(void (*of_library)(void), void (*of_reference)(void))
{
    int call;
    for (call = 0; call < CALLS; call++)
        of_library();
    for (call = 0; call < CALLS; call++)
        of_reference();
}

void tell_row(int is_right, const char *form, ...)
{
    va_list parts;
    va_start(parts, form);
    vprintf(form, parts);
    va_end(parts);
    printf(is_right ? "\n" : ": the answers are not those of this row\n");
    if (!is_right)
        exit(1);
}

int main(void)
{
    size_t place;
    for (place = 0; place < sizeof payload; place++)
        payload[place] = (uint8_t)place;
    tell_frame_rows();
    tell_step_rows();
    tell_tracer_rows();
    tell_tunnelling_rows();
    tell_leak_rows();
    return 0;
}
