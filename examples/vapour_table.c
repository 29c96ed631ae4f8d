/* The vapour table by the library's generator, printed as the program vapour_table prints it: one number a line.
   cc -Iinclude examples/vapour_table.c target/staticlib/libesfenruk.a -o target/vapour_table */
#include "esfenruk.h"
#include <inttypes.h>
#include <stdio.h>

int main(void)
{
    static uint16_t entries[ESFENRUK_VAPOUR_TABLE];

    uint32_t needed = esfenruk_vapour_table(entries, ESFENRUK_VAPOUR_TABLE);
    if (needed) {
        printf("length needed %" PRIu32 "\n", needed);
        return 1;
    }
    for (int i = 0; i < ESFENRUK_VAPOUR_TABLE; i++)
        printf("%" PRIu16 "\n", entries[i]);
    return 0;
}
