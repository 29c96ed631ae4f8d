/* A call refused with each number, and what the number means.
   cc -Iinclude examples/refused.c target/staticlib/libesfenruk.a -o target/refused */
#include "esfenruk.h"
#include <inttypes.h>
#include <stdio.h>
#include <string.h>

static uint8_t store[ESFENRUK_LENGTH(1)];
static const uint32_t station = 40001;

static uint32_t open_on(uint32_t month, uint32_t day)
{
    const uint16_t row = ESFENRUK_ROW_LOWLAND;

    return esfenruk_open(store, sizeof store, 2024, month, day, &station, 1, &row, 1);
}

static uint32_t file(const char *text, uint32_t rank)
{
    return esfenruk_file(store, sizeof store, text, strlen(text), rank);
}

static void show(uint32_t answer)
{
    printf("%" PRIu32 " %s\n", answer, esfenruk_meaning(answer));
}

int main(void)
{
    const char *const report = "AAXX 11061 40001 12360 62704 10103 20071 40132 60042=";
    struct esfenruk_checked_cell cell;
    struct esfenruk_day_line line;

    if (open_on(4, 11) || file(report, ESFENRUK_ORDINARY))
        return 1;
    show(file("AAXX", ESFENRUK_ORDINARY));
    show(file("aaxx=", ESFENRUK_ORDINARY));
    show(file("=", ESFENRUK_ORDINARY));
    show(file("AAXX 11062 40001 NIL=", ESFENRUK_ORDINARY)); /* iw 2 */
    show(file("AAXX 11061=", ESFENRUK_ORDINARY));
    show(esfenruk_settle(store, sizeof store, 40002));
    show(file("AAXX 11071 40001 12360 62704 10103=", ESFENRUK_ORDINARY)); /* 07 UTC */
    show(file(report, ESFENRUK_ORDINARY));                                /* once more */
    show(esfenruk_settle(NULL, 0, station));                              /* an empty buffer */
    show(open_on(2, 30));                                                 /* 30 February */
    show(esfenruk_get_day(store, sizeof store, station, &line));          /* before settle */
    show(esfenruk_get_cell(store, sizeof store, station, ESFENRUK_RAIN, ESFENRUK_SLOTS, &cell));
    show(file(report, ESFENRUK_HIGHEST_RANK + 1));
    show(esfenruk_step(store, sizeof store, station)); /* without begin */
    return 0;
}
