/* The printed day of the paper: one report filed, the station settled, its day line printed.
   cc -Iinclude examples/day.c target/staticlib/libesfenruk.a -o target/day */
#include "esfenruk.h"
#include <inttypes.h>
#include <stdio.h>
#include <string.h>

/* A number, or - where it is absent. */
static void print(int absent, int32_t number)
{
    if (absent)
        printf(" -");
    else
        printf(" %" PRId32, number);
}

int main(void)
{
    static uint8_t store[ESFENRUK_LENGTH(1)];
    const uint32_t station = 40001;
    const uint16_t row = ESFENRUK_ROW_LOWLAND;
    const char *text = "AAXX 11061 40001 12360 62704 10103 20071 40132 60042=";
    struct esfenruk_day_line line;

    uint32_t refused = esfenruk_open(store, sizeof store, 2024, 4, 11, &station, 1, &row, 1);
    if (!refused)
        refused = esfenruk_file(store, sizeof store, text, strlen(text), ESFENRUK_ORDINARY);
    if (!refused)
        refused = esfenruk_settle(store, sizeof store, station);
    if (!refused)
        refused = esfenruk_get_day(store, sizeof store, station, &line);
    if (refused) {
        printf("refused %" PRIu32 ": %s\n", refused, esfenruk_meaning(refused));
        return 1;
    }
    printf("%05" PRIu32, station);
    print(!line.has_rain, line.rain);
    print(line.warmest < 0, line.warmest);
    print(line.coldest < 0, line.coldest);
    print(0, line.read);
    print(0, line.corrected);
    print(0, line.filled);
    print(0, line.missing);
    printf("\n");
    return 0;
}
