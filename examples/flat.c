/* The warmest and the coldest hour of days on which hours are equally warm: of these the warmest is the latest and the coldest
   the earliest. Each line is a day of its own: the temperatures at 06, 09 .. 21, 00 and 03 UTC, and the two hours.
   cc -Iinclude examples/flat.c target/staticlib/libesfenruk.a -o target/flat */
#include "esfenruk.h"
#include <inttypes.h>
#include <stdio.h>
#include <stdlib.h>
#include <string.h>

/* The day line for temperatures in tenths of a degree; 0 or the refusal's number. */
static uint32_t day(const int t[8], struct esfenruk_day_line *line)
{
    static uint8_t store[ESFENRUK_LENGTH(1)];
    const uint32_t station = 40001;
    const uint16_t row = ESFENRUK_ROW_LOWLAND;
    char text[64];

    uint32_t refused = esfenruk_open(store, sizeof store, 2024, 4, 11, &station, 1, &row, 1);
    for (int k = 0; k < 8 && !refused; k++) {
        const int day_of_month = k < 6 ? 11 : 12, sign = t[k] < 0;

        snprintf(text, sizeof text, "AAXX %02d%02d1 40001 42360 62704 1%d%03d=", day_of_month, esfenruk_hour(k), sign, abs(t[k]) % 1000);
        refused = esfenruk_file(store, sizeof store, text, strlen(text), ESFENRUK_ORDINARY);
    }
    if (!refused)
        refused = esfenruk_settle(store, sizeof store, station);
    return refused ? refused : esfenruk_get_day(store, sizeof store, station, line);
}

static int show(const int t[8])
{
    struct esfenruk_day_line line;

    uint32_t refused = day(t, &line);
    for (int k = 0; k < 8; k++)
        printf("%5.1f", t[k] / 10.0);
    if (refused)
        printf("  refused %" PRIu32 ": %s\n", refused, esfenruk_meaning(refused));
    else if (line.warmest < 0)
        printf("  no temperature\n");
    else
        printf("  warmest %02d UTC, coldest %02d UTC\n", esfenruk_hour(line.warmest), esfenruk_hour(line.coldest));
    return refused != 0;
}

int main(void)
{
    const int flat[8] = {103, 103, 103, 103, 103, 103, 103, 103}, noon[8] = {70, 90, 121, 121, 98, 80, 70, 70};
    const int frost[8] = {-9, -4, 0, 0, -4, -12, -12, -9};

    return show(flat) | show(noon) | show(frost);
}
