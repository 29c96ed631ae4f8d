/* The rain of a day at a station that drops group 6 where no rain has fallen, and says so by iR 3, the first figure of
   iRixhVV. Each line is a day of its own: what was reported for 12, 18 and 06 UTC, and the total.
   cc -Iinclude examples/dry.c target/staticlib/libesfenruk.a -o target/dry */
#include "esfenruk.h"
#include <inttypes.h>
#include <stdio.h>
#include <string.h>

static uint8_t store[ESFENRUK_LENGTH(1)];

/* The day line for the reports of a day; 0 or the refusal's number. */
static uint32_t day(const char *const reports[3], struct esfenruk_day_line *line)
{
    const uint32_t station = 40001;
    const uint16_t row = ESFENRUK_ROW_LOWLAND;

    uint32_t refused = esfenruk_open(store, sizeof store, 2024, 4, 11, &station, 1, &row, 1);
    for (int i = 0; i < 3 && !refused; i++)
        refused = esfenruk_file(store, sizeof store, reports[i], strlen(reports[i]), ESFENRUK_ORDINARY);
    if (!refused)
        refused = esfenruk_settle(store, sizeof store, station);
    return refused ? refused : esfenruk_get_day(store, sizeof store, station, line);
}

static int show(const char *what, const char *noon, const char *evening, const char *morning)
{
    const char *const reports[3] = {noon, evening, morning};
    struct esfenruk_day_line line;

    uint32_t refused = day(reports, &line);
    printf("%-41s ", what);
    if (refused)
        printf("refused %" PRIu32 ": %s\n", refused, esfenruk_meaning(refused));
    else if (line.has_rain)
        printf("%.1f mm\n", line.rain / 10.0);
    else
        printf("no total\n");
    return refused != 0;
}

int main(void)
{
    const char *const dry_noon = "AAXX 11121 40001 32360 62704=", *const shower = "AAXX 11121 40001 12360 62704 60031=";
    const char *const dry_evening = "AAXX 11181 40001 32360 62704=", *const dry_morning = "AAXX 12061 40001 32360 62704=";

    return show("iR 3 and no group 6, all day:", dry_noon, dry_evening, dry_morning) |
           show("the same after a shower, 60031 at 12 UTC:", shower, dry_evening, dry_morning) |
           show("iR 3 and 6//// at 18 UTC:", shower, "AAXX 11181 40001 32360 62704 6////=", dry_morning) |
           show("iR 4 and no group 6 at 18 UTC:", shower, "AAXX 11181 40001 42360 62704=", dry_morning);
}
