/* What the slots of a day hold of moisture: three reports filed, the station settled, the dew point's cells read. A station whose
   dew point sensor is down sends a relative humidity, 29UUU, which stands in the dew point's cell.
   cc -Iinclude examples/moisture.c target/staticlib/libesfenruk.a -o target/moisture */
#include "esfenruk.h"
#include <inttypes.h>
#include <stdio.h>
#include <string.h>

static uint8_t store[ESFENRUK_LENGTH(1)];

static uint32_t file(const char *text)
{
    return esfenruk_file(store, sizeof store, text, strlen(text), ESFENRUK_ORDINARY);
}

int main(void)
{
    const uint32_t station = 40001;
    const uint16_t row = ESFENRUK_ROW_LOWLAND;
    struct esfenruk_checked_cell cell;

    uint32_t refused = esfenruk_open(store, sizeof store, 2024, 4, 11, &station, 1, &row, 1);
    if (!refused)
        refused = file("AAXX 11061 40001 12360 62704 10103 20071=");
    if (!refused)
        refused = file("AAXX 11091 40001 12360 62704 10141 29067=");
    if (!refused)
        refused = file("AAXX 11121 40001 12360 62704 10150 29///=");
    if (!refused)
        refused = esfenruk_settle(store, sizeof store, station);
    for (int slot = 0; slot < 3 && !refused; slot++) {
        refused = esfenruk_get_cell(store, sizeof store, station, ESFENRUK_DEW_POINT, (uint32_t)slot, &cell);
        if (refused)
            break;
        printf("%02" PRId32 " UTC: ", esfenruk_hour(slot));
        if (cell.state == ESFENRUK_STATE_MISSING)
            printf("missing\n");
        else if (cell.state == ESFENRUK_STATE_HUMIDITY)
            printf("humidity %" PRId32 " %%\n", cell.humidity);
        else
            printf("dew point %.1f C\n", cell.value / 10.0);
    }
    if (refused)
        printf("refused %" PRIu32 ": %s\n", refused, esfenruk_meaning(refused));
    return refused != 0;
}
