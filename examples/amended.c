/* Amended reports of one hour, as they come: the ordinary one, the corrections CCA and CCC, then some that change nothing. After
   each stands the temperature that the slot then gives.
   cc -Iinclude examples/amended.c target/staticlib/libesfenruk.a -o target/amended */
#include "esfenruk.h"
#include <inttypes.h>
#include <stdio.h>
#include <string.h>

static uint8_t store[ESFENRUK_LENGTH(1)];
static const uint32_t station = 40001;

/* The rank that an indicator stands for: 0 without one, 1 for CCA and on to 24 for CCX. */
static uint32_t rank(const char *indicator)
{
    return *indicator ? (uint32_t)(indicator[2] - 'A' + 1) : ESFENRUK_ORDINARY;
}

/* Files a text and prints the answer, then the slot's temperature. An accepted report other than NIL unsettles the station,
   so it is settled each time. */
static void file(const char *indicator, const char *text)
{
    const uint32_t slot = 0;
    struct esfenruk_checked_cell cell;

    uint32_t refused = esfenruk_file(store, sizeof store, text, strlen(text), rank(indicator));
    printf("%-3s %s ", indicator, text);
    if (refused)
        printf("refused %" PRIu32 " (%s)", refused, esfenruk_meaning(refused));
    else
        printf("accepted");
    refused = esfenruk_settle(store, sizeof store, station);
    if (!refused)
        refused = esfenruk_get_cell(store, sizeof store, station, ESFENRUK_TEMPERATURE, slot, &cell);
    if (!refused && cell.state != ESFENRUK_STATE_MISSING)
        printf(", T %.1f C", cell.value / 10.0);
    printf("\n");
}

int main(void)
{
    const uint16_t row = ESFENRUK_ROW_LOWLAND;

    if (esfenruk_open(store, sizeof store, 2024, 4, 11, &station, 1, &row, 1))
        return 1;
    file("", "AAXX 11061 40001 12360 62704 10301 20071=");
    file("CCA", "AAXX 11061 40001 12360 62704 10103 20071=");
    file("CCC", "AAXX 11061 40001 12360 62704 10105 20071=");
    file("CCC", "AAXX 11061 40001 12360 62704 10107 20071=");
    file("CCB", "AAXX 11061 40001 12360 62704 10104 20071=");
    file("", "AAXX 11061 40001 NIL=");
    file("CCY", "AAXX 11061 40001 12360 62704 10109 20071=");
    return 0;
}
