/* A station settled in portions, a step at a time between other work. A report that comes in between does not touch the settling,
   but the station is then to be settled once more.
   cc -Iinclude examples/portions.c target/staticlib/libesfenruk.a -o target/portions */
#include "esfenruk.h"
#include <inttypes.h>
#include <stdio.h>
#include <string.h>

static uint8_t store[ESFENRUK_LENGTH(1)];
static const uint32_t station = 40001;

static void print(const char *call, uint32_t refused)
{
    if (refused)
        printf("%-9s refused %" PRIu32 ": %s\n", call, refused, esfenruk_meaning(refused));
    else
        printf("%-9s accepted\n", call);
}

static void file(const char *text)
{
    print("file", esfenruk_file(store, sizeof store, text, strlen(text), ESFENRUK_ORDINARY));
}

/* The temperature at 09 UTC, slot 1, and how it came about. */
static void temperature(void)
{
    static const char *states[] = {"missing", "read", "corrected", "filled"};
    struct esfenruk_checked_cell cell;

    uint32_t refused = esfenruk_get_cell(store, sizeof store, station, ESFENRUK_TEMPERATURE, 1, &cell);
    if (refused)
        print("cell", refused);
    else if (cell.value == ESFENRUK_ABSENT)
        printf("cell      T %s\n", states[cell.state]);
    else
        printf("cell      T %.1f C, %s\n", cell.value / 10.0, states[cell.state]);
}

/* Begins and does the four steps; after the first a report is filed, if there is one. */
static void settle(const char *between)
{
    static const char *steps[] = {"range", "internal", "time", "fill"};

    print("begin", esfenruk_begin(store, sizeof store, station));
    for (int i = 0; i < 4; i++) {
        print(steps[i], esfenruk_step(store, sizeof store, station));
        if (i == 0 && *between)
            file(between);
    }
    temperature();
}

int main(void)
{
    const uint16_t row = ESFENRUK_ROW_LOWLAND;

    if (esfenruk_open(store, sizeof store, 2024, 4, 11, &station, 1, &row, 1))
        return 1;
    print("step", esfenruk_step(store, sizeof store, station));
    file("AAXX 11061 40001 12360 62704 10100 20071=");
    file("AAXX 11121 40001 12360 62704 10120 20071=");
    settle("AAXX 11091 40001 12360 62704 10190 20071=");
    settle("");
    return 0;
}
