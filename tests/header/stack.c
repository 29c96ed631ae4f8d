/* The stack that calls take, measured: stack MOST. A call runs on a painted stack of its own, and what it wrote over is counted, the C library's
   memcpy and memset included. It is what these inputs take; MOST is what tools/stack.py works out. To be linked with -z lazy, so that the dynamic
   linker looks a function up at its first call: what that takes is measured too, and MOST and it together are to be within ESFENRUK_STACK. */
#define _XOPEN_SOURCE 700
#include "esfenruk.h"
#include <inttypes.h>
#include <stdio.h>
#include <stdlib.h>
#include <string.h>
#include <ucontext.h>

enum { PAINT = 0xA5, ROOM = 256 * 1024, STATIONS = 32 };

static const uint32_t station = 40001;
static uint8_t store[ESFENRUK_LENGTH(STATIONS)];
static char text[16384];
static size_t text_length;

static unsigned char painted[ROOM];
static const unsigned char *top; /* where the stack stood as the call was made */
static uint32_t (*made)(void);
static uint32_t answer;

static uint32_t open_store(void)
{
    static uint32_t stations[STATIONS];
    static uint16_t rows[STATIONS];

    for (uint32_t i = 0; i < STATIONS; i++)
        stations[i] = station + i;
    return esfenruk_open(store, sizeof store, 2024, 4, 11, stations, STATIONS, rows, STATIONS);
}

static uint32_t file(void)
{
    return esfenruk_file(store, sizeof store, text, text_length, ESFENRUK_ORDINARY);
}

static uint32_t bulletin(void)
{
    static uint32_t counts[2];
    const uint32_t refused = esfenruk_bulletin(store, sizeof store, text, text_length, ESFENRUK_HIGHEST_RANK, counts);

    return refused ? refused : counts[ESFENRUK_REPORTS_REFUSED];
}

static uint32_t settle(void)
{
    return esfenruk_settle(store, sizeof store, station);
}

static uint32_t begin(void)
{
    return esfenruk_begin(store, sizeof store, station);
}

static uint32_t step(void)
{
    return esfenruk_step(store, sizeof store, station);
}

static uint32_t cell(void)
{
    static int32_t out[3];

    return esfenruk_cell(store, sizeof store, station, ESFENRUK_TEMPERATURE, 0, out);
}

static uint32_t day(void)
{
    static double means[6];
    static int32_t numbers[14];

    return esfenruk_day(store, sizeof store, station, means, numbers);
}

static uint32_t vapour_table(void)
{
    static uint16_t entries[ESFENRUK_VAPOUR_TABLE];

    return esfenruk_vapour_table(entries, ESFENRUK_VAPOUR_TABLE);
}

/* memcpy alone: a length that the compiler cannot know makes it a call. */
static uint32_t copy(void)
{
    static volatile size_t length = 8;

    memcpy(store + 8, store, length);
    return 0;
}

static void make(void)
{
    top = __builtin_frame_address(0);
    answer = made();
}

/* Makes a call and counts how far below `top` the stack was written to. */
static size_t bytes_of(uint32_t (*call)(void))
{
    static ucontext_t here, there;
    size_t untouched = 0;

    memset(painted, PAINT, sizeof painted);
    made = call;
    getcontext(&there);
    there.uc_stack.ss_sp = painted;
    there.uc_stack.ss_size = sizeof painted;
    there.uc_link = &here;
    makecontext(&there, make, 0);
    swapcontext(&here, &there);
    while (painted[untouched] == PAINT)
        untouched++;
    return (size_t)(top - painted) - untouched;
}

static int failed;
static size_t most;

static void measure(const char *name, uint32_t (*call)(void))
{
    const size_t bytes = bytes_of(call);

    if (answer != ESFENRUK_ACCEPTED || bytes > most) {
        printf("stack.c: %s: %zu bytes, at most %zu are said; answer %" PRIu32 "\n", name, bytes, most, answer);
        failed = 1;
    }
    printf("%-12s %5zu\n", name, bytes);
}

/* The station's report of a slot. T jumps between slots, so that steps mend, discard and fill, and each section has groups. */
static void write_report(int slot)
{
    const int day_of_month = slot < 6 ? 11 : 12, temperature = slot % 3 ? 60 : 250, sign = slot == 3 ? 9 : 0, period = slot % 2 ? 1 : 2;

    text_length = (size_t)snprintf(
        text, sizeof text, "AAXX %02d%02d1 40001 11358 /0%d99 00%03d 10%03d 2%d%03d 4%04d 6012%d 80000 222// 00150 333 10%03d 20%03d 555 12345=",
        day_of_month, esfenruk_hour(slot), slot, 100 + 50 * slot, temperature, sign, 30 + slot, 50 + slot, period, 260 + slot, 10 + slot);
}

#define TEN_GROUPS " 12345 12345 12345 12345 12345 12345 12345 12345 12345 12345"

/* A bulletin of reports for all stations, each nearly as long as it may be. */
static void write_bulletin(void)
{
    text_length = (size_t)snprintf(text, sizeof text, "AAXX 11091");
    for (uint32_t i = 0; i < STATIONS; i++)
        text_length += (size_t)snprintf(text + text_length, sizeof text - text_length,
                                        " %" PRIu32 " 11358 /0499 00120 10123 29067 40132 333 10260 555" TEN_GROUPS TEN_GROUPS
                                        TEN_GROUPS TEN_GROUPS TEN_GROUPS TEN_GROUPS "=", station + i);
}

int main(int argc, char **argv)
{
    size_t look_up;

    if (argc != 2)
        return 2;
    most = strtoul(argv[1], NULL, 10);
    look_up = bytes_of(copy);
    look_up -= bytes_of(copy);
    printf("look-up      %5zu\n", look_up);
    measure("open", open_store);
    for (int slot = 0; slot < ESFENRUK_SLOTS; slot++) {
        write_report(slot);
        measure("file", file);
    }
    write_bulletin();
    measure("bulletin", bulletin);
    measure("begin", begin);
    for (int i = 0; i < 4; i++)
        measure("step", step);
    measure("settle", settle);
    measure("cell", cell);
    measure("day", day);
    measure("vapour_table", vapour_table);
    if (most > ESFENRUK_STACK / 2 || most + look_up > ESFENRUK_STACK) {
        printf("stack.c: ESFENRUK_STACK is %d: the calls take up to %zu, and to look a function up takes %zu\n", ESFENRUK_STACK, most, look_up);
        failed = 1;
    }
    return failed;
}
