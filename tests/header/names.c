/* The header's names against the library: a day that has each state, each flag and each kind of mean, read through the structs.
   One file for both units of a program, C or C++ each: with MAIN it has `main`, without it the other unit. */
#include "esfenruk.h"
#include "esfenruk.h"
#include <stdio.h>
#include <string.h>

#ifdef __cplusplus
extern "C" int other_unit(void);
#else
int other_unit(void);
#endif

static int failed;

static void check(int holds, const char *what)
{
    if (!holds) {
        printf("names.c: not so: %s\n", what);
        failed = 1;
    }
}
#define CHECK(what) check(what, #what)

static uint8_t store[ESFENRUK_LENGTH(1)];
static const uint32_t station = 40001;

static void opened(uint16_t row)
{
    CHECK(esfenruk_open(store, sizeof store, 2024, 4, 11, &station, 1, &row, 1) == ESFENRUK_ACCEPTED);
}

static int is_cell(uint32_t element, uint32_t slot, enum esfenruk_state state, enum esfenruk_flag flag, int32_t number)
{
    const int humid = state == ESFENRUK_STATE_HUMIDITY;
    struct esfenruk_checked_cell cell;

    return esfenruk_get_cell(store, sizeof store, station, element, slot, &cell) == ESFENRUK_ACCEPTED && cell.state == state &&
           cell.flag == flag && cell.value == (humid ? ESFENRUK_ABSENT : number) && cell.humidity == (humid ? number : ESFENRUK_ABSENT);
}

/* A mean that is not there is above all that there are. */
static int is_absent(struct esfenruk_mean mean)
{
    return mean.kind == ESFENRUK_MEAN_ABSENT && mean.value >= ESFENRUK_ABSENT;
}

#ifdef MAIN

static int is_mean(struct esfenruk_mean mean, enum esfenruk_kind kind, double value)
{
    return mean.kind == kind && mean.value >= value && mean.value <= value;
}

static void version(void)
{
    char numbers[40];

    snprintf(numbers, sizeof numbers, "%d.%d.%d", ESFENRUK_VERSION_MAJOR, ESFENRUK_VERSION_MINOR, ESFENRUK_VERSION_PATCH);
    CHECK(strcmp(numbers, ESFENRUK_VERSION) == 0);
}

static void hours(void)
{
    static const int hour[ESFENRUK_SLOTS] = {6, 9, 12, 15, 18, 21, 0, 3, 6};

    for (int slot = 0; slot < ESFENRUK_SLOTS; slot++)
        CHECK(esfenruk_hour(slot) == hour[slot]);
    CHECK(esfenruk_hour(-1) == -1 && esfenruk_hour(ESFENRUK_SLOTS) == -1 && esfenruk_hour(INT32_MAX) == -1);
}

/* Each refusal has a text of its own, and a number that is none has another. */
static void meanings(void)
{
    uint32_t none = ESFENRUK_REFUSED_UNENDED;

    while (strcmp(esfenruk_meaning(none), esfenruk_meaning(UINT32_MAX)) != 0)
        none++;
    CHECK(none > ESFENRUK_REFUSED_NOT_UNDER_WAY);
    for (uint32_t a = 0; a <= none; a++)
        for (uint32_t b = 0; b < a; b++)
            CHECK(strcmp(esfenruk_meaning(a), esfenruk_meaning(b)) != 0);
}

static void filed(const char *text)
{
    CHECK(esfenruk_file(store, sizeof store, text, strlen(text), ESFENRUK_ORDINARY) == ESFENRUK_ACCEPTED);
}

/* T at slot 1 has its sign mended, and D there, above the T as it came, is discarded and filled; P at slot 2 is filled, W at slot 4 suspect, C at
   slot 5 missing; at slot 8 D is a humidity and P discarded. */
static void filed_day(void)
{
    static const char *const reports[ESFENRUK_SLOTS] = {
        "AAXX 11061 40001 41462 52705 10100 20050 40130 333 20080=",
        "AAXX 11091 40001 41462 52705 11110 20050 40131=",
        "AAXX 11121 40001 41462 52705 10120 20054=",
        "AAXX 11151 40001 41462 52705 10130 20060 40133=",
        "AAXX 11181 40001 11462 52741 10140 20060 40134 60042 333 10200=",
        "AAXX 11211 40001 41462 /2705 10150 20060 40135=",
        "AAXX 12001 40001 41462 52705 10160 20060 40136=",
        "AAXX 12031 40001 41462 52705 10170 20060 40137=",
        "AAXX 12061 40001 11462 52705 10165 29067 49100 60102=",
    };

    opened(ESFENRUK_ROW_LOWLAND);
    for (int slot = 0; slot < ESFENRUK_SLOTS; slot++)
        filed(reports[slot]);
    CHECK(esfenruk_begin(store, sizeof store, station) == ESFENRUK_ACCEPTED);
    for (int i = 0; i < 4; i++)
        CHECK(esfenruk_step(store, sizeof store, station) == ESFENRUK_ACCEPTED);
}

static void cells(void)
{
    CHECK(is_cell(ESFENRUK_TEMPERATURE, 0, ESFENRUK_STATE_READ, ESFENRUK_FLAG_NONE, 100));
    CHECK(is_cell(ESFENRUK_TEMPERATURE, 1, ESFENRUK_STATE_CORRECTED, ESFENRUK_FLAG_TIME, 110));
    CHECK(is_cell(ESFENRUK_DEW_POINT, 1, ESFENRUK_STATE_FILLED, ESFENRUK_FLAG_INTERNAL, 52));
    CHECK(is_cell(ESFENRUK_DEW_POINT, 8, ESFENRUK_STATE_HUMIDITY, ESFENRUK_FLAG_NONE, 67));
    CHECK(is_cell(ESFENRUK_PRESSURE, 2, ESFENRUK_STATE_FILLED, ESFENRUK_FLAG_NONE, 10132));
    CHECK(is_cell(ESFENRUK_PRESSURE, 8, ESFENRUK_STATE_MISSING, ESFENRUK_FLAG_RANGE, ESFENRUK_ABSENT));
    CHECK(is_cell(ESFENRUK_WIND_SPEED, 4, ESFENRUK_STATE_READ, ESFENRUK_FLAG_SUSPECT, 410));
    CHECK(is_cell(ESFENRUK_CLOUD, 4, ESFENRUK_STATE_READ, ESFENRUK_FLAG_NONE, 5));
    CHECK(is_cell(ESFENRUK_VISIBILITY, 0, ESFENRUK_STATE_READ, ESFENRUK_FLAG_NONE, 120));
    CHECK(is_cell(ESFENRUK_RAIN, 4, ESFENRUK_STATE_READ, ESFENRUK_FLAG_NONE, 40));
    CHECK(is_cell(ESFENRUK_MAXIMUM, 4, ESFENRUK_STATE_READ, ESFENRUK_FLAG_NONE, 200));
    CHECK(is_cell(ESFENRUK_MINIMUM, 0, ESFENRUK_STATE_READ, ESFENRUK_FLAG_NONE, 80));
}

/* The eightfold sum of the vapour pressures, from the table at the eight dew points. */
static double vapour_sum(void)
{
    static const int dew_points[8] = {50, 52, 54, 60, 60, 60, 60, 60};
    static uint16_t entries[ESFENRUK_VAPOUR_TABLE];
    double sum = 0;

    CHECK(esfenruk_vapour_table(entries, ESFENRUK_VAPOUR_TABLE) == 0);
    for (int slot = 0; slot < 8; slot++)
        sum += entries[dew_points[slot] + 500];
    return sum;
}

static void day(void)
{
    struct esfenruk_day_line line;

    CHECK(esfenruk_get_day(store, sizeof store, station, &line) == ESFENRUK_ACCEPTED);
    CHECK(is_mean(line.temperature, ESFENRUK_MEAN_MENDED, 135.0));
    CHECK(is_mean(line.dew_point, ESFENRUK_MEAN_MENDED, 57.0));
    CHECK(is_mean(line.pressure, ESFENRUK_MEAN_MENDED, 10133.5));
    CHECK(is_mean(line.wind_speed, ESFENRUK_MEAN_READ, 95.0));
    CHECK(is_absent(line.cloud));
    CHECK(is_mean(line.vapour_pressure, ESFENRUK_MEAN_MENDED, vapour_sum() / 8));
    CHECK(line.has_rain == 1 && line.rain == 140);
    CHECK(line.warmest == 7 && line.coldest == 0);
    CHECK(line.read == 53 && line.corrected == 1 && line.filled == 2 && line.missing == 25);
}

/* A day of which nothing is there, and what a refusal leaves. */
static void absent(void)
{
    struct esfenruk_day_line line, line_before;
    struct esfenruk_checked_cell cell, cell_before;

    opened(ESFENRUK_ROW_LOWLAND);
    memset(&line, 0x5A, sizeof line);
    memset(&cell, 0x5A, sizeof cell);
    line_before = line;
    cell_before = cell;
    CHECK(esfenruk_get_day(store, sizeof store, station, &line) == ESFENRUK_REFUSED_NOT_SETTLED);
    CHECK(esfenruk_get_cell(store, sizeof store, station, ESFENRUK_ELEMENTS, 0, &cell) == ESFENRUK_REFUSED_NO_CELL);
    CHECK(memcmp(&line, &line_before, sizeof line) == 0 && memcmp(&cell, &cell_before, sizeof cell) == 0);
    CHECK(esfenruk_settle(store, sizeof store, station) == ESFENRUK_ACCEPTED);
    CHECK(esfenruk_get_day(store, sizeof store, station, &line) == ESFENRUK_ACCEPTED);
    CHECK(!line.has_rain && line.rain == ESFENRUK_ABSENT && line.warmest == -1 && line.coldest == -1 && line.missing == 81);
    CHECK(is_absent(line.temperature) && is_absent(line.vapour_pressure));
}

/* A temperature within a lowland station's limits and beyond the inner one of a hill station's. */
static void row_is(uint16_t row, enum esfenruk_flag flag)
{
    opened(row);
    filed("AAXX 11061 40001 41462 52705 10330=");
    CHECK(esfenruk_settle(store, sizeof store, station) == ESFENRUK_ACCEPTED);
    CHECK(is_cell(ESFENRUK_TEMPERATURE, 0, ESFENRUK_STATE_READ, flag, 330));
}

static void rows(void)
{
    row_is(ESFENRUK_ROW_LOWLAND, ESFENRUK_FLAG_NONE);
    row_is(ESFENRUK_ROW_HILL, ESFENRUK_FLAG_SUSPECT);
}

static void tally(void)
{
    const char *const bulletin = "AAXX 11061 40001 NIL= 40001 41462 52705= 40002 NIL=";
    uint32_t counts[2];

    CHECK(esfenruk_bulletin(store, sizeof store, bulletin, strlen(bulletin), ESFENRUK_HIGHEST_RANK, counts) == ESFENRUK_ACCEPTED);
    CHECK(counts[ESFENRUK_REPORTS_ACCEPTED] == 2 && counts[ESFENRUK_REPORTS_REFUSED] == 1);
}

int main(void)
{
    version();
    hours();
    meanings();
    filed_day();
    cells();
    day();
    absent();
    rows();
    tally();
    return failed | other_unit();
}

#else

/* Uses each inline function once more. */
int other_unit(void)
{
    struct esfenruk_day_line line;

    opened(ESFENRUK_ROW_LOWLAND);
    CHECK(esfenruk_settle(store, sizeof store, station) == ESFENRUK_ACCEPTED);
    CHECK(is_cell(ESFENRUK_RAIN, 8, ESFENRUK_STATE_MISSING, ESFENRUK_FLAG_NONE, ESFENRUK_ABSENT));
    CHECK(esfenruk_get_day(store, sizeof store, station, &line) == ESFENRUK_ACCEPTED && is_absent(line.cloud));
    CHECK(strcmp(esfenruk_meaning(ESFENRUK_ACCEPTED), "accepted") == 0);
    return failed;
}

#endif
