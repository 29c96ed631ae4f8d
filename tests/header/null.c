/* NULL with length 0, in each place that a buffer has, answered as the header says; and the stores and arrays lent with it are left alone. */
#include "esfenruk.h"
#include <inttypes.h>
#include <stdio.h>
#include <string.h>

static uint8_t store[ESFENRUK_LENGTH(1)], before[ESFENRUK_LENGTH(1)];
static const uint32_t station = 40001;
static const uint16_t row = ESFENRUK_ROW_HILL;
static const uint8_t text[] = "AAXX 11061 40001 NIL=";
static const size_t text_length = sizeof text - 1;

static uint32_t counts[2] = {7, 7};
static int32_t cell[3] = {7, 7, 7}, numbers[14] = {7};
static double means[6] = {7};
static int failed;

static void expect(const char *what, uint32_t answer, uint32_t expected)
{
    if (answer != expected) {
        printf("null.c: %s answers %" PRIu32 ", not %" PRIu32 "\n", what, answer, expected);
        failed = 1;
    }
}
#define EXPECT(call, expected) expect(#call, call, expected)

static void no_store(void)
{
    EXPECT(esfenruk_open(NULL, 0, 2024, 4, 11, &station, 1, &row, 1), ESFENRUK_REFUSED_UNOPENABLE);
    EXPECT(esfenruk_open(NULL, 0, 2024, 4, 11, NULL, 0, NULL, 0), ESFENRUK_REFUSED_UNOPENABLE);
    EXPECT(esfenruk_file(NULL, 0, text, text_length, ESFENRUK_ORDINARY), ESFENRUK_REFUSED_UNSOUND);
    EXPECT(esfenruk_file(NULL, 0, NULL, 0, ESFENRUK_HIGHEST_RANK + 1), ESFENRUK_REFUSED_UNSOUND);
    EXPECT(esfenruk_bulletin(NULL, 0, text, text_length, ESFENRUK_ORDINARY, counts), ESFENRUK_REFUSED_UNSOUND);
    EXPECT(esfenruk_bulletin(NULL, 0, NULL, 0, ESFENRUK_HIGHEST_RANK + 1, counts), ESFENRUK_REFUSED_UNSOUND);
    EXPECT(esfenruk_settle(NULL, 0, station), ESFENRUK_REFUSED_UNSOUND);
    EXPECT(esfenruk_begin(NULL, 0, station), ESFENRUK_REFUSED_UNSOUND);
    EXPECT(esfenruk_step(NULL, 0, station), ESFENRUK_REFUSED_UNSOUND);
    EXPECT(esfenruk_cell(NULL, 0, station, ESFENRUK_RAIN, 0, cell), ESFENRUK_REFUSED_UNSOUND);
    EXPECT(esfenruk_day(NULL, 0, station, means, numbers), ESFENRUK_REFUSED_UNSOUND);
}

static void no_lists(void)
{
    EXPECT(esfenruk_open(store, sizeof store, 2024, 4, 11, NULL, 0, &row, 1), ESFENRUK_REFUSED_UNOPENABLE);
    EXPECT(esfenruk_open(store, sizeof store, 2024, 4, 11, &station, 1, NULL, 0), ESFENRUK_REFUSED_UNOPENABLE);
    EXPECT(esfenruk_open(store, sizeof store, 2024, 4, 11, NULL, 0, NULL, 0), ESFENRUK_REFUSED_UNOPENABLE);
    EXPECT(esfenruk_open(store, 16, 2024, 4, 11, NULL, 0, NULL, 0), ESFENRUK_REFUSED_UNOPENABLE);
}

static void no_text(void)
{
    EXPECT(esfenruk_file(store, sizeof store, NULL, 0, ESFENRUK_ORDINARY), ESFENRUK_REFUSED_UNENDED);
    EXPECT(esfenruk_file(store, sizeof store, NULL, 0, ESFENRUK_HIGHEST_RANK + 1), ESFENRUK_REFUSED_RANK);
    EXPECT(esfenruk_bulletin(store, sizeof store, NULL, 0, ESFENRUK_ORDINARY, counts), ESFENRUK_REFUSED_UNENDED);
    EXPECT(esfenruk_bulletin(store, sizeof store, NULL, 0, ESFENRUK_HIGHEST_RANK + 1, counts), ESFENRUK_REFUSED_RANK);
}

int main(void)
{
    EXPECT(esfenruk_open(store, sizeof store, 2024, 4, 11, &station, 1, &row, 1), ESFENRUK_ACCEPTED);
    memcpy(before, store, sizeof store);
    no_store();
    no_lists();
    no_text();
    EXPECT(esfenruk_vapour_table(NULL, 0), ESFENRUK_VAPOUR_TABLE);
    if (memcmp(before, store, sizeof store) != 0 || counts[0] != 7 || counts[1] != 7 || cell[0] != 7 || numbers[0] != 7 || means[0] < 7) {
        printf("null.c: a refusal changed what was lent\n");
        failed = 1;
    }
    return failed;
}
