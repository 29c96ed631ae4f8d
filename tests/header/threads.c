/* Threads on stores of their own, and all of them on one that they only read, at the same time: each gets its own answers. */
#include "esfenruk.h"
#include <pthread.h>
#include <stdio.h>
#include <string.h>

enum { THREADS = 8, ROUNDS = 2000 };

static const uint32_t station = 40001;
static uint8_t shared[ESFENRUK_LENGTH(1)];

/* A day with one report, whose temperature is `tenths`; 0 or the refusal's number. */
static uint32_t lived(uint8_t *store, int tenths)
{
    const uint16_t row = ESFENRUK_ROW_LOWLAND;
    char text[64];

    const int length = snprintf(text, sizeof text, "AAXX 11061 40001 12360 62704 10%03d 20071 40132 60042=", tenths);
    uint32_t refused = esfenruk_open(store, ESFENRUK_LENGTH(1), 2024, 4, 11, &station, 1, &row, 1);
    if (!refused)
        refused = esfenruk_file(store, ESFENRUK_LENGTH(1), text, (size_t)length, ESFENRUK_ORDINARY);
    return refused ? refused : esfenruk_settle(store, ESFENRUK_LENGTH(1), station);
}

static int temperature_is(const uint8_t *store, int tenths)
{
    struct esfenruk_checked_cell cell;
    struct esfenruk_day_line line;

    return !esfenruk_get_cell(store, ESFENRUK_LENGTH(1), station, ESFENRUK_TEMPERATURE, 0, &cell) && cell.value == tenths &&
           !esfenruk_get_day(store, ESFENRUK_LENGTH(1), station, &line) && line.read == 7;
}

/* NULL, or its argument where an answer was wrong. */
static void *work(void *own)
{
    static uint16_t tables[THREADS][ESFENRUK_VAPOUR_TABLE];
    const int number = *(const int *)own;
    uint8_t store[ESFENRUK_LENGTH(1)];

    for (int round = 0; round < ROUNDS; round++) {
        const int tenths = 80 + 10 * number + round % 10;

        if (lived(store, tenths) || !temperature_is(store, tenths) || !temperature_is(shared, 99) ||
            esfenruk_vapour_table(tables[number], ESFENRUK_VAPOUR_TABLE) || tables[number][500] != 612)
            return own;
    }
    return NULL;
}

int main(void)
{
    static int numbers[THREADS];
    pthread_t threads[THREADS];
    int failed = lived(shared, 99) != 0;

    for (int i = 0; i < THREADS; i++) {
        numbers[i] = i;
        if (pthread_create(&threads[i], NULL, work, &numbers[i]) != 0)
            return 1;
    }
    for (int i = 0; i < THREADS; i++) {
        void *wrong;

        failed |= pthread_join(threads[i], &wrong) != 0 || wrong != NULL;
    }
    if (failed)
        printf("threads.c: a thread got a wrong answer\n");
    return failed;
}
