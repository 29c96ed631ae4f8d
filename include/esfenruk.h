/* Esfenruk: one day's SYNOP reports of up to 32 stations, checked and summed up, one day line a station.

   Link libesfenruk.a, or after tools/install what `pkg-config --cflags --libs esfenruk` says. C99 and C++11; x86-64 under Linux,
   on processors of level x86-64-v2 (SSE4.2 and POPCNT, since about 2009).

   - A day is a store: a buffer of bytes that you lend with each call. There is no heap and no state beside it. The bytes may be
     copied, written to a file and read again: they are the same store. Each call but open tests first that they are one (9).
   - What is not there is no 0: a total or a temperature of 0 is a value. Structs have ESFENRUK_ABSENT or slot -1 for it, and a kind, a
     state or a mark that says so. The arrays beneath have 0, of a slot -1, and the same marks.
   - A call on a store answers 0 (ESFENRUK_ACCEPTED) or the number of a refusal, enum esfenruk_refusal. A refusal changes no byte
     of the store and of what is filled. Each call's refusals stand here in the order in which they are tested: the first that
     holds is the answer.
   - A buffer is a pointer and a length. With length 0 the pointer may be NULL: there is no such store (9; to open, 10), text (1),
     list (10) or table. Any other pointer is to be valid for its length. Buffers of one call must not overlap.
   - Calls on different stores may run at the same time, and calls that only read a store (its pointer is const) on the same one.
   - A call takes at most ESFENRUK_STACK bytes of stack. */
#ifndef ESFENRUK_H
#define ESFENRUK_H

#include <stddef.h>
#include <stdint.h>

/* A cast of which neither language warns. */
#ifdef __cplusplus
#define ESFENRUK_AS(type, number) static_cast<type>(number)
extern "C" {
#else
#define ESFENRUK_AS(type, number) ((type)(number))
#endif

/* An answer that is not looked at is a warning: after a refusal nothing was filled. */
#ifdef __GNUC__
#define ESFENRUK_LOOK_AT __attribute__((warn_unused_result))
#else
#define ESFENRUK_LOOK_AT
#endif

/* The version: the minor number is the last change request that this is after (7: S-7). Another minor number is another library:
   stores and calls may differ. */
#define ESFENRUK_VERSION "0.7.0"
#define ESFENRUK_VERSION_MAJOR 0
#define ESFENRUK_VERSION_MINOR 7
#define ESFENRUK_VERSION_PATCH 0

/* The bytes of stack that a call takes at most. The library needs less than half of them; the others are for the dynamic linker, where
   it looks memcpy and memset up as they are first called. */
#define ESFENRUK_STACK 8192

/* How many stations a store has at most, and the store's length in bytes for n of them. */
#define ESFENRUK_STATIONS 32
#define ESFENRUK_LENGTH(n) (16 + 710 * ESFENRUK_AS(size_t, n))

/* The answer of an accepted call. */
#define ESFENRUK_ACCEPTED 0

/* What a struct has for a number that is not there, a mean too: 134184959, more than any rain or wind, also where some of them are added
   up or 16 bits are kept. Ask the kind, the state or the mark first: it is no frost either. */
#define ESFENRUK_ABSENT 0x07FF7FFF

/* Why a call was refused. What to do about each stands in the README. */
enum esfenruk_refusal {
    ESFENRUK_REFUSED_UNENDED = 1,
    ESFENRUK_REFUSED_UNKNOWN_BYTE = 2,
    ESFENRUK_REFUSED_SHAPE = 3,
    ESFENRUK_REFUSED_OUT_OF_RANGE = 4,
    ESFENRUK_REFUSED_ORDER = 5,
    ESFENRUK_REFUSED_UNKNOWN_STATION = 6,
    ESFENRUK_REFUSED_NO_SLOT = 7,
    ESFENRUK_REFUSED_FILED = 8,
    ESFENRUK_REFUSED_UNSOUND = 9,
    ESFENRUK_REFUSED_UNOPENABLE = 10,
    ESFENRUK_REFUSED_NOT_SETTLED = 11,
    ESFENRUK_REFUSED_NO_CELL = 12,
    ESFENRUK_REFUSED_RANK = 13,
    ESFENRUK_REFUSED_NOT_UNDER_WAY = 14
};

/* What an answer means, in a few words. */
static inline const char *esfenruk_meaning(uint32_t answer)
{
    switch (answer) {
    case ESFENRUK_ACCEPTED:
        return "accepted";
    case ESFENRUK_REFUSED_UNENDED:
        return "the text is empty or too long, or its = is absent, early or not last";
    case ESFENRUK_REFUSED_UNKNOWN_BYTE:
        return "a byte other than 0-9, A-Z, /, space, CR, LF and =";
    case ESFENRUK_REFUSED_SHAPE:
        return "a group without its shape, the first not AAXX, or NIL not fourth and last";
    case ESFENRUK_REFUSED_OUT_OF_RANGE:
        return "YY not 01-31, GG not 00-23, iw not 0, 1, 3 or 4, or IIiii 00000";
    case ESFENRUK_REFUSED_ORDER:
        return "too few groups, or groups out of order";
    case ESFENRUK_REFUSED_UNKNOWN_STATION:
        return "the station is not in the store";
    case ESFENRUK_REFUSED_NO_SLOT:
        return "no slot of the store's day has that day and hour";
    case ESFENRUK_REFUSED_FILED:
        return "the slot is filed already with this rank";
    case ESFENRUK_REFUSED_UNSOUND:
        return "the store is unsound";
    case ESFENRUK_REFUSED_UNOPENABLE:
        return "not 1 to 32 stations, a wrong length, a bad date, a row not 0 or 1, or numbers not ascending in 1 to 99999";
    case ESFENRUK_REFUSED_NOT_SETTLED:
        return "the station is not settled";
    case ESFENRUK_REFUSED_NO_CELL:
        return "an element or slot above 8";
    case ESFENRUK_REFUSED_RANK:
        return "the rank is above 24 or below that of the report in the slot";
    case ESFENRUK_REFUSED_NOT_UNDER_WAY:
        return "no settling of the station is under way";
    default:
        return "no refusal has this number";
    }
}

/* What is measured, and the unit of a cell's value. A day's values fill few of the 18 cells of X and M, and of the nine of R. */
enum esfenruk_element {
    ESFENRUK_TEMPERATURE = 0, /* T, tenths of a degree Celsius */
    ESFENRUK_DEW_POINT = 1,   /* D, tenths of a degree; or a relative humidity, percent: ESFENRUK_STATE_HUMIDITY */
    ESFENRUK_PRESSURE = 2,    /* P, tenths of hPa */
    ESFENRUK_WIND_SPEED = 3,  /* W, tenths of m/s */
    ESFENRUK_CLOUD = 4,       /* C, eighths of the sky */
    ESFENRUK_VISIBILITY = 5,  /* V, hundreds of metres */
    ESFENRUK_RAIN = 6,        /* R, tenths of mm */
    ESFENRUK_MAXIMUM = 7,     /* X, the highest temperature, tenths of a degree */
    ESFENRUK_MINIMUM = 8      /* M, the lowest temperature, tenths of a degree */
};
#define ESFENRUK_ELEMENTS 9

/* The slots of day D, 0 to 8: 06, 09, 12, 15, 18, 21 UTC of D, then 00, 03, 06 UTC of the day after it. */
#define ESFENRUK_SLOTS 9

/* The hour of a slot, UTC; -1 where there is none. */
static inline int32_t esfenruk_hour(int32_t slot)
{
    return slot < 0 || slot >= ESFENRUK_SLOTS ? -1 : (6 + 3 * slot) % 24;
}

/* A station's climate row: by it go the limits of T, D, X and M. */
enum esfenruk_row {
    ESFENRUK_ROW_LOWLAND = 0,
    ESFENRUK_ROW_HILL = 1
};

/* The rank of a report: 0 for an ordinary one, 1 to 24 for an amended one, CCA to CCX. */
#define ESFENRUK_ORDINARY 0
#define ESFENRUK_HIGHEST_RANK 24

/* Opens a store for the day year-month-day and for stations, ascending, each with its climate row, as many rows as stations: 10. */
ESFENRUK_LOOK_AT
uint32_t esfenruk_open(uint8_t *store, size_t store_length, uint32_t year, uint32_t month, uint32_t day,
                       const uint32_t *stations, size_t stations_length, const uint16_t *rows, size_t rows_length);

/* Files a report at a rank: 9, 13 (the rank is above 24), 1 to 7, 13 (it is below that of the report in the slot), 8. The text
   is at most 512 bytes, `AAXX` to `=`; it names its slot by day of the month and hour alone. A higher rank replaces the slot, head
   and all nine values: what the new report leaves out is missing. The station is no longer settled. NIL is accepted at any rank up
   to 24 and changes nothing. A report does not touch a settling under way (below).
   A report with iR 3 and no group 6 is a dry station's: R is 0, for 12 hours (tR 2) at slots 0, 4 and 8 and for 6 hours (tR 1) at
   slots 2 and 6, and missing at the others. */
ESFENRUK_LOOK_AT
uint32_t esfenruk_file(uint8_t *store, size_t store_length, const void *text, size_t text_length, uint32_t rank);

/* Files the reports of a bulletin in order, all at one rank: 9, 13 (the rank is above 24), 1, 3, 4, for the whole. The text is
   the heading `AAXX YYGGiw` and then reports without it, each ended by `=`, at most 16384 bytes.
   counts: by enum esfenruk_tally, how many reports were accepted, NIL too, and how many were refused, each as esfenruk_file would. */
ESFENRUK_LOOK_AT
uint32_t esfenruk_bulletin(uint8_t *store, size_t store_length, const void *text, size_t text_length, uint32_t rank,
                           uint32_t counts[2]);

enum esfenruk_tally {
    ESFENRUK_REPORTS_ACCEPTED = 0,
    ESFENRUK_REPORTS_REFUSED = 1
};

/* Settles a station: checks, mends and fills its values: 9, 6. A settling under way is dropped. */
ESFENRUK_LOOK_AT
uint32_t esfenruk_settle(uint8_t *store, size_t store_length, uint32_t station);

/* Settling in portions, a call at a time with other calls in between: begin, then four steps, which do range, internal, time and
   fill. Where no report for the station came in between they leave it as esfenruk_settle does, byte for byte. Reports may be filed
   meanwhile: the settling goes on with the values that the station had at begin, and after the fourth step the station is settled if
   no report but NIL was accepted for it since. Until it is settled its cells and its day line are refused 11.
   begin: 9, 6. It starts anew where a settling is under way.
   step: 9, 6, 14. */
ESFENRUK_LOOK_AT
uint32_t esfenruk_begin(uint8_t *store, size_t store_length, uint32_t station);
ESFENRUK_LOOK_AT
uint32_t esfenruk_step(uint8_t *store, size_t store_length, uint32_t station);

/* How a cell came to what it holds. */
enum esfenruk_state {
    ESFENRUK_STATE_MISSING = 0,   /* it holds nothing */
    ESFENRUK_STATE_READ = 1,      /* as the report gave it, or the rain 0 of a dry station */
    ESFENRUK_STATE_CORRECTED = 2, /* a temperature whose sign was mended */
    ESFENRUK_STATE_FILLED = 3,    /* from its two neighbours in time */
    ESFENRUK_STATE_HUMIDITY = 4   /* read: a relative humidity in place of a dew point, in cells of ESFENRUK_DEW_POINT alone */
};

/* What the last test that doubted a value was. A missing or filled cell with a flag other than none had a value discarded. */
enum esfenruk_flag {
    ESFENRUK_FLAG_NONE = 0,
    ESFENRUK_FLAG_RANGE = 1,    /* outside its limits */
    ESFENRUK_FLAG_INTERNAL = 2, /* against another value of the report */
    ESFENRUK_FLAG_TIME = 3,     /* against both neighbours in time */
    ESFENRUK_FLAG_SUSPECT = 4   /* doubted, and kept: it counts as read, and nothing but this flag tells */
};

/* A checked cell, by element and slot: 9, 6, 12, 11.
   out: state, flag, value. The value is 0 where the cell is missing, percent where it has a humidity. */
ESFENRUK_LOOK_AT
uint32_t esfenruk_cell(const uint8_t *store, size_t store_length, uint32_t station, uint32_t element, uint32_t slot,
                       int32_t out[3]);

struct esfenruk_checked_cell {
    enum esfenruk_state state;
    enum esfenruk_flag flag;
    int32_t value;    /* in the element's unit; ESFENRUK_ABSENT where the cell is missing or has a humidity */
    int32_t humidity; /* percent; ESFENRUK_ABSENT but in state ESFENRUK_STATE_HUMIDITY */
};

/* The same into a struct. */
ESFENRUK_LOOK_AT
static inline uint32_t esfenruk_get_cell(const uint8_t *store, size_t store_length, uint32_t station, uint32_t element,
                                         uint32_t slot, struct esfenruk_checked_cell *cell)
{
    int32_t out[3];
    const uint32_t answer = esfenruk_cell(store, store_length, station, element, slot, out);

    if (answer == ESFENRUK_ACCEPTED) {
        const int humid = out[0] == ESFENRUK_STATE_HUMIDITY, missing = out[0] == ESFENRUK_STATE_MISSING;

        cell->state = ESFENRUK_AS(enum esfenruk_state, out[0]);
        cell->flag = ESFENRUK_AS(enum esfenruk_flag, out[1]);
        cell->value = humid || missing ? ESFENRUK_ABSENT : out[2];
        cell->humidity = humid ? out[2] : ESFENRUK_ABSENT;
    }
    return answer;
}

/* The day line of a station: 9, 6, 11.
   means: of T, D, P, W, C and of vapour pressure; 0.0 where absent.
   numbers: 0 to 5 the kind of each mean; 6 whether there is rain (0, 1); 7 the rain (0 where absent); 8, 9 the warmest and the
   coldest slot (-1 where absent); 10 to 13 how many cells are read, corrected, filled, missing. */
ESFENRUK_LOOK_AT
uint32_t esfenruk_day(const uint8_t *store, size_t store_length, uint32_t station, double means[6], int32_t numbers[14]);

enum esfenruk_kind {
    ESFENRUK_MEAN_ABSENT = 0, /* a slot of 0 to 7 has no value: it is missing, or a humidity in the place of a dew point */
    ESFENRUK_MEAN_READ = 1,   /* all eight are read */
    ESFENRUK_MEAN_MENDED = 2  /* one or more of them are corrected or filled */
};

/* A mean over slots 0 to 7, exact. */
struct esfenruk_mean {
    enum esfenruk_kind kind;
    double value; /* ESFENRUK_ABSENT where absent */
};

struct esfenruk_day_line {
    struct esfenruk_mean temperature;     /* tenths of a degree Celsius */
    struct esfenruk_mean dew_point;       /* tenths of a degree */
    struct esfenruk_mean pressure;        /* tenths of hPa */
    struct esfenruk_mean wind_speed;      /* tenths of m/s */
    struct esfenruk_mean cloud;           /* eighths of the sky */
    struct esfenruk_mean vapour_pressure; /* hundredths of hPa; of a humidity, its share of the pressure at the temperature */
    int32_t has_rain;                     /* 1, or 0: there is no total, which is not a dry day */
    int32_t rain;                         /* 06 UTC to 06 UTC, tenths of mm, 0 on a dry day; ESFENRUK_ABSENT without a total */
    int32_t warmest;                      /* of slots 0 to 7 the latest of the warmest; -1 without any temperature */
    int32_t coldest;                      /* of slots 0 to 7 the earliest of the coldest; -1 without any temperature */
    int32_t read;                         /* how many of the 81 checked cells are read, suspect ones and humidities too, */
    int32_t corrected;                    /* corrected, */
    int32_t filled;                       /* filled, */
    int32_t missing;                      /* and missing: on a whole day 20 or so */
};

/* The same into a struct. */
ESFENRUK_LOOK_AT
static inline uint32_t esfenruk_get_day(const uint8_t *store, size_t store_length, uint32_t station,
                                        struct esfenruk_day_line *line)
{
    double means[6];
    int32_t numbers[14];
    const uint32_t answer = esfenruk_day(store, store_length, station, means, numbers);

    if (answer == ESFENRUK_ACCEPTED) {
        struct esfenruk_mean *const places[6] = {&line->temperature, &line->dew_point, &line->pressure,
                                                 &line->wind_speed,  &line->cloud,     &line->vapour_pressure};
        for (int i = 0; i < 6; i++) {
            places[i]->kind = ESFENRUK_AS(enum esfenruk_kind, numbers[i]);
            places[i]->value = numbers[i] == ESFENRUK_MEAN_ABSENT ? ESFENRUK_ABSENT : means[i];
        }
        line->has_rain = numbers[6];
        line->rain = line->has_rain ? numbers[7] : ESFENRUK_ABSENT;
        line->warmest = numbers[8];
        line->coldest = numbers[9];
        line->read = numbers[10];
        line->corrected = numbers[11];
        line->filled = numbers[12];
        line->missing = numbers[13];
    }
    return answer;
}

/* How many numbers the vapour table has. */
#define ESFENRUK_VAPOUR_TABLE 1001

/* Fills `entries` with the vapour table, computed by its recurrence: the vapour pressure in hundredths of hPa at each dew
   point from -500 to 500 tenths of a degree. It has no store. Returns 0; or, where `entries_length` is not 1001, the length
   needed, 1001, and changes no number. */
ESFENRUK_LOOK_AT
uint32_t esfenruk_vapour_table(uint16_t *entries, size_t entries_length);

#ifdef __cplusplus
}
#endif

#endif
