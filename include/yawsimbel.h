/* Yawsimbel: Japanese prescription files, and the usage and supplementary codes in them, read and written; and the doses that they give a day.
 *
 * Link with libyawsimbel.a and, for the words at the end of this file, messages/yawsimbel_messages.c. No function allocates, keeps a pointer after it
 * returns, or touches anything but what it is lent; none has a state of its own, so any number of threads may call at once on memory of their own.
 *
 * NAMES. Every number of an array, and every number that a function returns, has a name here, made in one of four ways:
 *     YWS_LEN_USAGE                  how many numbers or bytes an array has; YWS_MOST_FILE: how long something can be
 *     YWS_OK, YWS_END, YWS_ERR_ROOM  what a function returns
 *     YWS_DRUG_FLAG                  the place of something in an array; a text has two, YWS_DRUG_NAME_FROM and YWS_DRUG_NAME_TO
 *     YWS_DRUG_FLAG_POTENCY          what a number at that place means: record[YWS_DRUG_FLAG] == YWS_DRUG_FLAG_POTENCY
 * docs/VALUES.md has the same values with the Japanese words of the prints, the rows of events, and the fields of every record.
 *
 * RESULT. Every function returns YWS_OK (0) where it did what it says, and else YWS_END or one of YWS_ERR_... below. Keep it in a uint16_t: in
 * eight bits it would never be YWS_END.
 *
 * POINTERS. Memory is the caller's, before and after. No pointer may be NULL, not even where a length is 0. An array has at least the
 * length written in its brackets. What a function writes may not overlap anything else that it is lent. Bytes read need no 0 at their end.
 * A length is 64 bits wide on every machine.
 *
 * REFUSALS. A call that returns another number than 0 leaves all that it was lent as it was, except for what says where and why
 * (`place`, `refusal`, `own`), which is written by every call, with 0s where there is nothing to say; and except for the `reader` of
 * yws_sheet_open, which keeps the refusal so that yws_sheet_next says it again.
 *
 * NUMBERS HANDED IN may be anything; none is undefined behaviour. One that is too large for what it stands for makes a record, a code or a
 * calendar that is refused.
 *
 * NUMBERS LEFT OVER in a usage code, a record or a state are room for what is still to come: 0 where a function writes them, not looked at where
 * they are handed in.
 *
 * A sheet is checked so:
 *
 *     #include <stdio.h>
 *     #include "yawsimbel.h"
 *
 *     int main(void) {
 *         static uint8_t file[YWS_MOST_FILE + 1];
 *         size_t length = fread(file, 1, sizeof file, stdin);
 *         uint64_t records, refusal[YWS_LEN_REFUSAL];
 *         uint16_t number = yws_sheet_check(file, length, &records, refusal);
 *         if (number == YWS_OK) {
 *             printf("ok %lu\n", (unsigned long) records);
 *             return 0;
 *         }
 *         printf("refused %u at byte %lu: %s\n", number, (unsigned long) refusal[YWS_REFUSAL_OFFSET], yws_message(number));
 *         return 1;
 *     }
 */
#ifndef YAWSIMBEL_H
#define YAWSIMBEL_H

#include <stdint.h>

#ifdef __cplusplus
extern "C" {
#endif

#define YWS_VERSION "0.4.0" /* of this header */

/* ---- Lengths. */

enum {
    YWS_LEN_USAGE = 29,          /* numbers of a usage code */
    YWS_LEN_USAGE_CODE = 16,     /* its characters */
    YWS_LEN_USAGE_HOURS = 8,     /* the hours that it can name */
    YWS_LEN_SUPPLEMENT = 22,     /* numbers of a supplementary code */
    YWS_LEN_SUPPLEMENT_CODE = 8, /* its characters */
    YWS_LEN_SUPPLEMENT_DAYS = 6, /* the days that it can name */
    YWS_LEN_DAYS = 13,           /* masks of a set of days */
    YWS_LEN_DATE = 4,            /* numbers of a date */
    YWS_LEN_DATE_TEXT = 8,       /* its characters */
    YWS_LEN_RECORD = 40,         /* numbers of a record */
    YWS_LEN_STATE = 16,          /* numbers of a reader's or a writer's state */
    YWS_LEN_REFUSAL = 4,         /* numbers of a sheet's refusal */
    YWS_LEN_RUN_REFUSAL = 2,     /* numbers of a run's refusal */
    YWS_MOST_FILE = 16384,       /* bytes of the longest file */
    YWS_MOST_RUN = 536,          /* bytes of the longest run, 67 codes of 8 */
    YWS_MOST_DAYS = 366          /* days of the longest dose calendar, a byte each */
};

/* ---- What a function returns. */

enum yws_result {
    YWS_OK = 0,
    /* Codes, runs and sets; the place counts characters from 1. */
    YWS_ERR_LENGTH = 1,       /* code not 16 or 8 long, or run not whole codes; place 0 */
    YWS_ERR_FIRST = 2,        /* 1st character unknown */
    YWS_ERR_DETAIL = 3,       /* 2nd character unknown */
    YWS_ERR_TIMING = 4,       /* 3rd character unknown */
    YWS_ERR_CHARACTER = 5,    /* character outside its set */
    YWS_ERR_UNUSED = 6,       /* unused character not 0 */
    YWS_ERR_COUNT = 7,        /* count differs from the occasions */
    YWS_ERR_RULE = 8,         /* 15 h without a full day; no such table row, pair or day; empty week */
    YWS_ERR_RISING = 9,       /* hour or day not rising */
    YWS_ERR_ISSUE_MONTH = 10, /* issue month not 1 to 12; place 0 */
    YWS_ERR_DAY_SET = 11,     /* day set cannot be written */
    YWS_ERR_RUN = 12,         /* the codes up to this one begin no allowed run; the place is the code's number, 0 for an empty run */
    /* Sheets. */
    YWS_ERR_TOO_LONG = 20, /* file too long */
    YWS_ERR_FRAME = 21,    /* not lines ended by CR LF, then one 1Ah */
    YWS_ERR_VERSION = 22,  /* first line not JAHIS5 */
    YWS_ERR_UNKNOWN = 23,  /* unknown record number */
    YWS_ERR_ORDER = 24,    /* record out of order */
    YWS_ERR_FIELDS = 25,   /* number of fields */
    YWS_ERR_TEXT = 26,     /* text badly formed, with an end space, or too long */
    YWS_ERR_VALUE = 27,    /* number, date (no such day, or one outside its era), amount, site or drug code; yws_date_make: no such day or year */
    YWS_ERR_PRESENT = 28,  /* required field empty, or forbidden one filled */
    YWS_ERR_CODE = 29,     /* code refused; its own number and place follow */
    YWS_ERR_COUNTER = 30,  /* RP number or serial not as ordered */
    YWS_ERR_SCHEDULE = 31, /* supplement not allowed after those before it in its RP */
    YWS_ERR_MISSING = 32,  /* a needed record is missing */
    /* Writing. */
    YWS_ERR_ROOM = 33,    /* no room */
    YWS_ERR_RECORD = 34,  /* record that the reader would refuse here; its number follows */
    YWS_ERR_NO_CODE = 35, /* numbers that no code reads as */
    /* The dose calendar. */
    YWS_ERR_DOSES = 50,    /* the RP fixes no doses for its days: a C code, no usage code, as needed, or a count that is about so many or a range */
    YWS_ERR_CALENDAR = 51, /* days not 1 to 366; start no day from 1868 to 2099, or before the issue date */
    YWS_ERR_NO_RP = 53,    /* no such RP in the file */
    /* yws_sheet_next: no record is left. */
    YWS_END = 65535
};

/* ---- Usage codes: sixteen characters (JAMISDP01).
 *
 * What the code's timing does not name is YWS_USAGE_HOUR_NONE for an hour and 0 for anything else. A character's value: 0 to 9, A 10 to Z 35.
 */

enum {
    YWS_USAGE_CLASS = 0,
    YWS_USAGE_DETAIL = 1, /* how it is used: the value of the 2nd character */
    YWS_USAGE_TIMING = 2,
    YWS_USAGE_TIMES = 3, /* times a day; of a range (YWS_USAGE_ABOUT) the lower; 0 as needed */
    /* Timing by meals. Bedtime and waking 0 or 1, the meals YWS_USAGE_MEAL_..., the hour 15 or none. */
    YWS_USAGE_BEDTIME = 4,
    YWS_USAGE_SUPPER = 5,
    YWS_USAGE_LUNCH = 6,
    YWS_USAGE_BREAKFAST = 7,
    YWS_USAGE_WAKING = 8,
    YWS_USAGE_HOUR = 9,
    /* Timing by parts of the day: bedtime, waking and hour stand as by meals, the hour 0 to 23 or none; noon 0 or 1. */
    YWS_USAGE_EVENING = 5,
    YWS_USAGE_NOON = 6,
    YWS_USAGE_MORNING = 7,
    /* Timing at even intervals. */
    YWS_USAGE_START = 10, /* first hour, 0 to 23, or none */
    /* Timing as needed: the event is a row of JAMISDP01's table 8 or one that its asterisks stand for; docs/VALUES.md has them. */
    YWS_USAGE_EVENT_GROUP = 11, /* value of the row's 1st character */
    YWS_USAGE_EVENT = 12,       /* of its 2nd */
    YWS_USAGE_CONDITION = 13,   /* of its 3rd */
    YWS_USAGE_INTERVAL = 14,    /* hours that must lie between two uses: 1 to 6, 8 or 12; 0 for none said */
    YWS_USAGE_LIMIT = 15,       /* uses a day at most: 1 to 10 or 12; 0 for none said */
    /* Timing by a count alone. */
    YWS_USAGE_ABOUT = 16, /* YWS_USAGE_ABOUT_..., or 2 to 5: from YWS_USAGE_TIMES to so many times a day */
    /* Timing at hours: the first of YWS_LEN_USAGE_HOURS hours, 0 to 23, rising, then none for each that is not named. */
    YWS_USAGE_HOURS = 17
};

enum { YWS_USAGE_HOUR_NONE = 24 }; /* at every place of an hour: no hour */

/* A usage code that says nothing yet, to be filled in: zeros, and no hour where an hour stands. All zeros are no code, since 0 is an
 * hour, midnight; they are what a record has where its code is left out.
 *
 *     uint64_t code[YWS_LEN_USAGE] = YWS_USAGE_BLANK;
 */
#define YWS_USAGE_BLANK {0, 0, 0, 0, 0, 0, 0, 0, 0, 24, 24, 0, 0, 0, 0, 0, 0, 24, 24, 24, 24, 24, 24, 24, 24, 0, 0, 0, 0}

enum yws_usage_class { YWS_USAGE_CLASS_ORAL = 1, YWS_USAGE_CLASS_EXTERNAL = 2 };

enum yws_usage_detail {
    /* oral */
    YWS_USAGE_DETAIL_SWALLOWED = 0,
    YWS_USAGE_DETAIL_UNDER_TONGUE = 1,
    YWS_USAGE_DETAIL_BUCCAL = 2,   /* between gum and cheek */
    YWS_USAGE_DETAIL_IN_MOUTH = 3, /* spread on the inside of the mouth */
    /* external: the letter that the value stands for */
    YWS_USAGE_DETAIL_PATCH = 10,           /* A stuck on */
    YWS_USAGE_DETAIL_SPREAD = 11,          /* B spread on */
    YWS_USAGE_DETAIL_COMPRESS = 12,        /* C */
    YWS_USAGE_DETAIL_POWDER = 13,          /* D strewn on */
    YWS_USAGE_DETAIL_SPRAY = 14,           /* E */
    YWS_USAGE_DETAIL_DISINFECT = 15,       /* F */
    YWS_USAGE_DETAIL_EAR_DROPS = 16,       /* G */
    YWS_USAGE_DETAIL_EYE_DROPS = 17,       /* H */
    YWS_USAGE_DETAIL_NOSE_DROPS = 19,      /* J */
    YWS_USAGE_DETAIL_GARGLE = 20,          /* K */
    YWS_USAGE_DETAIL_INHALE = 21,          /* L */
    YWS_USAGE_DETAIL_TROCHE = 22,          /* M */
    YWS_USAGE_DETAIL_BLADDER_WASH = 23,    /* N */
    YWS_USAGE_DETAIL_NOSE_WASH = 25,       /* P */
    YWS_USAGE_DETAIL_ENEMA = 26,           /* Q */
    YWS_USAGE_DETAIL_ANUS_INSERT = 27,     /* R */
    YWS_USAGE_DETAIL_ANUS_INSTIL = 28,     /* S */
    YWS_USAGE_DETAIL_VAGINA_INSERT = 29,   /* T */
    YWS_USAGE_DETAIL_BLADDER_INSTIL = 30   /* U */
};

enum yws_usage_timing {
    YWS_USAGE_TIMING_MEALS = 1,     /* oral */
    YWS_USAGE_TIMING_EVEN = 2,      /* oral: 2, 3, 4, 6 or 8 times a day at even intervals */
    YWS_USAGE_TIMING_HOURS = 3,     /* oral */
    YWS_USAGE_TIMING_AS_NEEDED = 5, /* oral, external: on an event, with no count of times */
    YWS_USAGE_TIMING_PARTS = 6,     /* external: by parts of the day */
    YWS_USAGE_TIMING_COUNT = 7      /* external, and oral with YWS_USAGE_DETAIL_IN_MOUTH */
};

enum yws_usage_meal {
    YWS_USAGE_MEAL_NONE = 0,
    YWS_USAGE_MEAL_BEFORE = 1,      /* within 30 minutes before */
    YWS_USAGE_MEAL_JUST_BEFORE = 2, /* within 5 minutes before */
    YWS_USAGE_MEAL_JUST_AFTER = 3,  /* within 5 minutes after */
    YWS_USAGE_MEAL_AFTER = 4,       /* within 30 minutes after */
    YWS_USAGE_MEAL_BETWEEN = 5,     /* two hours after */
    YWS_USAGE_MEAL_DURING = 6
};

enum yws_usage_evening { YWS_USAGE_EVENING_NONE = 0, YWS_USAGE_EVENING_SAID = 9, YWS_USAGE_EVENING_AFTERNOON = 10 /* A: afternoon instead */ };
enum yws_usage_morning { YWS_USAGE_MORNING_NONE = 0, YWS_USAGE_MORNING_SAID = 9, YWS_USAGE_MORNING_FORENOON = 10 /* A: forenoon instead */ };

enum yws_usage_event_group {
    YWS_USAGE_EVENT_GROUP_PAIN = 1,
    YWS_USAGE_EVENT_GROUP_BREATH = 2,
    YWS_USAGE_EVENT_GROUP_CIRCULATION = 3,
    YWS_USAGE_EVENT_GROUP_DIGESTION = 4,
    YWS_USAGE_EVENT_GROUP_KIDNEY = 5,
    YWS_USAGE_EVENT_GROUP_MIND = 6,
    YWS_USAGE_EVENT_GROUP_FEVER = 7,
    YWS_USAGE_EVENT_GROUP_SKIN = 8,
    YWS_USAGE_EVENT_GROUP_OTHER_SYMPTOM = 9,
    YWS_USAGE_EVENT_GROUP_MEDICAL = 10, /* A: before, at or after a test, an operation, a treatment */
    YWS_USAGE_EVENT_GROUP_LIFE = 11,    /* B: on waking, before a bath .. */
    YWS_USAGE_EVENT_GROUP_OTHER = 32    /* W: when needed, as fitting */
};

/* Any of these at an event with an asterisk in table 8 (31 32 51 52 71, A1 to A9), YWS_USAGE_CONDITION_MAY alone at every other. */
enum yws_usage_condition {
    YWS_USAGE_CONDITION_MAY = 0,  /* at the event, if wanted; with any other the drug must be used */
    YWS_USAGE_CONDITION_MUST = 2, /* at the event */
    /* when something measured is at, below, at most or at least a number, which the code does not hold: it is written elsewhere, each system in its
     * own way */
    YWS_USAGE_CONDITION_EQUAL = 4,
    YWS_USAGE_CONDITION_BELOW = 5,
    YWS_USAGE_CONDITION_AT_MOST = 6,
    YWS_USAGE_CONDITION_AT_LEAST = 7
};

enum yws_usage_about {
    YWS_USAGE_ABOUT_EXACT = 0,    /* YWS_USAGE_TIMES times a day */
    YWS_USAGE_ABOUT_ROUGHLY = 10, /* A: about so many */
    YWS_USAGE_ABOUT_SEVERAL = 23  /* N: from so many to several */
};

/* Reads `length` bytes of `code`. Taken: YWS_OK, *place 0, `numbers` written. Refused: 1 to 9, in *place which character, counted from 1: the one
 * at fault; the 4th for YWS_ERR_COUNT; for YWS_ERR_RULE the 10th (15 h) or the first of the row or pair; 0 for YWS_ERR_LENGTH. */
uint16_t yws_usage_read(const uint8_t *code, uint64_t length, uint64_t numbers[YWS_LEN_USAGE], uint64_t *place);

/* Writes the sixteen characters that read as `numbers`, with no 0 after them; YWS_ERR_NO_CODE where no code reads as them. */
uint16_t yws_usage_write(const uint64_t numbers[YWS_LEN_USAGE], uint8_t code[YWS_LEN_USAGE_CODE]);

/* ---- Supplementary codes: eight characters (JAMISDP01).
 *
 * What the code's letter does not name is 0.
 */

enum {
    YWS_SUPPLEMENT_LETTER = 0, /* the character itself */
    /* I */
    YWS_SUPPLEMENT_ON = 1,  /* days on, 1 to 31 */
    YWS_SUPPLEMENT_OFF = 2, /* days off after them, 1 to 31 */
    /* W: each 0 or 1, not all 0 */
    YWS_SUPPLEMENT_SUNDAY = 3,
    YWS_SUPPLEMENT_MONDAY = 4,
    YWS_SUPPLEMENT_TUESDAY = 5,
    YWS_SUPPLEMENT_WEDNESDAY = 6,
    YWS_SUPPLEMENT_THURSDAY = 7,
    YWS_SUPPLEMENT_FRIDAY = 8,
    YWS_SUPPLEMENT_SATURDAY = 9,
    /* D */
    YWS_SUPPLEMENT_MONTH = 10, /* 1 to 12, 0 for every month */
    YWS_SUPPLEMENT_DAYS = 11,  /* the first of YWS_LEN_SUPPLEMENT_DAYS days of the month, rising, then 0 for each left over */
    /* C */
    YWS_SUPPLEMENT_PERIOD = 17, /* the character itself */
    YWS_SUPPLEMENT_COUNT = 18,  /* how often in it, 1 to 35 */
    /* V: 1.0 is the digits 10 with 1 place; 1 is the digits 1 with none */
    YWS_SUPPLEMENT_ORDER = 19,  /* which dose of the day, 1 to 5, the first of the day being 1 */
    YWS_SUPPLEMENT_DIGITS = 20, /* the amount's digits as a number */
    YWS_SUPPLEMENT_PLACES = 21  /* how many of them stand after the point */
};

enum yws_supplement_letter {
    YWS_SUPPLEMENT_LETTER_INTERVAL = 'I', /* so many days on, so many off */
    YWS_SUPPLEMENT_LETTER_WEEK = 'W',     /* on weekdays */
    YWS_SUPPLEMENT_LETTER_DATE = 'D',     /* on days of a month */
    YWS_SUPPLEMENT_LETTER_COUNT = 'C',    /* so often in a year, month or week */
    YWS_SUPPLEMENT_LETTER_UNEQUAL = 'V'   /* the amount of one dose of the day */
};

enum yws_supplement_period { YWS_SUPPLEMENT_PERIOD_YEAR = 'Y', YWS_SUPPLEMENT_PERIOD_MONTH = 'M', YWS_SUPPLEMENT_PERIOD_WEEK = 'W' };

/* As yws_usage_read. YWS_ERR_RULE has the 2nd character for an empty week, and the day itself for one that its month has not. */
uint16_t yws_supplement_read(const uint8_t *code, uint64_t length, uint64_t numbers[YWS_LEN_SUPPLEMENT], uint64_t *place);

/* As yws_usage_write, eight characters. */
uint16_t yws_supplement_write(const uint64_t numbers[YWS_LEN_SUPPLEMENT], uint8_t code[YWS_LEN_SUPPLEMENT_CODE]);

/* ---- Runs of date codes, and sets of days.
 *
 * A set of days is a mask for every month and one for each month. It has days of every month, or days of named months, never both. The run for it
 * are the D codes that name its days, by month from the issue month on, six days a code, one code after another with nothing between.
 */

enum {
    YWS_DAYS_EVERY_MONTH = 0,
    YWS_DAYS_JANUARY = 1, /* a month's place is its number */
    YWS_DAYS_FEBRUARY = 2,
    YWS_DAYS_MARCH = 3,
    YWS_DAYS_APRIL = 4,
    YWS_DAYS_MAY = 5,
    YWS_DAYS_JUNE = 6,
    YWS_DAYS_JULY = 7,
    YWS_DAYS_AUGUST = 8,
    YWS_DAYS_SEPTEMBER = 9,
    YWS_DAYS_OCTOBER = 10,
    YWS_DAYS_NOVEMBER = 11,
    YWS_DAYS_DECEMBER = 12
};

#define YWS_DAY(day) ((uint32_t) 1 << ((day) - 1)) /* the bit of a day, 1 to 31, in a mask */

/* Why a run is refused. */
enum {
    YWS_RUN_REFUSAL_PLACE = 0, /* the character of the code, counted from 1; for YWS_ERR_RUN the number of the code; else 0 */
    YWS_RUN_REFUSAL_CODE = 1   /* for a code's own refusal (1 to 9) the number of the code, counted from 1; else 0 */
};

/* Reads a run, codes one after another, for the issue month `issue`. Taken: YWS_OK, `refusal` 0s, `days` written. */
uint16_t yws_run_read(uint8_t issue, const uint8_t *codes, uint64_t length, uint32_t days[YWS_LEN_DAYS], uint64_t refusal[YWS_LEN_RUN_REFUSAL]);

/* Writes the run for a set into the front of `out` and the number of its codes, of eight characters each, into *count; the rest of the `room`
 * bytes stays. YWS_ERR_ISSUE_MONTH; YWS_ERR_DAY_SET for a set that is empty, holds a day that no calendar has, or mixes every-month days with a
 * named month's; YWS_ERR_ROOM exactly when `room` is less than 8 times the codes. YWS_MOST_RUN bytes are always enough. */
uint16_t yws_set_write(uint8_t issue, const uint32_t days[YWS_LEN_DAYS], uint8_t *out, uint64_t room, uint64_t *count);

/* ---- Sheets.
 *
 * A sheet is a file of JAHIS 17-108 Ver.1.4, at most YWS_MOST_FILE bytes: the version line JAHIS5, then records, a line each, ended by CR LF,
 * then one byte 1Ah. A record is its number and its fields, parted by commas; a field that is left out keeps its comma.
 *
 * TEXT IS Shift_JIS, in the file and in everything that is lent with a record to be written, never UTF-8: single bytes 20h to 7Eh but the comma,
 * and A1h to DFh; pairs led by 81h to 9Fh or E0h to EFh with a second byte 40h to 7Eh or 80h to FCh. No text starts or ends with a space, half
 * (20h) or full width (81h 40h). Bytes of UTF-8 may be refused or may be taken for other characters: convert before and after.
 *
 * WHICH RECORDS, IN WHICH ORDER. First those of the sheet as a whole, rising, each at most once but for 81; those with a * are needed:
 *
 *     1* 2 3 4 5* 11* 12* 13* 14 21 22* 23* 24 25 27 28 29 30 31 51* 52 61 62 63 81 81.. 82
 *
 * Then one or more RPs, each so, with [] round what may be left out and .. where more may follow:
 *
 *     101* [102] 111* [181 ..], and its drugs, one or more: 201* [211] [221] [231] [241] [281 ..]
 *
 * RP numbers rise (1 to 999; 2 then 10 is right), and 111, 181 and 201 carry their RP's. The serials of an RP's 181s run 1, 2, 3 to at most 99, and so do
 * those of its 201s. An RP has one supplementary code with I, W or C, or one run of D codes for the issue month (that of record 51), a code for
 * each 181 of YWS_EXTRA_KIND_CODE; never V.
 */

enum yws_record {
    YWS_RECORD_CLINIC = 1,       /* needed */
    YWS_RECORD_ADDRESS = 2,
    YWS_RECORD_PHONE = 3,
    YWS_RECORD_DEPARTMENT = 4,
    YWS_RECORD_DOCTOR = 5,       /* needed */
    YWS_RECORD_PATIENT = 11,     /* needed */
    YWS_RECORD_SEX = 12,         /* needed */
    YWS_RECORD_BIRTH = 13,       /* needed */
    YWS_RECORD_SHARE = 14,       /* what the patient pays, by age */
    YWS_RECORD_INSURANCE = 21,
    YWS_RECORD_INSURER = 22,     /* needed */
    YWS_RECORD_INSURED = 23,     /* needed */
    YWS_RECORD_RATES = 24,
    YWS_RECORD_DUTY = 25,        /* illness or injury on duty */
    YWS_RECORD_PUBLIC_1 = 27,    /* paid from public funds: the first, second, third, and a special one */
    YWS_RECORD_PUBLIC_2 = 28,
    YWS_RECORD_PUBLIC_3 = 29,
    YWS_RECORD_PUBLIC_SPECIAL = 30,
    YWS_RECORD_CLAIM = 31,       /* kind of claim */
    YWS_RECORD_ISSUE = 51,       /* needed; typed */
    YWS_RECORD_EXPIRY = 52,
    YWS_RECORD_NARCOTIC = 61,
    YWS_RECORD_LEFTOVERS = 62,   /* what to do about drugs left over */
    YWS_RECORD_SPLIT = 63,       /* split dispensing */
    YWS_RECORD_NOTE = 81,        /* may repeat */
    YWS_RECORD_SHEET_ID = 82,
    YWS_RECORD_RP = 101,         /* needed; typed */
    YWS_RECORD_SPLIT_QUANTITY = 102,
    YWS_RECORD_DIRECTIONS = 111, /* needed; typed */
    YWS_RECORD_EXTRA = 181,      /* more about the directions; may repeat; typed */
    YWS_RECORD_DRUG = 201,       /* needed, may repeat; typed */
    YWS_RECORD_UNIT = 211,       /* conversion of units */
    YWS_RECORD_UNEQUAL = 221,    /* unequal doses */
    YWS_RECORD_COVERAGE = 231,   /* which public funds pay it */
    YWS_RECORD_DOSE = 241,       /* one dose */
    YWS_RECORD_DRUG_NOTE = 281   /* may repeat */
};

/* A record's array: its number, then its fields by the names below, then 0s. An empty number is 0. A text is two numbers, the offset of its first
 * byte in the file (..._FROM) and of the byte after its last (..._TO), which is the place after it; they are equal for an empty text. */

enum {
    YWS_ANY_RECORD = 0, /* which record it is: YWS_RECORD_... */

    /* 51, the issue date: the four numbers of a date from YWS_ISSUE_DATE on */
    YWS_ISSUE_DATE = 1,
    YWS_ISSUE_ERA = 1,  /* YWS_DATE_ERA_... */
    YWS_ISSUE_YEAR = 2, /* western, in every style */
    YWS_ISSUE_MONTH = 3,
    YWS_ISSUE_DAY = 4,

    /* 101, an RP: drugs that are taken in one way */
    YWS_RP_NUMBER = 1,    /* 1 to 999 */
    YWS_RP_FORM = 2,      /* 1 to 99 */
    YWS_RP_NAME_FROM = 3, /* the form in words: at most 80 bytes, may be empty */
    YWS_RP_NAME_TO = 4,
    YWS_RP_QUANTITY = 5, /* 1 to 999: days for an oral form, times for one as needed, days or times else */

    /* 111, how the RP is taken */
    YWS_DIRECTIONS_RP = 1,
    YWS_DIRECTIONS_KIND = 2,
    YWS_DIRECTIONS_NAME_FROM = 3, /* 1 to 80 bytes: the directions in words */
    YWS_DIRECTIONS_NAME_TO = 4,
    YWS_DIRECTIONS_TIMES = 5, /* times a day, 1 to 99; 0 for empty */
    YWS_DIRECTIONS_CODE = 6,  /* the first of the YWS_LEN_USAGE numbers of its usage code; all 0 where it has none */

    /* 181, more about the directions of the RP */
    YWS_EXTRA_RP = 1,
    YWS_EXTRA_SERIAL = 2,    /* 1, 2, 3 .. in each RP */
    YWS_EXTRA_KIND = 3,      /* 1 to 99; 0 for empty */
    YWS_EXTRA_TEXT_FROM = 4, /* 1 to 100 bytes */
    YWS_EXTRA_TEXT_TO = 5,
    YWS_EXTRA_SITE_FROM = 6, /* three digits or capitals with YWS_EXTRA_KIND_SITE_CODE, else empty */
    YWS_EXTRA_SITE_TO = 7,
    YWS_EXTRA_CODE = 8, /* the first of the YWS_LEN_SUPPLEMENT numbers of its supplementary code; all 0 where it has none */

    /* 201, a drug of the RP */
    YWS_DRUG_RP = 1,
    YWS_DRUG_SERIAL = 2, /* 1, 2, 3 .. in each RP */
    YWS_DRUG_KIND = 3,
    YWS_DRUG_CODE_KIND = 4,
    YWS_DRUG_CODE_FROM = 5, /* at most 13 digits, letters, points, hyphens */
    YWS_DRUG_CODE_TO = 6,
    YWS_DRUG_NAME_FROM = 7, /* at most 80 bytes; empty only with YWS_DRUG_CODE_KIND_CLAIM, and not for its code 777770000 */
    YWS_DRUG_NAME_TO = 8,
    YWS_DRUG_AMOUNT = 9, /* in hundred-thousandths: 7.5 is 750000; a day's for an oral form */
    YWS_DRUG_FLAG = 10,
    YWS_DRUG_UNIT_FROM = 11, /* 1 to 12 bytes */
    YWS_DRUG_UNIT_TO = 12,

    /* any other: its fields with the commas between them, each at most 200 bytes */
    YWS_OTHER_FIELDS_FROM = 1,
    YWS_OTHER_FIELDS_TO = 2
};

enum { YWS_DRUG_AMOUNT_ONE = 100000 }; /* the amount 1 */

enum yws_rp_form { /* 1 to 99 are taken; JAHIS 17-108 names these */
    YWS_RP_FORM_ORAL = 1,
    YWS_RP_FORM_AS_NEEDED = 2,  /* oral, when needed */
    YWS_RP_FORM_EXTERNAL = 3,
    YWS_RP_FORM_ORAL_DROPS = 4, /* oral liquid by the drop */
    YWS_RP_FORM_INJECTION = 5,
    YWS_RP_FORM_MATERIAL = 6,   /* medical material */
    YWS_RP_FORM_UNKNOWN = 9     /* the form name may say it */
};

enum yws_directions_kind {
    YWS_DIRECTIONS_KIND_WORDS = 1, /* no code: it must be empty */
    YWS_DIRECTIONS_KIND_CODE = 2   /* a usage code, which must stand */
};

enum yws_extra_kind { /* 10 to 99 are taken and not yet given out */
    YWS_EXTRA_KIND_UNKNOWN = 0,   /* left empty */
    YWS_EXTRA_KIND_TAPERING = 1,
    YWS_EXTRA_KIND_ONE_BAG = 2,   /* all of one time of day in one bag */
    YWS_EXTRA_KIND_ALTERNATE = 3, /* every other day */
    YWS_EXTRA_KIND_CRUSHED = 4,
    YWS_EXTRA_KIND_MORE = 5,      /* the directions, continued */
    YWS_EXTRA_KIND_SITE = 6,      /* site of use in words */
    YWS_EXTRA_KIND_DOSE = 7,      /* amount of one use */
    YWS_EXTRA_KIND_CODE = 8,      /* a supplementary code, which must stand; with any other kind it must be empty */
    YWS_EXTRA_KIND_SITE_CODE = 9  /* a site's code, in the same way */
};

enum yws_drug_kind {
    YWS_DRUG_KIND_UNKNOWN = 0, /* left empty */
    YWS_DRUG_KIND_MEDICINE = 1,
    YWS_DRUG_KIND_MATERIAL = 2,
    YWS_DRUG_KIND_UNINSURED = 3 /* a drug that no insurance pays */
};

enum yws_drug_code_kind { /* 5 is refused */
    YWS_DRUG_CODE_KIND_NONE = 1,     /* no code: it must be empty */
    YWS_DRUG_CODE_KIND_CLAIM = 2,    /* code of the claims computer; it must stand */
    YWS_DRUG_CODE_KIND_MINISTRY = 3, /* the ministry's (price list) code; it must stand */
    YWS_DRUG_CODE_KIND_YJ = 4,       /* it must stand */
    YWS_DRUG_CODE_KIND_HOT = 6,      /* it must stand */
    YWS_DRUG_CODE_KIND_GENERIC = 7   /* prescribed by generic name; the ministry's code of it may stand */
};

enum yws_drug_flag {
    YWS_DRUG_FLAG_PRICE_UNIT = 1, /* amount in the unit of the price list, as tablets */
    YWS_DRUG_FLAG_POTENCY = 2     /* amount of the active substance, as mg */
};

/* Where a sheet is refused. */
enum {
    YWS_REFUSAL_OFFSET = 0, /* of the record's first byte, at the end of the 1Ah's; for YWS_ERR_FRAME of the byte at fault */
    YWS_REFUSAL_FIELD = 1,  /* counted from 1 after the record's number; 0 for none */
    YWS_REFUSAL_CODE = 2,   /* for YWS_ERR_CODE the code's own number; else 0 */
    YWS_REFUSAL_PLACE = 3   /* where in the field: for YWS_ERR_CODE the character of the code, counted from 1; 0 where there is none to name */
};

/* STATES. A reader's and a writer's state are the caller's, to keep or to copy, and each has its type, so that none is lent for the other. Begin one
 * with zeros ({{0}}), which are a state that was never opened. */
struct yws_reader {
    uint64_t state[YWS_LEN_STATE];
};

struct yws_writer {
    uint64_t state[YWS_LEN_STATE];
};

enum {
    YWS_STATE_AT = 0,  /* where it is: the offset of the reader's next record, or of its refusal; how many bytes the writer has written */
    YWS_STATE_OPEN = 1 /* 1 while it is open; 21, 22 or 23 for a reader whose opening returned 20, 21 or 22; with any other number nothing is open */
    /* 2 to 10 are what the records before leave, the library's own; the others are left over */
};

enum yws_state_open { YWS_STATE_OPEN_NEVER = 0, YWS_STATE_OPEN_NOW = 1 };

/* Where nothing is open, yws_sheet_next returns YWS_ERR_ORDER, with the state's own place in refusal[YWS_REFUSAL_OFFSET], and yws_writer_put and
 * yws_writer_close YWS_ERR_RECORD, with YWS_ERR_ORDER in *own. */

/* ---- Sheets, read. */

/* Reads a whole file. Taken: YWS_OK, `refusal` 0s, and in *records how many records it has, the version line counted: JAHIS 17-108 lists that line as
 * a record, the first, which no sheet may leave out. yws_sheet_next does not hand it out, since it has neither number nor fields, and yws_sheet_open
 * has tested it: so a file of 13 records is read by 12 calls. */
uint16_t yws_sheet_check(const uint8_t *file, uint64_t length, uint64_t *records, uint64_t refusal[YWS_LEN_REFUSAL]);

/* Begins to read a file: YWS_OK, or YWS_ERR_TOO_LONG, YWS_ERR_FRAME or YWS_ERR_VERSION. Writes `reader` either way; yws_sheet_next then says the
 * refusal again, with its offset. */
uint16_t yws_sheet_open(const uint8_t *file, uint64_t length, struct yws_reader *reader);

/* The next record of the same, unchanged file: YWS_OK, and `record` and `reader` written. YWS_END after the last; else the refusal. After the end or a
 * refusal `reader` is as it was, so the next call says the same. `refusal` is 0s after YWS_OK and YWS_END. The version line is not handed out.
 * Whatever stands in `reader`, it returns YWS_OK, YWS_END or a number from 20 to 32, and YWS_END only where the file has its 1Ah at the state's place;
 * at an offset outside the file there is no record (YWS_ERR_UNKNOWN). */
uint16_t yws_sheet_next(const uint8_t *file, uint64_t length, struct yws_reader *reader, uint64_t record[YWS_LEN_RECORD],
                        uint64_t refusal[YWS_LEN_REFUSAL]);

/* ---- The dose calendar, for a machine that packs the doses of an RP day by day.
 *
 * Each byte of `doses` is a day, and says how many doses of the RP the patient takes on it: 0 for a day without one, else the times a day of the RP's
 * usage code, 1 to 8, the same on every day that has any. doses[0] is the start date itself, doses[1] the day after it, and so on, over ends of
 * months and leap days and past the end of 2099 as the Gregorian calendar goes.
 *
 * Which days have doses, the supplementary codes in the RP's 181s of YWS_EXTRA_KIND_CODE say. Nothing else has a part in it: not the times that the 111
 * has beside its code (YWS_DIRECTIONS_TIMES); not the RP's quantity (for how many days to pack is for the caller to ask); no 181 in words, so that
 * YWS_EXTRA_KIND_ALTERNATE alone is every day; and nothing of a single drug: its amount (201), unequal doses (221) and a code of its own (281) are not
 * looked at.
 *
 *     no code                  every day
 *     I, days on and off       on and off by turns, from the start date on, which is the first day on: so start with the patient's first day, and ask
 *                              for more days from the same start, since a later one begins a turn of its own
 *     W, weekdays              every such weekday
 *     D, days of every month   every such day; in a month that is too short for it, none
 *     D, days of named months  those days, in the twelve months that begin with the month of issue (record 51) alone: later ones are without a dose
 *     C, so often in a time    on no day that can be told: YWS_ERR_DOSES
 */

/* Writes the calendar of the RP whose number is `rp` for `days` days, 1 to YWS_MOST_DAYS, from a start date on (the western year, month and day). It
 * reads all of the file itself, so no other call need come before. Taken: YWS_OK, `refusal` 0s, and doses[0] to doses[days - 1] written; the rest of
 * the `room` bytes stays. Refused: all of `doses` stays, and what is returned is the first of these that holds:
 *
 *     20 to 32          the file is refused. The number and `refusal` are those of yws_sheet_check: treat it as there
 *     YWS_ERR_NO_RP     the file has no 101 with this RP number: ask for one of record[YWS_RP_NUMBER]
 *     YWS_ERR_CALENDAR  `days` is 0 or more than YWS_MOST_DAYS, the start is no day from 1868-01-01 to 2099-12-31, or it is before the issue date
 *                       (record 51): ask for other days
 *     YWS_ERR_DOSES     the sheet does not say on which days, or how often a day: a C code; no usage code (YWS_DIRECTIONS_KIND_WORDS);
 *                       YWS_USAGE_TIMING_AS_NEEDED; YWS_USAGE_ABOUT other than YWS_USAGE_ABOUT_EXACT. It is so for any days: do not ask again, but
 *                       leave this RP to the pharmacist
 *     YWS_ERR_ROOM      `room` is less than `days`. YWS_MOST_DAYS bytes are always enough
 *
 * `refusal` is 0s but for the file's own refusal. */
uint16_t yws_calendar(const uint8_t *file, uint64_t length, uint32_t rp, uint32_t year, uint32_t month, uint32_t day, uint32_t days, uint8_t *doses,
                      uint64_t room, uint64_t refusal[YWS_LEN_REFUSAL]);

/* ---- Sheets, written.
 *
 * A writer fills `out` from its front; writer->state[YWS_STATE_AT] is how many bytes it has written, and after yws_writer_close the length of the
 * file. Between the calls `out`, `room` and `writer` stay as they are.
 */

/* Begins a file: the version line, and `writer` written; or YWS_ERR_ROOM. */
uint16_t yws_writer_open(uint8_t *out, uint64_t room, struct yws_writer *writer);

/* Puts a record, laid out as yws_sheet_next has it, whose texts are offsets into the `length` bytes of `lent`: a file that was read, or a
 * buffer with the texts of one record. A text whose offsets are not inside `lent`, or fall, is one that no field takes (26, 27 for a site, 28
 * where none may stand). A number that may be empty is empty where it is 0; one that may not is then 27. A date that is none is 27 too, also one outside
 * its era. Numbers after a record's last are not looked at. A code whose first number (YWS_USAGE_CLASS, YWS_SUPPLEMENT_LETTER) is 0 is empty: zeros
 * leave it out. YWS_ERR_RECORD, with the reader's number in *own (YWS_ERR_ORDER after closing and before opening), where the reader would refuse the
 * record here; then YWS_ERR_ROOM exactly when the line with its CR LF and the closing 1Ah pass `room` or YWS_MOST_FILE. *own is 0 but for
 * YWS_ERR_RECORD. */
uint16_t yws_writer_put(uint8_t *out, uint64_t room, struct yws_writer *writer, const uint64_t record[YWS_LEN_RECORD], const uint8_t *lent,
                        uint64_t length, uint64_t *own);

/* Ends the file: the 1Ah, for which every record left room. Too early is YWS_ERR_RECORD with YWS_ERR_MISSING in *own; a second time, and
 * before opening, with YWS_ERR_ORDER. */
uint16_t yws_writer_close(uint8_t *out, uint64_t room, struct yws_writer *writer, uint64_t *own);

/* ---- Dates. */

enum {
    YWS_DATE_ERA = 0,
    YWS_DATE_YEAR = 1, /* western, in every style: 1868 to 2099 */
    YWS_DATE_MONTH = 2,
    YWS_DATE_DAY = 3
};

/* The first character of a date of seven. An era begins on the day named here, whose year is its year 01, and ends the day before the next one begins,
 * Reiwa with 2099. A date outside its era is none (YWS_ERR_VALUE). JAHIS 17-108 Ver.1.4 has no 5; sheets now come with it. */
enum yws_date_era {
    YWS_DATE_ERA_WESTERN = 0, /* no era: a date of eight characters */
    YWS_DATE_ERA_MEIJI = 1,   /* 1868-01-01 */
    YWS_DATE_ERA_TAISHO = 2,  /* 1912-07-30 */
    YWS_DATE_ERA_SHOWA = 3,   /* 1926-12-25 */
    YWS_DATE_ERA_HEISEI = 4,  /* 1989-01-08 */
    YWS_DATE_ERA_REIWA = 5    /* 2019-05-01 */
};

enum yws_date_style {
    YWS_DATE_STYLE_ANY = 0, /* none named: as YWS_DATE_STYLE_ERA; so is any other number */
    YWS_DATE_STYLE_WESTERN = 1,
    YWS_DATE_STYLE_ERA = 2  /* the era in force on that day; every day that can be made has one */
};

/* Makes a date of a western year: into `numbers` its four numbers, as record 51 has them from YWS_ISSUE_DATE on; into `text` its characters,
 * eight in western style, in era style seven and a 0. YWS_ERR_VALUE where there is no such day, or the year is not 1868 to 2099. */
uint16_t yws_date_make(uint16_t year, uint8_t month, uint8_t day, uint8_t style, uint64_t numbers[YWS_LEN_DATE], uint8_t text[YWS_LEN_DATE_TEXT]);

/* ---- Words. These stand in messages/yawsimbel_messages.c, to be compiled with your program, and not in libyawsimbel.a, in which all is proved. */

/* What a number that a function returned means, in a line of English (ASCII) or of Japanese (UTF-8, unlike a sheet), with no end of line; an empty text,
 * never NULL, for a number that no function returns. For YWS_ERR_CODE and YWS_ERR_RECORD ask again with the number that follows. */
const char *yws_message(uint16_t number);
const char *yws_message_ja(uint16_t number);

/* The YWS_VERSION of the header that yawsimbel_messages.c was compiled with: other than yours, where the two come from different deliveries. */
const char *yws_version(void);

#ifdef __cplusplus
}
#endif

#endif
