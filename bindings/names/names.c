/* Holds the names of the header against what the library does: each place, read by its name, has what the characters of a code or the fields of a sheet
 * say there, with no two alike where they could be taken for each other; each value is the number of its character or digit. */
#include "yawsimbel.h"

#include <stdio.h>
#include <string.h>

static unsigned held, broken;

static void is(int line, const char *what, uint64_t found, uint64_t expected) {
    held++;
    if (found == expected) return;
    broken++;
    printf("names.c:%d: %s is %lu and not %lu\n", line, what, (unsigned long) found, (unsigned long) expected);
}

#define IS(found, expected) is(__LINE__, #found, (uint64_t) (found), (uint64_t) (expected))
#define COUNT(array) (sizeof(array) / sizeof(array)[0])

static uint64_t code[YWS_LEN_USAGE];

static void usage(const char *characters) {
    uint64_t place;
    uint8_t again[YWS_LEN_USAGE_CODE];
    IS(yws_usage_read((const uint8_t *) characters, strlen(characters), code, &place), YWS_OK);
    IS(yws_usage_write(code, again), YWS_OK);
    IS(memcmp(again, characters, sizeof again), 0);
}

static void by_meals(void) {
    usage("1015112390000000");
    IS(code[YWS_USAGE_CLASS], YWS_USAGE_CLASS_ORAL);
    IS(code[YWS_USAGE_DETAIL], YWS_USAGE_DETAIL_SWALLOWED);
    IS(code[YWS_USAGE_TIMING], YWS_USAGE_TIMING_MEALS);
    IS(code[YWS_USAGE_TIMES], 5);
    IS(code[YWS_USAGE_BEDTIME], 1);
    IS(code[YWS_USAGE_SUPPER], YWS_USAGE_MEAL_BEFORE);
    IS(code[YWS_USAGE_LUNCH], YWS_USAGE_MEAL_JUST_BEFORE);
    IS(code[YWS_USAGE_BREAKFAST], YWS_USAGE_MEAL_JUST_AFTER);
    IS(code[YWS_USAGE_WAKING], 1);
    IS(code[YWS_USAGE_HOUR], YWS_USAGE_HOUR_NONE);
    usage("1113064500000000");
    IS(code[YWS_USAGE_DETAIL], YWS_USAGE_DETAIL_UNDER_TONGUE);
    IS(code[YWS_USAGE_BEDTIME], 0);
    IS(code[YWS_USAGE_SUPPER], YWS_USAGE_MEAL_DURING);
    IS(code[YWS_USAGE_LUNCH], YWS_USAGE_MEAL_AFTER);
    IS(code[YWS_USAGE_BREAKFAST], YWS_USAGE_MEAL_BETWEEN);
    IS(code[YWS_USAGE_WAKING], 0);
    usage("1211000090000000");
    IS(code[YWS_USAGE_DETAIL], YWS_USAGE_DETAIL_BUCCAL);
    IS(code[YWS_USAGE_SUPPER], YWS_USAGE_MEAL_NONE);
    IS(code[YWS_USAGE_WAKING], 1);
    usage("131514440P000000");
    IS(code[YWS_USAGE_DETAIL], YWS_USAGE_DETAIL_IN_MOUTH);
    IS(code[YWS_USAGE_HOUR], 15);
}

static void by_hours(void) {
    usage("1023I00000000000");
    IS(code[YWS_USAGE_TIMING], YWS_USAGE_TIMING_EVEN);
    IS(code[YWS_USAGE_START], 8);
    IS(code[YWS_USAGE_HOUR], YWS_USAGE_HOUR_NONE);
    usage("1033IMS000000000");
    IS(code[YWS_USAGE_TIMING], YWS_USAGE_TIMING_HOURS);
    IS(code[YWS_USAGE_START], YWS_USAGE_HOUR_NONE);
    IS(code[YWS_USAGE_HOURS], 8);
    IS(code[YWS_USAGE_HOURS + 2], 18);
    IS(code[YWS_USAGE_HOURS + 3], YWS_USAGE_HOUR_NONE);
    usage("1038ABCDEFGX0000");
    IS(code[YWS_USAGE_HOURS], 0);
    IS(code[YWS_USAGE_HOURS + YWS_LEN_USAGE_HOURS - 1], 23);
}

static void as_needed(void) {
    static const struct {
        const char *characters;
        uint64_t group, event, condition;
    } row[] = {
        {"1050110000000000", YWS_USAGE_EVENT_GROUP_PAIN, 1, YWS_USAGE_CONDITION_MAY},
        {"1050220000000000", YWS_USAGE_EVENT_GROUP_BREATH, 2, YWS_USAGE_CONDITION_MAY},
        {"1050310000000000", YWS_USAGE_EVENT_GROUP_CIRCULATION, 1, YWS_USAGE_CONDITION_MAY},
        {"1050327000000000", YWS_USAGE_EVENT_GROUP_CIRCULATION, 2, YWS_USAGE_CONDITION_AT_LEAST},
        {"1050490000000000", YWS_USAGE_EVENT_GROUP_DIGESTION, 9, YWS_USAGE_CONDITION_MAY},
        {"1050515000000000", YWS_USAGE_EVENT_GROUP_KIDNEY, 1, YWS_USAGE_CONDITION_BELOW},
        {"1050516000000000", YWS_USAGE_EVENT_GROUP_KIDNEY, 1, YWS_USAGE_CONDITION_AT_MOST},
        {"1050670000000000", YWS_USAGE_EVENT_GROUP_MIND, 7, YWS_USAGE_CONDITION_MAY},
        {"1050712000000000", YWS_USAGE_EVENT_GROUP_FEVER, 1, YWS_USAGE_CONDITION_MUST},
        {"1050820000000000", YWS_USAGE_EVENT_GROUP_SKIN, 2, YWS_USAGE_CONDITION_MAY},
        {"1050910000000000", YWS_USAGE_EVENT_GROUP_OTHER_SYMPTOM, 1, YWS_USAGE_CONDITION_MAY},
        {"1050A14000000000", YWS_USAGE_EVENT_GROUP_MEDICAL, 1, YWS_USAGE_CONDITION_EQUAL},
        {"1050B30000000000", YWS_USAGE_EVENT_GROUP_LIFE, 3, YWS_USAGE_CONDITION_MAY},
        {"1050W20000000000", YWS_USAGE_EVENT_GROUP_OTHER, 2, YWS_USAGE_CONDITION_MAY},
    };
    for (size_t i = 0; i < COUNT(row); i++) {
        usage(row[i].characters);
        IS(code[YWS_USAGE_TIMING], YWS_USAGE_TIMING_AS_NEEDED);
        IS(code[YWS_USAGE_TIMES], 0);
        IS(code[YWS_USAGE_EVENT_GROUP], row[i].group);
        IS(code[YWS_USAGE_EVENT], row[i].event);
        IS(code[YWS_USAGE_CONDITION], row[i].condition);
    }
    usage("1050317CA0000000");
    IS(code[YWS_USAGE_INTERVAL], 12);
    IS(code[YWS_USAGE_LIMIT], 10);
}

static void external(void) {
    static const uint64_t detail[] = {
        YWS_USAGE_DETAIL_PATCH,        YWS_USAGE_DETAIL_SPREAD,      YWS_USAGE_DETAIL_COMPRESS,    YWS_USAGE_DETAIL_POWDER,
        YWS_USAGE_DETAIL_SPRAY,        YWS_USAGE_DETAIL_DISINFECT,   YWS_USAGE_DETAIL_EAR_DROPS,   YWS_USAGE_DETAIL_EYE_DROPS,
        YWS_USAGE_DETAIL_NOSE_DROPS,   YWS_USAGE_DETAIL_GARGLE,      YWS_USAGE_DETAIL_INHALE,      YWS_USAGE_DETAIL_TROCHE,
        YWS_USAGE_DETAIL_BLADDER_WASH, YWS_USAGE_DETAIL_NOSE_WASH,   YWS_USAGE_DETAIL_ENEMA,       YWS_USAGE_DETAIL_ANUS_INSERT,
        YWS_USAGE_DETAIL_ANUS_INSTIL,  YWS_USAGE_DETAIL_VAGINA_INSERT, YWS_USAGE_DETAIL_BLADDER_INSTIL,
    };
    static const char letters[] = "ABCDEFGHJKLMNPQRSTU";
    IS(COUNT(detail), strlen(letters));
    for (size_t i = 0; i < COUNT(detail); i++) {
        char characters[] = "2-73000000000000";
        characters[1] = letters[i];
        usage(characters);
        IS(code[YWS_USAGE_CLASS], YWS_USAGE_CLASS_EXTERNAL);
        IS(code[YWS_USAGE_DETAIL], detail[i]);
    }
    usage("2B651A9990000000");
    IS(code[YWS_USAGE_TIMING], YWS_USAGE_TIMING_PARTS);
    IS(code[YWS_USAGE_BEDTIME], 1);
    IS(code[YWS_USAGE_EVENING], YWS_USAGE_EVENING_AFTERNOON);
    IS(code[YWS_USAGE_NOON], 1);
    IS(code[YWS_USAGE_MORNING], YWS_USAGE_MORNING_SAID);
    IS(code[YWS_USAGE_WAKING], 1);
    usage("2B63090A0C000000");
    IS(code[YWS_USAGE_EVENING], YWS_USAGE_EVENING_SAID);
    IS(code[YWS_USAGE_NOON], 0);
    IS(code[YWS_USAGE_MORNING], YWS_USAGE_MORNING_FORENOON);
    IS(code[YWS_USAGE_HOUR], 2);
    usage("2B61100000000000");
    IS(code[YWS_USAGE_EVENING], YWS_USAGE_EVENING_NONE);
    IS(code[YWS_USAGE_MORNING], YWS_USAGE_MORNING_NONE);
}

static void by_count(void) {
    usage("2B74A00000000000");
    IS(code[YWS_USAGE_TIMING], YWS_USAGE_TIMING_COUNT);
    IS(code[YWS_USAGE_TIMES], 4);
    IS(code[YWS_USAGE_ABOUT], YWS_USAGE_ABOUT_ROUGHLY);
    usage("2B71N00000000000");
    IS(code[YWS_USAGE_ABOUT], YWS_USAGE_ABOUT_SEVERAL);
    usage("2B72300000000000");
    IS(code[YWS_USAGE_ABOUT], 3);
    usage("2B73000000000000");
    IS(code[YWS_USAGE_ABOUT], YWS_USAGE_ABOUT_EXACT);
}

/* Filled in, the blank code is a code; zeros are none. */
static void blank(void) {
    uint64_t made[YWS_LEN_USAGE] = YWS_USAGE_BLANK;
    uint8_t characters[YWS_LEN_USAGE_CODE];
    IS(sizeof((uint64_t[]) YWS_USAGE_BLANK), sizeof made);
    made[YWS_USAGE_CLASS] = YWS_USAGE_CLASS_ORAL;
    made[YWS_USAGE_TIMING] = YWS_USAGE_TIMING_MEALS;
    made[YWS_USAGE_TIMES] = 2;
    made[YWS_USAGE_SUPPER] = made[YWS_USAGE_BREAKFAST] = YWS_USAGE_MEAL_AFTER;
    usage("1012040400000000");
    IS(memcmp(made, code, sizeof made), 0);
    IS(yws_usage_write(made, characters), YWS_OK);
    memset(made, 0, sizeof made);
    IS(yws_usage_write(made, characters), YWS_ERR_NO_CODE);
}

static void supplement(const char *characters) {
    uint64_t place;
    IS(yws_supplement_read((const uint8_t *) characters, strlen(characters), code, &place), YWS_OK);
}

static void supplements(void) {
    static const int day[] = {YWS_SUPPLEMENT_SUNDAY,   YWS_SUPPLEMENT_MONDAY, YWS_SUPPLEMENT_TUESDAY, YWS_SUPPLEMENT_WEDNESDAY,
                              YWS_SUPPLEMENT_THURSDAY, YWS_SUPPLEMENT_FRIDAY, YWS_SUPPLEMENT_SATURDAY};
    supplement("I2300000");
    IS(code[YWS_SUPPLEMENT_LETTER], YWS_SUPPLEMENT_LETTER_INTERVAL);
    IS(code[YWS_SUPPLEMENT_ON], 2);
    IS(code[YWS_SUPPLEMENT_OFF], 3);
    for (size_t i = 0; i < COUNT(day); i++) {
        char characters[] = "W0000000";
        characters[1 + i] = '1';
        supplement(characters);
        IS(code[YWS_SUPPLEMENT_LETTER], YWS_SUPPLEMENT_LETTER_WEEK);
        for (size_t j = 0; j < COUNT(day); j++) IS(code[day[j]], i == j);
    }
    supplement("DC12345V");
    IS(code[YWS_SUPPLEMENT_LETTER], YWS_SUPPLEMENT_LETTER_DATE);
    IS(code[YWS_SUPPLEMENT_MONTH], 12);
    IS(code[YWS_SUPPLEMENT_DAYS], 1);
    IS(code[YWS_SUPPLEMENT_DAYS + YWS_LEN_SUPPLEMENT_DAYS - 1], 31);
    supplement("CY700000");
    IS(code[YWS_SUPPLEMENT_LETTER], YWS_SUPPLEMENT_LETTER_COUNT);
    IS(code[YWS_SUPPLEMENT_PERIOD], YWS_SUPPLEMENT_PERIOD_YEAR);
    IS(code[YWS_SUPPLEMENT_COUNT], 7);
    supplement("CM100000");
    IS(code[YWS_SUPPLEMENT_PERIOD], YWS_SUPPLEMENT_PERIOD_MONTH);
    supplement("CW100000");
    IS(code[YWS_SUPPLEMENT_PERIOD], YWS_SUPPLEMENT_PERIOD_WEEK);
    supplement("V31.25NN");
    IS(code[YWS_SUPPLEMENT_LETTER], YWS_SUPPLEMENT_LETTER_UNEQUAL);
    IS(code[YWS_SUPPLEMENT_ORDER], 3);
    IS(code[YWS_SUPPLEMENT_DIGITS], 125);
    IS(code[YWS_SUPPLEMENT_PLACES], 2);
}

static void runs(void) {
    static const int month[] = {YWS_DAYS_EVERY_MONTH, YWS_DAYS_JANUARY, YWS_DAYS_FEBRUARY, YWS_DAYS_MARCH,   YWS_DAYS_APRIL,
                                YWS_DAYS_MAY,         YWS_DAYS_JUNE,    YWS_DAYS_JULY,     YWS_DAYS_AUGUST,  YWS_DAYS_SEPTEMBER,
                                YWS_DAYS_OCTOBER,     YWS_DAYS_NOVEMBER, YWS_DAYS_DECEMBER};
    uint32_t days[YWS_LEN_DAYS];
    uint64_t refusal[YWS_LEN_RUN_REFUSAL];
    IS(COUNT(month), YWS_LEN_DAYS);
    for (size_t i = 0; i < COUNT(month); i++) {
        char characters[] = "D-1S0000";
        characters[1] = "0123456789ABC"[i];
        IS(yws_run_read(1, (const uint8_t *) characters, 8, days, refusal), YWS_OK);
        for (size_t j = 0; j < COUNT(month); j++) IS(days[month[j]], i == j ? YWS_DAY(1) | YWS_DAY(28) : 0);
    }
    IS(yws_run_read(12, (const uint8_t *) "DCAKU000D2TU0000", 16, days, refusal), YWS_ERR_RULE);
    IS(refusal[YWS_RUN_REFUSAL_PLACE], 4);
    IS(refusal[YWS_RUN_REFUSAL_CODE], 2);
}

static void date(uint16_t year, uint8_t month, uint8_t day, uint8_t style, uint64_t era, const char *characters) {
    uint64_t numbers[YWS_LEN_DATE];
    uint8_t text[YWS_LEN_DATE_TEXT];
    IS(yws_date_make(year, month, day, style, numbers, text), YWS_OK);
    IS(numbers[YWS_DATE_ERA], era);
    IS(numbers[YWS_DATE_YEAR], year);
    IS(numbers[YWS_DATE_MONTH], month);
    IS(numbers[YWS_DATE_DAY], day);
    IS(strncmp((char *) text, characters, sizeof text), 0);
}

static void dates(void) {
    date(2018, 9, 3, YWS_DATE_STYLE_WESTERN, YWS_DATE_ERA_WESTERN, "20180903");
    date(2019, 5, 1, YWS_DATE_STYLE_ERA, YWS_DATE_ERA_REIWA, "5010501");
    date(2019, 4, 30, YWS_DATE_STYLE_ERA, YWS_DATE_ERA_HEISEI, "4310430");
    date(2018, 9, 3, YWS_DATE_STYLE_ERA, YWS_DATE_ERA_HEISEI, "4300903");
    date(1930, 9, 3, YWS_DATE_STYLE_ANY, YWS_DATE_ERA_SHOWA, "3050903");
    date(1920, 9, 3, YWS_DATE_STYLE_ERA, YWS_DATE_ERA_TAISHO, "2090903");
    date(1900, 9, 3, YWS_DATE_STYLE_ERA, YWS_DATE_ERA_MEIJI, "1330903");
}

static const char sheet[] = "JAHIS5\r\n1,CLINIC,,\r\n5,A\r\n11,B\r\n12,1\r\n13,1\r\n22,\r\n23,1\r\n51,4300903\r\n101,7,3,FORM,14\r\n"
                            "111,7,2,1013044400000000,WORDS,5\r\n181,7,1,9,LEFT EAR,,42L\r\n181,7,2,8,BY TURNS,I2300000,\r\n"
                            "201,7,1,3,4,2171022F1029,NAME,7.5,2,TAB\r\n\x1a";

static void text_is(int line, uint64_t from, uint64_t to, const char *words) {
    is(line, words, to - from, strlen(words));
    is(line, words, to <= strlen(sheet) && memcmp(sheet + from, words, strlen(words)) == 0, 1);
}

#define TEXT_IS(what, words) text_is(__LINE__, record[what##_FROM], record[what##_TO], words)

static unsigned met; /* records that the names are held against */

static void record_is(const uint64_t *record) {
    met++;
    switch (record[YWS_ANY_RECORD]) {
    case YWS_RECORD_CLINIC: TEXT_IS(YWS_OTHER_FIELDS, "CLINIC,,"); break;
    case YWS_RECORD_ISSUE:
        IS(record[YWS_ISSUE_DATE], YWS_DATE_ERA_HEISEI);
        IS(record[YWS_ISSUE_ERA], YWS_DATE_ERA_HEISEI);
        IS(record[YWS_ISSUE_YEAR], 2018);
        IS(record[YWS_ISSUE_MONTH], 9);
        IS(record[YWS_ISSUE_DAY], 3);
        break;
    case YWS_RECORD_RP:
        IS(record[YWS_RP_NUMBER], 7);
        IS(record[YWS_RP_FORM], YWS_RP_FORM_EXTERNAL);
        TEXT_IS(YWS_RP_NAME, "FORM");
        IS(record[YWS_RP_QUANTITY], 14);
        break;
    case YWS_RECORD_DIRECTIONS:
        IS(record[YWS_DIRECTIONS_RP], 7);
        IS(record[YWS_DIRECTIONS_KIND], YWS_DIRECTIONS_KIND_CODE);
        TEXT_IS(YWS_DIRECTIONS_NAME, "WORDS");
        IS(record[YWS_DIRECTIONS_TIMES], 5);
        IS(record[YWS_DIRECTIONS_CODE + YWS_USAGE_CLASS], YWS_USAGE_CLASS_ORAL);
        IS(record[YWS_DIRECTIONS_CODE + YWS_USAGE_TIMES], 3);
        break;
    case YWS_RECORD_EXTRA:
        IS(record[YWS_EXTRA_RP], 7);
        if (record[YWS_EXTRA_SERIAL] == 1) {
            IS(record[YWS_EXTRA_KIND], YWS_EXTRA_KIND_SITE_CODE);
            TEXT_IS(YWS_EXTRA_TEXT, "LEFT EAR");
            TEXT_IS(YWS_EXTRA_SITE, "42L");
            IS(record[YWS_EXTRA_CODE + YWS_SUPPLEMENT_LETTER], 0);
        } else {
            IS(record[YWS_EXTRA_SERIAL], 2);
            IS(record[YWS_EXTRA_KIND], YWS_EXTRA_KIND_CODE);
            TEXT_IS(YWS_EXTRA_TEXT, "BY TURNS");
            TEXT_IS(YWS_EXTRA_SITE, "");
            IS(record[YWS_EXTRA_CODE + YWS_SUPPLEMENT_LETTER], YWS_SUPPLEMENT_LETTER_INTERVAL);
            IS(record[YWS_EXTRA_CODE + YWS_SUPPLEMENT_OFF], 3);
        }
        break;
    case YWS_RECORD_DRUG:
        IS(record[YWS_DRUG_RP], 7);
        IS(record[YWS_DRUG_SERIAL], 1);
        IS(record[YWS_DRUG_KIND], YWS_DRUG_KIND_UNINSURED);
        IS(record[YWS_DRUG_CODE_KIND], YWS_DRUG_CODE_KIND_YJ);
        TEXT_IS(YWS_DRUG_CODE, "2171022F1029");
        TEXT_IS(YWS_DRUG_NAME, "NAME");
        IS(record[YWS_DRUG_AMOUNT], 15 * YWS_DRUG_AMOUNT_ONE / 2);
        IS(record[YWS_DRUG_FLAG], YWS_DRUG_FLAG_POTENCY);
        TEXT_IS(YWS_DRUG_UNIT, "TAB");
        break;
    default: met--;
    }
}

static void records(void) {
    const uint8_t *file = (const uint8_t *) sheet;
    struct yws_reader reader = {{0}};
    uint64_t record[YWS_LEN_RECORD], refusal[YWS_LEN_REFUSAL], count, read = 0;
    IS(sizeof reader, 8 * YWS_LEN_STATE);
    IS(sizeof(struct yws_writer), 8 * YWS_LEN_STATE);
    IS(yws_sheet_open(file, strlen(sheet), &reader), YWS_OK);
    IS(reader.state[YWS_STATE_AT], 8);
    IS(reader.state[YWS_STATE_OPEN], YWS_STATE_OPEN_NOW);
    for (; yws_sheet_next(file, strlen(sheet), &reader, record, refusal) == YWS_OK; read++) record_is(record);
    IS(yws_sheet_next(file, strlen(sheet), &reader, record, refusal), YWS_END);
    IS(yws_sheet_check(file, strlen(sheet), &count, refusal), YWS_OK);
    IS(count, read + 1);
    IS(met, 7);
}

static void refusals(void) {
    static const uint8_t file[] = "JAHIS5\r\n1,A\r\n5,A\r\n11,B\r\n12,1\r\n13,1\r\n22,\r\n23,1\r\n51,20180903\r\n101,1,1,,1\r\n"
                                  "111,1,2,1012044400000000,W,\r\n\x1a";
    uint64_t refusal[YWS_LEN_REFUSAL], count;
    struct yws_reader reader = {{0}};
    IS(yws_sheet_check(file, sizeof file - 1, &count, refusal), YWS_ERR_CODE);
    IS(refusal[YWS_REFUSAL_OFFSET], (const uint8_t *) strstr((const char *) file, "111,1") - file);
    IS(refusal[YWS_REFUSAL_FIELD], 3);
    IS(refusal[YWS_REFUSAL_CODE], YWS_ERR_COUNT);
    IS(refusal[YWS_REFUSAL_PLACE], 4);
    IS(yws_sheet_open(file, 3, &reader), YWS_ERR_FRAME);
    IS(reader.state[YWS_STATE_AT], 3);
    IS(reader.state[YWS_STATE_OPEN], YWS_ERR_FRAME + 1);
}

static uint16_t code_result(const char *characters) {
    uint64_t place;
    return yws_usage_read((const uint8_t *) characters, strlen(characters), code, &place);
}

static uint16_t run_result(uint8_t issue, const char *characters) {
    uint32_t days[YWS_LEN_DAYS];
    uint64_t refusal[YWS_LEN_RUN_REFUSAL];
    return yws_run_read(issue, (const uint8_t *) characters, strlen(characters), days, refusal);
}

/* The result of a sheet that has the needed records up to 23, then `lines`. */
static uint16_t sheet_result(const char *lines) {
    char file[256];
    uint64_t refusal[YWS_LEN_REFUSAL], count;
    snprintf(file, sizeof file, "JAHIS5\r\n1,A\r\n5,A\r\n11,B\r\n12,1\r\n13,1\r\n22,\r\n23,1\r\n%s\x1a", lines);
    return yws_sheet_check((const uint8_t *) file, strlen(file), &count, refusal);
}

/* Each result by something that is refused for it: the numbers are document 01's. */
static void results(void) {
    static uint8_t longest[YWS_MOST_FILE + 1];
    struct yws_reader reader = {{0}};
    struct yws_writer writer = {{0}};
    uint32_t none[YWS_LEN_DAYS] = {0};
    uint64_t record[YWS_LEN_RECORD] = {0}, refusal[YWS_LEN_REFUSAL], own;
    uint8_t out[16];
    IS(code_result("101"), YWS_ERR_LENGTH);
    IS(code_result("9013044400000000"), YWS_ERR_FIRST);
    IS(code_result("1913044400000000"), YWS_ERR_DETAIL);
    IS(code_result("1063044400000000"), YWS_ERR_TIMING);
    IS(code_result("1013074400000000"), YWS_ERR_CHARACTER);
    IS(code_result("1013044400000001"), YWS_ERR_UNUSED);
    IS(code_result("1012044400000000"), YWS_ERR_COUNT);
    IS(code_result("1050311000000000"), YWS_ERR_RULE);
    IS(code_result("1033IMM000000000"), YWS_ERR_RISING);
    IS(run_result(13, "D0AK0000"), YWS_ERR_ISSUE_MONTH);
    IS(yws_set_write(1, none, out, sizeof out, &own), YWS_ERR_DAY_SET);
    IS(run_result(1, "DCAKU000D1FU0000"), YWS_ERR_RUN);
    IS(yws_sheet_open(longest, sizeof longest, &reader), YWS_ERR_TOO_LONG);
    IS(yws_sheet_open(longest, sizeof longest - 1, &reader), YWS_ERR_FRAME);
    IS(yws_sheet_open((const uint8_t *) "JAHIS4\r\n\x1a", 9, &reader), YWS_ERR_VERSION);
    IS(sheet_result("500,A\r\n"), YWS_ERR_UNKNOWN);
    IS(sheet_result("22,\r\n"), YWS_ERR_ORDER);
    IS(sheet_result("51,20180903,\r\n"), YWS_ERR_FIELDS);
    IS(sheet_result("24, A\r\n"), YWS_ERR_TEXT);
    IS(sheet_result("51,20181303\r\n"), YWS_ERR_VALUE);
    IS(sheet_result("51,4310501\r\n"), YWS_ERR_VALUE);
    IS(sheet_result("51,\r\n"), YWS_ERR_PRESENT);
    IS(sheet_result("51,20180903\r\n101,1,1,,1\r\n111,1,2,1012044400000000,W,\r\n"), YWS_ERR_CODE);
    IS(sheet_result("51,20180903\r\n101,1,1,,1\r\n111,2,1,,W,\r\n"), YWS_ERR_COUNTER);
    IS(sheet_result("51,20180903\r\n101,1,1,,1\r\n111,1,1,,W,\r\n181,1,1,8,A,V31.0NNN,\r\n"), YWS_ERR_SCHEDULE);
    IS(sheet_result(""), YWS_ERR_MISSING);
    IS(yws_writer_open(out, 3, &writer), YWS_ERR_ROOM);
    IS(writer.state[YWS_STATE_OPEN], YWS_STATE_OPEN_NEVER);
    IS(yws_writer_put(out, sizeof out, &writer, record, out, 0, &own), YWS_ERR_RECORD);
    IS(own, YWS_ERR_ORDER);
    memset(&reader, 0, sizeof reader);
    IS(yws_sheet_next(out, 0, &reader, record, refusal), YWS_ERR_ORDER);
}

enum { MORE = 64, UNTOUCHED = 0xA5 }; /* an array longer than any, and what its bytes are before a call */

/* How many things of a size a call has written into an array that is longer than any. */
static size_t written(const void *array, size_t size) {
    const uint8_t *bytes = array;
    size_t count = MORE * size;
    while (count > 0 && bytes[count - 1] == UNTOUCHED) count--;
    return (count + size - 1) / size;
}

/* Each length is how much a call writes. */
static void lengths(void) {
    static const uint8_t month_days[] = {0, 31, 29, 31, 30, 31, 30, 31, 31, 30, 31, 30, 31};
    struct { uint64_t numbers[MORE], other[MORE]; uint32_t masks[MORE]; uint8_t bytes[16 * MORE]; } lent;
    uint32_t every_day[YWS_LEN_DAYS] = {0};
    uint64_t one;
    memset(&lent, UNTOUCHED, sizeof lent);
    yws_usage_read((const uint8_t *) "1013044400000000", 16, lent.numbers, &one);
    yws_usage_write(lent.numbers, lent.bytes);
    IS(written(lent.numbers, 8), YWS_LEN_USAGE);
    IS(written(lent.bytes, 1), YWS_LEN_USAGE_CODE);
    memset(&lent, UNTOUCHED, sizeof lent);
    yws_supplement_read((const uint8_t *) "I1100000", 8, lent.numbers, &one);
    yws_supplement_write(lent.numbers, lent.bytes);
    IS(written(lent.numbers, 8), YWS_LEN_SUPPLEMENT);
    IS(written(lent.bytes, 1), YWS_LEN_SUPPLEMENT_CODE);
    memset(&lent, UNTOUCHED, sizeof lent);
    yws_run_read(1, (const uint8_t *) "D0AK0000", 8, lent.masks, lent.numbers);
    IS(written(lent.masks, 4), YWS_LEN_DAYS);
    IS(written(lent.numbers, 8), YWS_LEN_RUN_REFUSAL);
    memset(&lent, UNTOUCHED, sizeof lent);
    yws_date_make(2018, 9, 3, YWS_DATE_STYLE_WESTERN, lent.numbers, lent.bytes);
    IS(written(lent.numbers, 8), YWS_LEN_DATE);
    IS(written(lent.bytes, 1), YWS_LEN_DATE_TEXT);
    memset(&lent, UNTOUCHED, sizeof lent);
    yws_sheet_open((const uint8_t *) sheet, strlen(sheet), (struct yws_reader *) lent.numbers);
    IS(written(lent.numbers, 8), YWS_LEN_STATE);
    memset(lent.other, UNTOUCHED, sizeof lent.other);
    yws_sheet_next((const uint8_t *) sheet, strlen(sheet), (struct yws_reader *) lent.numbers, lent.other, &lent.numbers[YWS_LEN_STATE]);
    IS(written(lent.other, 8), YWS_LEN_RECORD);
    IS(written(lent.numbers, 8), YWS_LEN_STATE + YWS_LEN_REFUSAL);
    memset(&lent, UNTOUCHED, sizeof lent);
    for (int month = 1; month < YWS_LEN_DAYS; month++) every_day[month] = (uint32_t) ((UINT64_C(1) << month_days[month]) - 1);
    IS(yws_set_write(1, every_day, lent.bytes, YWS_MOST_RUN, &one), YWS_OK);
    IS(8 * one, YWS_MOST_RUN);
    IS(yws_set_write(1, every_day, lent.bytes, YWS_MOST_RUN - 1, &one), YWS_ERR_ROOM);
}

/* The dose calendar of the sheet's RP 7, three times a day, two days on and three off; issued on 3 September 2018. */
static uint8_t doses[YWS_MOST_DAYS + 1];

static uint16_t calendar(uint32_t rp, uint32_t day, uint32_t days, uint64_t room) {
    uint64_t refusal[YWS_LEN_REFUSAL] = {7, 7, 7, 7};
    memset(doses, UNTOUCHED, sizeof doses);
    uint16_t number = yws_calendar((const uint8_t *) sheet, strlen(sheet), rp, 2018, 9, day, days, doses, room, refusal);
    for (int i = 0; i < YWS_LEN_REFUSAL; i++) IS(refusal[i], 0);
    return number;
}

/* The result of a day's calendar of a sheet with one RP: its 111 from the kind on, and perhaps a 181 after it. */
static uint16_t doses_result(const char *directions) {
    char file[256];
    uint64_t refusal[YWS_LEN_REFUSAL];
    snprintf(file, sizeof file, "JAHIS5\r\n1,A\r\n5,A\r\n11,B\r\n12,1\r\n13,1\r\n22,\r\n23,1\r\n51,20180903\r\n101,1,1,,1\r\n111,1,%s\r\n"
             "201,1,1,,1,,A,1,1,T\r\n\x1a", directions);
    return yws_calendar((const uint8_t *) file, strlen(file), 1, 2018, 9, 3, 1, doses, 1, refusal);
}

static void calendars(void) {
    static const uint8_t by_turns[] = {3, 3, 0, 0, 0, 3, 3};
    uint64_t refusal[YWS_LEN_REFUSAL];
    IS(calendar(7, 4, sizeof by_turns, sizeof doses), YWS_OK);
    IS(memcmp(doses, by_turns, sizeof by_turns), 0);
    IS(doses[sizeof by_turns], UNTOUCHED);
    IS(calendar(7, 3, YWS_MOST_DAYS, YWS_MOST_DAYS), YWS_OK);
    IS(doses[YWS_MOST_DAYS - 1], 3);
    IS(doses[YWS_MOST_DAYS], UNTOUCHED);
    IS(calendar(7, 3, YWS_MOST_DAYS + 1, sizeof doses), YWS_ERR_CALENDAR);
    IS(calendar(7, 3, 0, sizeof doses), YWS_ERR_CALENDAR);
    IS(calendar(7, 31, 1, sizeof doses), YWS_ERR_CALENDAR);
    IS(calendar(7, 2, 1, sizeof doses), YWS_ERR_CALENDAR);
    IS(calendar(8, 3, 1, sizeof doses), YWS_ERR_NO_RP);
    IS(calendar(7, 3, YWS_MOST_DAYS, YWS_MOST_DAYS - 1), YWS_ERR_ROOM);
    IS(doses[0], UNTOUCHED);
    IS(doses_result("2,1013044400000000,W,"), YWS_OK);
    IS(doses[0], 3);
    IS(doses_result("1,,W,"), YWS_ERR_DOSES);
    IS(doses_result("2,1050110000000000,W,"), YWS_ERR_DOSES);
    IS(doses_result("2,2B73A00000000000,W,"), YWS_ERR_DOSES);
    IS(doses_result("2,1013044400000000,W,\r\n181,1,1,8,A,CW100000,"), YWS_ERR_DOSES);
    IS(yws_calendar((const uint8_t *) sheet, 3, 7, 2018, 9, 3, 1, doses, 1, refusal), YWS_ERR_FRAME);
    IS(refusal[YWS_REFUSAL_OFFSET], 3);
}

/* The records that have a name are those that the library knows. */
static void record_numbers(void) {
    static const int known[] = {
        YWS_RECORD_CLINIC,   YWS_RECORD_ADDRESS,   YWS_RECORD_PHONE,          YWS_RECORD_DEPARTMENT, YWS_RECORD_DOCTOR,
        YWS_RECORD_PATIENT,  YWS_RECORD_SEX,       YWS_RECORD_BIRTH,          YWS_RECORD_SHARE,      YWS_RECORD_INSURANCE,
        YWS_RECORD_INSURER,  YWS_RECORD_INSURED,   YWS_RECORD_RATES,          YWS_RECORD_DUTY,       YWS_RECORD_PUBLIC_1,
        YWS_RECORD_PUBLIC_2, YWS_RECORD_PUBLIC_3,  YWS_RECORD_PUBLIC_SPECIAL, YWS_RECORD_CLAIM,      YWS_RECORD_ISSUE,
        YWS_RECORD_EXPIRY,   YWS_RECORD_NARCOTIC,  YWS_RECORD_LEFTOVERS,      YWS_RECORD_SPLIT,      YWS_RECORD_NOTE,
        YWS_RECORD_SHEET_ID, YWS_RECORD_RP,        YWS_RECORD_SPLIT_QUANTITY, YWS_RECORD_DIRECTIONS, YWS_RECORD_EXTRA,
        YWS_RECORD_DRUG,     YWS_RECORD_UNIT,      YWS_RECORD_UNEQUAL,        YWS_RECORD_COVERAGE,   YWS_RECORD_DOSE,
        YWS_RECORD_DRUG_NOTE,
    };
    for (int number = 1; number < 1000; number++) {
        char file[32];
        uint64_t refusal[YWS_LEN_REFUSAL], count;
        int named = 0;
        for (size_t i = 0; i < COUNT(known); i++) named |= known[i] == number;
        snprintf(file, sizeof file, "JAHIS5\r\n%d,A\r\n\x1a", number);
        IS(yws_sheet_check((const uint8_t *) file, strlen(file), &count, refusal) != YWS_ERR_UNKNOWN, named);
    }
}

/* Values that the library takes or refuses without asking what they mean, in the order in which JAHIS 17-108 prints them. */
static void printed(void) {
    static const int form[] = {0, YWS_RP_FORM_ORAL, YWS_RP_FORM_AS_NEEDED, YWS_RP_FORM_EXTERNAL, YWS_RP_FORM_ORAL_DROPS, YWS_RP_FORM_INJECTION,
                               YWS_RP_FORM_MATERIAL};
    static const int kind[] = {YWS_EXTRA_KIND_UNKNOWN, YWS_EXTRA_KIND_TAPERING, YWS_EXTRA_KIND_ONE_BAG, YWS_EXTRA_KIND_ALTERNATE, YWS_EXTRA_KIND_CRUSHED,
                               YWS_EXTRA_KIND_MORE,    YWS_EXTRA_KIND_SITE,     YWS_EXTRA_KIND_DOSE,    YWS_EXTRA_KIND_CODE,      YWS_EXTRA_KIND_SITE_CODE};
    static const int drug[] = {YWS_DRUG_KIND_UNKNOWN, YWS_DRUG_KIND_MEDICINE, YWS_DRUG_KIND_MATERIAL, YWS_DRUG_KIND_UNINSURED};
    static const int coded[] = {0, YWS_DRUG_CODE_KIND_NONE, YWS_DRUG_CODE_KIND_CLAIM, YWS_DRUG_CODE_KIND_MINISTRY, YWS_DRUG_CODE_KIND_YJ,
                                5, YWS_DRUG_CODE_KIND_HOT, YWS_DRUG_CODE_KIND_GENERIC};
    for (size_t i = 0; i < COUNT(form); i++) IS(form[i], i);
    for (size_t i = 0; i < COUNT(kind); i++) IS(kind[i], i);
    for (size_t i = 0; i < COUNT(drug); i++) IS(drug[i], i);
    for (size_t i = 0; i < COUNT(coded); i++) IS(coded[i], i);
    IS(YWS_RP_FORM_UNKNOWN, 9);
    IS(YWS_DIRECTIONS_KIND_WORDS, 1);
    IS(YWS_DRUG_FLAG_PRICE_UNIT, 1);
}

int main(void) {
    by_meals();
    by_hours();
    as_needed();
    external();
    by_count();
    blank();
    supplements();
    runs();
    dates();
    records();
    refusals();
    results();
    lengths();
    calendars();
    record_numbers();
    printed();
    printf("%u names and values, %u passed\n", held, held - broken);
    return broken != 0;
}
