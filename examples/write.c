/* Writes a new sheet with two RPs, the second taken on the days of a set, to standard output; then reads it back and says on standard error what it read.
 *
 *     cc -I include examples/write.c messages/yawsimbel_messages.c target/staticlib/$(uname -m)/libyawsimbel.a -o write && ./write > new.sheet
 */
#include "yawsimbel.h"
#include <inttypes.h>
#include <stdio.h>
#include <stdlib.h>
#include <string.h>

static uint8_t file[YWS_MOST_FILE];
static struct yws_writer writer;

static void must(uint16_t number) {
    if (number == YWS_OK) return;
    fprintf(stderr, "refused %u: %s\n", number, yws_message(number));
    exit(1);
}

/* Puts a record whose texts lie in `texts`, in Shift_JIS. What it does not name is 0 and so left out, a code too; a text's first offset is then 0. */
static void put(const uint64_t record[YWS_LEN_RECORD], const char *texts) {
    uint64_t own;
    uint16_t number = yws_writer_put(file, sizeof file, &writer, record, (const uint8_t *) texts, strlen(texts), &own);
    must(number == YWS_ERR_RECORD ? (uint16_t) own : number);
}

static void put_rp(uint64_t rp, uint64_t days, const uint64_t code[YWS_LEN_USAGE], const char *words) {
    uint64_t record[YWS_LEN_RECORD] = {[YWS_ANY_RECORD] = YWS_RECORD_DIRECTIONS, [YWS_DIRECTIONS_RP] = rp, [YWS_DIRECTIONS_NAME_TO] = strlen(words),
                                       [YWS_DIRECTIONS_KIND] = YWS_DIRECTIONS_KIND_CODE, [YWS_DIRECTIONS_TIMES] = code[YWS_USAGE_TIMES]};
    memcpy(record + YWS_DIRECTIONS_CODE, code, YWS_LEN_USAGE * sizeof *code);
    put((uint64_t[YWS_LEN_RECORD]){[YWS_ANY_RECORD] = YWS_RECORD_RP, [YWS_RP_NUMBER] = rp, [YWS_RP_FORM] = YWS_RP_FORM_ORAL, [YWS_RP_QUANTITY] = days}, "");
    put(record, words);
}

/* The run of date codes for a set of days, a record for each code. */
static void put_days(uint64_t rp, uint8_t issue_month, const uint32_t days[YWS_LEN_DAYS], const char *words) {
    uint8_t run[YWS_MOST_RUN];
    uint64_t codes, place, record[YWS_LEN_RECORD] = {[YWS_ANY_RECORD] = YWS_RECORD_EXTRA, [YWS_EXTRA_RP] = rp,
                                                     [YWS_EXTRA_KIND] = YWS_EXTRA_KIND_CODE, [YWS_EXTRA_TEXT_TO] = strlen(words)};
    must(yws_set_write(issue_month, days, run, sizeof run, &codes));
    for (const uint8_t *code = run; record[YWS_EXTRA_SERIAL]++ < codes; code += YWS_LEN_SUPPLEMENT_CODE) {
        must(yws_supplement_read(code, YWS_LEN_SUPPLEMENT_CODE, record + YWS_EXTRA_CODE, &place));
        put(record, words);
    }
}

/* The one drug of an RP. In `texts` its name, of `name` bytes, and its unit lie one after the other. */
static void put_drug(uint64_t rp, const char *texts, uint64_t name, uint64_t amount) {
    put((uint64_t[YWS_LEN_RECORD]){[YWS_ANY_RECORD] = YWS_RECORD_DRUG, [YWS_DRUG_RP] = rp, [YWS_DRUG_SERIAL] = 1, [YWS_DRUG_KIND] = YWS_DRUG_KIND_MEDICINE,
            [YWS_DRUG_CODE_KIND] = YWS_DRUG_CODE_KIND_NONE, [YWS_DRUG_NAME_TO] = name, [YWS_DRUG_AMOUNT] = amount * YWS_DRUG_AMOUNT_ONE,
            [YWS_DRUG_FLAG] = YWS_DRUG_FLAG_PRICE_UNIT, [YWS_DRUG_UNIT_FROM] = name, [YWS_DRUG_UNIT_TO] = strlen(texts)}, texts);
}

static uint64_t write_sheet(void) {
    static const struct { uint64_t number; const char *fields; } head[] = {
        {YWS_RECORD_CLINIC, "1,7654321,13,KITA CLINIC"}, {YWS_RECORD_DOCTOR, ",,SATO"}, {YWS_RECORD_PATIENT, ",YAMADA JIRO,"},
        {YWS_RECORD_SEX, "1"}, {YWS_RECORD_BIRTH, "19700203"}, {YWS_RECORD_INSURER, ""}, {YWS_RECORD_INSURED, ",,1"}};
    static const uint32_t days[YWS_LEN_DAYS] = {[YWS_DAYS_JULY] = YWS_DAY(10) | YWS_DAY(20) | YWS_DAY(30), [YWS_DAYS_AUGUST] = YWS_DAY(15) | YWS_DAY(30)};
    uint64_t issue[YWS_LEN_RECORD] = {[YWS_ANY_RECORD] = YWS_RECORD_ISSUE}, meals[YWS_LEN_USAGE], waking[YWS_LEN_USAGE] = YWS_USAGE_BLANK, own;
    uint8_t date[YWS_LEN_DATE_TEXT];
    must(yws_usage_read((const uint8_t *) "1013044400000000", YWS_LEN_USAGE_CODE, meals, &own)); /* a code from its characters, */
    waking[YWS_USAGE_CLASS] = YWS_USAGE_CLASS_ORAL;                                               /* and one from what it says */
    waking[YWS_USAGE_TIMING] = YWS_USAGE_TIMING_MEALS;
    waking[YWS_USAGE_TIMES] = waking[YWS_USAGE_WAKING] = 1;
    must(yws_date_make(2018, YWS_DAYS_JULY, 2, YWS_DATE_STYLE_WESTERN, issue + YWS_ISSUE_DATE, date));
    must(yws_writer_open(file, sizeof file, &writer));
    for (size_t i = 0; i < sizeof head / sizeof *head; i++)
        put((uint64_t[YWS_LEN_RECORD]){[YWS_ANY_RECORD] = head[i].number, [YWS_OTHER_FIELDS_TO] = strlen(head[i].fields)}, head[i].fields);
    put(issue, "");
    put_rp(1, 14, meals, "AFTER MEALS");
    put_drug(1, "TABLET A\x8f\xf9", strlen("TABLET A"), 3); /* 8FF9h is the kanji for tablets */
    put_rp(2, 5, waking, "ON WAKING");
    put_days(2, YWS_DAYS_JULY, days, "BY DATE");
    put_drug(2, "TABLET B\x8f\xf9", strlen("TABLET B"), 1);
    must(yws_writer_close(file, sizeof file, &writer, &own));
    return writer.state[YWS_STATE_AT];
}

static void say(const uint64_t record[YWS_LEN_RECORD]) {
#define TEXT(what) (int) (record[what##_TO] - record[what##_FROM]), (const char *) file + record[what##_FROM] /* for %.*s */
    uint64_t number = record[YWS_ANY_RECORD], amount = record[YWS_DRUG_AMOUNT] / YWS_DRUG_AMOUNT_ONE; /* whole, in this sheet */
    if (number == YWS_RECORD_DIRECTIONS) fprintf(stderr, "RP %" PRIu64 ": %.*s\n", record[YWS_DIRECTIONS_RP], TEXT(YWS_DIRECTIONS_NAME));
    if (number == YWS_RECORD_DRUG) fprintf(stderr, "  %.*s, %" PRIu64 " %.*s\n", TEXT(YWS_DRUG_NAME), amount, TEXT(YWS_DRUG_UNIT));
    if (number != YWS_RECORD_EXTRA) return;
    fprintf(stderr, "  month %" PRIu64 ", days", record[YWS_EXTRA_CODE + YWS_SUPPLEMENT_MONTH]);
    for (int day = YWS_EXTRA_CODE + YWS_SUPPLEMENT_DAYS, left = YWS_LEN_SUPPLEMENT_DAYS; left > 0 && record[day] != 0; day++, left--)
        fprintf(stderr, " %" PRIu64, record[day]);
    fprintf(stderr, "\n");
}

int main(void) {
    uint64_t length = write_sheet(), records, refusal[YWS_LEN_REFUSAL], record[YWS_LEN_RECORD];
    struct yws_reader reader = {{0}};
    must(yws_sheet_check(file, length, &records, refusal));
    fprintf(stderr, "%" PRIu64 " bytes, %" PRIu64 " records\n", length, records);
    must(yws_sheet_open(file, length, &reader));
    while (yws_sheet_next(file, length, &reader, record, refusal) == YWS_OK) say(record);
    return fwrite(file, 1, length, stdout) == length ? 0 : 1;
}
