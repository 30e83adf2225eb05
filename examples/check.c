/* Checks a sheet on standard input and prints what its labels say: for each RP its number and how its drugs are taken, then each drug's name,
 * amount and unit; or the refusal, with what its numbers mean. Texts come out as they stand in the sheet, in Shift_JIS.
 *
 *     cc -I include examples/check.c messages/yawsimbel_messages.c target/staticlib/$(uname -m)/libyawsimbel.a -o check && ./check < samples/sheet.txt
 */
#include "yawsimbel.h"

#include <inttypes.h>
#include <stdio.h>

static uint8_t file[YWS_MOST_FILE + 1]; /* one byte more than a sheet can have is enough to see that it is too long */

static void text(uint64_t from, uint64_t to) { fwrite(file + from, 1, (size_t) (to - from), stdout); }

/* Hundred-thousandths as a number, with no more places than it needs. */
static void amount(uint64_t n) {
    printf("%" PRIu64, n / YWS_DRUG_AMOUNT_ONE);
    uint64_t places = n % YWS_DRUG_AMOUNT_ONE;
    if (places == 0) return;
    int width = 5;
    while (places % 10 == 0) {
        places /= 10;
        width--;
    }
    printf(".%0*" PRIu64, width, places);
}

static void directions(const uint64_t *record) {
    printf("RP %" PRIu64 ": ", record[YWS_DIRECTIONS_RP]);
    text(record[YWS_DIRECTIONS_NAME_FROM], record[YWS_DIRECTIONS_NAME_TO]);
    printf("\n");
}

static void drug(const uint64_t *record) {
    printf("  ");
    if (record[YWS_DRUG_NAME_FROM] < record[YWS_DRUG_NAME_TO])
        text(record[YWS_DRUG_NAME_FROM], record[YWS_DRUG_NAME_TO]);
    else /* a drug that has no name has a code */
        text(record[YWS_DRUG_CODE_FROM], record[YWS_DRUG_CODE_TO]);
    printf(", ");
    amount(record[YWS_DRUG_AMOUNT]);
    printf(" ");
    text(record[YWS_DRUG_UNIT_FROM], record[YWS_DRUG_UNIT_TO]);
    printf("\n");
}

static void refused(uint16_t number, const uint64_t *refusal) {
    printf("refused %u %s %" PRIu64, number, number <= YWS_ERR_VERSION ? "offset" : "record", refusal[YWS_REFUSAL_OFFSET]);
    if (refusal[YWS_REFUSAL_FIELD] != 0) printf(" field %" PRIu64, refusal[YWS_REFUSAL_FIELD]);
    if (number == YWS_ERR_CODE) printf(" code %" PRIu64 " place %" PRIu64, refusal[YWS_REFUSAL_CODE], refusal[YWS_REFUSAL_PLACE]);
    printf("\n%s\n", yws_message(number));
    if (number == YWS_ERR_CODE) printf("%s\n", yws_message((uint16_t) refusal[YWS_REFUSAL_CODE]));
}

int main(void) {
    size_t length = fread(file, 1, sizeof file, stdin);
    uint64_t records, refusal[YWS_LEN_REFUSAL], record[YWS_LEN_RECORD];
    struct yws_reader reader = {{0}};
    /* The whole sheet first: no label of a sheet that is refused further on. */
    uint16_t number = yws_sheet_check(file, length, &records, refusal);
    if (number != YWS_OK) {
        refused(number, refusal);
        return 1;
    }
    yws_sheet_open(file, length, &reader);
    while (yws_sheet_next(file, length, &reader, record, refusal) == YWS_OK) {
        if (record[YWS_ANY_RECORD] == YWS_RECORD_DIRECTIONS) directions(record);
        if (record[YWS_ANY_RECORD] == YWS_RECORD_DRUG) drug(record);
    }
    return 0;
}
