/* Lists the drugs of a sheet on standard input: RP, name, amount and unit, a line each; or the refusal, with what its number means. Texts come out as
 * they stand in the sheet, in Shift_JIS.
 *
 *     cc -I include examples/drugs.c messages/yawsimbel_messages.c target/staticlib/$(uname -m)/libyawsimbel.a -o drugs && ./drugs < samples/sheet.txt
 */
#include "yawsimbel.h"

#include <inttypes.h>
#include <stdio.h>

static uint8_t file[YWS_MOST_FILE + 1]; /* one byte more than a sheet can have is enough to see that it is too long */

static void text(uint64_t from, uint64_t to) { fwrite(file + from, 1, (size_t) (to - from), stdout); }

/* Hundred-thousandths as a number, with no more places than it needs. */
static void amount(uint64_t n) {
    printf("%" PRIu64, n / YWS_DRUG_AMOUNT_ONE);
    uint64_t places = n % YWS_DRUG_AMOUNT_ONE;
    if (places == 0) return;
    int width = 5;
    while (places % 10 == 0) {
        places /= 10;
        width--;
    }
    printf(".%0*" PRIu64, width, places);
}

static void drug(const uint64_t *record) {
    printf("RP %" PRIu64 ": ", record[YWS_DRUG_RP]);
    if (record[YWS_DRUG_NAME_FROM] < record[YWS_DRUG_NAME_TO])
        text(record[YWS_DRUG_NAME_FROM], record[YWS_DRUG_NAME_TO]);
    else /* a drug that has no name has a code */
        text(record[YWS_DRUG_CODE_FROM], record[YWS_DRUG_CODE_TO]);
    printf(", ");
    amount(record[YWS_DRUG_AMOUNT]);
    printf(" ");
    text(record[YWS_DRUG_UNIT_FROM], record[YWS_DRUG_UNIT_TO]);
    printf("\n");
}

int main(void) {
    size_t length = fread(file, 1, sizeof file, stdin);
    uint64_t records, refusal[YWS_LEN_REFUSAL], record[YWS_LEN_RECORD];
    struct yws_reader reader = {{0}};
    /* The whole sheet first: a refusal may stand at its last record. */
    uint16_t number = yws_sheet_check(file, length, &records, refusal);
    if (number != YWS_OK) {
        printf("refused %u: %s\n", number, yws_message(number));
        return 1;
    }
    yws_sheet_open(file, length, &reader);
    while (yws_sheet_next(file, length, &reader, record, refusal) == YWS_OK)
        if (record[YWS_ANY_RECORD] == YWS_RECORD_DRUG) drug(record);
    return 0;
}
