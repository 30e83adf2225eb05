/* Throws bytes at the library and checks what must hold of any: nothing but what is lent is touched, a refusal leaves what it must, a file that
 * is taken is written back byte for byte, what is written is read as the same, an issue date is the one that is made of its day, and the calendars
 * of an RP agree with each other and with what is said of its sheet.
 *
 * With clang's libFuzzer (-fsanitize=fuzzer) this is its target. Built without it (-DYWS_ALONE) it has a loop of its own that changes the
 * bytes of the files it is given:
 *
 *     fuzz SECONDS SEED FILE...
 *
 * The last file is one of codes rather than a sheet.
 */
#define _DEFAULT_SOURCE
#include "../answerer/lent.h"
#include "yawsimbel.h"

#include <time.h>

static uint8_t *file_end, *out_end;
static const uint8_t *tried;
static size_t tried_length;
static unsigned long taken, sheets_taken, calendars_taken;

static void hold(int so, const char *what) {
    if (so) return;
    printf("FAULT: %s; the input as hex:\n", what);
    for (size_t i = 0; i < tried_length; i++) printf("%02x", tried[i]);
    printf("\n");
    fflush(stdout);
    abort();
}

/* The first numbers that are left over in a usage code and in a state. */
enum { USAGE_LEFT = 25, STATE_LEFT = 11 };

static int all_zero(const uint64_t *numbers, size_t count) {
    while (count > 0)
        if (numbers[--count] != 0) return 0;
    return 1;
}

/* The events with an asterisk in table 8: 31 32 51 52 71, A1 to A9. */
static int starred(uint64_t group, uint64_t event) {
    if (group == YWS_USAGE_EVENT_GROUP_CIRCULATION || group == YWS_USAGE_EVENT_GROUP_KIDNEY) {
        return event == 1 || event == 2;
    }
    return group == YWS_USAGE_EVENT_GROUP_FEVER ? event == 1 : group == YWS_USAGE_EVENT_GROUP_MEDICAL && event >= 1 && event <= 9;
}

/* They stand with 0 2 4 5 6 7, every other event with 0; of a code without an event both are 0. */
static int conditioned(const uint64_t *numbers) {
    uint64_t condition = numbers[YWS_USAGE_CONDITION];
    int six = condition == 0 || condition == 2 || (condition >= 4 && condition <= 7);
    return starred(numbers[YWS_USAGE_EVENT_GROUP], numbers[YWS_USAGE_EVENT]) ? six : condition == 0;
}

static void codes(const uint8_t *bytes, size_t length) {
    uint64_t numbers[YWS_LEN_USAGE], place;
    memset(numbers, UNTOUCHED, sizeof numbers);
    uint16_t number = yws_usage_read(bytes, length, numbers, &place);
    hold(number <= 9 && place <= 16, "usage code: no such refusal");
    if (number == 0) {
        uint8_t code[YWS_LEN_USAGE_CODE];
        hold(place == 0 && length == 16, "usage code: taken with a place or a length");
        hold(all_zero(numbers + USAGE_LEFT, YWS_LEN_USAGE - USAGE_LEFT), "usage code: what is left over");
        hold(yws_usage_write(numbers, code) == 0 && memcmp(code, bytes, 16) == 0, "usage code: not written back");
        hold(conditioned(numbers), "usage code: an event with a condition that it may not have");
        taken++;
    } else {
        hold(all_untouched((uint8_t *) numbers, sizeof numbers), "usage code: refused, yet numbers written");
    }
    memset(numbers, UNTOUCHED, sizeof numbers);
    number = yws_supplement_read(bytes, length, numbers, &place);
    hold(number <= 9 && place <= 8, "supplementary code: no such refusal");
    if (number == 0) {
        uint8_t code[YWS_LEN_SUPPLEMENT_CODE];
        hold(place == 0 && length == 8, "supplementary code: taken with a place or a length");
        hold(yws_supplement_write(numbers, code) == 0 && memcmp(code, bytes, 8) == 0, "supplementary code: not written back");
        hold(all_untouched((uint8_t *) (numbers + YWS_LEN_SUPPLEMENT), sizeof numbers - 8 * YWS_LEN_SUPPLEMENT), "supplementary code: past its numbers");
        taken++;
    } else {
        hold(all_untouched((uint8_t *) numbers, sizeof numbers), "supplementary code: refused, yet numbers written");
    }
}

static void run(uint8_t issue, const uint8_t *bytes, size_t length) {
    uint32_t days[YWS_LEN_DAYS];
    uint64_t refusal[YWS_LEN_RUN_REFUSAL], count;
    memset(days, UNTOUCHED, sizeof days);
    uint16_t number = yws_run_read(issue, bytes, length, days, refusal);
    if (number != 0) {
        hold(number <= 12 && number != 11, "run: no such refusal");
        hold(all_untouched((uint8_t *) days, sizeof days), "run: refused, yet days written");
        return;
    }
    uint8_t *out = out_end - length;
    hold(length <= YWS_MOST_RUN, "run: longer than any");
    hold(yws_set_write(issue, days, out, length, &count) == 0 && 8 * count == length, "run: its set is written otherwise");
    hold(memcmp(out, bytes, length) == 0, "run: not written back");
    memset(out + 1, UNTOUCHED, length - 1);
    count = 77;
    hold(yws_set_write(issue, days, out + 1, length - 1, &count) == YWS_ERR_ROOM && count == 77, "set: room");
    hold(all_untouched(out + 1, length - 1), "set: no room, yet written");
    taken++;
}

/* Each day lies in one era: a date that was read is the one that is made of its day in its style, with the same characters. */
static void issue_date(const uint64_t date[YWS_LEN_DATE], const uint8_t *characters) {
    uint64_t made[YWS_LEN_DATE];
    uint8_t text[YWS_LEN_DATE_TEXT];
    int western = date[YWS_DATE_ERA] == YWS_DATE_ERA_WESTERN;
    uint16_t number = yws_date_make((uint16_t) date[YWS_DATE_YEAR], (uint8_t) date[YWS_DATE_MONTH], (uint8_t) date[YWS_DATE_DAY],
                                    western ? YWS_DATE_STYLE_WESTERN : YWS_DATE_STYLE_ERA, made, text);
    hold(number == YWS_OK && memcmp(made, date, sizeof made) == 0, "issue date: made otherwise than read");
    hold(memcmp(text, characters, western ? 8 : 7) == 0, "issue date: its characters are made otherwise");
}

static void sheet(const uint8_t *file, size_t length) {
    static uint8_t before[YWS_MOST_FILE + 8];
    uint64_t records = 77, refusal[YWS_LEN_REFUSAL], told[YWS_LEN_REFUSAL], own, record[YWS_LEN_RECORD];
    struct yws_reader reader, reader_before;
    struct yws_writer writer = {{0}}, writer_before;
    uint16_t number = yws_sheet_check(file, length, &records, refusal);
    hold(number == 0 || (number >= 20 && number <= 32 && records == 77), "sheet: refused with a count or no such number");
    hold(refusal[YWS_REFUSAL_OFFSET] <= length, "sheet: a place outside the file");
    size_t room = length < YWS_MOST_FILE ? length : YWS_MOST_FILE;
    uint8_t *out = out_end - room;
    memset(out, UNTOUCHED, room);
    const uint64_t *written = &writer.state[YWS_STATE_AT], *writing = &writer.state[YWS_STATE_OPEN], *at = &reader.state[YWS_STATE_AT];
    uint16_t opened = yws_writer_open(out, room, &writer);
    hold(opened == YWS_OK ? *writing == YWS_STATE_OPEN_NOW : *written == 0 && *writing == YWS_STATE_OPEN_NEVER, "writer: its state after opening");
    yws_sheet_open(file, length, &reader);
    uint64_t read = 0;
    for (;;) {
        reader_before = reader;
        uint16_t next = yws_sheet_next(file, length, &reader, record, told);
        if (next != 0) {
            hold(next == (number == 0 ? YWS_END : number), "sheet: the reader and the check differ");
            hold(memcmp(told, refusal, sizeof told) == 0, "sheet: their places differ");
            hold(memcmp(&reader_before, &reader, sizeof reader) == 0, "sheet: a refusal moved the reader");
            break;
        }
        read++;
        hold(*at > reader_before.state[YWS_STATE_AT] && *at < length, "sheet: the place does not rise");
        hold(all_zero(reader.state + STATE_LEFT, YWS_LEN_STATE - STATE_LEFT), "sheet: what is left over of the reader's state");
        if (record[YWS_ANY_RECORD] == YWS_RECORD_ISSUE) issue_date(record + YWS_ISSUE_DATE, file + reader_before.state[YWS_STATE_AT] + strlen("51,"));
        /* A file cut short may leave too little room for the closing byte, then the record is refused for that and nothing is written. */
        memcpy(before, out, room);
        writer_before = writer;
        uint16_t put = yws_writer_put(out, room, &writer, record, file, length, &own);
        if (put != 0) {
            hold(number != 0 && put == (opened == 0 ? YWS_ERR_ROOM : YWS_ERR_RECORD), "sheet: a record that was read cannot be put");
            hold(memcmp(before, out, room) == 0 && memcmp(&writer_before, &writer, sizeof writer) == 0, "sheet: a refused record was written");
            return;
        }
        hold(*written == *at && memcmp(out, file, *written) == 0, "sheet: a record is written otherwise");
        hold(all_zero(writer.state + STATE_LEFT, YWS_LEN_STATE - STATE_LEFT), "sheet: what is left over of the writer's state");
    }
    if (number != 0) return;
    hold(records == read + 1, "sheet: the count of records");
    hold(yws_writer_close(out, room, &writer, &own) == YWS_OK && *written == length, "sheet: not closed");
    hold(memcmp(out, file, length) == 0, "sheet: not written back");
    hold(yws_writer_close(out, room, &writer, &own) == YWS_ERR_RECORD && own == YWS_ERR_ORDER, "sheet: closed twice");
    sheets_taken++;
}

/* Numbers that follow from the input: its bytes, mixed, begin them. */
static uint64_t mixed;

static void mix(const uint8_t *bytes, size_t length) {
    mixed = UINT64_C(0xcbf29ce484222325);
    for (size_t i = 0; i < length; i++) mixed = (mixed ^ bytes[i]) * UINT64_C(0x100000001b3);
}

static uint32_t draw(uint32_t bound) {
    mixed = mixed * UINT64_C(6364136223846793005) + UINT64_C(1442695040888963407);
    return (uint32_t) (mixed >> 33) % bound;
}

/* What is asked of a calendar. */
struct asked {
    uint32_t rp, year, month, day, days;
    int at_issue; /* the start is the issue date itself */
};

static uint8_t rps[1000]; /* 1 for each RP number that a sheet has */

/* An RP of the sheet and days about its issue date, and now and then any numbers. */
static struct asked drawn_question(const uint8_t *file, size_t length) {
    struct asked a = {1, 2018, 7, 2, 1, 0};
    struct yws_reader reader = {{0}};
    uint64_t record[YWS_LEN_RECORD], refusal[YWS_LEN_REFUSAL];
    uint32_t count = 0;
    memset(rps, 0, sizeof rps);
    yws_sheet_open(file, length, &reader);
    while (yws_sheet_next(file, length, &reader, record, refusal) == YWS_OK) {
        if (record[YWS_ANY_RECORD] == YWS_RECORD_ISSUE) {
            a.year = (uint32_t) record[YWS_ISSUE_YEAR];
            a.month = (uint32_t) record[YWS_ISSUE_MONTH];
            a.day = (uint32_t) record[YWS_ISSUE_DAY];
        }
        if (record[YWS_ANY_RECORD] == YWS_RECORD_RP) {
            rps[record[YWS_RP_NUMBER]] = 1;
            if (draw(++count) == 0) a.rp = (uint32_t) record[YWS_RP_NUMBER];
        }
    }
    if (draw(8) == 0) a.rp = draw(2) == 0 ? draw(1002) : a.rp + (draw(2) == 0 ? 256 : 65536);
    switch (draw(6)) {
    case 0: a.at_issue = 1; break;
    case 1: a.day += draw(3) - 1; break;
    case 2:
        a.year = 1866 + draw(236);
        a.month = draw(14);
        a.day = draw(33);
        break;
    case 3: a.month += UINT32_C(1) << draw(32); break;
    default:
        a.year += draw(3);
        a.month = 1 + draw(12);
        a.day = 1 + draw(31);
    }
    a.days = draw(8) == 0 ? UINT32_MAX >> draw(32) : draw(8) == 0 ? 365 + draw(4) : 1 + draw(366);
    return a;
}

/* The times a day that an RP's records fix; 0 where they fix none: without a code, as needed, about so many or a range, or so often in a period. */
static uint64_t fixed_times(const uint8_t *file, size_t length, uint32_t rp) {
    struct yws_reader reader = {{0}};
    uint64_t record[YWS_LEN_RECORD], refusal[YWS_LEN_REFUSAL], times = 0;
    const uint64_t *usage = record + YWS_DIRECTIONS_CODE, *supplement = record + YWS_EXTRA_CODE;
    yws_sheet_open(file, length, &reader);
    while (yws_sheet_next(file, length, &reader, record, refusal) == YWS_OK) {
        if (record[YWS_ANY_RECORD] == YWS_RECORD_DIRECTIONS && record[YWS_DIRECTIONS_RP] == rp)
            times = usage[YWS_USAGE_ABOUT] == YWS_USAGE_ABOUT_EXACT ? usage[YWS_USAGE_TIMES] : 0;
        if (record[YWS_ANY_RECORD] == YWS_RECORD_EXTRA && record[YWS_EXTRA_RP] == rp &&
            supplement[YWS_SUPPLEMENT_LETTER] == YWS_SUPPLEMENT_LETTER_COUNT)
            times = 0;
    }
    return times;
}

/* The most doses of a day: hours, and even intervals, are eight at most. */
enum { DOSES_MOST = 8, ROOM_MOST = 400 };

/* A calendar into the last `room` bytes that can be lent: its number, and that all else is as it must be. */
static uint16_t calendar(const uint8_t *file, size_t length, struct asked a, size_t room, uint64_t refusal[YWS_LEN_REFUSAL]) {
    uint8_t *doses = out_end - room, times = 0;
    memset(doses, UNTOUCHED, room);
    memset(refusal, UNTOUCHED, YWS_LEN_REFUSAL * sizeof *refusal);
    uint16_t number = yws_calendar(file, length, a.rp, a.year, a.month, a.day, a.days, doses, room, refusal);
    if (number != YWS_OK) {
        hold(all_untouched(doses, room), "calendar: refused, yet written");
        return number;
    }
    hold(a.days >= 1 && a.days <= YWS_MOST_DAYS && a.days <= room, "calendar: taken with a bad number of days or too little room");
    hold(all_untouched(doses + a.days, room - a.days), "calendar: past its days");
    for (uint32_t i = 0; i < a.days; i++) {
        if (times == 0) times = doses[i];
        hold(doses[i] == 0 || doses[i] == times, "calendar: two numbers of doses");
    }
    hold(times <= DOSES_MOST, "calendar: no such number of doses");
    return number;
}

/* A calendar of the bytes as a sheet, of which the check says this. */
static void one_calendar(const uint8_t *file, size_t length, uint16_t sheet, const uint64_t own[YWS_LEN_REFUSAL]) {
    static uint8_t first[YWS_MOST_DAYS];
    uint64_t refusal[YWS_LEN_REFUSAL];
    struct asked a = drawn_question(file, length);
    size_t room = draw(2) == 0 ? ROOM_MOST : a.days < ROOM_MOST ? a.days + draw(3) - (a.days > 0) : draw(ROOM_MOST);
    uint16_t number = calendar(file, length, a, room, refusal);
    if (sheet != YWS_OK) {
        hold(number == sheet && memcmp(refusal, own, sizeof refusal) == 0, "calendar: not the sheet's own refusal");
        return;
    }
    hold(all_zero(refusal, YWS_LEN_REFUSAL), "calendar: a place, and the sheet is right");
    hold((number == YWS_ERR_NO_RP) == (a.rp >= 1000 || !rps[a.rp]), "calendar: no RP where there is one, or one where there is none");
    switch (number) {
    case YWS_OK: memcpy(first, out_end - room, a.days); break;
    case YWS_ERR_NO_RP: return;
    case YWS_ERR_CALENDAR:
        hold(!a.at_issue || a.days == 0 || a.days > YWS_MOST_DAYS, "calendar: 51 for good days from the issue date on");
        hold(calendar(file, length, a, 0, refusal) == YWS_ERR_CALENDAR, "calendar: 51 goes by the room");
        return;
    case YWS_ERR_DOSES: break;
    case YWS_ERR_ROOM:
        hold(room < a.days, "calendar: no room, yet enough");
        hold(calendar(file, length, a, a.days, refusal) == YWS_OK, "calendar: room for each day is too little");
        memcpy(first, out_end - a.days, a.days);
        break;
    default: hold(0, "calendar: no such number");
    }
    uint64_t times = fixed_times(file, length, a.rp);
    hold((number == YWS_ERR_DOSES) == (times == 0), "calendar: doses that the RP does not fix, or none though it does");
    /* 50 is given for all lengths or none; a longer calendar agrees with a shorter one on the days that they share. */
    struct asked longest = a;
    longest.days = YWS_MOST_DAYS;
    uint16_t again = calendar(file, length, longest, YWS_MOST_DAYS, refusal);
    hold(again == (number == YWS_ERR_DOSES ? YWS_ERR_DOSES : YWS_OK), "calendar: another answer for another length");
    if (again != YWS_OK) return;
    hold(memcmp(first, out_end - YWS_MOST_DAYS, a.days) == 0, "calendar: a longer one differs");
    for (int i = 1; i <= YWS_MOST_DAYS; i++) hold(out_end[-i] == 0 || out_end[-i] == times, "calendar: not the times a day of the RP");
    hold(calendar(file, length, longest, YWS_MOST_DAYS - 1, refusal) == YWS_ERR_ROOM, "calendar: too little room, yet taken");
    calendars_taken++;
}

/* Some calendars of a sheet that is taken, one of any other bytes. */
static void calendars(const uint8_t *file, size_t length) {
    uint64_t records, own[YWS_LEN_REFUSAL];
    uint16_t sheet = yws_sheet_check(file, length, &records, own);
    mix(file, length);
    for (int left = sheet == YWS_OK ? 4 : 1; left > 0; left--) one_calendar(file, length, sheet, own);
}

/* Bytes of chance as a state that no call gave: a call on it returns one of few numbers, and a refusal leaves all as it was. */
static void states(const uint8_t *file, size_t length) {
    uint64_t made[YWS_LEN_STATE] = {0}, record[YWS_LEN_RECORD], refusal[YWS_LEN_REFUSAL], own;
    uint64_t *at = &made[YWS_STATE_AT], *open = &made[YWS_STATE_OPEN];
    struct yws_reader reader;
    struct yws_writer writer;
    for (size_t i = 0; i < 2 * YWS_LEN_STATE && i < length; i++) made[i / 2] = made[i / 2] << 8 | file[length - 1 - i];
    for (uint64_t second = 0; second < 3; second++) {
        if (second < 2) *open = second; /* none, one that is open, and then any */
        memcpy(reader.state, made, sizeof made);
        uint16_t number = yws_sheet_next(file, length, &reader, record, refusal);
        hold(number == 0 || number == YWS_END || (number >= 20 && number <= 32), "state: no such number");
        hold(number == 0 || memcmp(reader.state, made, sizeof made) == 0, "state: a refusal moved the reader");
        hold(number != YWS_END || (*open == YWS_STATE_OPEN_NOW && *at < length && file[*at] == 0x1a), "state: the end, and no 1Ah");
        hold(*open != YWS_STATE_OPEN_NEVER || (number == YWS_ERR_ORDER && refusal[YWS_REFUSAL_OFFSET] == *at), "state: read, yet never opened");
        uint8_t *out = out_end - 300;
        memset(out, UNTOUCHED, 300);
        memcpy(writer.state, made, sizeof made);
        memset(record, 0, sizeof record);
        record[YWS_ANY_RECORD] = YWS_RECORD_CLINIC;
        number = yws_writer_put(out, 300, &writer, record, file, length, &own);
        hold(*open == YWS_STATE_OPEN_NOW || (number == YWS_ERR_RECORD && own == YWS_ERR_ORDER), "state: put, yet not open");
        hold(number == 0 || memcmp(writer.state, made, sizeof made) == 0, "state: a refusal moved the writer");
        hold(number == 0 || all_untouched(out, 300), "state: refused, yet written");
        memcpy(writer.state, made, sizeof made);
        number = yws_writer_close(out, 300, &writer, &own);
        hold(*open == YWS_STATE_OPEN_NOW || (number == YWS_ERR_RECORD && own == YWS_ERR_ORDER), "state: closed, yet not open");
        hold(number == 0 || memcmp(writer.state, made, sizeof made) == 0, "state: a refusal closed the writer");
    }
}

/* Numbers of chance as a code or a record: whatever is written must be read as the same. */
static void numbers(const uint8_t *bytes, size_t length) {
    uint64_t n[YWS_LEN_RECORD] = {0}, back[YWS_LEN_RECORD], place;
    uint8_t code[YWS_LEN_USAGE_CODE];
    for (size_t i = 0; i < YWS_LEN_RECORD && i < length; i++) n[i] = bytes[i];
    if (yws_usage_write(n, code) == 0)
        hold(yws_usage_read(code, 16, back, &place) == 0 && memcmp(n, back, 8 * USAGE_LEFT) == 0, "numbers: not read back as a usage code");
    if (yws_supplement_write(n, code) == 0)
        hold(yws_supplement_read(code, 8, back, &place) == 0 && memcmp(n, back, 8 * YWS_LEN_SUPPLEMENT) == 0, "numbers: not read back as a supplement");
    struct yws_writer writer;
    const uint64_t *written = &writer.state[YWS_STATE_AT];
    uint64_t own;
    uint8_t *out = out_end - 300;
    hold(yws_writer_open(out, 300, &writer) == YWS_OK && *written == 8, "writer: not opened");
    uint16_t put = yws_writer_put(out, 300, &writer, n, bytes, length, &own);
    hold(put == 0 || put == YWS_ERR_ROOM || put == YWS_ERR_RECORD, "writer: no such refusal");
    hold(put == 0 ? *written > 8 && *written < 300 : *written == 8, "writer: its place");
}

int LLVMFuzzerTestOneInput(const uint8_t *data, size_t size);

int LLVMFuzzerTestOneInput(const uint8_t *data, size_t size) {
    if (file_end == NULL) {
        file_end = lent_end();
        out_end = lent_end();
    }
    if (size > LENT_MOST) return 0;
    uint8_t *file = file_end - size;
    memcpy(file, data, size);
    tried = data;
    tried_length = size;
    sheet(file, size);
    calendars(file, size);
    states(file, size);
    if (size <= 1024) {
        codes(file, size);
        numbers(file, size);
        unsigned sum = 0;
        for (size_t i = 0; i < size; i++) sum += file[i];
        run((uint8_t) (sum % 14), file, size);
    }
    hold(memcmp(file, data, size) == 0, "bytes that were lent to be read have changed");
    return 0;
}

#ifdef YWS_ALONE
static uint64_t seed;

static uint64_t any(void) {
    seed ^= seed << 13;
    seed ^= seed >> 7;
    seed ^= seed << 17;
    return seed;
}

static size_t below(size_t bound) { return (size_t) (any() % bound); }

#define MOST 65536 /* bytes of a file given */

struct bytes {
    uint8_t *at;
    size_t length;
};

/* One change: a byte, a piece of this or of another file, an end. */
static size_t change(uint8_t *b, size_t length, struct bytes other) {
    static const uint8_t odd[] = {0, 9, 10, 13, 26, 31, 32, 44, 48, 49, 56, 57, 65, 127, 128, 129, 160, 240, 255};
    size_t at = below(length + 1), piece = below(24);
    switch (below(8)) {
    case 0:
        if (at < length) b[at] = (uint8_t) any();
        break;
    case 1:
        if (at < length) b[at] = odd[below(sizeof odd)];
        break;
    case 2:
        if (at < length) b[at] ^= (uint8_t) (1u << below(8));
        break;
    case 3:
        if (length + 1 < MOST) {
            memmove(b + at + 1, b + at, length - at);
            b[at] = odd[below(sizeof odd)];
            length++;
        }
        break;
    case 4:
        if (at + piece <= length) {
            memmove(b + at, b + at + piece, length - at - piece);
            length -= piece;
        }
        break;
    case 5: /* Digits and letters one up or down keep a code nearly a code. */
        if (at < length) b[at] = (uint8_t) (b[at] + (below(2) ? 1 : 255));
        break;
    case 6: {
        size_t from = below(other.length + 1);
        if (piece > other.length - from) piece = other.length - from;
        if (length + piece < MOST) {
            memmove(b + at + piece, b + at, length - at);
            memcpy(b + at, other.at + from, piece);
            length += piece;
        }
        break;
    }
    default: /* A whole line again. */
    {
        size_t from = at, to = at;
        while (from > 0 && b[from - 1] != '\n') from--;
        while (to < length && b[to] != '\n') to++;
        if (to < length && length + (to + 1 - from) < MOST) {
            size_t line = to + 1 - from;
            memmove(b + to + 1 + line, b + to + 1, length - to - 1);
            memcpy(b + to + 1, b + from, line);
            length += line;
        }
    }
    }
    return length;
}

static int parts(uint8_t c) { return c == ' ' || c == ',' || c == '\r' || c == '\n'; }

/* What stands between two places where a file parts. */
static struct bytes word_of(struct bytes file) {
    size_t from = below(file.length + 1);
    while (from < file.length && !parts(file.at[from])) from++;
    while (from < file.length && parts(file.at[from])) from++;
    size_t to = from;
    while (to < file.length && !parts(file.at[to])) to++;
    return (struct bytes){file.at + from, to - from};
}

static struct bytes whole_file(const char *name) {
    static uint8_t b[MOST];
    FILE *f = fopen(name, "rb");
    if (f == NULL) {
        perror(name);
        exit(2);
    }
    struct bytes read = {NULL, fread(b, 1, sizeof b, f)};
    fclose(f);
    read.at = malloc(MOST);
    if (read.at == NULL) exit(2);
    memcpy(read.at, b, read.length);
    return read;
}

int main(int words, char **word) {
    if (words < 4) {
        fprintf(stderr, "usage: fuzz SECONDS SEED FILE...\n");
        return 2;
    }
    double seconds = atof(word[1]);
    seed = strtoull(word[2], NULL, 10) | 1;
    size_t count = (size_t) words - 3;
    /* The files as they are given, which stay, and as many that come after them. */
    struct bytes *corpus = calloc(2 * count, sizeof *corpus);
    if (corpus == NULL) return 2;
    for (size_t i = 0; i < 2 * count; i++) corpus[i] = whole_file(word[i % count + 3]);
    static uint8_t b[MOST];
    struct timespec start, now;
    clock_gettime(CLOCK_MONOTONIC, &start);
    unsigned long tries = 0;
    for (;;) {
        if (tries % 64 == 0) {
            clock_gettime(CLOCK_MONOTONIC, &now);
            if ((double) (now.tv_sec - start.tv_sec) + 1e-9 * (double) (now.tv_nsec - start.tv_nsec) >= seconds) break;
        }
        struct bytes from = corpus[below(2 * count)];
        /* Half are whole files, half are fields or words, which may be codes and runs. */
        if (below(2) == 0) from = word_of(below(2) ? from : corpus[count - 1]);
        size_t length = from.length;
        memcpy(b, from.at, length);
        for (size_t changes = below(5); changes > 0; changes--) length = change(b, length, corpus[below(2 * count)]);
        unsigned long before = sheets_taken;
        LLVMFuzzerTestOneInput(b, length);
        /* A changed sheet that is taken is a start for others. */
        if (sheets_taken > before && length > 0 && below(8) == 0) {
            size_t slot = count + below(count);
            memcpy(corpus[slot].at, b, length);
            corpus[slot].length = length;
        }
        tries++;
    }
    printf("%lu inputs in %.0f s from seed %s, %lu sheets, %lu calendars and %lu codes and runs taken, 0 faults\n", tries, seconds, word[2],
           sheets_taken, calendars_taken, taken);
    return 0;
}
#endif
