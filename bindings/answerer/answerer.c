/* Answers questions to the library, from standard input to standard output, until the input ends.
 *
 * The library may be another processor's code than what it is compared with, so the two meet over a pipe: this side may run under an emulator.
 *
 * A question is one byte that says what is asked, the length of what follows in four bytes, and that. An answer is its length in four bytes,
 * and all that the call returned, in two bytes, and wrote. Numbers have their lowest byte first. What a call is to write is filled with a
 * pattern before it and answered whole, so that an answer also shows what a refusal left alone.
 */
#define _DEFAULT_SOURCE
#include "lent.h"
#include "yawsimbel.h"

static uint8_t answer[4u << 20];
static size_t answered;
static uint8_t *question_end, *out_end, *text_end;

static void stop(const char *why) {
    fprintf(stderr, "answerer: %s\n", why);
    exit(2);
}

static void say(const void *bytes, size_t length) {
    if (length > sizeof answer - answered) stop("answer too long");
    memcpy(answer + answered, bytes, length);
    answered += length;
}

static void say_byte(unsigned n) {
    uint8_t byte = (uint8_t) n;
    say(&byte, 1);
}

/* What a call returned. */
static void say_returned(uint16_t number) {
    say_byte(number & 255u);
    say_byte(number >> 8);
}

static void say_numbers(const uint64_t *numbers, size_t count) {
    uint8_t bytes[8];
    for (size_t i = 0; i < count; i++) {
        for (int b = 0; b < 8; b++) bytes[b] = (uint8_t) (numbers[i] >> (8 * b));
        say(bytes, 8);
    }
}

static uint64_t number_at(const uint8_t *bytes, int length) {
    uint64_t n = 0;
    for (int b = length - 1; b >= 0; b--) n = n << 8 | bytes[b];
    return n;
}

/* Fixed parts of a question, taken from its front. */
struct question {
    const uint8_t *bytes;
    size_t length;
};

static const uint8_t *take(struct question *q, size_t length) {
    if (q->length < length) stop("question too short");
    const uint8_t *bytes = q->bytes;
    q->bytes += length;
    q->length -= length;
    return bytes;
}

static uint64_t take_number(struct question *q, int length) { return number_at(take(q, (size_t) length), length); }

static void usage_read(struct question q) {
    uint64_t numbers[YWS_LEN_USAGE], place;
    memset(numbers, UNTOUCHED, sizeof numbers);
    memset(&place, UNTOUCHED, sizeof place);
    uint16_t number = yws_usage_read(q.bytes, q.length, numbers, &place);
    say_returned(number);
    say_numbers(&place, 1);
    say_numbers(numbers, YWS_LEN_USAGE);
}

static void usage_write(struct question q) {
    uint64_t numbers[YWS_LEN_USAGE];
    uint8_t *code = out_end - YWS_LEN_USAGE_CODE;
    for (int i = 0; i < YWS_LEN_USAGE; i++) numbers[i] = take_number(&q, 8);
    memset(code, UNTOUCHED, YWS_LEN_USAGE_CODE);
    say_returned(yws_usage_write(numbers, code));
    say(code, YWS_LEN_USAGE_CODE);
}

static void supplement_read(struct question q) {
    uint64_t numbers[YWS_LEN_SUPPLEMENT], place;
    memset(numbers, UNTOUCHED, sizeof numbers);
    memset(&place, UNTOUCHED, sizeof place);
    uint16_t number = yws_supplement_read(q.bytes, q.length, numbers, &place);
    say_returned(number);
    say_numbers(&place, 1);
    say_numbers(numbers, YWS_LEN_SUPPLEMENT);
}

static void supplement_write(struct question q) {
    uint64_t numbers[YWS_LEN_SUPPLEMENT];
    uint8_t *code = out_end - YWS_LEN_SUPPLEMENT_CODE;
    for (int i = 0; i < YWS_LEN_SUPPLEMENT; i++) numbers[i] = take_number(&q, 8);
    memset(code, UNTOUCHED, YWS_LEN_SUPPLEMENT_CODE);
    say_returned(yws_supplement_write(numbers, code));
    say(code, YWS_LEN_SUPPLEMENT_CODE);
}

static void run_read(struct question q) {
    uint8_t issue = *take(&q, 1);
    uint32_t days[YWS_LEN_DAYS];
    uint64_t refusal[YWS_LEN_RUN_REFUSAL];
    memset(days, UNTOUCHED, sizeof days);
    memset(refusal, UNTOUCHED, sizeof refusal);
    say_returned(yws_run_read(issue, q.bytes, q.length, days, refusal));
    say_numbers(refusal, YWS_LEN_RUN_REFUSAL);
    for (int i = 0; i < YWS_LEN_DAYS; i++) say_numbers(&(uint64_t){days[i]}, 1);
}

static void set_write(struct question q) {
    uint8_t issue = *take(&q, 1);
    uint32_t days[YWS_LEN_DAYS];
    for (int i = 0; i < YWS_LEN_DAYS; i++) days[i] = (uint32_t) take_number(&q, 4);
    size_t room = take_number(&q, 4);
    if (room > LENT_MOST) stop("too much room asked for");
    uint8_t *out = out_end - room;
    uint64_t count;
    memset(out, UNTOUCHED, room);
    memset(&count, UNTOUCHED, sizeof count);
    say_returned(yws_set_write(issue, days, out, room, &count));
    say_numbers(&count, 1);
    say(out, room);
}

static void date_make(struct question q) {
    uint16_t year = (uint16_t) take_number(&q, 2);
    uint8_t month = *take(&q, 1), day = *take(&q, 1), style = *take(&q, 1);
    uint64_t numbers[YWS_LEN_DATE];
    uint8_t *text = out_end - YWS_LEN_DATE_TEXT;
    memset(numbers, UNTOUCHED, sizeof numbers);
    memset(text, UNTOUCHED, YWS_LEN_DATE_TEXT);
    say_returned(yws_date_make(year, month, day, style, numbers, text));
    say_numbers(numbers, YWS_LEN_DATE);
    say(text, YWS_LEN_DATE_TEXT);
}

static void sheet_check(struct question q) {
    uint64_t records, refusal[YWS_LEN_REFUSAL];
    memset(&records, UNTOUCHED, sizeof records);
    memset(refusal, UNTOUCHED, sizeof refusal);
    say_returned(yws_sheet_check(q.bytes, q.length, &records, refusal));
    say_numbers(&records, 1);
    say_numbers(refusal, YWS_LEN_REFUSAL);
}

/* The first number of a state that is left over. */
enum { STATE_LEFT = 11 };

/* Where a state is, and what is left over of it. */
static void say_state(const uint64_t state[YWS_LEN_STATE]) {
    say_numbers(state + YWS_STATE_AT, 1);
    say_numbers(state + STATE_LEFT, YWS_LEN_STATE - STATE_LEFT);
}

/* Every record of a sheet with the place after it, then the end or the refusal; and whether the reader stays there and says it again. */
static void sheet_records(struct question q) {
    struct yws_reader reader, before;
    uint64_t record[YWS_LEN_RECORD], refusal[YWS_LEN_REFUSAL], again[YWS_LEN_REFUSAL];
    say_returned(yws_sheet_open(q.bytes, q.length, &reader));
    for (;;) {
        memset(record, UNTOUCHED, sizeof record);
        memset(refusal, UNTOUCHED, sizeof refusal);
        before = reader;
        uint16_t number = yws_sheet_next(q.bytes, q.length, &reader, record, refusal);
        say_returned(number);
        say_numbers(refusal, YWS_LEN_REFUSAL);
        say_numbers(record, YWS_LEN_RECORD);
        if (number == YWS_OK) {
            say_state(reader.state);
            continue;
        }
        int same = memcmp(&before, &reader, sizeof reader) == 0;
        memset(again, UNTOUCHED, sizeof again);
        same = same && yws_sheet_next(q.bytes, q.length, &reader, record, again) == number;
        same = same && memcmp(&before, &reader, sizeof reader) == 0 && memcmp(refusal, again, sizeof again) == 0;
        say_byte((unsigned) same);
        return;
    }
}

/* One call of the reader on a state that is handed in, whoever made it. */
static void sheet_next(struct question q) {
    struct yws_reader reader;
    uint64_t record[YWS_LEN_RECORD], refusal[YWS_LEN_REFUSAL];
    for (int i = 0; i < YWS_LEN_STATE; i++) reader.state[i] = take_number(&q, 8);
    memset(record, UNTOUCHED, sizeof record);
    memset(refusal, UNTOUCHED, sizeof refusal);
    uint16_t number = yws_sheet_next(q.bytes, q.length, &reader, record, refusal);
    say_returned(number);
    say_numbers(refusal, YWS_LEN_REFUSAL);
    say_numbers(record, YWS_LEN_RECORD);
    if (number == YWS_OK)
        say_state(reader.state);
    else
        say_numbers(reader.state, YWS_LEN_STATE);
}

/* The doses of an RP, day by day, in some room. */
static void calendar(struct question q) {
    uint32_t rp = (uint32_t) take_number(&q, 4), year = (uint32_t) take_number(&q, 4), month = (uint32_t) take_number(&q, 4);
    uint32_t day = (uint32_t) take_number(&q, 4), days = (uint32_t) take_number(&q, 4);
    size_t room = take_number(&q, 4);
    if (room > LENT_MOST) stop("too much room asked for");
    uint8_t *doses = out_end - room;
    uint64_t refusal[YWS_LEN_REFUSAL];
    memset(doses, UNTOUCHED, room);
    memset(refusal, UNTOUCHED, sizeof refusal);
    say_returned(yws_calendar(q.bytes, q.length, rp, year, month, day, days, doses, room, refusal));
    say_numbers(refusal, YWS_LEN_REFUSAL);
    say(doses, room);
}

/* A writer's room, its state and a copy of both, to see what a refusal left alone. */
struct lent_writer {
    uint8_t *out;
    size_t room;
    struct yws_writer state, state_before;
    uint8_t before[LENT_MOST];
};

static struct lent_writer writer;

static void writer_lend(size_t room) {
    if (room > LENT_MOST) stop("too much room asked for");
    writer.out = out_end - room;
    writer.room = room;
    memset(writer.out, UNTOUCHED, room);
}

/* Where opening is refused, the calls after it are put to a state that no call gave. */
static int writer_open(size_t room) {
    writer_lend(room);
    memset(&writer.state, UNTOUCHED, sizeof writer.state);
    uint16_t number = yws_writer_open(writer.out, room, &writer.state);
    say_returned(number);
    if (number != YWS_OK) say_byte(all_untouched(writer.out, room) && all_untouched((uint8_t *) &writer.state, sizeof writer.state));
    return number == YWS_OK;
}

static void writer_remember(void) {
    memcpy(writer.before, writer.out, writer.room);
    writer.state_before = writer.state;
}

/* A call's number, and the place after it or whether a refusal left all as it was. */
static void writer_say(uint16_t number, uint64_t own) {
    say_returned(number);
    say_numbers(&own, 1);
    if (number == YWS_OK)
        say_state(writer.state.state);
    else
        say_byte(memcmp(writer.before, writer.out, writer.room) == 0 &&
                 memcmp(&writer.state_before, &writer.state, sizeof writer.state) == 0);
}

static uint16_t writer_put(const uint64_t record[YWS_LEN_RECORD], const uint8_t *lent, size_t length) {
    uint64_t own;
    memset(&own, UNTOUCHED, sizeof own);
    writer_remember();
    uint16_t number = yws_writer_put(writer.out, writer.room, &writer.state, record, lent, length, &own);
    writer_say(number, own);
    return number;
}

static void writer_close_once(void) {
    uint64_t own;
    memset(&own, UNTOUCHED, sizeof own);
    writer_remember();
    uint16_t number = yws_writer_close(writer.out, writer.room, &writer.state, &own);
    writer_say(number, own);
}

/* Closes, twice, and says the bytes written and whether those after them were left alone. */
static void writer_close(int opened) {
    writer_close_once();
    writer_close_once();
    if (!opened) return;
    size_t length = writer.state.state[YWS_STATE_AT];
    if (length > writer.room) stop("the place is past the room");
    say_numbers(writer.state.state + YWS_STATE_AT, 1);
    say(writer.out, length);
    say_byte((unsigned) all_untouched(writer.out + length, writer.room - length));
}

/* The records of a sheet, as far as it is taken, put one by one. */
static void sheet_rewrite(struct question q) {
    struct yws_reader reader;
    uint64_t record[YWS_LEN_RECORD], refusal[YWS_LEN_REFUSAL];
    int opened = writer_open(take_number(&q, 4));
    yws_sheet_open(q.bytes, q.length, &reader);
    while (yws_sheet_next(q.bytes, q.length, &reader, record, refusal) == YWS_OK)
        if (writer_put(record, q.bytes, q.length) != YWS_OK) break;
    writer_close(opened);
}

/* Records given as numbers with the bytes of their texts, all of them put, whatever is refused. */
static void puts_in_turn(struct question q) {
    uint64_t record[YWS_LEN_RECORD];
    int opened = writer_open(take_number(&q, 4));
    while (q.length > 0) {
        for (int i = 0; i < YWS_LEN_RECORD; i++) record[i] = take_number(&q, 8);
        size_t length = take_number(&q, 2);
        uint8_t *lent = text_end - length;
        memcpy(lent, take(&q, length), length);
        writer_put(record, lent, length);
    }
    writer_close(opened);
}

/* A record put, and the end, by a writer whose state is handed in, whoever made it; then the whole buffer. */
static void put_and_close(struct question q) {
    uint64_t record[YWS_LEN_RECORD];
    writer_lend(take_number(&q, 4));
    for (int i = 0; i < YWS_LEN_STATE; i++) writer.state.state[i] = take_number(&q, 8);
    for (int i = 0; i < YWS_LEN_RECORD; i++) record[i] = take_number(&q, 8);
    writer_put(record, q.bytes, q.length);
    writer_close_once();
    say(writer.out, writer.room);
}

int main(void) {
    static char to_read[1 << 16], to_write[1 << 16];
    setvbuf(stdin, to_read, _IOFBF, sizeof to_read);
    setvbuf(stdout, to_write, _IOFBF, sizeof to_write);
    question_end = lent_end();
    out_end = lent_end();
    text_end = lent_end();
    uint8_t head[5];
    while (fread(head, 1, sizeof head, stdin) == sizeof head) {
        struct question q = {NULL, number_at(head + 1, 4)};
        if (q.length > LENT_MOST) stop("question too long");
        uint8_t *bytes = question_end - q.length;
        if (fread(bytes, 1, q.length, stdin) != q.length) stop("question cut off");
        q.bytes = bytes;
        answered = 0;
        switch (head[0]) {
        case 'U': usage_read(q); break;
        case 'u': usage_write(q); break;
        case 'S': supplement_read(q); break;
        case 's': supplement_write(q); break;
        case 'R': run_read(q); break;
        case 'r': set_write(q); break;
        case 'D': date_make(q); break;
        case 'C': sheet_check(q); break;
        case 'A': sheet_records(q); break;
        case 'W': sheet_rewrite(q); break;
        case 'P': puts_in_turn(q); break;
        case 'N': sheet_next(q); break;
        case 'K': put_and_close(q); break;
        case 'L': calendar(q); break;
        default: stop("no such question");
        }
        uint8_t length[4];
        for (int b = 0; b < 4; b++) length[b] = (uint8_t) (answered >> (8 * b));
        if (fwrite(length, 1, 4, stdout) != 4 || fwrite(answer, 1, answered, stdout) != answered) stop("cannot answer");
    }
    return fflush(stdout) == 0 ? 0 : 2;
}
