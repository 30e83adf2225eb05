/* Holds messages/yawsimbel_messages.c against the header: each result that it names (results.h, drawn from it: a line `RESULT(NAME)` each) has a line of
 * English and one of Japanese, of its own, and no other number has any. */
#include "yawsimbel.h"

#include <stdio.h>
#include <string.h>

#define RESULT(name) {name, #name},

static const struct {
    uint16_t number;
    const char *name;
} results[] = {
#include "results.h"
};

enum { RESULTS = sizeof results / sizeof results[0], MOST = 160 /* bytes of a line */ };

static unsigned broken;

static void hold(int so, const char *what, unsigned number) {
    if (so) return;
    broken++;
    printf("%u: %s\n", number, what);
}

static int named(unsigned number) {
    for (unsigned i = 0; i < RESULTS; i++)
        if (results[i].number == number) return 1;
    return 0;
}

/* One line of printable ASCII. */
static int english(const char *s) {
    if (*s == 0 || strlen(s) > MOST) return 0;
    for (; *s != 0; s++)
        if (*s < ' ' || *s > '~') return 0;
    return 1;
}

/* The bytes of a character of UTF-8 from U+0080 up to U+FFFF, which is all that Japanese needs here; 1 for printable ASCII, 0 for anything else. */
static int character(const unsigned char *s) {
    if (s[0] >= ' ' && s[0] <= '~') return 1;
    if (s[0] >= 0xC2 && s[0] <= 0xDF && (s[1] & 0xC0) == 0x80) return 2;
    if (s[0] < 0xE0 || s[0] > 0xEF || (s[1] & 0xC0) != 0x80 || (s[2] & 0xC0) != 0x80) return 0;
    return s[0] != 0xE0 || s[1] >= 0xA0 ? 3 : 0;
}

/* One line of UTF-8 with kana or kanji in it, which have three bytes. */
static int japanese(const char *s) {
    int wide = 0;
    if (strlen(s) > MOST) return 0;
    for (int width; *s != 0; s += width) {
        width = character((const unsigned char *) s);
        if (width == 0) return 0;
        wide |= width == 3;
    }
    return wide;
}

int main(void) {
    hold(strcmp(yws_version(), YWS_VERSION) == 0, "not the header's version", 0);
    for (unsigned number = 0; number <= 65535; number++) {
        const char *en = yws_message((uint16_t) number), *ja = yws_message_ja((uint16_t) number);
        if (named(number)) {
            hold(english(en), "no line of English", number);
            hold(japanese(ja), "no line of Japanese", number);
        } else {
            hold(*en == 0 && *ja == 0, "a line for a number that no function returns", number);
        }
    }
    for (unsigned i = 0; i < RESULTS; i++)
        for (unsigned j = 0; j < i; j++) {
            uint16_t a = results[i].number, b = results[j].number;
            hold(a != b, "two names", a);
            hold(strcmp(yws_message(a), yws_message(b)) != 0 && strcmp(yws_message_ja(a), yws_message_ja(b)) != 0, "a line of another's", a);
        }
    printf("%u results, %u faults: %s\n", (unsigned) RESULTS, broken, broken == 0 ? "messages passed" : "messages failed");
    return broken != 0;
}
