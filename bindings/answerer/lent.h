/* Memory to lend: it ends where a page begins that may be neither read nor written, so that a function that passes the end of what it
 * was lent stops the program instead of going unseen. */
#ifndef LENT_H
#define LENT_H

#include <stddef.h>
#include <stdint.h>
#include <stdio.h>
#include <stdlib.h>
#include <string.h>
#include <sys/mman.h>
#include <unistd.h>

#define LENT_MOST 131072 /* bytes that can be lent at once */
#define UNTOUCHED 0xA5   /* what memory holds before a call, to see afterwards what the call has left alone */

/* The byte after the last that can be lent. */
static uint8_t *lent_end(void) {
    size_t page = (size_t) sysconf(_SC_PAGESIZE);
    size_t whole = (LENT_MOST + page - 1) / page * page;
    uint8_t *memory = mmap(NULL, whole + page, PROT_READ | PROT_WRITE, MAP_PRIVATE | MAP_ANONYMOUS, -1, 0);
    if (memory == MAP_FAILED || mprotect(memory + whole, page, PROT_NONE) != 0) {
        perror("no memory to lend");
        exit(2);
    }
    return memory + whole;
}

static int all_untouched(const uint8_t *bytes, size_t length) {
    for (size_t i = 0; i < length; i++)
        if (bytes[i] != UNTOUCHED) return 0;
    return 1;
}

#endif
