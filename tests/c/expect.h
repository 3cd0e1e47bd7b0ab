/*
 * What the C tests are written with: expectations that are counted, bytes written in hexadecimal,
 * and lent memory that ends where the process's memory ends, so that a byte read or written past
 * its length stops the program. Each test program includes this file once.
 */
#ifndef EXPECT_H
#define EXPECT_H

#include <stdint.h>
#include <stdio.h>
#include <stdlib.h>
#include <string.h>
#include <sys/mman.h>
#include <unistd.h>

/* How many expectations there were, and how many did not hold. */
static unsigned long expected, unmet;

/* Expects that something holds. */
static inline void expect(int holds, const char *what)
{
    expected++;
    if (!holds) {
        unmet++;
        printf("unmet: %s\n", what);
    }
}

/* Expects a number. */
static inline void expect_number(uint64_t got, uint64_t wanted, const char *what)
{
    expected++;
    if (got != wanted) {
        unmet++;
        printf("unmet: %s: %llu (%llXh), not %llu (%llXh)\n", what, (unsigned long long)got,
               (unsigned long long)got, (unsigned long long)wanted, (unsigned long long)wanted);
    }
}

/* Says how it went; the exit status of a test program. */
static inline int expectations_met(const char *program)
{
    printf("%s: %lu expectations, %lu unmet\n", program, expected, unmet);
    return unmet == 0 && expected != 0 ? 0 : 1;
}

/* Lent bytes. After them comes a page that may not be touched. */
struct lent {
    uint8_t *bytes;
    size_t length;
    void *pages;
    size_t pages_length;
};

/* Lends memory of a length, every byte of it 5Ah. */
static inline struct lent lend(size_t length)
{
    size_t page = (size_t)sysconf(_SC_PAGESIZE);
    size_t inside = (length + page - 1) / page * page;
    struct lent lent;

    lent.length = length;
    lent.pages_length = inside + page;
    lent.pages = mmap(NULL, lent.pages_length, PROT_READ | PROT_WRITE, MAP_PRIVATE | MAP_ANONYMOUS,
                      -1, 0);
    if (lent.pages == MAP_FAILED ||
        mprotect((uint8_t *)lent.pages + inside, page, PROT_NONE) != 0) {
        perror("lend");
        exit(1);
    }
    lent.bytes = (uint8_t *)lent.pages + inside - length;
    memset(lent.bytes, 0x5A, length);
    return lent;
}

/* Gives lent memory back. */
static inline void give_back(struct lent lent)
{
    munmap(lent.pages, lent.pages_length);
}

/* Lends a copy of bytes. */
static inline struct lent lend_copy(const uint8_t *bytes, size_t length)
{
    struct lent lent = lend(length);

    if (length != 0) {
        memcpy(lent.bytes, bytes, length);
    }
    return lent;
}

/* Lends bytes written in hexadecimal: two digits each, with spaces wherever they help. */
static inline struct lent lend_hex(const char *hex)
{
    size_t length = 0, i;
    const char *at;
    struct lent lent;

    for (at = hex; *at != '\0'; at++) {
        length += *at != ' ';
    }
    lent = lend(length / 2);
    at = hex;
    for (i = 0; i < lent.length; i++) {
        char digits[3] = {0, 0, 0};
        char *end;

        while (*at == ' ') {
            at++;
        }
        digits[0] = at[0];
        digits[1] = at[1];
        lent.bytes[i] = (uint8_t)strtoul(digits, &end, 16);
        if (end != digits + 2) {
            printf("not hexadecimal: %s\n", hex);
            exit(1);
        }
        at += 2;
    }
    return lent;
}

/* Whether two lent memories hold the same bytes. */
static inline int same_bytes(struct lent a, struct lent b)
{
    return a.length == b.length && (a.length == 0 || memcmp(a.bytes, b.bytes, a.length) == 0);
}

/* Whether every byte from a place on has one value. */
static inline int all_are(struct lent lent, size_t from, uint8_t byte)
{
    size_t i;

    for (i = from; i < lent.length; i++) {
        if (lent.bytes[i] != byte) {
            return 0;
        }
    }
    return 1;
}

#endif
