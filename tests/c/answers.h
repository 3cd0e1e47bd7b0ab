/*
 * What the C tests expect of a call's answer, through the functions of a header. Each test program
 * that includes this file is compiled with an edition's header.
 */
#ifndef ANSWERS_H
#define ANSWERS_H

#include <boardid.h>

#include "expect.h"

/* What a call answers: a refusal's number and place, or 0, 0 and a count. */
struct outcome {
    uint32_t number;
    uint64_t place;
    uint32_t count;
};

/* Expects an answer, every bit of it. */
static inline void expect_answer(uint64_t answer, struct outcome outcome, const char *what)
{
    uint64_t wanted = outcome.number != 0 ? (uint64_t)outcome.number << 59 | outcome.place
                                          : (uint64_t)outcome.count << 32;

    expect_number(answer, wanted, what);
    expect_number(boardid_answer_number(answer), outcome.number, what);
    expect_number(boardid_answer_place(answer), outcome.number != 0 ? outcome.place : 0, what);
    expect_number(boardid_answer_count(answer), outcome.count, what);
}

static inline void expect_refused(uint64_t answer, uint32_t number, uint64_t place,
                                  const char *what)
{
    struct outcome outcome = {number, place, 0};

    expect_answer(answer, outcome, what);
}

static inline void expect_count(uint64_t answer, uint32_t count, const char *what)
{
    struct outcome outcome = {0, 0, count};

    expect_answer(answer, outcome, what);
}

/*
 * What this edition answers to a case: the first of the two answers before the edition that brought
 * something new to the format, and the second from it on. To formats 1 to 3 that is edition 2, with
 * more names; format 4 came with edition 3, so that its first answer is 16.
 */
static inline struct outcome outcome_of(uint32_t format, const struct outcome by_edition[2])
{
    return by_edition[BOARDID_EDITION >= (format == 4 ? 3 : 2)];
}

/* Expects that an output holds an image, FFh after it, or nothing new where it was refused. */
static inline void expect_output(struct lent out, struct outcome outcome, const char *hex,
                                 const char *what)
{
    struct lent image = lend_hex(hex);

    if (outcome.number != 0) {
        expect(all_are(out, 0, 0x5A), what);
    } else {
        expect_number(image.length, outcome.count, what);
        expect(image.length <= out.length && memcmp(out.bytes, image.bytes, image.length) == 0,
               what);
        expect(all_are(out, image.length, 0xFF), what);
    }
    give_back(image);
}

#endif
