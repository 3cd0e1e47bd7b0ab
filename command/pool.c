/* pool.c: the strings of a Tiny image's pool. The last byte of a string has its top bit on. */
#include "command.h"

#include <string.h>

/* The place and the length of a string in the pool; false where there is none of that number. */
static bool pool_string(const struct pool *pool, uint32_t number, size_t *place, size_t *length)
{
    size_t begin = 0, i;

    for (i = 0; i < pool->length; i++) {
        if ((pool->bytes[i] & 0x80) != 0) {
            if (number-- == 0) {
                *place = begin;
                *length = i + 1 - begin;
                return true;
            }
            begin = i + 1;
        }
    }
    return false;
}

/* How many bytes at the pool's end belong to no string. */
static size_t pool_rest(const struct pool *pool)
{
    size_t end = pool->length;

    while (end > 0 && (pool->bytes[end - 1] & 0x80) == 0) {
        end--;
    }
    return pool->length - end;
}

/* The number of the first string that is that text; -1: there is none. */
static int pool_find(const struct pool *pool, const uint8_t *bytes, size_t length)
{
    size_t place, found;
    uint32_t number;

    for (number = 0; pool_string(pool, number, &place, &found); number++) {
        if (found == length && memcmp(pool->bytes + place, bytes, length - 1) == 0 &&
            (pool->bytes[place + length - 1] & 0x7F) == bytes[length - 1]) {
            return (int)number;
        }
    }
    return -1;
}

/* The pool of an image, and which entry it is; an empty pool and -1 where there is none. */
void pool_of(const struct image *image, struct pool *pool, int64_t *entry)
{
    const struct boardid_record *last =
        image->count == 0 ? NULL : &image->records[image->count - 1];

    *pool = (struct pool){.length = 0, .taken = -1};
    *entry = -1;
    if (image->format == BOARDID_FORMAT_TINY && last != NULL &&
        last->code == BOARDID_TINY_ASCII_STRINGS) {
        memcpy(pool->bytes, image->bytes + last->value_place, last->value_length);
        pool->length = last->value_length;
        *entry = image->count - 1;
    }
}

/* Which of the entry's bytes count strings: how many at the value's front. -1: it is not known. */
static int counted(uint32_t code)
{
    switch (code) {
    case BOARDID_TINY_SERIAL_NUMBER:
        return 1;
    case BOARDID_TINY_PRODUCT_IDENTITY:
    case BOARDID_TINY_SYSTEM_PRODUCT_IDENTITY:
    case BOARDID_TINY_PRODUCT_IDENTITY_BATCH:
    case BOARDID_TINY_SYSTEM_PRODUCT_IDENTITY_BATCH:
        return 2;
    case BOARDID_TINY_ASCII_STRINGS:
    case BOARDID_TINY_FACTORY_TEST_FLAGS:
    case BOARDID_TINY_BASE_MAC_ADDRESS:
        return 0;
    default:
        return -1;
    }
}

/*
 * Whether anything but one byte of one entry counts a string. An entry whose tag is not known may
 * count any. The tags 80h and 81h count strings in every edition, also in one that names them not.
 */
static bool is_shared(const struct image *image, uint32_t number, int64_t own, int which)
{
    uint32_t n;
    int i;

    for (n = 0; n < image->count; n++) {
        const struct boardid_record *record = &image->records[n];
        const int count = counted(record->code);

        if (count < 0) {
            return true;
        }
        for (i = 0; i < count; i++) {
            if ((n != own || i != which) &&
                image->bytes[record->value_place + (size_t)i] == number) {
                return true;
            }
        }
    }
    return false;
}

/* Puts a string in the place of part of the pool; its last byte has the top bit on. */
static int pool_put(struct job *job, struct pool *pool, size_t place, size_t old,
                    const uint8_t *bytes, size_t length)
{
    const size_t whole = pool->length - old + length;

    if (whole > 255) {
        return refuse(job, STATUS_REFUSED, BOARDID_REFUSED_RULE,
                      "the string pool would have %zu bytes; it has at most 255", whole);
    }
    memmove(pool->bytes + place + length, pool->bytes + place + old, pool->length - place - old);
    memcpy(pool->bytes + place, bytes, length);
    pool->bytes[place + length - 1] |= 0x80;
    pool->length = whole;
    pool->changed = true;
    return STATUS_DONE;
}

/* Whether a text may be a string of the pool. */
static int check_string(struct job *job, const uint8_t *bytes, size_t length)
{
    size_t i;

    if (length == 0) {
        return refuse(job, STATUS_REFUSED, BOARDID_REFUSED_RULE,
                      "the text is empty; a string of the pool has at least one character");
    }
    for (i = 0; i < length; i++) {
        if (bytes[i] < 0x20 || bytes[i] > 0x7E) {
            return refuse(job, STATUS_REFUSED, BOARDID_REFUSED_RULE,
                          "the text has byte %02Xh as character %zu; a string of the pool is "
                          "ASCII, 20h to 7Eh", bytes[i], i + 1);
        }
    }
    return STATUS_DONE;
}

/*
 * The number of a string that is given as text. The pool has it; or the string that byte `which` of
 * entry `own` counts, and nothing else, is rewritten; or it is appended. `own` is -1 for an entry
 * that is not there yet.
 */
int pool_number(struct job *job, const struct image *image, struct pool *pool, const char *string,
                int64_t own, int which, uint8_t *number)
{
    const uint8_t *bytes = (const uint8_t *)string;
    const size_t length = strlen(string);
    int status = check_string(job, bytes, length);
    size_t place, old;
    uint32_t count = 0;
    int found;

    if (status != STATUS_DONE) {
        return status;
    }
    found = pool_find(pool, bytes, length);
    if (found >= 0) {
        *number = (uint8_t)found;
        return STATUS_DONE;
    }
    if (own >= 0) {
        const uint8_t counts =
            image->bytes[image->records[own].value_place + (size_t)which];

        if (counts != pool->taken && pool_string(pool, counts, &place, &old) &&
            !is_shared(image, counts, own, which)) {
            *number = counts;
            return pool_put(job, pool, place, old, bytes, length);
        }
    }
    if (pool_rest(pool) != 0) {
        refuse(job, STATUS_REFUSED, -1, "the pool ends in %zu bytes of no string, so no string can "
               "be appended", pool_rest(pool));
        hint(job, "boardid set FILE pool HEX -x gives the pool anew");
        return STATUS_REFUSED;
    }
    while (pool_string(pool, count, &place, &old)) {
        count++;
    }
    *number = (uint8_t)count;
    return pool_put(job, pool, pool->length, 0, bytes, length);
}
