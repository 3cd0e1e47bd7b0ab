/*
 * A program that was written before there were dates, with today's library. It knows the readings
 * that the header of its edition had then, and takes any other number for plain bytes, as the manual
 * says; so it has the bytes of a date, which are the text that it always had. The compiler refuses
 * every name that the headers gained with dates. Compiled once with each edition's header.
 */
#define _DEFAULT_SOURCE

#include <boardid.h>

#pragma GCC poison BOARDID_READING_DATE boardid_date boardid_record_date
#pragma GCC poison BOARDID_READING_DATE_WITH_TIME boardid_time boardid_record_time

#include "answers.h"

/* The reading of an entry as this program takes it. */
static uint32_t reading_taken(const struct boardid_record *record)
{
    switch (record->reading) {
    case BOARDID_READING_TEXT:
    case BOARDID_READING_NUMBER:
    case BOARDID_READING_ADDRESS_BLOCK:
    case BOARDID_READING_STRING_NUMBER:
    case BOARDID_READING_TEST_FLAGS:
    case BOARDID_READING_IDENTITY:
#if BOARDID_EDITION >= 2
    case BOARDID_READING_IDENTITY_WITH_BATCH:
#endif
        return record->reading;
    default:
        return BOARDID_READING_PLAIN_BYTES;
    }
}

/* An image with a date: where the date is, what its value is, and the readings of all entries. */
struct dated_image {
    uint32_t format;
    const char *image;
    uint32_t count;
    uint32_t n;
    const char *text;
    const char *other; /* another date */
    uint32_t readings[6];
};

static const struct dated_image fboss = {
    BOARDID_FORMAT_FBOSS,
    "FB FB 05 FF 01 00 08 01 01 09 01 02 0A 01 03 0B 00 0D 08 32 30 32 34 30 32 32 39 FA 02 49 81",
    6,
    5,
    "20240229",
    "20240301",
    {1, 2, 2, 2, 1, 0}};

#if BOARDID_EDITION >= 3
static const struct dated_image onie = {
    BOARDID_FORMAT_ONIE,
    "54 6C 76 49 6E 66 6F 00 01 00 22 21 01 41 25 13 31 32 2F 33 31 2F 32 30 32 34 20 32 33 3A 35 "
    "39 3A 35 39 2A 02 00 03 FE 04 46 79 2E 71",
    3,
    1,
    "12/31/2024 23:59:59",
    "01/01/2025 00:00:00",
    {1, 0, 2, 0, 0, 0}};
#endif

/* Lists an image, has its date as bytes, edits it and writes it, all as before. */
static void as_before(const struct dated_image *d)
{
    struct lent image = lend_hex(d->image), records = lend(d->count * BOARDID_RECORD_SIZE);
    struct lent fields = lend(d->count * BOARDID_FIELD_SIZE), out = lend(image.length);
    struct boardid_record date;
    struct boardid_part part;
    uint32_t n;

    expect_count(boardid_list_entries(d->format, image.bytes, image.length, records.bytes,
                                      records.length),
                 d->count, d->text);
    for (n = 0; n < d->count; n++) {
        struct boardid_record record = boardid_record_at(records.bytes, n);
        struct boardid_field field = {0, 0, 0, 0, 0};

        expect_number(reading_taken(&record), d->readings[n], d->text);
        field.code = record.code;
        field.value_place = record.value_place;
        field.value_length = record.value_length;
        boardid_field_set(fields.bytes, n, field);
    }

    /* The kind of the date is what it was, and its bytes are its text. */
    date = boardid_record_at(records.bytes, d->n);
    expect(date.reading > 7, d->text);
    expect_number(date.kind, d->format * 256 + date.code, d->text);
    expect_number(date.value_length, strlen(d->text), d->text);
    expect(memcmp(image.bytes + date.value_place, d->text, strlen(d->text)) == 0, d->text);
    part = boardid_answer_part(boardid_value_at(d->format, image.bytes, image.length, d->n));
    expect_number(part.place, date.value_place, d->text);
    expect_number(part.length, date.value_length, d->text);
    expect_number(boardid_record_number(&date), 0, d->text);
    expect_number(boardid_record_address_base(&date), 0, d->text);
    expect_number(boardid_record_address_count(&date), 0, d->text);
    expect_number(boardid_record_string_number(&date), 0, d->text);
    expect_number(boardid_record_test_flags(&date), 0, d->text);
    expect_number(boardid_record_tests_passed(&date), 0, d->text);
    expect_number(boardid_record_identity(&date).part_string, 0, d->text);

    expect_count(boardid_write_image(d->format, fields.bytes, fields.length, image.bytes,
                                     image.length, out.bytes, out.length),
                 (uint32_t)image.length, d->text);
    expect(same_bytes(out, image), d->text);
    expect_count(boardid_edit_entry(d->format, image.bytes, image.length, d->n,
                                    (const uint8_t *)d->other, strlen(d->other), out.bytes,
                                    out.length),
                 (uint32_t)image.length, d->other);
    expect(memcmp(out.bytes + date.value_place, d->other, strlen(d->other)) == 0, d->other);
    expect_count(boardid_check_image(d->format, out.bytes, out.length), d->count, d->other);
    give_back(out);
    give_back(fields);
    give_back(records);
    give_back(image);
}

int main(void)
{
    as_before(&fboss);
#if BOARDID_EDITION >= 3
    as_before(&onie);
#endif
    return expectations_met("before_dates");
}
