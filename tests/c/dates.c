/*
 * Dates: FBOSS 13 in every edition, and ONIE 25h from edition 3 on, through a header's functions.
 * Each case goes through every call that all editions have: in an image, in a list of fields, and
 * as the new value of an edit. The sweeps go by the C library's calendar. Compiled once with each
 * edition's header. All lent memory ends at a page that may not be touched.
 */
#define _DEFAULT_SOURCE

#include <time.h>

#include "answers.h"
#include "checks.h"

/* ---- Images with a date --------------------------------------------------------------------- */

/* A format that has a date, and an image around it. */
struct dated {
    uint32_t format;
    uint32_t code;
    uint32_t reading;
    const char *before; /* the header and the entries before the date */
    const char *after;  /* the entries after it, and the end without its check */
    uint32_t n;         /* the number of the date's entry */
    uint32_t count;     /* how many entries there are */
    const char *other;  /* another date */
};

static const struct dated fboss = {BOARDID_FORMAT_FBOSS,
                                   BOARDID_FBOSS_SYSTEM_MANUFACTURING_DATE,
                                   BOARDID_READING_DATE,
                                   "FB FB 05 FF 01 00 08 01 01 09 01 02 0A 01 03 0B 00",
                                   "10 01 41 FA 02",
                                   5,
                                   7,
                                   "20130203"};

#if BOARDID_EDITION >= 3
static const struct dated onie = {BOARDID_FORMAT_ONIE,
                                  BOARDID_ONIE_MANUFACTURE_DATE,
                                  BOARDID_READING_DATE_WITH_TIME,
                                  "54 6C 76 49 6E 66 6F 00 01 00 00 21 01 41",
                                  "FD 04 00 00 1F 79 FE 04",
                                  1,
                                  3,
                                  "02/03/2013 04:05:06"};
#endif

/* Makes the check of an image right, and the length in ONIE's header. */
static void seal(const struct dated *d, struct lent image)
{
    uint8_t *end = image.bytes + image.length;

    if (d->format == BOARDID_FORMAT_FBOSS) {
        uint32_t check = check16_of(image.bytes, image.length - 4);

        end[-2] = (uint8_t)(check >> 8);
        end[-1] = (uint8_t)check;
    } else {
        image.bytes[9] = (uint8_t)((image.length - 11) >> 8);
        image.bytes[10] = (uint8_t)(image.length - 11);
        put_check32(end - 4, check32_of(image.bytes, image.length - 4));
    }
}

/* Lends an image with a date of any bytes. */
static struct lent lend_dated(const struct dated *d, const char *text)
{
    struct lent before = lend_hex(d->before), after = lend_hex(d->after), image;
    size_t length = strlen(text), check = d->format == BOARDID_FORMAT_FBOSS ? 2 : 4;
    uint8_t *at;

    image = lend(before.length + 2 + length + after.length + check);
    memcpy(image.bytes, before.bytes, before.length);
    at = image.bytes + before.length;
    at[0] = (uint8_t)d->code;
    at[1] = (uint8_t)length;
    memcpy(at + 2, text, length);
    memcpy(at + 2 + length, after.bytes, after.length);
    seal(d, image);
    give_back(after);
    give_back(before);
    return image;
}

/* The place of the date's entry. */
static uint32_t place_of(const struct dated *d)
{
    struct lent before = lend_hex(d->before);
    uint32_t place = (uint32_t)before.length;

    give_back(before);
    return place;
}

/* Lends the fields of an image's entries. Their values are parts of the image. */
static struct lent lend_fields(const struct dated *d, struct lent image)
{
    struct lent fields = lend(d->count * BOARDID_FIELD_SIZE);
    uint32_t at = d->format == BOARDID_FORMAT_FBOSS ? 4 : 11;
    uint32_t n;

    for (n = 0; n < d->count; n++) {
        struct boardid_field field = {0, 0, 0, 0, 0};

        field.code = image.bytes[at];
        field.value_place = at + 2;
        field.value_length = image.bytes[at + 1];
        boardid_field_set(fields.bytes, n, field);
        at += 2 + field.value_length;
    }
    return fields;
}

/* ---- Every call ----------------------------------------------------------------------------- */

/* Expects the sixteen words of a date's record, and what the header's functions make of them. */
static void expect_record(const struct dated *d, const uint8_t *bytes, uint32_t length,
                          const uint32_t carried[6], const char *what)
{
    struct boardid_record record = boardid_record_at(bytes, 0);
    struct boardid_date date = boardid_record_date(&record);
    uint32_t place = place_of(d), i;

    expect_number(boardid_word_at(bytes, 0), d->code, what);
    expect_number(boardid_word_at(bytes, 1), d->format * 256 + d->code, what);
    expect_number(boardid_word_at(bytes, 2), place, what);
    expect_number(boardid_word_at(bytes, 3), place + 2, what);
    expect_number(boardid_word_at(bytes, 4), 0, what);
    expect_number(boardid_word_at(bytes, 5), place + 2, what);
    expect_number(boardid_word_at(bytes, 6), length, what);
    expect_number(boardid_word_at(bytes, 7), BOARDID_EDITION >= 4 ? 2 + length : 0, what);
    expect_number(boardid_word_at(bytes, 8), d->format == BOARDID_FORMAT_FBOSS ? 8 : 9, what);
    for (i = 0; i < 6; i++) {
        expect_number(boardid_word_at(bytes, 9 + i), carried[i], what);
    }
    expect_number(boardid_word_at(bytes, 15), 0, what);

    expect_number(record.reading, d->reading, what);
    expect_number(date.year, carried[0], what);
    expect_number(date.month, carried[1], what);
    expect_number(date.day, carried[2], what);
#if BOARDID_EDITION >= 3
    expect_number(boardid_record_time(&record).hour, carried[3], what);
    expect_number(boardid_record_time(&record).minute, carried[4], what);
    expect_number(boardid_record_time(&record).second, carried[5], what);
#endif
}

/* Expects that an output holds an image, and FFh after it. */
static void expect_image(struct lent out, struct lent image, const char *what)
{
    expect(memcmp(out.bytes, image.bytes, image.length) == 0, what);
    expect(all_are(out, image.length, 0xFF), what);
}

/* A date that every call takes: what it carries is given in words. */
static void expect_date(const struct dated *d, const char *text, const uint32_t carried[6])
{
    struct lent image = lend_dated(d, text), before = lend_copy(image.bytes, image.length);
    struct lent old = lend_dated(d, d->other), fields = lend_fields(d, image);
    struct lent records = lend(d->count * BOARDID_RECORD_SIZE), record = lend(BOARDID_RECORD_SIZE);
    struct lent walk = lend(BOARDID_WALK_SIZE), out = lend(image.length + 3);
    const uint8_t *listed = records.bytes + d->n * BOARDID_RECORD_SIZE;
    const uint8_t *value = image.bytes + place_of(d) + 2;
    uint32_t length = (uint32_t)strlen(text), made = (uint32_t)image.length;

    expect_count(boardid_check_image(d->format, image.bytes, image.length), d->count, text);
    expect_count(boardid_list_entries(d->format, image.bytes, image.length, records.bytes,
                                      records.length),
                 d->count, text);
    expect_record(d, listed, length, carried, text);
    expect_count(boardid_entry_at(d->format, image.bytes, image.length, d->n, record.bytes,
                                  record.length),
                 1, text);
    expect(memcmp(record.bytes, listed, BOARDID_RECORD_SIZE) == 0, text);
    memset(record.bytes, 0x5A, record.length);
    boardid_walk_set(walk.bytes, d->format, d->n);
    expect_count(boardid_walk_step(walk.bytes, walk.length, image.bytes, image.length, record.bytes,
                                   record.length),
                 1, text);
    expect(memcmp(record.bytes, listed, BOARDID_RECORD_SIZE) == 0, text);
    expect_number(boardid_walk_entry(walk.bytes), d->n + 1, text);
    expect_number(boardid_value_at(d->format, image.bytes, image.length, d->n),
                  (uint64_t)length << 32 | (place_of(d) + 2), text);

    expect_count(boardid_write_image(d->format, fields.bytes, fields.length, image.bytes,
                                     image.length, out.bytes, out.length),
                 made, text);
    expect_image(out, image, text);
    memset(out.bytes, 0x5A, out.length);
    expect_count(boardid_edit_entry(d->format, old.bytes, old.length, d->n, value, length,
                                    out.bytes, out.length),
                 made, text);
    expect_image(out, image, text);

    /* An edit of another entry keeps it. */
    memset(out.bytes, 0x5A, out.length);
    expect_count(boardid_edit_entry(d->format, image.bytes, image.length, 0,
                                    image.bytes + boardid_record_at(records.bytes, 0).value_place,
                                    boardid_record_at(records.bytes, 0).value_length, out.bytes,
                                    out.length),
                 made, text);
    expect_image(out, image, text);
    expect(same_bytes(image, before), text);
    give_back(out);
    give_back(walk);
    give_back(record);
    give_back(records);
    give_back(fields);
    give_back(old);
    give_back(before);
    give_back(image);
}

/* Bytes that are no date: every call refuses them with 7 and changes nothing. */
static void expect_no_date(const struct dated *d, const char *text)
{
    struct lent image = lend_dated(d, text), before = lend_copy(image.bytes, image.length);
    struct lent old = lend_dated(d, d->other), fields = lend_fields(d, image);
    struct lent records = lend(d->count * BOARDID_RECORD_SIZE), walk = lend(BOARDID_WALK_SIZE);
    struct lent out = lend(image.length + 30);
    uint32_t place = place_of(d), n;

    expect_refused(boardid_check_image(d->format, image.bytes, image.length), 7, place, text);
    expect_refused(boardid_list_entries(d->format, image.bytes, image.length, records.bytes,
                                        records.length),
                   7, place, text);
    for (n = 0; n <= d->count; n++) {
        expect_refused(boardid_entry_at(d->format, image.bytes, image.length, n, records.bytes,
                                        records.length),
                       7, place, text);
        expect_refused(boardid_value_at(d->format, image.bytes, image.length, n), 7, place, text);
        boardid_walk_set(walk.bytes, d->format, n);
        expect_refused(boardid_walk_step(walk.bytes, walk.length, image.bytes, image.length,
                                         records.bytes, records.length),
                       7, place, text);
        expect_number(boardid_walk_entry(walk.bytes), n, text);

        /* No entry of the image can be edited, and the date itself not to another. */
        expect_refused(boardid_edit_entry(d->format, image.bytes, image.length, n,
                                          (const uint8_t *)d->other, strlen(d->other), out.bytes,
                                          out.length),
                       7, place, text);
    }
    expect_refused(boardid_write_image(d->format, fields.bytes, fields.length, image.bytes,
                                       image.length, out.bytes, out.length),
                   7, d->n, text);
    expect_refused(boardid_edit_entry(d->format, old.bytes, old.length, d->n,
                                      image.bytes + place + 2, strlen(text), out.bytes, out.length),
                   7, place, text);
    expect_refused(boardid_edit_entry(d->format, old.bytes, old.length, d->n,
                                      image.bytes + place + 2, strlen(text), NULL, 0),
                   7, place, text);
    expect(all_are(records, 0, 0x5A), text);
    expect(all_are(out, 0, 0x5A), text);
    expect(same_bytes(image, before), text);
    give_back(out);
    give_back(walk);
    give_back(records);
    give_back(fields);
    give_back(old);
    give_back(before);
    give_back(image);
}

/* ---- Both sides of each line ---------------------------------------------------------------- */

/* Eight bytes YYYYMMDD, and the day that they are; year 0 where they are none. */
struct day_case {
    const char *text;
    uint32_t year, month, day;
};

static const struct day_case day_cases[] = {
    /* The board that got into stock. */
    {"20230231", 0, 0, 0},

    /* Years. */
    {"00000101", 0, 0, 0},
    {"00000229", 0, 0, 0},
    {"00001231", 0, 0, 0},
    {"00010101", 1, 1, 1},
    {"00011231", 1, 12, 31},
    {"00100101", 10, 1, 1},
    {"09991231", 999, 12, 31},
    {"10000101", 1000, 1, 1},
    {"99990101", 9999, 1, 1},
    {"99991231", 9999, 12, 31},
    {"99991232", 0, 0, 0},

    /* Months. */
    {"20230001", 0, 0, 0},
    {"20230031", 0, 0, 0},
    {"20230101", 2023, 1, 1},
    {"20231201", 2023, 12, 1},
    {"20231301", 0, 0, 0},
    {"20232001", 0, 0, 0},
    {"20239901", 0, 0, 0},

    /* The first day and the last of each month. */
    {"20230100", 0, 0, 0},
    {"20230131", 2023, 1, 31},
    {"20230132", 0, 0, 0},
    {"20230200", 0, 0, 0},
    {"20230300", 0, 0, 0},
    {"20230331", 2023, 3, 31},
    {"20230332", 0, 0, 0},
    {"20230400", 0, 0, 0},
    {"20230401", 2023, 4, 1},
    {"20230430", 2023, 4, 30},
    {"20230431", 0, 0, 0},
    {"20230500", 0, 0, 0},
    {"20230531", 2023, 5, 31},
    {"20230532", 0, 0, 0},
    {"20230600", 0, 0, 0},
    {"20230630", 2023, 6, 30},
    {"20230631", 0, 0, 0},
    {"20230700", 0, 0, 0},
    {"20230731", 2023, 7, 31},
    {"20230732", 0, 0, 0},
    {"20230800", 0, 0, 0},
    {"20230831", 2023, 8, 31},
    {"20230832", 0, 0, 0},
    {"20230900", 0, 0, 0},
    {"20230930", 2023, 9, 30},
    {"20230931", 0, 0, 0},
    {"20231000", 0, 0, 0},
    {"20231031", 2023, 10, 31},
    {"20231032", 0, 0, 0},
    {"20231100", 0, 0, 0},
    {"20231130", 2023, 11, 30},
    {"20231131", 0, 0, 0},
    {"20231200", 0, 0, 0},
    {"20231231", 2023, 12, 31},
    {"20231232", 0, 0, 0},
    {"20230199", 0, 0, 0},

    /* The end of February. */
    {"20230228", 2023, 2, 28},
    {"20230229", 0, 0, 0},
    {"20240228", 2024, 2, 28},
    {"20240229", 2024, 2, 29},
    {"20240230", 0, 0, 0},
    {"20240231", 0, 0, 0},
    {"19000228", 1900, 2, 28},
    {"19000229", 0, 0, 0},
    {"20000229", 2000, 2, 29},
    {"20000230", 0, 0, 0},
    {"21000229", 0, 0, 0},
    {"24000229", 2400, 2, 29},
    {"00040229", 4, 2, 29},
    {"01000229", 0, 0, 0},
    {"04000229", 400, 2, 29},
    {"04000230", 0, 0, 0},
    {"99960229", 9996, 2, 29},
    {"99990229", 0, 0, 0},

    /* The Gregorian calendar, back to year 1: no days are left out, and none is Julian. */
    {"15821004", 1582, 10, 4},
    {"15821005", 1582, 10, 5},
    {"15821010", 1582, 10, 10},
    {"15821014", 1582, 10, 14},
    {"15821015", 1582, 10, 15},
    {"15000229", 0, 0, 0},
    {"17520907", 1752, 9, 7},

    /* Bytes that are no digits. */
    {"2023010A", 0, 0, 0},
    {"2O230101", 0, 0, 0},
    {" 0230101", 0, 0, 0},
    {"2023 1 1", 0, 0, 0},
    {"2023-1-1", 0, 0, 0},
    {"+2023101", 0, 0, 0},
    {"202301/1", 0, 0, 0},
    {"2023010:", 0, 0, 0},
};

/* A case as the value of a format: YYYYMMDD, or MM/DD/YYYY and the time 12:34:56. */
static void days(const struct dated *d)
{
    size_t i;

    for (i = 0; i < sizeof day_cases / sizeof day_cases[0]; i++) {
        const struct day_case *c = &day_cases[i];
        uint32_t carried[6] = {0, 0, 0, 0, 0, 0};
        char text[20];

        carried[0] = c->year;
        carried[1] = c->month;
        carried[2] = c->day;
        if (d->format == BOARDID_FORMAT_FBOSS) {
            snprintf(text, sizeof text, "%s", c->text);
        } else {
            snprintf(text, sizeof text, "%.2s/%.2s/%.4s 12:34:56", c->text + 4, c->text + 6,
                     c->text);
            carried[3] = 12;
            carried[4] = 34;
            carried[5] = 56;
        }
        if (c->year != 0) {
            expect_date(d, text, carried);
        } else {
            expect_no_date(d, text);
        }
    }
}

/* Values of other lengths, or in the form of the other format. */
static void other_lengths(void)
{
    expect_no_date(&fboss, "");
    expect_no_date(&fboss, "2023010");
    expect_no_date(&fboss, "202301011");
    expect_no_date(&fboss, "2023-01-01");
    expect_no_date(&fboss, "01/01/2023 00:00:00");
#if BOARDID_EDITION >= 3
    expect_no_date(&onie, "");
    expect_no_date(&onie, "02/03/2024");
    expect_no_date(&onie, "02/03/2024 04:05:0");
    expect_no_date(&onie, "02/03/2024 04:05:067");
    expect_no_date(&onie, "2024-02-03 04:05:06");
    expect_no_date(&onie, "20240203");
    expect_no_date(&onie, "2024/02/03 04:05:06");
    expect_no_date(&onie, "31/12/2024 00:00:00");
#endif
}

#if BOARDID_EDITION >= 3
/* A time HH:NN:SS, and whether it is one. */
struct time_case {
    const char *text;
    int is_time;
    uint32_t hour, minute, second;
};

static const struct time_case time_cases[] = {
    {"00:00:00", 1, 0, 0, 0},    {"00:00:01", 1, 0, 0, 1},  {"00:01:00", 1, 0, 1, 0},
    {"01:00:00", 1, 1, 0, 0},    {"09:08:07", 1, 9, 8, 7},  {"19:18:17", 1, 19, 18, 17},
    {"23:59:59", 1, 23, 59, 59}, {"23:00:00", 1, 23, 0, 0}, {"00:59:00", 1, 0, 59, 0},
    {"00:00:59", 1, 0, 0, 59},   {"24:00:00", 0, 0, 0, 0},  {"24:59:59", 0, 0, 0, 0},
    {"25:00:00", 0, 0, 0, 0},    {"30:00:00", 0, 0, 0, 0},  {"99:00:00", 0, 0, 0, 0},
    {"00:60:00", 0, 0, 0, 0},    {"23:60:59", 0, 0, 0, 0},  {"00:99:00", 0, 0, 0, 0},
    {"00:00:60", 0, 0, 0, 0},    {"23:59:60", 0, 0, 0, 0},  {"00:00:99", 0, 0, 0, 0},
    {" 1:00:00", 0, 0, 0, 0},    {"01:0A:00", 0, 0, 0, 0},  {"01:00:0:", 0, 0, 0, 0},
    {"01-00-00", 0, 0, 0, 0},    {"01.00.00", 0, 0, 0, 0},
};

/* Each time, on a day and on what is none. */
static void times(void)
{
    size_t i;

    for (i = 0; i < sizeof time_cases / sizeof time_cases[0]; i++) {
        const struct time_case *c = &time_cases[i];
        uint32_t carried[6] = {2024, 2, 29, 0, 0, 0};
        char text[20];

        carried[3] = c->hour;
        carried[4] = c->minute;
        carried[5] = c->second;
        snprintf(text, sizeof text, "02/29/2024 %s", c->text);
        if (c->is_time) {
            expect_date(&onie, text, carried);
        } else {
            expect_no_date(&onie, text);
        }
        snprintf(text, sizeof text, "02/29/2023 %s", c->text);
        expect_no_date(&onie, text);
    }
}
#endif

/* ---- Sweeps --------------------------------------------------------------------------------- */

/* Whether this is a day from year 1 on, by the C library's calendar. */
static int is_day(int year, int month, int day)
{
    struct tm tm;

    memset(&tm, 0, sizeof tm);
    tm.tm_year = year - 1900;
    tm.tm_mon = month - 1;
    tm.tm_mday = day;
    timegm(&tm); /* moves what is no day to one */
    return year > 0 && tm.tm_year == year - 1900 && tm.tm_mon == month - 1 && tm.tm_mday == day;
}

/* Puts a number in so many digits. */
static void put_digits(uint8_t *at, int digits, int number)
{
    while (digits > 0) {
        digits--;
        at[digits] = (uint8_t)('0' + number % 10);
        number /= 10;
    }
}

/* The number of so many digits; -1 where a byte is none. */
static int number_of(const uint8_t *at, int digits)
{
    int number = 0, i;

    for (i = 0; i < digits; i++) {
        if (at[i] < '0' || at[i] > '9') {
            return -1;
        }
        number = number * 10 + (at[i] - '0');
    }
    return number;
}

/* Where year, month and day stand in the value of a format. */
struct digits {
    int year, month, day;
};

static struct digits digits_of(const struct dated *d)
{
    struct digits in_fboss = {0, 4, 6}, in_onie = {6, 0, 3};

    return d->format == BOARDID_FORMAT_FBOSS ? in_fboss : in_onie;
}

/* What a value of the right length says, in six words; whether it is a date. */
static int says(const struct dated *d, const uint8_t *value, int words[6])
{
    struct digits at = digits_of(d);

    memset(words, 0, 6 * sizeof words[0]);
    words[0] = number_of(value + at.year, 4);
    words[1] = number_of(value + at.month, 2);
    words[2] = number_of(value + at.day, 2);
    if (words[0] < 0 || words[1] < 0 || words[2] < 0 || !is_day(words[0], words[1], words[2])) {
        return 0;
    }
    if (d->format == BOARDID_FORMAT_FBOSS) {
        return 1;
    }
    words[3] = number_of(value + 11, 2);
    words[4] = number_of(value + 14, 2);
    words[5] = number_of(value + 17, 2);
    return value[2] == '/' && value[5] == '/' && value[10] == ' ' && value[13] == ':' &&
           value[16] == ':' && words[3] >= 0 && words[3] < 24 && words[4] >= 0 && words[4] < 60 &&
           words[5] >= 0 && words[5] < 60;
}

/* Memory that a sweep is lent: an image whose date is changed, and a record. */
struct sweep {
    const struct dated *d;
    struct lent image;
    struct lent record;
    uint32_t place;
    uint8_t *value;
    int length;
};

/* Expects of the image that its date is taken exactly where it is one, with the right words. */
static void expect_swept(const struct sweep *s)
{
    const struct dated *d = s->d;
    char what[20];
    int words[6], i;

    for (i = 0; i < s->length; i++) {
        what[i] = (char)(s->value[i] >= 0x20 && s->value[i] <= 0x7E ? s->value[i] : '?');
    }
    what[i] = '\0';
    seal(d, s->image);
    if (!says(d, s->value, words)) {
        expect_refused(boardid_check_image(d->format, s->image.bytes, s->image.length), 7, s->place,
                       what);
        return;
    }
    expect_count(boardid_check_image(d->format, s->image.bytes, s->image.length), d->count, what);
    expect_count(boardid_entry_at(d->format, s->image.bytes, s->image.length, d->n, s->record.bytes,
                                  s->record.length),
                 1, what);
    expect_number(boardid_word_at(s->record.bytes, 8), d->reading, what);
    for (i = 0; i < 6; i++) {
        expect_number(boardid_word_at(s->record.bytes, 9 + (size_t)i), (uint32_t)words[i], what);
    }
}

/* The same with another day. */
static void expect_day(const struct sweep *s, int year, int month, int day)
{
    struct digits at = digits_of(s->d);

    put_digits(s->value + at.year, 4, year);
    put_digits(s->value + at.month, 2, month);
    put_digits(s->value + at.day, 2, day);
    expect_swept(s);
}

/* Every number of two digits for month and day, in years of each kind; February of every year. */
static void every_day(const struct sweep *s)
{
    static const int years[] = {0, 1, 1900, 2000, 2023, 2024, 9999};
    int year, month, day;
    size_t i;

    for (i = 0; i < sizeof years / sizeof years[0]; i++) {
        for (month = 0; month < 100; month++) {
            for (day = 0; day < 100; day++) {
                expect_day(s, years[i], month, day);
            }
        }
    }
    for (year = 0; year < 10000; year++) {
        for (day = 28; day <= 30; day++) {
            expect_day(s, year, 2, day);
        }
    }
}

/* Every value of every byte of a date. */
static void every_byte(const struct sweep *s)
{
    int place, byte;

    for (place = 0; place < s->length; place++) {
        uint8_t old = s->value[place];

        for (byte = 0; byte < 256; byte++) {
            s->value[place] = (uint8_t)byte;
            expect_swept(s);
        }
        s->value[place] = old;
    }
}

/* The sweeps of a format, from a date that is the last day of a February. */
static void sweeps(const struct dated *d, const char *text)
{
    struct sweep s;

    s.d = d;
    s.image = lend_dated(d, text);
    s.record = lend(BOARDID_RECORD_SIZE);
    s.place = place_of(d);
    s.value = s.image.bytes + s.place + 2;
    s.length = (int)strlen(text);
    every_byte(&s);
#if BOARDID_EDITION >= 3
    if (d->format == BOARDID_FORMAT_ONIE) {
        int place, number;

        for (place = 11; place <= 17; place += 3) {
            for (number = 0; number < 100; number++) {
                put_digits(s.value + place, 2, number);
                expect_swept(&s);
            }
            put_digits(s.value + place, 2, 0);
        }
    }
#endif
    every_day(&s);
    give_back(s.record);
    give_back(s.image);
}

int main(void)
{
    days(&fboss);
    other_lengths();
    sweeps(&fboss, "20240229");
#if BOARDID_EDITION >= 3
    days(&onie);
    times();
    sweeps(&onie, "02/29/2024 23:59:59");
#endif
    return expectations_met("dates");
}
