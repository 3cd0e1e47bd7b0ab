/*
 * An old tool and a new one on the same images. This program is compiled once with each edition's
 * header, and each is linked with the one library. The images have, in formats 1 to 3, entries that
 * edition 2 names and edition 1 does not, and entries that no edition names; one has VPD keys that
 * are read and not written. The ONIE image has entries that edition 3 names and entries that none
 * names; editions 1 and 2, which do not have its format, refuse every call on it with 16. Edition 4
 * names what edition 3 does, and has the lengths of frames, where the editions before have 0.
 *
 *     old_header list FOLDER        expects this edition's kinds and readings, and writes what every
 *                                   edition that has the format must list alike (codes, keys, values)
 *                                   to a file for each image, FOLDER/NAME-N.list in edition N
 *     old_header change FOLDER      edits and removes each entry, and adds each field, that this
 *                                   edition names, each into a file; removes each board from room
 *                                   files that have the images for bodies, and adds it again
 *     old_header read FOLDER N      reads what edition N edited, removed and added, and expects that
 *                                   only that one value is changed, that one entry gone or new, or
 *                                   that one board; the bodies of all others are the same bytes
 */
#define _DEFAULT_SOURCE

#include <boardid.h>

#include "expect.h"

enum { MOST_ENTRIES = 13, MOST_FIELDS = 5 };

/*
 * One entry: its code, the first edition that names it (0: none does), how it is read where it is
 * named, and a value to edit it to.
 */
struct entry_case {
    uint32_t code;
    uint32_t since;
    uint32_t reading;
    const char *value;
};

/*
 * One field to add: its code, the first edition that names it (0: none does), its key and its value,
 * and the number with which editions that name it refuse it here, or 0.
 */
struct field_case {
    uint32_t code;
    uint32_t since;
    const char *key;
    const char *value;
    uint32_t refused;
};

/* An image: its format with the first edition that has it, its bytes, its entries, new fields. */
struct image_case {
    const char *name;
    uint32_t format;
    uint32_t since;
    const char *image;
    uint32_t count;
    struct entry_case entries[MOST_ENTRIES];
    uint32_t field_count;
    struct field_case fields[MOST_FIELDS];
};

static const struct image_case images[] = {
    {"fboss",
     BOARDID_FORMAT_FBOSS,
     1,
     "FB FB 05 FF 01 07 4C 45 41 46 2D 33 32 08 01 01 09 01 02 11 08 02 1A 2B 3C 4D 5E 00 10 "
     "0A 01 03 12 08 02 1A 2B 3C 4D 6E 00 01 63 03 00 FF 7F 0B 07 53 4E 2D 30 30 30 31 "
     "13 08 02 1A 2B 3C 4D 7E 01 00 14 08 02 1A 2B 3C 4D 8E FF FF 0D 08 32 30 32 34 30 31 33 31 "
     "15 00 FA 02 13 68 FF FF FF",
     12,
     {{1, 1, 1, "53 50 49 4E 45 2D 36 34"},
      {8, 1, 2, "FF"},
      {9, 1, 2, "00"},
      {17, 2, 3, "02 1A 2B 00 00 00 00 00"},
      {10, 1, 2, "63"},
      {18, 2, 3, "FF FF FF FF FF FF FF FF"},
      {99, 0, 0, "00"},
      {11, 1, 1, ""},
      {19, 2, 3, "00 00 00 00 00 00 00 00"},
      {20, 2, 3, "02 1A 2B 3C 4D 8E 00 02"},
      {13, 1, 8, "32 30 32 34 30 32 30 31"},
      {21, 0, 0, ""}},
     4,
     {{12, 1, "", "51 43 54", 0},
      {2, 1, "", "", 0},
      {17, 2, "", "02 1A 2B 3C 4D 5E 00 11", 8},
      {99, 0, "", "", 0}}},
    {"fboss_short",
     BOARDID_FORMAT_FBOSS,
     1,
     "FB FB 05 FF 01 01 41 08 01 01 09 01 02 12 08 02 1A 2B 3C 4D 6E 00 01 0A 01 03 63 02 00 FF "
     "0B 00 FA 02 CC 15 FA 02",
     7,
     {{1, 1, 1, ""},
      {8, 1, 2, "FF"},
      {9, 1, 2, "00"},
      {18, 2, 3, "FF FF FF FF FF FF FF FF"},
      {10, 1, 2, "63"},
      {99, 0, 0, "00"},
      {11, 1, 1, "53"}},
     5,
     {{13, 1, "", "32 30 32 34 30 32 32 39", 0},
      {13, 1, "", "32 30 32 33 30 32 32 39", 7},
      {17, 2, "", "02 1A 2B 3C 4D 5E 00 10", 0},
      {20, 2, "", "00 00 00 00 00 00 00 00", 0},
      {18, 2, "", "00 00 00 00 00 00 00 00", 8}}},
    {"vpd",
     BOARDID_FORMAT_VPD,
     1,
     "01 03 53 4B 55 02 41 37 FE 08 67 56 70 64 49 6E 66 6F 80 04 2A 00 00 00 "
     "01 80 06 73 65 72 69 61 6C 80 80 03 31 32 33 01 03 6D 61 63 06 02 1A 2B 3C 4D 5E FF AA 01",
     4,
     {{0x01, 1, 0, "42"},
      {0xFE, 2, 0, "00 00 00 2A"},
      {0x01, 1, 0, "39 38 37 36 35 34 33 32 31"},
      {0x01, 1, 0, ""}},
     4,
     {{0x01, 1, "6E 6F 74 65", "68 69", 0},
      {0x01, 1, "73 65 72 69 61 6C", "31", 8},
      {0xFE, 2, "", "00 00 00 2A", 8},
      {0x02, 0, "41", "", 0}}},
    {"vpd_short",
     BOARDID_FORMAT_VPD,
     1,
     "01 80 03 53 4B 55 80 80 02 41 37 01 08 6C 61 62 2E 72 61 63 6B 01 58 01 01 41 80 00 FF AA",
     3,
     {{0x01, 1, 0, "42"}, {0x01, 1, 0, ""}, {0x01, 1, 0, "00 FF 22"}},
     4,
     {{0x01, 1, "72 61 63 6B", "", 0},
      {0xFE, 2, "", "00 00 00 2A", 0},
      {0xFE, 2, "6C 61 62 2E 72 61 63 6B", "2A 00 00 00", 0},
      {0x01, 1, "6C 61 62 2E 72 61 63 6B", "", 7}}},
    {"names",
     BOARDID_FORMAT_VPD,
     1,
     "01 80 08 6C 61 62 2E 72 61 63 6B 03 52 30 37 FE 01 22 80 04 01 02 03 04 "
     "01 03 22 00 FF 80 00 01 03 53 4B 55 02 41 37 FF AA",
     4,
     {{0x01, 1, 0, "42"},
      {0xFE, 2, 0, "00 00 00 2A"},
      {0x01, 1, 0, "00 FF 22"},
      {0x01, 1, 0, ""}},
     3,
     {{0x01, 1, "72 61 63 6B", "00 22", 0},
      {0x01, 1, "6C 61 62 2E 72 61 63 6B", "", 7},
      {0xFE, 2, "41", "00 00 00 2A", 8}}},
    {"tiny",
     BOARDID_FORMAT_TINY,
     1,
     "56 02 3E 80 00 01 80 05 41 31 2A 00 10 00 23 AA BB 11 05 81 01 00 63 63 42 32 0F 27 "
     "61 00 01 02 0A 2D 2D 62 01 00 99 00 58 59 60 02 1A 2B 3C 4D 5E 02 03 01 02 03 "
     "01 05 53 B1 50 4E B2 0C 00 11",
     10,
     {{0x80, 2, 7, "01 00 00 00 00 FF 00 00"},
      {0x10, 1, 4, "01"},
      {0x23, 0, 0, "00 00"},
      {0x11, 1, 5, "0F"},
      {0x81, 2, 7, "00 00 99 63 20 20 0E 27"},
      {0x61, 1, 6, "01 01 63 63 41 42"},
      {0x62, 1, 6, "07 07 80 00 00 00"},
      {0x60, 1, 3, "00 00 00 00 00 01"},
      {0x02, 0, 0, "01"},
      {0x01, 1, 0, "53 32 B2 50 4E 33 B3 C1"}},
     4,
     {{0x10, 1, "", "00", 8},
      {0x80, 2, "", "00 00 00 00 00 00 00 00", 8},
      {0x01, 1, "", "", 8},
      {0x03, 0, "", "", 0}}},
    {"tiny_short",
     BOARDID_FORMAT_TINY,
     1,
     "56 02 1B 80 00 01 80 05 41 31 2A 00 23 AA BB 10 00 02 00 01 05 53 B1 50 4E B2 28 00 11",
     5,
     {{0x80, 2, 7, "01 00 00 00 00 FF 00 00"},
      {0x23, 0, 0, "00 00"},
      {0x10, 1, 4, "01"},
      {0x02, 0, 0, "01"},
      {0x01, 1, 0, ""}},
     5,
     {{0x60, 1, "", "02 1A 2B 3C 4D 5E", 0},
      {0x11, 1, "", "FF", 0},
      {0x81, 2, "", "00 01 99 63 42 32 0F 27", 0},
      {0x81, 2, "", "00 01 9A 63 42 32 0F 27", 7},
      {0x01, 1, "", "53 B1", 8}}},
    {"onie",
     4, /* BOARDID_FORMAT_ONIE, which the headers of editions 1 and 2 do not have */
     3,
     "54 6C 76 49 6E 66 6F 00 01 00 57 FD 06 00 00 1F 79 00 01 21 04 4C 45 41 46 26 01 01 "
     "25 13 30 32 2F 30 33 2F 32 30 32 34 20 30 34 3A 30 35 3A 30 36 2F 00 24 06 02 1A 2B 3C 4D 5E "
     "2A 02 00 03 2C 02 43 5A 28 08 78 38 36 5F 36 34 2D FF FD 06 00 00 1F 79 00 02 2D 00 "
     "23 03 53 4E 31 FE 04 22 39 59 54 00 11",
     12,
     {{0xFD, 3, 0, "00 00 1F 79"},
      {0x21, 3, 1, "53 50 49 4E 45 2D 36 34"},
      {0x26, 0, 0, "02"},
      {0x25, 3, 9, "30 35 2F 30 36 2F 32 30 32 35 20 30 37 3A 30 38 3A 30 39"},
      {0x2F, 0, 0, ""},
      {0x24, 3, 3, "00 00 00 00 00 01"},
      {0x2A, 3, 2, "FF FF"},
      {0x2C, 3, 1, "44 45"},
      {0x28, 0, 0, "78"},
      {0xFD, 3, 0, "FF FF FF FF 00 01 02 03 04 05 06 07 08 09"},
      {0x2D, 3, 1, "56"},
      {0x23, 3, 1, ""}},
     5,
     {{0x22, 3, "", "50 4E 31", 0},
      {0x2B, 3, "", "", 0},
      {0xFD, 3, "", "00 00 1F 79 00 01", 0},
      {0x21, 3, "", "4C", 8},
      {0x27, 0, "", "01", 0}}},
};

enum { IMAGES = sizeof images / sizeof images[0] };

/* Whether an edition has the format of an image. */
static int has(uint32_t edition, const struct image_case *c)
{
    return c->since <= edition;
}

/* Whether an edition names a code that one, or none, was the first to name. */
static int names(uint32_t edition, uint32_t since)
{
    return since != 0 && since <= edition;
}

/* Whether an image must have a code. */
static int required(uint32_t format, uint32_t code)
{
    return format == BOARDID_FORMAT_FBOSS && (code == 1 || (code >= 8 && code <= 11));
}

/* The length of an entry's whole frame, which ends with its value. */
static uint32_t frame_of(const struct boardid_record *record)
{
#if BOARDID_EDITION >= 4
    return record->frame_length;
#else
    return record->value_place + record->value_length - record->place;
#endif
}

/* The list of an image by this edition. */
struct list {
    uint32_t count;
    uint8_t records[MOST_ENTRIES * BOARDID_RECORD_SIZE];
};

static struct list list_of(const struct image_case *c, struct lent image)
{
    struct list list;
    uint64_t answer;
    uint32_t n;

    memset(&list, 0, sizeof list);
    answer = boardid_list_entries(c->format, image.bytes, image.length, list.records,
                                  sizeof list.records);
    expect_number(boardid_answer_number(answer), 0, c->name);
    list.count = boardid_answer_count(answer);
    for (n = 0; n < list.count; n++) {
        struct boardid_record record = boardid_record_at(list.records, n);

#if BOARDID_EDITION < 4
        expect_number(record.reserved, 0, c->name);
#endif
        if (n + 1 < list.count) {
            expect_number(record.place + frame_of(&record),
                          boardid_record_at(list.records, n + 1).place, c->name);
        }
    }
    return list;
}

static void expect_no_format(uint64_t answer, const char *what)
{
    expect_number(boardid_answer_number(answer), BOARDID_REFUSED_FORMAT, what);
    expect_number(boardid_answer_place(answer), 0, what);
}

/* Expects 16 of every call that is lent an image whose format this edition does not have. */
static void expect_refused_whole(const struct image_case *c, struct lent image)
{
    struct lent lent = lend(BOARDID_IMAGE_MAX), walk = lend(BOARDID_WALK_SIZE);

    expect_no_format(boardid_check_image(c->format, image.bytes, image.length), c->name);
    expect_no_format(boardid_list_entries(c->format, image.bytes, image.length, lent.bytes,
                                          lent.length),
                     c->name);
    expect_no_format(boardid_entry_at(c->format, image.bytes, image.length, 0, lent.bytes,
                                      lent.length),
                     c->name);
    expect_no_format(boardid_value_at(c->format, image.bytes, image.length, 0), c->name);
    expect_no_format(boardid_string_at(c->format, image.bytes, image.length, 0), c->name);
    boardid_walk_set(walk.bytes, c->format, 0);
    expect_no_format(boardid_walk_step(walk.bytes, walk.length, image.bytes, image.length,
                                       lent.bytes, lent.length),
                     c->name);
    expect_number(boardid_walk_entry(walk.bytes), 0, c->name);
    expect_no_format(boardid_write_image(c->format, NULL, 0, NULL, 0, lent.bytes, lent.length),
                     c->name);
    expect_no_format(boardid_edit_entry(c->format, image.bytes, image.length, 0, NULL, 0,
                                        lent.bytes, lent.length),
                     c->name);
    expect_no_format(boardid_add_field(c->format, image.bytes, image.length, NULL, 0, NULL, 0,
                                       lent.bytes, lent.length),
                     c->name);
    expect_no_format(boardid_remove_entry(c->format, image.bytes, image.length, 0, lent.bytes,
                                          lent.length),
                     c->name);
    expect(all_are(lent, 0, 0x5A), c->name);
    give_back(walk);
    give_back(lent);
}

/* Whether a part of one image has the bytes of a part of another. */
static int same_part(struct lent a, uint32_t a_place, uint32_t a_length, struct lent b,
                     uint32_t b_place, uint32_t b_length)
{
    return a_length == b_length && memcmp(a.bytes + a_place, b.bytes + b_place, a_length) == 0;
}

/* Expects that a date, written as its format writes it, is the value of its entry. */
static void expect_date(const struct image_case *c, struct lent image, struct boardid_record record)
{
    struct boardid_date date = boardid_record_date(&record);
    const uint8_t *value = image.bytes + record.value_place;
    char text[80] = "";

    if (record.reading == BOARDID_READING_DATE) {
        snprintf(text, sizeof text, "%04lu%02lu%02lu", (unsigned long)date.year,
                 (unsigned long)date.month, (unsigned long)date.day);
        expect(strlen(text) == record.value_length && memcmp(value, text, strlen(text)) == 0,
               c->name);
    }
#if BOARDID_EDITION >= 3
    if (record.reading == BOARDID_READING_DATE_WITH_TIME) {
        struct boardid_time time_of_day = boardid_record_time(&record);

        snprintf(text, sizeof text, "%02lu/%02lu/%04lu ", (unsigned long)date.month,
                 (unsigned long)date.day, (unsigned long)date.year);
        expect(memcmp(value, text, 11) == 0, c->name);
        snprintf(text, sizeof text, "%02lu:%02lu:%02lu", (unsigned long)time_of_day.hour,
                 (unsigned long)time_of_day.minute, (unsigned long)time_of_day.second);
        expect(record.value_length == 19 && memcmp(value + 11, text, 8) == 0, c->name);
    }
#endif
}

/* The path of a file in a folder. */
static const char *path_in(const char *folder, const char *name, uint32_t number, const char *kind)
{
    static char path[4096];
    int length = snprintf(path, sizeof path, "%s/%s-%lu.%s", folder, name, (unsigned long)number,
                          kind);

    if (length < 0 || (size_t)length >= sizeof path) {
        printf("a path that is too long\n");
        exit(1);
    }
    return path;
}

static void write_file(const char *path, const uint8_t *bytes, size_t length)
{
    FILE *file = fopen(path, "wb");

    if (file == NULL || fwrite(bytes, 1, length, file) != length || fclose(file) != 0) {
        perror(path);
        exit(1);
    }
}

static struct lent read_file(const char *path)
{
    static uint8_t bytes[4096];
    FILE *file = fopen(path, "rb");
    size_t length;

    if (file == NULL) {
        perror(path);
        exit(1);
    }
    length = fread(bytes, 1, sizeof bytes, file);
    fclose(file);
    return lend_copy(bytes, length);
}

/* Writes bytes in hexadecimal to a file. */
static void print_bytes(FILE *file, const uint8_t *bytes, uint32_t length)
{
    uint32_t i;

    fprintf(file, " [");
    for (i = 0; i < length; i++) {
        fprintf(file, "%02X", bytes[i]);
    }
    fprintf(file, "]");
}

/* Lists every image: the kinds are this edition's, codes, keys and values every edition's. */
static void list_all(const char *folder)
{
    uint32_t i, n, w;

    for (i = 0; i < IMAGES; i++) {
        const struct image_case *c = &images[i];
        struct lent image = lend_hex(c->image);
        struct list list;
        FILE *file;

        if (!has(BOARDID_EDITION, c)) {
            expect_refused_whole(c, image);
            give_back(image);
            continue;
        }
        file = fopen(path_in(folder, c->name, BOARDID_EDITION, "list"), "w");
        if (file == NULL) {
            perror(folder);
            exit(1);
        }
        list = list_of(c, image);
        expect_number(list.count, c->count, c->name);
        for (n = 0; n < list.count; n++) {
            const struct entry_case *entry = &c->entries[n];
            struct boardid_record record = boardid_record_at(list.records, n);

            expect_number(record.code, entry->code, c->name);
            if (names(BOARDID_EDITION, entry->since)) {
                expect_number(record.kind, BOARDID_KIND(c->format, entry->code), c->name);
                expect_number(record.reading, entry->reading, c->name);
                expect_date(c, image, record);
            } else {
                expect_number(record.kind, 0, c->name);
                expect_number(record.reading, BOARDID_READING_PLAIN_BYTES, c->name);
                for (w = 0; w < 7; w++) {
                    expect_number(record.carried[w], 0, c->name);
                }
            }
            fprintf(file, "%s %lu %lu", c->name, (unsigned long)n, (unsigned long)record.code);
            print_bytes(file, image.bytes + record.key_place, record.key_length);
            print_bytes(file, image.bytes + record.value_place, record.value_length);
            fprintf(file, "\n");
        }
        fclose(file);
        give_back(image);
    }
}

/* The number and the place of a refusal that is expected; 0 and 0 where none is. */
struct refusal {
    uint32_t number;
    uint32_t place;
};

/*
 * What a change put out: the whole output and its part up to the length given go into files of a
 * kind. A refused one, which is to be as expected, left the output as it was.
 */
static void store(const char *folder, const struct image_case *c, uint32_t number, const char *kind,
                  uint64_t answer, struct lent out, struct refusal refusal)
{
    char image_kind[32];

    expect_number(boardid_answer_number(answer), refusal.number, c->name);
    expect_number(boardid_answer_place(answer), refusal.place, c->name);
    if (refusal.number != 0) {
        expect(all_are(out, 0, 0x5A), c->name);
        return;
    }
    snprintf(image_kind, sizeof image_kind, "%s_image", kind);
    write_file(path_in(folder, c->name, number, kind), out.bytes, out.length);
    write_file(path_in(folder, c->name, number, image_kind), out.bytes,
               boardid_answer_count(answer));
}

/* Edits entry n and removes it. */
static void change_entry(const char *folder, const struct image_case *c, struct lent image,
                         uint32_t n, uint32_t place)
{
    const struct entry_case *entry = &c->entries[n];
    struct lent value = lend_hex(entry->value), edited = lend(image.length + 20);
    struct lent removed = lend(image.length + 20);
    struct refusal none = {0, 0}, not_named = {BOARDID_REFUSED_NOT_NAMED, 0};
    struct refusal missing = {BOARDID_REFUSED_MISSING, 0};
    int named = names(BOARDID_EDITION, entry->since);

    not_named.place = place;
    store(folder, c, n, "edited",
          boardid_edit_entry(c->format, image.bytes, image.length, n, value.bytes, value.length,
                             edited.bytes, edited.length),
          edited, named ? none : not_named);
    store(folder, c, n, "removed",
          boardid_remove_entry(c->format, image.bytes, image.length, n, removed.bytes,
                               removed.length),
          removed, !named ? not_named : required(c->format, entry->code) ? missing : none);
    give_back(removed);
    give_back(edited);
    give_back(value);
}

/* Adds field k of a case. */
static void add_field(const char *folder, const struct image_case *c, struct lent image, uint32_t k)
{
    const struct field_case *field = &c->fields[k];
    struct lent key = lend_hex(field->key), value = lend_hex(field->value);
    struct lent values = lend(key.length + value.length), bytes = lend(BOARDID_FIELD_SIZE);
    struct lent out = lend(image.length + 40);
    struct boardid_field whole = {0, 0, 0, 0, 0};
    struct refusal refusal = {0, 0};

    memcpy(values.bytes, key.bytes, key.length);
    memcpy(values.bytes + key.length, value.bytes, value.length);
    whole.code = field->code;
    whole.key_length = whole.value_place = (uint32_t)key.length;
    whole.value_length = (uint32_t)value.length;
    boardid_field_set(bytes.bytes, 0, whole);
    refusal.number = names(BOARDID_EDITION, field->since) ? field->refused
                                                          : BOARDID_REFUSED_NOT_NAMED;
    store(folder, c, k, "added",
          boardid_add_field(c->format, image.bytes, image.length, bytes.bytes, bytes.length,
                            values.bytes, values.length, out.bytes, out.length),
          out, refusal);
    give_back(out);
    give_back(bytes);
    give_back(values);
    give_back(value);
    give_back(key);
}

/*
 * Two room files, put together without the library: room 0 has the images whose format every edition
 * has, room 1 has all. Image i is the body of board 100 i + 7.
 */
enum { ROOMS = 2 };

static uint32_t board_of(uint32_t i)
{
    return 100 * i + 7;
}

/* Whether a room has an image, where one image, or none, is left out. */
static int in_room(uint32_t room, uint32_t left_out, uint32_t i)
{
    return i != left_out && (room == 1 || images[i].since == 1);
}

/* Whether an edition has the formats of all images of a room. */
static int has_room(uint32_t edition, uint32_t room, uint32_t left_out)
{
    uint32_t i;

    for (i = 0; i < IMAGES; i++) {
        if (in_room(room, left_out, i) && !has(edition, &images[i])) {
            return 0;
        }
    }
    return 1;
}

/* A room without one image, and the place of each body. */
static struct lent room_of(uint32_t room, uint32_t left_out, uint32_t places[IMAGES])
{
    uint32_t i, count = 0, row = 8, place;
    size_t length = 8;
    struct lent file, image;

    for (i = 0; i < IMAGES; i++) {
        if (in_room(room, left_out, i)) {
            image = lend_hex(images[i].image);
            length += 8 + image.length;
            give_back(image);
            count++;
        }
    }
    file = lend(length);
    memset(file.bytes, 0, length);
    file.bytes[0] = 0x52;
    file.bytes[1] = 0x4D;
    file.bytes[2] = 0x01;
    file.bytes[5] = (uint8_t)count;
    place = 8 + 8 * count;
    for (i = 0; i < IMAGES; i++) {
        if (in_room(room, left_out, i)) {
            image = lend_hex(images[i].image);
            file.bytes[row + 2] = (uint8_t)(board_of(i) >> 8);
            file.bytes[row + 3] = (uint8_t)board_of(i);
            file.bytes[row + 4] = (uint8_t)images[i].format;
            file.bytes[row + 6] = (uint8_t)(image.length >> 8);
            file.bytes[row + 7] = (uint8_t)image.length;
            memcpy(file.bytes + place, image.bytes, image.length);
            places[i] = place;
            row += 8;
            place += (uint32_t)image.length;
            give_back(image);
        }
    }
    return file;
}

/* The place of the first body whose format this edition does not have, where it refuses a room. */
static uint32_t refused_place(uint32_t room, uint32_t left_out, const uint32_t places[IMAGES])
{
    uint32_t i;

    for (i = 0; i < IMAGES; i++) {
        if (in_room(room, left_out, i) && !has(BOARDID_EDITION, &images[i])) {
            return places[i];
        }
    }
    return 0;
}

/*
 * What a change of a room put out goes into a file: the new room up to its length, after which the
 * output is as it was. A refused one, which is to be as expected, left the whole output.
 */
static void store_room(const char *folder, uint32_t room, uint32_t i, const char *kind,
                       uint64_t answer, struct lent out, struct refusal refusal)
{
    const char *const name = room == 0 ? "old_room" : "new_room";

    expect_number(boardid_answer_number(answer), refusal.number, name);
    expect_number(boardid_answer_place(answer), refusal.place, name);
    expect(all_are(out, boardid_answer_count(answer), 0x5A), name);
    if (refusal.number == 0) {
        write_file(path_in(folder, name, i, kind), out.bytes, boardid_answer_count(answer));
    }
}

/* Removes each board of each room, and adds it to the room without it. */
static void change_rooms(const char *folder)
{
    uint32_t room, i, places[IMAGES];

    for (room = 0; room < ROOMS; room++) {
        for (i = 0; i < IMAGES; i++) {
            const struct image_case *c = &images[i];
            struct lent image, whole, rest, out;
            struct refusal refusal = {0, 0};
            uint64_t answer;

            if (!in_room(room, IMAGES, i)) {
                continue;
            }
            image = lend_hex(c->image);
            whole = room_of(room, IMAGES, places);
            out = lend(whole.length + 8);
            if (!has_room(BOARDID_EDITION, room, IMAGES)) {
                refusal.number = BOARDID_REFUSED_FORMAT;
                refusal.place = refused_place(room, IMAGES, places);
            }
            answer = boardid_room_remove_board(BOARDID_ROOM_FORM_1, whole.bytes, whole.length,
                                               board_of(i), out.bytes, out.length);
            store_room(folder, room, i, "without", answer, out, refusal);
            give_back(whole);

            rest = room_of(room, i, places);
            refusal.number = refusal.place = 0;
            if (!has_room(BOARDID_EDITION, room, i)) {
                refusal.number = BOARDID_REFUSED_FORMAT;
                refusal.place = refused_place(room, i, places);
            } else if (!has(BOARDID_EDITION, c)) {
                refusal.number = BOARDID_REFUSED_FORMAT;
            }
            memset(out.bytes, 0x5A, out.length);
            answer = boardid_room_add_board(BOARDID_ROOM_FORM_1, rest.bytes, rest.length,
                                            board_of(i), c->format, image.bytes, image.length,
                                            out.bytes, out.length);
            store_room(folder, room, i, "with", answer, out, refusal);
            give_back(out);
            give_back(rest);
            give_back(image);
        }
    }
}

/* Edits and removes each entry, and adds each field, that this edition names. */
static void change_all(const char *folder)
{
    uint32_t i, n, k;

    for (i = 0; i < IMAGES; i++) {
        const struct image_case *c = &images[i];
        struct lent image = lend_hex(c->image);
        struct list list;

        if (!has(BOARDID_EDITION, c)) {
            expect_refused_whole(c, image);
            give_back(image);
            continue;
        }
        list = list_of(c, image);
        for (n = 0; n < c->count; n++) {
            change_entry(folder, c, image, n, boardid_record_at(list.records, n).place);
        }
        for (k = 0; k < c->field_count; k++) {
            add_field(folder, c, image, k);
        }
        give_back(image);
    }
}

/*
 * One change of an image: entry n has another value where more is 0, is new where it is 1, and is
 * gone where it is -1. Key and value are those of an entry that is new, or the new value.
 */
struct change {
    uint32_t n;
    int more;
    uint32_t code;
    const char *key;
    const char *value;
};

/* Expects that a record has a code, a key and a value. */
static void expect_entry(const struct image_case *c, struct lent image, struct boardid_record record,
                         const struct change *change)
{
    struct lent key = lend_hex(change->key), value = lend_hex(change->value);

    expect_number(record.code, change->code, c->name);
    expect(same_part(key, 0, (uint32_t)key.length, image, record.key_place, record.key_length),
           c->name);
    expect(same_part(value, 0, (uint32_t)value.length, image, record.value_place,
                     record.value_length),
           c->name);
    give_back(value);
    give_back(key);
}

/* Expects that a changed image is listed as the old one, with that change and no other. */
static void expect_one_change(const struct image_case *c, struct lent image, struct lent changed,
                              const struct change *change)
{
    struct list old = list_of(c, image), now = list_of(c, changed);
    uint32_t k, n = change->n, wanted = c->count + (change->more > 0) - (change->more < 0);

    expect_number(now.count, wanted, c->name);
    if (now.count != wanted) {
        return;
    }
    for (k = 0; k < c->count; k++) {
        const uint32_t at = k + (change->more > 0 && k >= n) - (change->more < 0 && k > n);
        struct boardid_record a = boardid_record_at(old.records, k), b;

        if (k == n && change->more < 0) {
            continue;
        }
        b = boardid_record_at(now.records, at);
        expect_number(b.code, a.code, c->name);
        expect_number(b.kind, a.kind, c->name);
        expect_number(b.reading, a.reading, c->name);
        expect_date(c, changed, b);
        expect(same_part(image, a.key_place, a.key_length, changed, b.key_place, b.key_length),
               c->name);
        if (k == n && change->more == 0) {
            struct lent value = lend_hex(change->value);

            /* In VPD all before the value's length is the same: type, key's length bytes, key. */
            if (c->format == BOARDID_FORMAT_VPD) {
                expect(same_part(image, a.place, a.key_place + a.key_length - a.place, changed,
                                 b.place, b.key_place + b.key_length - b.place),
                       c->name);
            }
            expect(same_part(value, 0, (uint32_t)value.length, changed, b.value_place,
                             b.value_length),
                   c->name);
            give_back(value);
        } else {
            /* The whole frame is the same, from its first byte to the last of its value. */
            expect(same_part(image, a.place, frame_of(&a), changed, b.place, frame_of(&b)),
                   c->name);
            expect(memcmp(a.carried, b.carried, sizeof a.carried) == 0, c->name);
        }
    }
    if (change->more > 0) {
        expect_entry(c, changed, boardid_record_at(now.records, n), change);
    }
}

/* Reads what another edition put into the files of a kind. */
static void read_change(const char *folder, const struct image_case *c, uint32_t number,
                        const char *kind, const struct change *change)
{
    char image_kind[32];
    struct lent image = lend_hex(c->image), whole, part;

    snprintf(image_kind, sizeof image_kind, "%s_image", kind);
    whole = read_file(path_in(folder, c->name, number, kind));
    part = read_file(path_in(folder, c->name, number, image_kind));
    if (has(BOARDID_EDITION, c)) {
        expect_one_change(c, image, whole, change);
        expect_one_change(c, image, part, change);
    } else {
        expect_refused_whole(c, whole);
        expect_refused_whole(c, part);
    }
    expect(all_are(whole, part.length, 0xFF), c->name);
    give_back(part);
    give_back(whole);
    give_back(image);
}

/* Reads a room that another edition changed: it is the one put together, and its boards are read. */
static void read_room(const char *folder, uint32_t room, uint32_t i, const char *kind,
                      uint32_t left_out)
{
    const char *const name = room == 0 ? "old_room" : "new_room";
    uint32_t k, row = 0, places[IMAGES];
    struct lent wanted = room_of(room, left_out, places);
    struct lent file = read_file(path_in(folder, name, i, kind));

    expect(same_bytes(file, wanted), name);
    for (k = 0; k < IMAGES; k++) {
        uint64_t answer = boardid_room_fetch_board(BOARDID_ROOM_FORM_1, file.bytes, file.length,
                                                   board_of(k));
        struct boardid_part part = boardid_answer_part(answer);
        struct lent image, body;

        if (!in_room(room, left_out, k)) {
            expect_number(boardid_answer_number(answer), BOARDID_REFUSED_NO_BOARD, name);
        } else if (!has_room(BOARDID_EDITION, room, left_out)) {
            expect_number(boardid_answer_number(answer), BOARDID_REFUSED_FORMAT, name);
            expect_number(boardid_answer_place(answer), refused_place(room, left_out, places), name);
        } else {
            struct boardid_room_row given =
                boardid_room_row_at(BOARDID_ROOM_FORM_1, file.bytes, file.length, row++);

            expect_number(part.place, places[k], name);
            expect_number(given.board, board_of(k), name);
            expect_number(given.format, images[k].format, name);
            expect_number(given.body_place, part.place, name);
            expect_number(given.body_length, part.length, name);
            image = lend_hex(images[k].image);
            body = lend_copy(file.bytes + part.place, part.length);
            expect(same_bytes(body, image), name);
            expect_number(list_of(&images[k], body).count, images[k].count, name);
            give_back(body);
            give_back(image);
        }
    }
    give_back(file);
    give_back(wanted);
}

static void read_rooms(const char *folder, uint32_t editor)
{
    uint32_t room, i;

    for (room = 0; room < ROOMS; room++) {
        for (i = 0; i < IMAGES; i++) {
            if (in_room(room, IMAGES, i) && has_room(editor, room, IMAGES)) {
                read_room(folder, room, i, "without", i);
                read_room(folder, room, i, "with", IMAGES);
            }
        }
    }
}

/* Reads what another edition edited, removed and added. */
static void read_all(const char *folder, uint32_t editor)
{
    uint32_t i, n, k;

    for (i = 0; i < IMAGES; i++) {
        const struct image_case *c = &images[i];
        const uint32_t last = c->entries[c->count - 1].code;
        struct change change = {0, 0, 0, "", ""};

        for (n = 0; n < c->count; n++) {
            if (names(editor, c->entries[n].since)) {
                change.n = n;
                change.more = 0;
                change.value = c->entries[n].value;
                read_change(folder, c, n, "edited", &change);
                change.more = -1;
                if (!required(c->format, c->entries[n].code)) {
                    read_change(folder, c, n, "removed", &change);
                }
            }
        }
        /* A new entry is the last, in Tiny the last before the pool. */
        change.n = c->count - (c->format == BOARDID_FORMAT_TINY && last == 0x01);
        change.more = 1;
        for (k = 0; k < c->field_count; k++) {
            if (names(editor, c->fields[k].since) && c->fields[k].refused == 0) {
                change.code = c->fields[k].code;
                change.key = c->fields[k].key;
                change.value = c->fields[k].value;
                read_change(folder, c, k, "added", &change);
            }
        }
    }
}

int main(int argc, char **argv)
{
    if (argc == 3 && strcmp(argv[1], "list") == 0) {
        list_all(argv[2]);
    } else if (argc == 3 && strcmp(argv[1], "change") == 0) {
        change_all(argv[2]);
        change_rooms(argv[2]);
    } else if (argc == 4 && strcmp(argv[1], "read") == 0) {
        read_all(argv[2], (uint32_t)strtoul(argv[3], NULL, 10));
        read_rooms(argv[2], (uint32_t)strtoul(argv[3], NULL, 10));
    } else {
        fprintf(stderr, "usage: old_header list|change FOLDER, or old_header read FOLDER EDITION\n");
        return 2;
    }
    return expectations_met("old_header");
}
