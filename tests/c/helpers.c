/*
 * The helpers of a header: names, finding an entry, addresses as bytes, strings as text, pools, and
 * the lengths that images have. What a helper says of a length is compared with what the call
 * itself answers. Compiled once with each edition's header, and run in the repository's folder,
 * where the samples are. All lent memory ends at a page that may not be touched.
 *
 * Format 4, ONIE, is a number here: the headers of editions 1 and 2 have no name for it.
 */
#define _DEFAULT_SOURCE

#include "answers.h"
#include "checks.h"
#include "images.h"

enum { FBOSS = 1, VPD = 2, TINY = 3, ONIE_FORMAT = 4, FORMATS = 4 };

/* ---- The version ---------------------------------------------------------------------------- */

#if BOARDID_VERSION < 403
#error "the version is below 4.3"
#endif

static void test_version(void)
{
    char text[32];

    snprintf(text, sizeof text, "%d.%d", BOARDID_VERSION / 100, BOARDID_VERSION % 100);
    expect(strcmp(text, BOARDID_VERSION_TEXT) == 0, "the version as a number and as a text");
}

/* ---- Names ---------------------------------------------------------------------------------- */

/* A kind, the edition that brings it, and its name in the format's document. */
struct known_name {
    uint32_t format, code, since;
    const char *text;
};

static const struct known_name known_names[] = {
    {FBOSS, 1, 1, "Product Name"},
    {FBOSS, 2, 1, "Top Level 20- Product Part Number"},
    {FBOSS, 3, 1, "System Assembly Part Number"},
    {FBOSS, 4, 1, "Meta PCBA Part Number"},
    {FBOSS, 5, 1, "Meta PCB Part Number"},
    {FBOSS, 6, 1, "ODM/JDM PCBA Part Number"},
    {FBOSS, 7, 1, "ODM/JDM PCBA Serial Number"},
    {FBOSS, 8, 1, "Product Production State"},
    {FBOSS, 9, 1, "Product Version"},
    {FBOSS, 10, 1, "Product Sub Version"},
    {FBOSS, 11, 1, "Product Serial Number"},
    {FBOSS, 12, 1, "System Manufacturer"},
    {FBOSS, 13, 1, "System Manufacturing Date"},
    {FBOSS, 14, 1, "PCB Manufacturer"},
    {FBOSS, 15, 1, "Assembled at"},
    {FBOSS, 16, 1, "EEPROM location on Fabric"},
    {FBOSS, 17, 2, "X86 CPU MAC Addresses"},
    {FBOSS, 18, 2, "BMC MAC Addresses"},
    {FBOSS, 19, 2, "Switch ASIC MAC Addresses"},
    {FBOSS, 20, 2, "Meta Reserved MAC Addresses"},
    {VPD, 0x01, 1, "string"},
    {VPD, 0xFE, 2, "info header"},
    {TINY, 0x01, 1, "ASCII encoded strings pool"},
    {TINY, 0x10, 1, "Serial number"},
    {TINY, 0x11, 1, "Factory test flags"},
    {TINY, 0x60, 1, "Base MAC address"},
    {TINY, 0x61, 1, "Product identity"},
    {TINY, 0x62, 1, "System product identity"},
    {TINY, 0x80, 2, "Product identity w/ batch code"},
    {TINY, 0x81, 2, "System product identity w/ batch code"},
    {ONIE_FORMAT, 0x21, 3, "Product Name"},
    {ONIE_FORMAT, 0x22, 3, "Part Number"},
    {ONIE_FORMAT, 0x23, 3, "Serial Number"},
    {ONIE_FORMAT, 0x24, 3, "MAC #1 Base"},
    {ONIE_FORMAT, 0x25, 3, "Manufacture Date"},
    {ONIE_FORMAT, 0x2A, 3, "Num MACs"},
    {ONIE_FORMAT, 0x2B, 3, "Manufacturer"},
    {ONIE_FORMAT, 0x2C, 3, "Country Code"},
    {ONIE_FORMAT, 0x2D, 3, "Vendor"},
    {ONIE_FORMAT, 0xFD, 3, "Vendor Extension"},
};

/* The name that the table has for a code in this edition; null where it has none. */
static const char *known_name(uint32_t format, uint32_t code)
{
    size_t i;

    for (i = 0; i < sizeof known_names / sizeof known_names[0]; i++) {
        if (known_names[i].format == format && known_names[i].code == code &&
            known_names[i].since <= BOARDID_EDITION) {
            return known_names[i].text;
        }
    }
    return NULL;
}

/* Whether two names are the same one, or both are null. */
static int same_name(const char *a, const char *b)
{
    return a == NULL || b == NULL ? a == b : strcmp(a, b) == 0;
}

/* What the library refuses a write of one field for, of a code, the key A and no value. */
static uint32_t refused_field(uint32_t format, uint32_t code)
{
    static const uint8_t key[] = {'A'};
    struct boardid_field field = {0, 0, 1, 0, 0};
    uint8_t bytes[BOARDID_FIELD_SIZE], out[64];

    field.code = code;
    boardid_field_set(bytes, 0, field);
    return boardid_answer_number(
        boardid_write_image(format, bytes, sizeof bytes, key, sizeof key, out, sizeof out));
}

/* A kind has a name exactly where the library names the code, and a format where it has it. */
static void test_names(void)
{
    static const char *const formats[] = {NULL, "FBOSS v5", "VPD 2.0", "Tiny EEPROM version 2",
                                          BOARDID_EDITION >= 3 ? "ONIE TlvInfo version 1" : NULL};
    static const uint32_t no_kinds[] = {0,          255,        256,        0x10101,
                                        0x1000101,  0x80000101, 0xFFFFFFFF, 0x5FFFF,
                                        0xFFFF0101, 8 * 256 + 1};
    uint32_t format, code, named = 0;
    size_t i;

    for (format = 0; format <= 300; format++) {
        const char *name = boardid_format_name(format);

        expect(same_name(name, format <= FORMATS ? formats[format] : NULL), "a format's name");
        expect((name == NULL) == (refused_field(format, 1) == 16), "a format that is there");
    }
    expect(boardid_format_name(0xFFFFFFFF) == NULL, "no format: 0xFFFFFFFF");
    for (format = 0; format <= 6; format++) {
        for (code = 0; code <= 255; code++) {
            const char *name = boardid_kind_name(BOARDID_KIND(format, code));
            uint32_t refused = refused_field(format, code);

            named += name != NULL;
            expect(same_name(name, known_name(format, code)), "a kind's name");
            expect((name == NULL) == (refused == 14 || refused == 16), "a kind that is named");
        }
    }
    expect_number(named, BOARDID_EDITION >= 3 ? 40 : BOARDID_EDITION == 2 ? 30 : 23, "names");
    for (i = 0; i < sizeof no_kinds / sizeof no_kinds[0]; i++) {
        expect(boardid_kind_name(no_kinds[i]) == NULL, "no kind");
    }
}

/* ---- Finding -------------------------------------------------------------------------------- */

/*
 * Six entries: 01h A, 01h AB, FEh A, 01h lab.rack, 01h 22h 00h FFh, 01h B; the second and the
 * fourth have long lengths.
 */
#define SIX \
    "01 01 41 01 31 01 80 02 41 42 80 00 FE 01 41 04 01 02 03 04 01 80 08 " LAB_RACK \
    " 00 01 03 22 00 FF 01 39 01 01 42 00 00"

static void expect_found(struct lent image, struct lent records, const char *key, size_t from,
                         size_t wanted)
{
    struct lent bytes = lend_hex(key);
    size_t count = records.length / BOARDID_RECORD_SIZE;

    expect_number(boardid_find_key(image.bytes, records.bytes, count, bytes.bytes, bytes.length,
                                   from),
                  wanted, key);
    give_back(bytes);
}

static void test_finding(void)
{
    struct lent image = lend_hex(SIX);
    struct lent records = lend(6 * BOARDID_RECORD_SIZE);
    size_t from;

    expect_count(boardid_list_entries(VPD, image.bytes, image.length, records.bytes,
                                      records.length),
                 6, "the list of six");
    expect_found(image, records, "41", 0, 0);
    expect_found(image, records, "41", 1, 2);
    expect_found(image, records, "41", 3, 6);
    expect_found(image, records, "41 42", 0, 1);
    expect_found(image, records, "41 42", 1, 1);
    expect_found(image, records, "41 42", 2, 6);
    expect_found(image, records, "42", 0, 5);
    expect_found(image, records, LAB_RACK, 0, 3);
    expect_found(image, records, "6C 61 62 2E 72 61 63 6C", 0, 6);
    expect_found(image, records, "22 00 FF", 0, 4);
    expect_found(image, records, "22 00 FE", 0, 6);
    expect_found(image, records, "22 01 FF", 0, 6);
    expect_found(image, records, "23 00 FF", 0, 6);
    expect_found(image, records, "", 0, 6);
    expect_found(image, records, "42", 6, 6);
    expect_found(image, records, "42", 7, 6);
    expect_found(image, records, "41", (size_t)-1, 6);
    for (from = 0; from <= 7; from++) {
        static const size_t strings[] = {0, 1, 3, 3, 4, 5, 6, 6};

        expect_number(boardid_find_code(records.bytes, 6, 0x01, from), strings[from], "01h");
        expect_number(boardid_find_code(records.bytes, 6, 0xFE, from), from <= 2 ? 2 : 6, "FEh");
    }
    expect_number(boardid_find_code(records.bytes, 6, 0x101, 0), 6, "101h");
    expect_number(boardid_find_code(records.bytes, 6, 0, 0), 6, "code 0");
    expect_number(boardid_find_code(records.bytes, 5, 0xFE, 0), 2, "five records");
    expect_number(boardid_find_code(records.bytes, 2, 0xFE, 0), 2, "two records");
    expect_number(boardid_find_code(NULL, 0, 1, 0), 0, "no records");
    expect_number(boardid_find_key(NULL, NULL, 0, NULL, 0, 0), 0, "no records, no key");
    give_back(records);
    give_back(image);

    /* Outside VPD all keys are empty. */
    image = lend_hex(FBOSS_2023);
    records = lend(6 * BOARDID_RECORD_SIZE);
    expect_count(boardid_list_entries(FBOSS, image.bytes, image.length, records.bytes,
                                      records.length),
                 6, "the list of a dated image");
    expect_number(boardid_find_code(records.bytes, 6, 13, 0), 5, "code 13");
    expect_found(image, records, "", 4, 4);
    expect_found(image, records, "41", 0, 6);
    give_back(records);
    give_back(image);

    /* Codes that no edition names: 99 twice, and 21. */
    image = lend_hex(FBOSS_START "63 02 00 FF 63 00 15 01 FA FA 02 F6 F1");
    records = lend(8 * BOARDID_RECORD_SIZE);
    expect_count(boardid_list_entries(FBOSS, image.bytes, image.length, records.bytes,
                                      records.length),
                 8, "the list with codes that are not named");
    expect_number(boardid_find_code(records.bytes, 8, 99, 0), 5, "code 99");
    expect_number(boardid_find_code(records.bytes, 8, 99, 6), 6, "code 99 again");
    expect_number(boardid_find_code(records.bytes, 8, 21, 0), 7, "code 21");
    expect_number(boardid_find_code(records.bytes, 8, 0, 0), 8, "code 0");
    give_back(records);
    give_back(image);
}

/* ---- Addresses ------------------------------------------------------------------------------ */

static void expect_address(uint32_t reading, uint32_t high, uint32_t low, uint32_t k,
                           const char *wanted)
{
    struct boardid_record record;
    struct lent bytes = lend(6), address = lend_hex(wanted);

    memset(&record, 0, sizeof record);
    record.reading = reading;
    record.carried[0] = high;
    record.carried[1] = low;
    record.carried[2] = 1;
    boardid_record_address_bytes(&record, k, bytes.bytes);
    expect(same_bytes(bytes, address), wanted);
    give_back(bytes);
    give_back(address);
}

static void test_addresses(void)
{
    const uint32_t block = BOARDID_READING_ADDRESS_BLOCK;
    uint32_t reading;

    expect_address(block, 0x021A, 0x2B3C4D5E, 0, "02 1A 2B 3C 4D 5E");
    expect_address(block, 0x021A, 0x2B3C4D5E, 1, "02 1A 2B 3C 4D 5F");
    expect_address(block, 0x021A, 0x2B3C4D5E, 0xA2, "02 1A 2B 3C 4E 00");
    expect_address(block, 0x021A, 0x2B3CFFFF, 1, "02 1A 2B 3D 00 00");
    expect_address(block, 0x021A, 0xFFFFFFFF, 1, "02 1B 00 00 00 00");
    expect_address(block, 0x02FF, 0xFFFFFFFF, 0xFFFFFFFF, "03 00 FF FF FF FE");
    expect_address(block, 0xFFFF, 0xFFFFFFFF, 0, "FF FF FF FF FF FF");
    expect_address(block, 0xFFFF, 0xFFFFFFFF, 1, "00 00 00 00 00 00");
    expect_address(block, 0xFFFF, 0xFFFFFFFF, 0xFFFFFFFF, "00 00 FF FF FF FE");
    expect_address(block, 0x12340001, 2, 3, "00 01 00 00 00 05");
    for (reading = 0; reading <= 10; reading++) {
        if (reading != block) {
            expect_address(reading, 1, 2, 3, "00 00 00 00 00 00");
        }
    }
    expect_address(0x103, 1, 2, 3, "00 00 00 00 00 00");
}

/* ---- Strings and pools ---------------------------------------------------------------------- */

/* Makes a Tiny image of a pool; the check is put right. */
static struct lent lend_tiny(const uint8_t *pool, size_t length)
{
    struct lent image = lend(6 + length);

    image.bytes[0] = 0x56;
    image.bytes[1] = 0x02;
    image.bytes[2] = (uint8_t)image.length;
    image.bytes[3] = 0x01;
    image.bytes[4] = (uint8_t)length;
    if (length != 0) {
        memcpy(image.bytes + 5, pool, length);
    }
    image.bytes[image.length - 1] = (uint8_t)check8_of(image.bytes, image.length - 1);
    return image;
}

/* Expects a string as text in rooms of every size up to some more than it needs. */
static void expect_text(struct lent image, uint64_t number, const char *text, size_t length)
{
    size_t size;

    for (size = 0; size <= length + 4; size++) {
        struct lent room = lend(size);
        size_t put = size == 0 ? 0 : size - 1 < length ? size - 1 : length;

        expect_number(boardid_string_text(image.bytes, image.length, number, (char *)room.bytes,
                                          room.length),
                      length, "the length of a string");
        expect(put == 0 || memcmp(room.bytes, text, put) == 0, "the characters of a string");
        expect(size == 0 || room.bytes[put] == 0, "the zero after a string");
        expect(all_are(room, size == 0 ? 0 : put + 1, 0x5A), "what follows a string");
        give_back(room);
    }
}

static void test_strings(void)
{
    struct lent image = lend_hex("56 02 15 10 00 01 0D 53 4E 2D B7 C1 80 00 07 8A 41 42 FF 44 00");
    uint8_t pool[249];

    image.bytes[image.length - 1] = (uint8_t)check8_of(image.bytes, image.length - 1);
    expect_text(image, 0, "SN-7", 4);
    expect_text(image, 1, "A", 1);
    expect_text(image, 2, "\0", 1);
    expect_text(image, 3, "\0\a\n", 3);
    expect_text(image, 4, "AB\x7F", 3);
    expect_text(image, 5, "", 0);
    expect_text(image, 6, "", 0);
    expect_text(image, (uint64_t)1 << 32, "", 0);
    expect_text(image, UINT64_MAX, "", 0);
    expect_number(boardid_string_text(image.bytes, image.length, 0, NULL, 0), 4, "no room at all");
    image.bytes[image.length - 1] ^= 1;
    expect_text(image, 0, "", 0);
    give_back(image);
    image = lend_hex("56 02 04 6F");
    expect_text(image, 0, "", 0);
    give_back(image);
    expect_number(boardid_string_text(NULL, 0, 0, NULL, 0), 0, "no image");

    memset(pool, 'x', sizeof pool);
    pool[sizeof pool - 1] |= 0x80;
    image = lend_tiny(pool, sizeof pool);
    memset(pool, 'x', sizeof pool);
    expect_text(image, 0, (const char *)pool, sizeof pool);
    give_back(image);
}

/* Appends to a pool that fills lent memory up to its room, and expects the new length. */
static void expect_appended(const char *pool, size_t room, const char *text, const char *wanted)
{
    struct lent old = lend_hex(pool), added = lend_hex(text), new_pool = lend_hex(wanted);
    struct lent bytes = lend(room < old.length ? old.length : room);

    if (old.length != 0) {
        memcpy(bytes.bytes, old.bytes, old.length);
    }
    expect_number(boardid_pool_append(bytes.bytes, old.length, room, added.bytes, added.length),
                  new_pool.length, text);
    if (new_pool.length == 0) {
        expect(old.length == 0 || memcmp(bytes.bytes, old.bytes, old.length) == 0, text);
        expect(all_are(bytes, old.length, 0x5A), text);
    } else {
        expect(memcmp(bytes.bytes, new_pool.bytes, new_pool.length) == 0, text);
        expect(all_are(bytes, new_pool.length, 0x5A), text);
    }
    give_back(old);
    give_back(added);
    give_back(new_pool);
    give_back(bytes);
}

static void test_pools(void)
{
    static const char *const texts[] = {"SN-7", "A", "PART 42", "x"};
    struct lent pool = lend(40), image, longest = lend(255);
    size_t length = 0, i, k;

    expect_appended("", 4, "53 4E 2D 37", "53 4E 2D B7");
    expect_appended("", 5, "53 4E 2D 37", "53 4E 2D B7");
    expect_appended("", 3, "53 4E 2D 37", "");
    expect_appended("", 0, "41", "");
    expect_appended("", 1, "41", "C1");
    expect_appended("", 1, "00", "80");
    expect_appended("", 2, "00 7F", "00 FF");
    expect_appended("", 8, "", "");
    expect_appended("C1", 8, "", "");
    expect_appended("", 8, "80", "");
    expect_appended("", 8, "41 FF", "");
    expect_appended("", 8, "FF 41", "");
    expect_appended("C1", 3, "42 43", "C1 42 C3");
    expect_appended("C1", 2, "42 43", "");
    expect_appended("41", 8, "42", "");
    expect_appended("C1 42", 8, "43", "");
    expect_appended("41 42 C3", 2, "44", "");

    /* The pool as an image has it: strings are counted, and read back as they were appended. */
    for (i = 0; i < sizeof texts / sizeof texts[0]; i++) {
        expect_number(boardid_pool_strings(pool.bytes, length), i, "the number of the next string");
        length = boardid_pool_append(pool.bytes, length, pool.length, texts[i], strlen(texts[i]));
        expect(length != 0, "a string is appended");
        image = lend_tiny(pool.bytes, length);
        for (k = 0; k <= i; k++) {
            expect_text(image, k, texts[k], strlen(texts[k]));
        }
        expect_text(image, i + 1, "", 0);
        give_back(image);
    }
    expect_number(length, 13, "the length of the pool");
    pool.bytes[length] = 'z';
    expect_number(boardid_pool_strings(pool.bytes, length + 1), 4, "bytes of no string");
    expect_number(boardid_pool_strings(NULL, 0), 0, "strings of no pool");
    give_back(pool);

    /* At most 255 bytes, whatever the room. */
    memset(longest.bytes, 'x', longest.length);
    pool = lend(300);
    expect_number(boardid_pool_append(pool.bytes, 0, pool.length, longest.bytes, 255), 255,
                  "a pool of 255 bytes");
    expect(pool.bytes[254] == ('x' | 0x80) && all_are(pool, 255, 0x5A), "the end of 255 bytes");
    expect_number(boardid_pool_append(pool.bytes, 255, pool.length, longest.bytes, 1), 0,
                  "more than 255 bytes");
    expect_number(boardid_pool_append(pool.bytes, 300, pool.length, longest.bytes, 1), 0,
                  "a pool of more than 255 bytes");
    pool.bytes[253] |= 0x80;
    expect_number(boardid_pool_append(pool.bytes, 254, pool.length, longest.bytes, 1), 255,
                  "a byte more than 254");
    expect_number(boardid_pool_append(pool.bytes, 254, pool.length, longest.bytes, 2), 0,
                  "two bytes more than 254");
    expect_number(boardid_pool_append(pool.bytes, 0, pool.length, longest.bytes, (size_t)-1), 0,
                  "a text of a length that no text has");
    expect_number(boardid_pool_append(pool.bytes, 254, pool.length, longest.bytes, (size_t)-1), 0,
                  "the same after 254 bytes");
    give_back(pool);
    give_back(longest);
}

/* ---- Lengths -------------------------------------------------------------------------------- */

/* How many lengths were given, and how many times a length was refused with 12. */
static unsigned long given, too_long;

/* The longest output; what the calls put there is not looked at. */
static uint8_t output[BOARDID_IMAGE_MAX];

/* Expects that a helper answers as its call with the longest output. */
static void expect_same_answer(uint64_t length, uint64_t answer, const char *what)
{
    expect_number(length, answer, what);
    given += boardid_answer_number(answer) == 0;
    too_long += boardid_answer_number(answer) == 12;
}

/* Of an edit; and that the call needs the length that was given, and no more. */
static void expect_edit_length(uint32_t format, struct lent image, uint64_t n, const uint8_t *value,
                               size_t value_length)
{
    uint64_t length = boardid_edit_length(format, image.bytes, image.length, n, value,
                                          value_length);
    uint64_t answer = boardid_edit_entry(format, image.bytes, image.length, n, value, value_length,
                                         output, sizeof output);

    expect_same_answer(length, answer, "the length of an edited image");
    if (boardid_answer_number(length) == 0) {
        size_t room = boardid_answer_count(length);

        expect_number(boardid_edit_entry(format, image.bytes, image.length, n, value, value_length,
                                         output, room),
                      length, "an edit with just enough room");
        expect_number(boardid_answer_number(boardid_edit_entry(
                          format, image.bytes, image.length, n, value, value_length, output,
                          room - 1)),
                      12, "an edit with a byte less");
    }
}

/* Of an addition. */
static void expect_add_length(uint32_t format, struct lent image, struct boardid_field field,
                              const uint8_t *values, size_t values_length)
{
    static struct lent bytes;
    uint64_t length;

    if (bytes.length == 0) {
        bytes = lend(BOARDID_FIELD_SIZE);
    }
    boardid_field_set(bytes.bytes, 0, field);
    length = boardid_add_length(format, image.bytes, image.length, bytes.bytes, bytes.length,
                                values, values_length);
    expect_same_answer(length,
                       boardid_add_field(format, image.bytes, image.length, bytes.bytes,
                                         bytes.length, values, values_length, output,
                                         sizeof output),
                       "the length with a field added");
    if (boardid_answer_number(length) == 0) {
        expect_number(boardid_answer_number(boardid_add_field(
                          format, image.bytes, image.length, bytes.bytes, bytes.length, values,
                          values_length, output, boardid_answer_count(length) - 1)),
                      12, "an addition with a byte less");
    }
}

/* Of a write. */
static void expect_write_length(uint32_t format, const struct boardid_field *fields, size_t count,
                                const uint8_t *values, size_t values_length)
{
    struct lent bytes = lend(count * BOARDID_FIELD_SIZE);
    uint64_t length;
    size_t k;

    for (k = 0; k < count; k++) {
        boardid_field_set(bytes.bytes, k, fields[k]);
    }
    length = boardid_write_length(format, bytes.bytes, bytes.length, values, values_length);
    expect_same_answer(length,
                       boardid_write_image(format, bytes.bytes, bytes.length, values,
                                           values_length, output, sizeof output),
                       "the length of a written image");
    if (boardid_answer_number(length) == 0) {
        expect_number(boardid_answer_number(boardid_write_image(
                          format, bytes.bytes, bytes.length, values, values_length, output,
                          boardid_answer_count(length) - 1)),
                      12, "a write with a byte less");
    }
    give_back(bytes);
}

/* The length of an image: that many of its bytes are accepted, and one less are not. */
static void expect_image_length(uint32_t format, struct lent image)
{
    uint64_t answer = boardid_check_image(format, image.bytes, image.length);
    uint64_t length = boardid_image_length(format, image.bytes, image.length);

    if (boardid_answer_number(answer) != 0) {
        expect_number(length, answer, "the length of an image that is refused");
    } else {
        uint32_t count = boardid_answer_count(length);

        expect_count(length, count, "the length of an image");
        expect(count <= image.length, "the length of an image inside the lent bytes");
        expect_number(boardid_check_image(format, image.bytes, count), answer, "the image alone");
        expect(boardid_answer_number(boardid_check_image(format, image.bytes, count - 1)) != 0,
               "the image without its last byte");
    }
}

/* The bytes of fields and new values: a key at 0, and texts, numbers and dates after it. */
static const uint8_t some_values[] = "key_1" "20240229" "\0\1\2\3\4\5\6\7" "12/31/2024 23:59:59"
                                     "abcdefghijklmnopqrstuvwxyzabcdefghijklmnopqrstuvwxyz";

/*
 * Every entry of an image, and one more, edited to values of several lengths; and fields of every
 * named code, and of some that are not, added to it.
 */
static void expect_lengths_of(uint32_t format, struct lent image)
{
    static const uint32_t places[] = {0, 5, 13, 21, 40}, lengths[] = {0, 1, 2, 4, 6, 8, 12, 19, 52};
    static const uint32_t others[] = {0, 0x26, 0xFA, 0xFF, 0x101};
    const size_t named = sizeof known_names / sizeof known_names[0];
    uint32_t entries = boardid_answer_count(boardid_check_image(format, image.bytes,
                                                                image.length));
    uint32_t n;
    size_t i, k, c;

    expect_image_length(format, image);
    for (i = 0; i < sizeof places / sizeof places[0]; i++) {
        for (k = 0; k < sizeof lengths / sizeof lengths[0]; k++) {
            struct boardid_field field = {0, 0, 5, 0, 0};
            struct lent value = lend_copy(some_values + places[i], lengths[k]);

            for (n = 0; n <= entries; n++) {
                expect_edit_length(format, image, n, value.bytes, value.length);
            }
            give_back(value);
            field.value_place = places[i];
            field.value_length = lengths[k];
            for (c = 0; c < named + sizeof others / sizeof others[0]; c++) {
                field.code = c < named ? known_names[c].code : others[c - named];
                expect_add_length(format, image, field, some_values, sizeof some_values);
            }
        }
    }
}

/* Lends a file's bytes. */
static struct lent lend_file(const char *path)
{
    static uint8_t bytes[BOARDID_IMAGE_MAX];
    FILE *stream = fopen(path, "rb");
    size_t length;

    if (stream == NULL) {
        perror(path);
        exit(1);
    }
    length = fread(bytes, 1, sizeof bytes, stream);
    fclose(stream);
    return lend_copy(bytes, length);
}

/* Lengths over the samples, by every format, and over small images. */
static void test_lengths_of_images(void)
{
    static const char *const samples[] = {
        "samples/fboss.bin",  "samples/sku.vpd",  "samples/board.vpd", "samples/names.vpd",
        "samples/frames.vpd", "samples/tiny.bin", "samples/onie.bin",  "samples/amplifier.bin"};
    static const char *const images[] = {
        "", "00", "FF", "56 02 04 6F FF", ONIE "00 06 FE 04 D4 43 1C 18 FF FF",
        "01 80 03 53 4B 55 80 80 02 41 37 00 AA", NAMES,
        "01 80 01 41 80 80 80 00 FE 80 00 80 04 01 02 03 04 00",
        FBOSS_2023, FBOSS_NO_DAY, ONIE_DATED, ONIE_FOUR};
    uint32_t format;
    size_t i;

    for (i = 0; i < sizeof samples / sizeof samples[0]; i++) {
        struct lent image = lend_file(samples[i]);

        for (format = 0; format <= FORMATS + 1; format++) {
            expect_lengths_of(format, image);
        }
        give_back(image);
    }
    for (i = 0; i < sizeof images / sizeof images[0]; i++) {
        struct lent image = lend_hex(images[i]);

        for (format = 0; format <= FORMATS + 1; format++) {
            expect_lengths_of(format, image);
        }
        give_back(image);
    }
}

/* VPD: both sides of every step of a length, and of the longest image. */
static void test_vpd_steps(void)
{
    static const uint32_t steps[] = {0, 1, 126, 127, 128, 129, 16382, 16383, 16384, 16385, 65000};
    static const char *const images[] = {"00", "01 01 42 00 FF AA",
                                         "01 80 01 42 80 80 80 01 43 00"};
    struct lent values = lend(70000), image;
    struct boardid_field two[2] = {{0x01, 0, 1, 0, 0}, {0x01, 0, 2, 0, 0}};
    struct boardid_field field = {0x01, 0, 1, 0, 0};
    uint32_t length;
    size_t i, k;

    memset(values.bytes, 'k', values.length);
    for (i = 0; i < sizeof steps / sizeof steps[0]; i++) {
        for (k = 0; k < sizeof steps / sizeof steps[0]; k++) {
            field.key_length = steps[k];
            field.value_length = steps[i];
            expect_write_length(VPD, &field, 1, values.bytes, values.length);
            two[0].value_length = steps[k];
            two[1].key_length = steps[i] + 2;
            expect_write_length(VPD, two, 2, values.bytes, values.length);
        }
    }
    for (k = 0; k < sizeof images / sizeof images[0]; k++) {
        image = lend_hex(images[k]);
        for (i = 0; i < sizeof steps / sizeof steps[0]; i++) {
            expect_edit_length(VPD, image, 0, values.bytes, steps[i]);
            field.key_length = 1;
            field.value_length = steps[i];
            expect_add_length(VPD, image, field, values.bytes, values.length);
            field.key_length = steps[i];
            field.value_length = 1;
            expect_add_length(VPD, image, field, values.bytes, values.length);
        }
        for (length = 65515; length <= 65545; length++) {
            expect_edit_length(VPD, image, 0, values.bytes, length);
            field.key_length = 1;
            field.value_length = length;
            expect_add_length(VPD, image, field, values.bytes, values.length);
            expect_write_length(VPD, &field, 1, values.bytes, values.length);
        }
        expect_edit_length(VPD, image, 0, values.bytes, values.length);
        give_back(image);
    }

    /* A value that ends with the values, and one that ends a byte after them. */
    image = lend_hex("00");
    for (field.value_length = 10; field.value_length <= 11; field.value_length++) {
        field.value_place = (uint32_t)values.length - 10;
        expect_write_length(VPD, &field, 1, values.bytes, values.length);
        expect_add_length(VPD, image, field, values.bytes, values.length);
    }
    field.value_place = field.value_length = 0xFFFFFFFF;
    expect_write_length(VPD, &field, 1, values.bytes, values.length);
    give_back(image);
    give_back(values);
}

/* A list of no fields, one that is cut short, and a field that is. */
static void test_no_fields(void)
{
    struct lent field = lend(BOARDID_FIELD_SIZE - 1), image = lend_hex("00");
    uint32_t format;

    for (format = 0; format <= FORMATS + 1; format++) {
        uint64_t answer = boardid_write_image(format, NULL, 0, NULL, 0, output, sizeof output);

        expect_write_length(format, NULL, 0, NULL, 0);
        expect_number(boardid_write_length(format, field.bytes, field.length, NULL, 0), answer,
                      "a list of a field that is cut short");
    }
    expect_refused(boardid_add_length(VPD, image.bytes, image.length, field.bytes, field.length,
                                      NULL, 0),
                   13, 0, "a field that is cut short");
    give_back(field);
    give_back(image);
}

/* Tiny: images of up to 255 bytes and some above. */
static void test_tiny_lengths(void)
{
    struct lent values = lend(300), image;
    struct boardid_field fields[3] = {{0x60, 0, 0, 0, 6}, {0x10, 0, 0, 0, 1}, {0x01, 0, 0, 0, 0}};
    uint32_t length;

    memset(values.bytes, 0xC1, values.length);
    for (length = 225; length <= 260; length++) {
        fields[2].value_length = length;
        expect_write_length(TINY, fields, 3, values.bytes, values.length);
        expect_write_length(TINY, fields + 2, 1, values.bytes, values.length);
        image = lend_hex("56 02 04 6F");
        expect_add_length(TINY, image, fields[2], values.bytes, values.length);
        give_back(image);
        image = lend_tiny(values.bytes, 7);
        expect_edit_length(TINY, image, 0, values.bytes, length);
        give_back(image);
        if (length <= 249) {
            image = lend_tiny(values.bytes, length);
            expect_image_length(TINY, image);
            expect_add_length(TINY, image, fields[0], values.bytes, values.length);
            expect_add_length(TINY, image, fields[1], values.bytes, values.length);
            expect_edit_length(TINY, image, 0, values.bytes, 249);
            expect_edit_length(TINY, image, 0, values.bytes, 250);
            give_back(image);
        }
    }
    give_back(values);
}

/* ONIE: images of up to 2,059 bytes and some above. */
static void test_onie_lengths(void)
{
    enum { MOST = 9 };
    struct lent values = lend(300), image;
    struct boardid_field fields[MOST];
    uint32_t length;
    size_t k;

    memset(values.bytes, 'A', values.length);
    for (k = 0; k < MOST; k++) {
        fields[k].code = 0xFD;
        fields[k].key_place = fields[k].key_length = 0xFFFFFFFF;
        fields[k].value_place = 0;
        fields[k].value_length = 250;
    }
    /* Eight of them have 8 * 252 bytes, and with the header and the end 2,033. */
    for (length = 4; length <= 40; length++) {
        fields[8].value_length = length;
        expect_write_length(ONIE_FORMAT, fields, MOST, values.bytes, values.length);
    }
    for (k = 0; k < MOST; k++) {
        expect_write_length(ONIE_FORMAT, fields, k, values.bytes, values.length);
    }
    if (BOARDID_EDITION >= 3) {
        uint8_t list[MOST * BOARDID_FIELD_SIZE];
        uint64_t answer;

        for (k = 0; k < MOST; k++) {
            boardid_field_set(list, k, fields[k]);
        }
        answer = boardid_write_image(ONIE_FORMAT, list, 8 * BOARDID_FIELD_SIZE, values.bytes,
                                     values.length, output, sizeof output);
        expect_count(answer, 2033, "eight entries of 250 bytes");
        image = lend_copy(output, 2033);
        for (length = 4; length <= 40; length++) {
            fields[8].value_length = length;
            expect_add_length(ONIE_FORMAT, image, fields[8], values.bytes, values.length);
        }
        give_back(image);
        fields[7].value_length = 40;
        boardid_field_set(list, 7, fields[7]);
        boardid_field_set(list, 8, fields[8]);
        answer = boardid_write_image(ONIE_FORMAT, list, sizeof list, values.bytes, values.length,
                                     output, sizeof output);
        image = lend_copy(output, boardid_answer_count(answer));
        for (length = 200; length <= 256; length++) {
            expect_edit_length(ONIE_FORMAT, image, 7, values.bytes, length);
        }
        expect_image_length(ONIE_FORMAT, image);
        give_back(image);
    }
    give_back(values);
}

/* FBOSS: written from fields, with what is required and texts of every length. */
static void test_fboss_lengths(void)
{
    struct lent values = lend(300);
    struct boardid_field fields[] = {FBOSS_FIELDS, {12, 9, 9, 3, 0}};
    const size_t count = sizeof fields / sizeof fields[0];
    uint32_t length;

    memset(values.bytes, 'A', values.length);
    for (length = 0; length <= 257; length++) {
        fields[count - 1].value_length = length;
        expect_write_length(FBOSS, fields, count, values.bytes, values.length);
        expect_write_length(FBOSS, fields, count - 2, values.bytes, values.length);
    }
    give_back(values);
}

int main(void)
{
    test_version();
    test_names();
    test_finding();
    test_addresses();
    test_strings();
    test_pools();
    test_lengths_of_images();
    test_vpd_steps();
    test_no_fields();
    test_tiny_lengths();
    test_onie_lengths();
    test_fboss_lengths();
    expect(given > 1000 && too_long > 100, "lengths are given, and refused with 12");
    return expectations_met("helpers");
}
