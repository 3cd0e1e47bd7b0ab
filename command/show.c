/* show.c: values for people, and entries in JSON. */
#include "command.h"

#include <string.h>

enum { TEXT_CUT = 256 }; /* the most characters of a text in the table, and in a sentence */

/* How a record's value is shown. */
static enum type record_type(const struct image *image, const struct boardid_record *record)
{
    switch (record->reading) {
    case BOARDID_READING_TEXT:
        return TYPE_TEXT;
    case BOARDID_READING_NUMBER:
        return TYPE_NUMBER;
    case BOARDID_READING_ADDRESS_BLOCK:
        return TYPE_ADDRESS;
    case BOARDID_READING_STRING_NUMBER:
        return TYPE_STRING;
    case BOARDID_READING_TEST_FLAGS:
        return TYPE_FLAGS;
    case BOARDID_READING_IDENTITY:
    case BOARDID_READING_IDENTITY_WITH_BATCH:
        return TYPE_IDENTITY;
    case BOARDID_READING_DATE:
        return TYPE_DATE;
    case BOARDID_READING_DATE_WITH_TIME:
        return TYPE_DATETIME;
    default:
        break;
    }
    if (record->kind == BOARDID_KIND(BOARDID_FORMAT_TINY, BOARDID_TINY_ASCII_STRINGS)) {
        return TYPE_POOL;
    }
    if (record->kind == BOARDID_KIND(BOARDID_FORMAT_VPD, BOARDID_VPD_STRING) &&
        is_printable(image->bytes + record->value_place, record->value_length)) {
        return TYPE_TEXT;
    }
    return TYPE_BYTES;
}

/* The text of a string of the pool, last character and all; false where there is no such string. */
static bool string_text(const struct image *image, uint32_t number, uint8_t text[256],
                        size_t *length)
{
    struct boardid_part part;

    if (ask_string(image, number, &part) != 0 || part.length > 256) {
        return false;
    }
    memcpy(text, image->bytes + part.place, part.length);
    text[part.length - 1] &= 0x7F;
    *length = part.length;
    return true;
}

/* A string of the pool in JSON: null where there is none, or where it is no text. */
json_t *string_json(const struct image *image, uint32_t number)
{
    uint8_t bytes[256];
    size_t length;

    return string_text(image, number, bytes, &length) ? json_printable(bytes, length)
                                                      : json_null();
}

/* Adds text; all but get has the front of a long one. */
static void put_text(struct text *text, const uint8_t *bytes, size_t length, enum style style)
{
    const size_t shown = style != STYLE_GET && length > TEXT_CUT ? TEXT_CUT : length;

    if (style == STYLE_SAID) {
        text_quoted(text, bytes, shown);
    } else {
        text_escaped(text, bytes, shown);
    }
    if (shown != length) {
        text_add(text, " .. (%zu bytes)", length);
    }
}

/* Adds a string of the pool. `quoted` is for one among other things. */
static void put_string(struct text *text, const struct image *image, uint32_t number, bool quoted)
{
    uint8_t bytes[256];
    size_t length;

    if (!string_text(image, number, bytes, &length)) {
        text_add(text, "string %u, which the pool does not have", number);
    } else if (quoted) {
        text_quoted(text, bytes, length);
    } else {
        text_escaped(text, bytes, length);
    }
}

/* Adds an address. */
static void put_address(struct text *text, const struct boardid_record *record)
{
    const uint64_t base = boardid_record_address_base(record);
    uint8_t bytes[6];
    int i;

    for (i = 0; i < 6; i++) {
        bytes[i] = (uint8_t)(base >> (40 - 8 * i));
    }
    text_hex(text, bytes, sizeof bytes, ":");
}

/* The words of the tests, by bit. */
static const char *const tests[] = {"assembly", "configuration", "burn-in", "system"};

/* Adds the tests that were passed, and the reserved bits as a number. */
static void put_flags(struct text *text, uint32_t flags, const char *between)
{
    bool any = false;
    uint32_t bit;

    for (bit = 0; bit < 4; bit++) {
        if ((flags >> bit & 1) != 0) {
            text_add(text, "%s%s", any ? between : "", tests[bit]);
            any = true;
        }
    }
    if ((flags & 0xF0) != 0) {
        text_add(text, "%s0x%02x", any ? between : "", flags & 0xF0);
        any = true;
    }
    if (!any) {
        text_add(text, "none");
    }
}

/* Adds a revision: 05.12, or 0A.12 of the major numbers 128 to 153. */
static void put_revision(struct text *text, uint32_t major, uint32_t minor)
{
    if (major >= 128 && major <= 153) {
        text_add(text, "0%c.%02u", (char)('A' + (major - 128)), minor);
    } else {
        text_add(text, "%02u.%02u", major, minor);
    }
}

/* Adds an identity. */
static void put_identity(struct text *text, const struct image *image,
                         const struct boardid_record *record, enum style style)
{
    const struct boardid_identity identity = boardid_record_identity(record);
    const bool get = style == STYLE_GET;

    text_add(text, get ? "serial=" : "serial ");
    put_string(text, image, identity.serial_string, !get);
    text_add(text, get ? " part=" : ", part ");
    put_string(text, image, identity.part_string, !get);
    text_add(text, get ? " revision=" : ", revision ");
    put_revision(text, identity.revision_major, identity.revision_minor);
    text_add(text, get ? " free=%02x%02x" : ", free %02x:%02x", identity.free_bytes[0],
             identity.free_bytes[1]);
    if (record->reading == BOARDID_READING_IDENTITY_WITH_BATCH) {
        text_add(text, get ? " batch=%04u" : ", batch %04u", boardid_record_batch(record));
    }
}

/* Adds a date, and its time where it has one. */
static void put_date(struct text *text, const struct boardid_record *record, char between)
{
    const struct boardid_date date = boardid_record_date(record);
    const struct boardid_time time_of_day = boardid_record_time(record);

    text_add(text, "%04u-%02u-%02u", date.year, date.month, date.day);
    if (record->reading == BOARDID_READING_DATE_WITH_TIME) {
        text_add(text, "%c%02u:%02u:%02u", between, time_of_day.hour, time_of_day.minute,
                 time_of_day.second);
    }
}

/* Adds the strings of a pool, and how many bytes belong to none. */
static void put_pool(struct text *text, const struct image *image,
                     const struct boardid_record *record)
{
    const size_t end = record->value_place + record->value_length;
    size_t place = record->value_place;
    struct boardid_part part;
    uint32_t number;

    for (number = 0; ask_string(image, number, &part) == 0; number++) {
        text_add(text, number == 0 ? "" : ", ");
        put_string(text, image, number, true);
        place = part.place + part.length;
    }
    if (number == 0) {
        text_add(text, "no strings");
    }
    if (place != end) {
        text_add(text, "; %zu bytes of no string", end - place);
    }
}

/* Adds the value of entry n. */
void show_value(struct text *text, const struct image *image, uint32_t n, enum style style)
{
    const struct boardid_record *record = &image->records[n];
    const uint8_t *value = image->bytes + record->value_place;
    const bool get = style == STYLE_GET;

    switch (record_type(image, record)) {
    case TYPE_TEXT:
        put_text(text, value, record->value_length, style);
        break;
    case TYPE_NUMBER:
        text_add(text, "%u", boardid_record_number(record));
        break;
    case TYPE_ADDRESS:
        put_address(text, record);
        if (image->format == BOARDID_FORMAT_FBOSS) {
            const uint32_t count = boardid_record_address_count(record);

            text_add(text, get ? "/%u" : ", %u", count);
            text_add(text, "%s", get ? "" : count == 1 ? " address" : " addresses");
        }
        break;
    case TYPE_STRING:
        put_string(text, image, boardid_record_string_number(record), style == STYLE_SAID);
        break;
    case TYPE_FLAGS:
        if (!get) {
            text_add(text, "%u of 4: ", boardid_record_tests_passed(record));
        }
        put_flags(text, boardid_record_test_flags(record), get ? "," : ", ");
        break;
    case TYPE_IDENTITY:
        put_identity(text, image, record, style);
        break;
    case TYPE_DATE:
    case TYPE_DATETIME:
        put_date(text, record, get ? 'T' : ' ');
        break;
    case TYPE_POOL:
        put_pool(text, image, record);
        break;
    default:
        if (get) {
            text_hex(text, value, record->value_length, "");
        } else {
            text_cut_hex(text, value, record->value_length);
        }
        break;
    }
}

/* The identity of a record in JSON. */
static json_t *identity_json(const struct image *image, const struct boardid_record *record)
{
    const struct boardid_identity identity = boardid_record_identity(record);
    const uint8_t bytes[2] = {(uint8_t)identity.free_bytes[0], (uint8_t)identity.free_bytes[1]};
    struct text revision = {NULL, 0, 0};
    json_t *object = json_object();

    put_revision(&revision, identity.revision_major, identity.revision_minor);
    put(object, "serial", string_json(image, identity.serial_string));
    put(object, "serial_string", json_integer(identity.serial_string));
    put(object, "part", string_json(image, identity.part_string));
    put(object, "part_string", json_integer(identity.part_string));
    put(object, "revision", json_string(text_of(&revision)));
    put(object, "free", json_hex(bytes, sizeof bytes));
    if (record->reading == BOARDID_READING_IDENTITY_WITH_BATCH) {
        put(object, "batch", json_integer(boardid_record_batch(record)));
    }
    text_free(&revision);
    return object;
}

/* Puts the strings of a pool into an entry: an array, or null where one of them is no text. */
static void put_pool_json(json_t *entry, const struct image *image,
                          const struct boardid_record *record)
{
    const size_t end = record->value_place + record->value_length;
    size_t place = record->value_place;
    json_t *array = json_array();
    bool text = true;
    struct boardid_part part;
    uint32_t number;

    for (number = 0; ask_string(image, number, &part) == 0; number++) {
        json_t *string = string_json(image, number);

        text = text && !json_is_null(string);
        append(array, string);
        place = part.place + part.length;
    }
    if (!text) {
        json_decref(array);
        array = json_null();
    }
    put(entry, "value", array);
    if (place != end) {
        put(entry, "rest", json_hex(image->bytes + place, end - place));
    }
}

/* Puts the value of a record into its entry, as its type has it. */
static void put_value_json(json_t *entry, const struct image *image,
                           const struct boardid_record *record, enum type type)
{
    const uint8_t *value = image->bytes + record->value_place;
    struct text text = {NULL, 0, 0};
    uint32_t flags, bit;
    json_t *array;

    switch (type) {
    case TYPE_TEXT:
        put(entry, "value", json_printable(value, record->value_length));
        break;
    case TYPE_NUMBER:
        put(entry, "value", json_integer(boardid_record_number(record)));
        break;
    case TYPE_ADDRESS:
        put_address(&text, record);
        put(entry, "value", json_string(text_of(&text)));
        put(entry, "count", json_integer(boardid_record_address_count(record)));
        break;
    case TYPE_STRING:
        put(entry, "value", string_json(image, boardid_record_string_number(record)));
        put(entry, "string_number", json_integer(boardid_record_string_number(record)));
        break;
    case TYPE_FLAGS:
        flags = boardid_record_test_flags(record);
        array = json_array();
        for (bit = 0; bit < 4; bit++) {
            if ((flags >> bit & 1) != 0) {
                append(array, json_string(tests[bit]));
            }
        }
        put(entry, "value", array);
        put(entry, "flags", json_integer(flags));
        break;
    case TYPE_IDENTITY:
        put(entry, "value", identity_json(image, record));
        break;
    case TYPE_DATE:
    case TYPE_DATETIME:
        put_date(&text, record, 'T');
        put(entry, "value", json_string(text_of(&text)));
        break;
    case TYPE_POOL:
        put_pool_json(entry, image, record);
        break;
    default:
        put(entry, "value", json_hex(value, record->value_length));
        break;
    }
    text_free(&text);
}

/* Entry n in JSON. */
json_t *entry_json(const struct image *image, uint32_t n)
{
    const struct boardid_record *record = &image->records[n];
    const struct frame frame = frame_at(image->format, image->bytes, image->room, record->place);
    const enum type type = record_type(image, record);
    const char *title = record->kind == 0 ? NULL : code_title(image->format, record->code);
    json_t *entry = json_object();

    put(entry, "number", json_integer(n));
    put(entry, "code", json_integer(record->code));
    put(entry, "kind", json_integer(record->kind));
    put(entry, "name", title == NULL ? json_null() : json_string(title));
    put(entry, "short",
        record->kind == 0 ? json_array() : json_shorts(image->format, record->code));
    if (image->format == BOARDID_FORMAT_VPD) {
        const uint8_t *key = image->bytes + record->key_place;

        put(entry, "key", json_printable(key, record->key_length));
        put(entry, "key_bytes", json_hex(key, record->key_length));
    }
    put(entry, "place", json_integer((json_int_t)(image->offset + record->place)));
    put(entry, "frame_length", json_integer((json_int_t)frame.length));
    put(entry, "value_place", json_integer((json_int_t)(image->offset + record->value_place)));
    put(entry, "value_length", json_integer(record->value_length));
    put(entry, "type", json_string(type_name(type)));
    put_value_json(entry, image, record, type);
    put(entry, "bytes", json_hex(image->bytes + record->value_place, record->value_length));
    return entry;
}
