/*
 * write.c: makes an image from JSON: what list --json gives, or an array of entries.
 *
 * Each entry becomes a field of the library's write. A string that is given as text is found in the
 * pool of the list, or appended to it; a list without a pool gets one.
 */
#include "command.h"

#include <inttypes.h>
#include <stdarg.h>
#include <stdlib.h>
#include <string.h>
#include <strings.h>

/* One field that is to be written. */
struct item {
    uint32_t code;
    struct text key, value;
};

/* All of them. */
struct items {
    struct item *items;
    size_t count;
    struct pool pool;
    int64_t pool_item; /* which of them is the pool; -1: none */
};

/* The name of the JSON text, for messages. */
static void put_source(struct text *text, const struct job *job)
{
    put_file_name(text, job->options.count > 1 ? job->options.words[1] : "-");
}

/* Puts the JSON text and the field's number before a message. */
static int at_field(struct job *job, const struct image *image, const struct item *item, size_t k)
{
    struct text message = job->problem.message;
    struct text *text = &job->problem.message;

    *text = (struct text){NULL, 0, 0};
    put_source(text, job);
    text_add(text, ": field %zu", k);
    if (item != NULL) {
        text_add(text, ", ");
        put_label(text, image, item->code, (const uint8_t *)text_of(&item->key), item->key.length);
        json_decref(job->problem.name);
        job->problem.name = json_name(image, item->code, (const uint8_t *)text_of(&item->key),
                                      item->key.length);
    }
    text_add(text, ": %s", text_of(&message));
    text_free(&message);
    job->problem.entry = (int64_t)k;
    return STATUS_REFUSED;
}

/* Reads the whole number of an entry, where it is there and not above `most`. */
static bool whole(const json_t *json, uint64_t most, uint64_t *number)
{
    if (!json_is_integer(json) || json_integer_value(json) < 0 ||
        (uint64_t)json_integer_value(json) > most) {
        return false;
    }
    *number = (uint64_t)json_integer_value(json);
    return true;
}

/* Adds the bytes of a hexadecimal string. */
static bool put_hex_json(const json_t *json, struct text *value)
{
    const char *word = json_string_value(json);
    uint8_t *bytes;
    size_t length = 0;
    bool good;

    if (word == NULL) {
        return false;
    }
    bytes = memory(strlen(word) / 2 + 1);
    good = read_hex(word, bytes, strlen(word) / 2 + 1, &length);
    if (good) {
        text_put(value, (const char *)bytes, length);
    }
    free(bytes);
    return good;
}

/* Keeps what an entry's value should have been. */
static int wanted_json(struct job *job, const char *what)
{
    return refuse(job, STATUS_REFUSED, -1, "%s", what);
}

/* The number of a string: that of the list, or that of its text in the pool. */
static int string_value(struct job *job, const struct image *image, struct items *items,
                        const json_t *number, const json_t *text, uint8_t *found)
{
    uint64_t n;

    if (number != NULL && !json_is_null(number)) {
        if (!whole(number, 0xFF, &n)) {
            return wanted_json(job, "a string's number is 0 to 255");
        }
        *found = (uint8_t)n;
        return STATUS_DONE;
    }
    if (!json_is_string(text)) {
        return wanted_json(job, "a string needs its text, or its number in the pool");
    }
    return pool_number(job, image, &items->pool, json_string_value(text), -1, 0, found);
}

/* The value of an identity. */
static int identity_value(struct job *job, const struct image *image, struct items *items,
                          uint32_t code, const json_t *json, struct text *value)
{
    const struct known *known = find_known(image->format, code);
    const char *revision = json_string_value(json_object_get(json, "revision"));
    const json_t *batch = json_object_get(json, "batch");
    struct text free_bytes = {NULL, 0, 0};
    uint8_t bytes[8] = {0};
    uint64_t number = 0;
    int status;

    if (!json_is_object(json)) {
        return wanted_json(job, "an identity is an object with serial, part and revision");
    }
    status = string_value(job, image, items, json_object_get(json, "serial_string"),
                          json_object_get(json, "serial"), &bytes[0]);
    if (status == STATUS_DONE) {
        status = string_value(job, image, items, json_object_get(json, "part_string"),
                              json_object_get(json, "part"), &bytes[1]);
    }
    if (status != STATUS_DONE) {
        return status;
    }
    if (revision == NULL || !read_revision(revision, &bytes[2], &bytes[3])) {
        return wanted_json(job, "a revision is written as 05.12, or 0A.12");
    }
    if (json_object_get(json, "free") != NULL) {
        if (!put_hex_json(json_object_get(json, "free"), &free_bytes) || free_bytes.length != 2) {
            text_free(&free_bytes);
            return wanted_json(job, "free is two bytes in hexadecimal, as 2020");
        }
        memcpy(bytes + 4, free_bytes.bytes, 2);
        text_free(&free_bytes);
    }
    if (batch != NULL && !whole(batch, 0xFFFF, &number)) {
        return refuse(job, STATUS_REFUSED, BOARDID_REFUSED_RULE, "a batch is 0 to 9999");
    }
    bytes[6] = (uint8_t)number;
    bytes[7] = (uint8_t)(number >> 8);
    text_put(value, (const char *)bytes,
             batch != NULL || (known != NULL && known->length == 8) ? 8 : 6);
    return STATUS_DONE;
}

/* The value of test flags: the words of the array, and the reserved bits of the number beside. */
static int flags_value(struct job *job, const json_t *entry, const json_t *json, struct text *value)
{
    uint64_t number = 0;
    uint8_t flags = 0, one;
    const json_t *word;
    size_t i;

    if (json_is_array(json)) {
        json_array_foreach(json, i, word) {
            if (!json_is_string(word) || !read_flags(json_string_value(word), &one)) {
                return wanted_json(job, "flags are any of assembly, configuration, burn-in and "
                                   "system");
            }
            flags |= one;
        }
        if (whole(json_object_get(entry, "flags"), 0xFF, &number)) {
            flags |= (uint8_t)(number & 0xF0);
        }
    } else if (json_is_string(json) && read_flags(json_string_value(json), &one)) {
        flags = one;
    } else if (whole(json, 0xFF, &number)) {
        flags = (uint8_t)number;
    } else {
        return wanted_json(job, "flags are an array of words");
    }
    text_put(value, (const char *)&flags, 1);
    return STATUS_DONE;
}

/* The value of an address, with the count beside it in FBOSS. */
static int address_value(struct job *job, uint32_t format, const json_t *entry, const json_t *json,
                         struct text *value)
{
    const char *word = json_string_value(json);
    uint8_t bytes[8];
    uint64_t count = 1;

    if (word == NULL || !read_address(word, strlen(word), bytes)) {
        return wanted_json(job, "an address is six bytes, as 02:1a:2b:3c:4d:5e");
    }
    if (format != BOARDID_FORMAT_FBOSS) {
        text_put(value, (const char *)bytes, 6);
        return STATUS_DONE;
    }
    if (!whole(json_object_get(entry, "count"), 0xFFFF, &count)) {
        return wanted_json(job, "an address block needs a count beside its value, 0 to 65535");
    }
    bytes[6] = (uint8_t)(count >> 8);
    bytes[7] = (uint8_t)count;
    text_put(value, (const char *)bytes, 8);
    return STATUS_DONE;
}

/* The value of a pool: its strings, and the bytes of no string. */
static int pool_value(struct job *job, const json_t *entry, const json_t *json, struct text *value)
{
    const json_t *string, *rest = json_object_get(entry, "rest");
    size_t i;

    if (!json_is_array(json)) {
        return wanted_json(job, "a pool is an array of strings");
    }
    json_array_foreach(json, i, string) {
        const char *text = json_string_value(string);
        const size_t length = text == NULL ? 0 : strlen(text);
        char last;

        if (length == 0 || !is_printable((const uint8_t *)text, length)) {
            return refuse(job, STATUS_REFUSED, BOARDID_REFUSED_RULE,
                          "string %zu: a string of the pool is ASCII, 20h to 7Eh, at least one of "
                          "them", i);
        }
        last = (char)(text[length - 1] | (char)0x80);
        text_put(value, text, length - 1);
        text_put(value, &last, 1);
    }
    if (rest != NULL && !json_is_null(rest) && !put_hex_json(rest, value)) {
        return wanted_json(job, "rest is in hexadecimal");
    }
    return STATUS_DONE;
}

/* The value of a number, as wide as its code says. */
static int number_value(struct job *job, uint32_t format, uint32_t code, const json_t *json,
                        struct text *value)
{
    const struct known *known = find_known(format, code);
    const bool two = known != NULL && known->length == 2;
    uint8_t bytes[2];
    uint64_t number;

    if (!whole(json, two ? 0xFFFF : 0xFF, &number)) {
        return refuse(job, STATUS_REFUSED, json_is_integer(json) ? BOARDID_REFUSED_RULE : -1,
                      "its value is a number, 0 to %d", two ? 65535 : 255);
    }
    bytes[0] = (uint8_t)(number >> 8);
    bytes[1] = (uint8_t)number;
    text_put(value, (const char *)bytes + (two ? 0 : 1), two ? 2 : 1);
    return STATUS_DONE;
}

/*
 * The type by which an entry's value is read: that of its code, or bytes, or of a code with bytes
 * also text. Any other word is no type of this entry.
 */
static bool entry_type(const struct image *image, const json_t *entry, uint32_t code,
                       enum type *type)
{
    const json_t *word = json_object_get(entry, "type");
    const struct known *known = find_known(image->format, code);
    const char *said;

    *type = known == NULL ? TYPE_BYTES : known->type;
    if (word == NULL || json_is_null(word)) {
        return true;
    }
    said = json_string_value(word);
    if (said == NULL || strcmp(said, type_name(*type)) == 0) {
        return said != NULL;
    }
    if (strcmp(said, type_name(TYPE_BYTES)) == 0) {
        *type = TYPE_BYTES;
        return true;
    }
    if (*type == TYPE_BYTES && strcmp(said, type_name(TYPE_TEXT)) == 0) {
        *type = TYPE_TEXT;
        return true;
    }
    return false;
}

/* The value of an entry. */
static int entry_value(struct job *job, const struct image *image, struct items *items,
                       const json_t *entry, struct item *item)
{
    const json_t *bytes = json_object_get(entry, "bytes"), *json = json_object_get(entry, "value");
    struct text *value = &item->value;
    enum type type;

    if (!entry_type(image, entry, item->code, &type)) {
        return refuse(job, STATUS_REFUSED, -1, "its type is %s, or bytes", type_name(type));
    }
    if (json == NULL || json_is_null(json) || (type == TYPE_BYTES && json_is_string(bytes))) {
        if (bytes == NULL && type == TYPE_STRING &&
            json_object_get(entry, "string_number") != NULL) {
            json = json_object_get(entry, "string_number");
        } else {
            if (bytes == NULL) {
                return wanted_json(job, "it has neither value nor bytes");
            }
            return put_hex_json(bytes, value) ? STATUS_DONE
                                              : wanted_json(job, "bytes are in hexadecimal");
        }
    }
    switch (type) {
    case TYPE_NUMBER:
        return number_value(job, image->format, item->code, json, value);
    case TYPE_ADDRESS:
        return address_value(job, image->format, entry, json, value);
    case TYPE_FLAGS:
        return flags_value(job, entry, json, value);
    case TYPE_POOL:
        return pool_value(job, entry, json, value);
    case TYPE_IDENTITY:
        return identity_value(job, image, items, item->code, json, value);
    case TYPE_STRING: {
        uint8_t number = 0;
        const int status = string_value(job, image, items, json_object_get(entry, "string_number"),
                                        json, &number);

        text_put(value, (const char *)&number, 1);
        return status;
    }
    case TYPE_BYTES:
        return put_hex_json(json, value) ? STATUS_DONE
                                         : wanted_json(job, "its value is in hexadecimal");
    default:
        break;
    }
    if (!json_is_string(json)) {
        return wanted_json(job, "its value is a string");
    }
    if (type == TYPE_DATE) {
        stored_date(json_string_value(json), value);
    } else if (type == TYPE_DATETIME) {
        stored_datetime(json_string_value(json), value);
    } else {
        text_put(value, json_string_value(json), json_string_length(json));
    }
    return STATUS_DONE;
}

/* The code of an entry, and its key. */
static int entry_code(struct job *job, const struct image *image, const json_t *entry,
                      struct item *item)
{
    const json_t *code = json_object_get(entry, "code"), *key = json_object_get(entry, "key");
    const json_t *key_bytes = json_object_get(entry, "key_bytes");
    const json_t *name = json_object_get(entry, "name"), *word = json_object_get(entry, "short");
    const bool vpd = image->format == BOARDID_FORMAT_VPD;
    uint64_t number = BOARDID_VPD_STRING;
    int status = STATUS_DONE;

    if (!json_is_object(entry)) {
        return wanted_json(job, "an entry is an object");
    }
    name = json_is_string(name) ? name : word;
    if (code != NULL && !json_is_null(code)) {
        if (!whole(code, UINT32_MAX, &number)) {
            return wanted_json(job, "code is a number, 0 to 4294967295");
        }
        item->code = (uint32_t)number;
    } else if (json_is_string(name)) {
        status = find_code(job, image, json_string_value(name), &item->code);
    } else if (vpd && (json_is_string(key) || json_is_string(key_bytes))) {
        item->code = BOARDID_VPD_STRING;
    } else {
        return wanted_json(job, "it has neither code nor name nor short");
    }
    if (status == STATUS_DONE && vpd && json_is_string(key)) {
        text_put(&item->key, json_string_value(key), json_string_length(key));
    } else if (status == STATUS_DONE && vpd && key_bytes != NULL && !json_is_null(key_bytes) &&
               !put_hex_json(key_bytes, &item->key)) {
        return wanted_json(job, "key_bytes is in hexadecimal");
    }
    return status;
}

/* Reads the fields of the list: their codes, the pool, and then the values. */
static int read_items(struct job *job, const struct image *image, const json_t *entries,
                      struct items *items)
{
    const json_t *entry;
    int status = STATUS_DONE;
    size_t k;

    items->items = memory((json_array_size(entries) + 1) * sizeof *items->items);
    items->count = json_array_size(entries);
    items->pool_item = -1;
    items->pool.taken = -1;
    json_array_foreach(entries, k, entry) {
        struct item *item = &items->items[k];

        status = entry_code(job, image, entry, item);
        if (status != STATUS_DONE) {
            return at_field(job, image, NULL, k);
        }
        if (image->format == BOARDID_FORMAT_TINY && item->code == BOARDID_TINY_ASCII_STRINGS &&
            items->pool_item < 0) {
            status = entry_value(job, image, items, entry, item);
            if (status == STATUS_DONE && item->value.length > 255) {
                status = refuse(job, STATUS_REFUSED, BOARDID_REFUSED_RULE,
                                "%zu bytes; it has at most 255", item->value.length);
            }
            if (status != STATUS_DONE) {
                return at_field(job, image, item, k);
            }
            items->pool_item = (int64_t)k;
            items->pool.length = item->value.length;
            memcpy(items->pool.bytes, text_of(&item->value), item->value.length);
        }
    }
    json_array_foreach(entries, k, entry) {
        if ((int64_t)k != items->pool_item) {
            status = entry_value(job, image, items, entry, &items->items[k]);
            if (status != STATUS_DONE) {
                return at_field(job, image, &items->items[k], k);
            }
        }
    }
    if (items->pool.changed) {
        if (items->pool_item < 0) {
            items->pool_item = (int64_t)items->count++;
            items->items[items->pool_item].code = BOARDID_TINY_ASCII_STRINGS;
        }
        text_free(&items->items[items->pool_item].value);
        text_put(&items->items[items->pool_item].value, (const char *)items->pool.bytes,
                 items->pool.length);
    }
    return STATUS_DONE;
}

/* Says why the library does not write the fields. */
static int explain_write(struct job *job, const struct image *image, const struct items *items,
                         uint64_t answer, size_t need, size_t room)
{
    const uint32_t number = boardid_answer_number(answer);
    const uint64_t k = boardid_answer_place(answer);
    const struct image none = {.format = image->format, .edition = image->edition,
                               .bytes = (const uint8_t *)"", .room = 0};
    const struct item *item;
    bool there[256] = {false};
    struct wanted wanted;
    size_t other;

    switch (number) {
    case BOARDID_REFUSED_NO_ROOM:
        return explain_no_room(job, image, need, room);
    case BOARDID_REFUSED_MISSING:
        for (other = 0; other < items->count; other++) {
            there[items->items[other].code & 0xFF] = true;
        }
        return explain_missing(job, image->format, there);
    case BOARDID_REFUSED_RULE:
    case BOARDID_REFUSED_TWICE:
    case BOARDID_REFUSED_AFTER_POOL:
    case BOARDID_REFUSED_NOT_THERE:
    case BOARDID_REFUSED_NOT_NAMED:
        break;
    default:
        return explain_image(job, &none, answer);
    }
    refuse(job, STATUS_REFUSED, (int)number, "%s", "");
    if (k >= items->count) {
        text_add(&job->problem.message, "%s", boardid_refusal_text(number));
        return STATUS_REFUSED;
    }
    item = &items->items[k];
    wanted = (struct wanted){item->code, (const uint8_t *)text_of(&item->key), item->key.length,
                             (const uint8_t *)text_of(&item->value), item->value.length};
    if (number == BOARDID_REFUSED_RULE) {
        explain_rule(job, image, &wanted, -1, true);
    } else if (number == BOARDID_REFUSED_NOT_NAMED) {
        explain_not_named(job, image, item->code);
    } else if (number == BOARDID_REFUSED_AFTER_POOL) {
        text_add(&job->problem.message, "comes after the string pool, field %" PRId64
                 ", which has to be the last", items->pool_item);
    } else if (number == BOARDID_REFUSED_TWICE) {
        for (other = 0; other < k; other++) {
            const struct item *first = &items->items[other];

            if (first->code == item->code &&
                (image->format != BOARDID_FORMAT_VPD || item->code != BOARDID_VPD_STRING ||
                 (first->key.length == item->key.length &&
                  memcmp(text_of(&first->key), text_of(&item->key), item->key.length) == 0))) {
                break;
            }
        }
        text_add(&job->problem.message, "comes a second time; the first is field %zu", other);
    } else {
        text_add(&job->problem.message, "%s", boardid_refusal_text(number));
    }
    return at_field(job, image, item, (size_t)k);
}

/* Writes the fields into `out`. `own`: the room is then as long as the image. */
static int write_items(struct job *job, const struct image *image, const struct items *items,
                       bool own, uint8_t *out, size_t *room, size_t *length)
{
    uint8_t *fields = memory(items->count * BOARDID_FIELD_SIZE), *large = memory(ROOM_MAX);
    struct text values = {NULL, 0, 0};
    uint64_t answer, with_room;
    size_t k;
    int status = STATUS_DONE;

    for (k = 0; k < items->count; k++) {
        const struct item *item = &items->items[k];
        const struct boardid_field field = {
            item->code, (uint32_t)values.length, (uint32_t)item->key.length,
            (uint32_t)(values.length + item->key.length), (uint32_t)item->value.length};

        text_put(&values, text_of(&item->key), item->key.length);
        text_put(&values, text_of(&item->value), item->value.length);
        boardid_field_set(fields, k, field);
    }
    with_room = boardid_write(image->format, image->edition, fields,
                              items->count * BOARDID_FIELD_SIZE,
                              (const uint8_t *)text_of(&values), values.length, large, ROOM_MAX);
    if (own && boardid_answer_number(with_room) == 0) {
        *room = boardid_answer_count(with_room);
    } else if (own) {
        *room = ROOM_MAX;
    }
    answer = boardid_write(image->format, image->edition, fields, items->count * BOARDID_FIELD_SIZE,
                           (const uint8_t *)text_of(&values), values.length, out, *room);
    *length = boardid_answer_count(answer);
    if (boardid_answer_number(answer) != 0) {
        status = explain_write(job, image, items, answer, boardid_answer_count(with_room), *room);
    }
    text_free(&values);
    free(fields);
    free(large);
    return status;
}

/* Reads the JSON text, which is not the target, and gives its list of entries and its format. */
static int read_json(struct job *job, const struct input *target, json_t **root, json_t **entries,
                     uint32_t *format)
{
    const char *name = job->options.count > 1 ? job->options.words[1] : "-";
    struct input text;
    struct text said = {NULL, 0, 0};
    json_error_t error;
    uint64_t number;
    json_t *json;
    int status = read_input(job, name, false, &text);

    if (status == STATUS_DONE && text.length > FILE_MAX) {
        job->problem.file = name;
        status = refuse(job, STATUS_FILE, -1, "is too long: it has more than %d bytes", FILE_MAX);
    }
    if (status == STATUS_DONE && target->there && !is_standard(name) &&
        text.stat.st_dev == target->stat.st_dev && text.stat.st_ino == target->stat.st_ino) {
        status = usage(job, "the JSON is read from the file that is to be written");
    }
    if (status != STATUS_DONE) {
        free(text.bytes);
        return status;
    }
    *root = json_loadb((const char *)text.bytes, text.length, JSON_REJECT_DUPLICATES, &error);
    free(text.bytes);
    put_source(&said, job);
    if (*root == NULL) {
        text_add(&said, ":%d:%d: ", error.line < 1 ? 1 : error.line,
                 error.column < 0 ? 0 : error.column);
        text_word(&said, error.text);
        status = refuse(job, STATUS_REFUSED, -1, "%s", text_of(&said));
        text_free(&said);
        return status;
    }
    *entries = json_is_array(*root) ? *root : json_object_get(*root, "entries");
    if (!json_is_array(*entries)) {
        status = refuse(job, STATUS_REFUSED, -1,
                        "%s: neither an array of entries nor an object with one", text_of(&said));
    }
    json = json_object_get(*root, "format");
    *format = job->options.format;
    if (status == STATUS_DONE && *format == 0) {
        if (whole(json, UINT32_MAX, &number)) {
            *format = (uint32_t)number;
        } else if (!json_is_string(json) || !read_format(json_string_value(json), format)) {
            status = refuse(job, STATUS_REFUSED, -1, "%s: no format that is known", text_of(&said));
            hint(job, "-f fboss, vpd, tiny or onie");
        }
    }
    text_free(&said);
    return status;
}

/* Reads the file that is written to, where it is there, and finds the room of the image. */
static int find_target(struct job *job, struct input *input, struct image *image, size_t *room,
                       bool *own)
{
    const struct options *options = &job->options;
    size_t offset = 0;
    int status;

    if (is_standard(job->file)) {
        *input = (struct input){.name = job->file, .bytes = memory(1)};
    } else {
        status = read_input(job, job->file, !options->in_place, input);
        if (status != STATUS_DONE) {
            return status;
        }
    }
    if (input->length > FILE_MAX) {
        return too_long_to_change(job);
    }
    *own = false;
    if (options->offset == input->length && !options->has_length) {
        offset = input->length;
        image->room = 0;
        *own = !options->has_size && !options->in_place;
    } else {
        status = find_room(job, input, &offset, &image->room);
        if (status != STATUS_DONE) {
            return status;
        }
    }
    image->offset = offset;
    status = new_room(job, image, room);
    return status == STATUS_DONE && *room > ROOM_MAX ? explain_too_long(job, *room) : status;
}

/* write: an image from JSON. */
int command_write(struct job *job)
{
    struct change change = {.done = "wrote", .would = "would write", .entry = -1};
    struct input input = {.bytes = NULL};
    struct image image = {.edition = job->options.edition};
    struct items items = {.count = 0, .pool_item = -1};
    uint8_t *out = memory(ROOM_MAX);
    json_t *root = NULL, *entries = NULL;
    size_t room = 0, length = 0, k;
    bool own = false;
    int status = check_change(job);

    if (status == STATUS_DONE) {
        status = find_target(job, &input, &image, &room, &own);
    }
    if (status == STATUS_DONE) {
        status = read_json(job, &input, &root, &entries, &image.format);
    }
    if (status == STATUS_DONE) {
        status = read_items(job, &image, entries, &items);
    }
    if (status == STATUS_DONE) {
        status = write_items(job, &image, &items, own, out, &room, &length);
    }
    if (status == STATUS_DONE) {
        text_add(&change.said, "%zu %s as %s", items.count, items.count == 1 ? "entry" : "entries",
                 format_title(image.format));
        status = finish_image(job, &input, &image, out, room, length, &change);
    }
    for (k = 0; k < items.count; k++) {
        text_free(&items.items[k].key);
        text_free(&items.items[k].value);
    }
    free(items.items);
    json_decref(root);
    free(input.bytes);
    free(out);
    return status;
}
