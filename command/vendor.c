/* vendor.c: shows and changes the vendor payload of an amplifier, which ONIE images have. */
#include "command.h"

#include <stdlib.h>
#include <string.h>
#include <strings.h>

static const uint8_t prefix[BOARDID_VENDOR_PREFIX_LENGTH] = {0x00, 0x00, 0x1F, 0x79, 0x00};

static const char *const offset_names[BOARDID_VENDOR_OFFSETS] = {
    "c-band-west-in", "c-band-west-out", "c-band-east-in", "c-band-east-out",
    "l-band-west-in", "l-band-west-out", "l-band-east-in", "l-band-east-out",
};

/* What a payload says, and which entries have its pieces. */
struct payload {
    uint8_t bytes[BOARDID_VENDOR_PAYLOAD_MAX];
    size_t length; /* 0: there is none */
    uint8_t serial[BOARDID_VENDOR_SERIAL_MAX + 1];
    size_t serial_length;
    int8_t offsets[BOARDID_VENDOR_OFFSETS];
    uint32_t *entries;
    size_t pieces;
};

/* Whether an entry has a piece of a payload. */
static bool has_piece(const struct image *image, uint32_t n)
{
    const struct boardid_record *record = &image->records[n];

    return record->code == BOARDID_ONIE_VENDOR_EXTENSION && record->value_length >= sizeof prefix &&
           memcmp(image->bytes + record->value_place, prefix, sizeof prefix) == 0;
}

/* Joins the pieces, however long they are, for what is said of a payload that is refused. */
static void join(const struct image *image, struct text *joined)
{
    uint32_t n;

    for (n = 0; n < image->count; n++) {
        if (has_piece(image, n)) {
            const struct boardid_record *record = &image->records[n];

            text_put(joined, (const char *)image->bytes + record->value_place + sizeof prefix,
                     record->value_length - sizeof prefix);
        }
    }
}

/* Says what is wrong with the lengths of a payload. */
static void put_lengths(struct text *text, const uint8_t *bytes, size_t length)
{
    size_t serial, block;

    text_add(text, "the vendor payload has %zu bytes, ", length);
    if (length == 0) {
        text_add(text, "and has at least 16");
        return;
    }
    serial = bytes[0];
    if (length < serial + 3) {
        text_add(text, "and ends inside its serial of %zu", serial);
        return;
    }
    block = (size_t)bytes[1 + serial] << 8 | bytes[2 + serial];
    text_add(text, "and its parts take %zu: a serial of %zu, a block of %zu, and 7 more",
             serial + block + 7, serial, block);
}

/* Says why a payload is refused. */
static int explain_payload(struct job *job, const struct image *image, uint32_t number)
{
    struct text joined = {NULL, 0, 0};
    struct text *text = &job->problem.message;
    const uint8_t *bytes;
    size_t serial;

    refuse(job, STATUS_REFUSED, (int)number, "%s", "");
    join(image, &joined);
    bytes = (const uint8_t *)text_of(&joined);
    serial = joined.length == 0 ? 0 : bytes[0];
    switch (number) {
    case BOARDID_REFUSED_NO_PAYLOAD:
        text_add(text, "there is no vendor payload: no Vendor Extension begins with "
                 "00 00 1f 79 00");
        hint(job, "boardid vendor FILE serial=TEXT makes one");
        break;
    case BOARDID_REFUSED_PAYLOAD_LENGTH:
        put_lengths(text, bytes, joined.length);
        break;
    case BOARDID_REFUSED_PAYLOAD_CHECK:
        text_add(text, "the check of the vendor payload is ");
        if (joined.length >= 4) {
            text_hex(text, bytes + joined.length - 4, 4, " ");
        }
        text_add(text, ", which is not that of the bytes before it");
        hint(job, "its writer has damaged it, or it was put together in another order");
        break;
    case BOARDID_REFUSED_BLOCK:
        if (joined.length >= serial + 4) {
            text_add(text, "the vendor block has %u bytes and version %02Xh; 9 and 00h are needed",
                     (uint32_t)bytes[1 + serial] << 8 | bytes[2 + serial], bytes[3 + serial]);
        } else {
            text_add(text, "the vendor block has no bytes; 9 are needed");
        }
        break;
    default:
        text_add(text, "%s", boardid_refusal_text(number));
        break;
    }
    text_free(&joined);
    return STATUS_REFUSED;
}

/* Reads the payload of an image. `may_miss`: none at all is an empty one. */
static int read_payload(struct job *job, const struct image *image, bool may_miss,
                        struct payload *payload)
{
    uint8_t block_bytes[BOARDID_VENDOR_BLOCK_SIZE];
    struct boardid_vendor_block block;
    uint64_t answer;
    uint32_t n, number;

    if (image->format != BOARDID_FORMAT_ONIE) {
        return refuse(job, STATUS_REFUSED, BOARDID_REFUSED_FORMAT,
                      "%s has no vendor payload: only ONIE TlvInfo version 1 has one",
                      format_title(image->format));
    }
    payload->entries = memory(image->count * sizeof *payload->entries);
    for (n = 0; n < image->count; n++) {
        if (has_piece(image, n)) {
            payload->entries[payload->pieces++] = n;
        }
    }
    answer = boardid_vendor_read(image->format, image->edition, image->bytes, image->room,
                                 payload->bytes, sizeof payload->bytes, block_bytes,
                                 sizeof block_bytes);
    number = boardid_answer_number(answer);
    if (number == BOARDID_REFUSED_NO_PAYLOAD && may_miss) {
        return STATUS_DONE;
    }
    if (number != 0) {
        return explain_payload(job, image, number);
    }
    payload->length = boardid_answer_count(answer);
    block = boardid_vendor_block_at(block_bytes);
    payload->serial_length = block.serial_length;
    memcpy(payload->serial, payload->bytes + block.serial_place, block.serial_length);
    for (n = 0; n < BOARDID_VENDOR_OFFSETS; n++) {
        payload->offsets[n] = (int8_t)block.offsets[n];
    }
    return STATUS_DONE;
}

/* Adds tenths of a decibel as a number with one decimal. */
static void put_decibels(struct text *text, int tenths)
{
    const int size = tenths < 0 ? -tenths : tenths;

    text_add(text, "%s%d.%d dB", tenths < 0 ? "-" : "", size / 10, size % 10);
}

/* Reads decibels with at most one decimal, as tenths. */
static bool read_decibels(const char *word, int8_t *tenths)
{
    const bool minus = *word == '-';
    int value = 0, digits = 0;

    word += *word == '-' || *word == '+' ? 1 : 0;
    for (; *word >= '0' && *word <= '9' && digits < 4; word++, digits++) {
        value = value * 10 + (*word - '0');
    }
    value *= 10;
    if (digits > 0 && word[0] == '.' && word[1] >= '0' && word[1] <= '9') {
        value += word[1] - '0';
        word += 2;
    }
    word += *word == ' ' ? 1 : 0;
    if (digits == 0 || (*word != '\0' && strcasecmp(word, "dB") != 0)) {
        return false;
    }
    value = minus ? -value : value;
    if (value < -128 || value > 127) {
        return false;
    }
    *tenths = (int8_t)value;
    return true;
}

/* Shows a payload. */
static void show_payload(const struct job *job, const struct image *image,
                         const struct payload *payload)
{
    struct text text = {NULL, 0, 0};
    int k;

    if (job->options.json) {
        json_t *object = image_json(job, image), *vendor = json_object(), *offsets = json_object();

        put(vendor, "serial", json_printable(payload->serial, payload->serial_length));
        put(vendor, "serial_bytes", json_hex(payload->serial, payload->serial_length));
        for (k = 0; k < BOARDID_VENDOR_OFFSETS; k++) {
            put(offsets, offset_names[k], json_integer(payload->offsets[k]));
        }
        put(vendor, "offsets", offsets);
        put(vendor, "payload_length", json_integer((json_int_t)payload->length));
        put(object, "vendor", vendor);
        print_json(object);
        return;
    }
    put_file_name(&text, job->file);
    text_add(&text, ": vendor payload of %zu bytes in %zu %s\n", payload->length, payload->pieces,
             payload->pieces == 1 ? "entry" : "entries");
    text_add(&text, "  %-15s  ", "Serial");
    text_escaped(&text, payload->serial, payload->serial_length);
    text_add(&text, "\n");
    for (k = 0; k < BOARDID_VENDOR_OFFSETS; k++) {
        text_add(&text, "  %-15s  ", offset_names[k]);
        put_decibels(&text, payload->offsets[k]);
        text_add(&text, "\n");
    }
    fputs(text_of(&text), stdout);
    text_free(&text);
}

/* Takes one NAME=VALUE into the payload, and says what changes. */
static int take_word(struct job *job, const char *word, struct payload *payload, bool *taken,
                     struct text *said)
{
    const char *value = strchr(word, '=');
    const size_t length = value == NULL ? 0 : (size_t)(value - word);
    struct text shown = {NULL, 0, 0};
    int8_t tenths;
    int k = 0, status;

    text_word(&shown, word);
    if (value == NULL) {
        status = usage(job, "%s is no NAME=VALUE", text_of(&shown));
        text_free(&shown);
        return status;
    }
    value++;
    while (k < BOARDID_VENDOR_OFFSETS &&
           (strlen(offset_names[k]) != length || strncasecmp(word, offset_names[k], length) != 0)) {
        k++;
    }
    if (k == BOARDID_VENDOR_OFFSETS && (length != 6 || strncasecmp(word, "serial", 6) != 0)) {
        refuse(job, STATUS_REFUSED, -1, "%s: the vendor payload has no such name", text_of(&shown));
        hint(job, "it has serial, c-band-west-in, -west-out, -east-in, -east-out, and l-band-..");
        text_free(&shown);
        return STATUS_REFUSED;
    }
    if (taken[k]) {
        status = usage(job, "%s: the name comes a second time", text_of(&shown));
        text_free(&shown);
        return status;
    }
    taken[k] = true;
    text_add(said, said->length == 0 ? "vendor payload: " : ", ");
    if (k == BOARDID_VENDOR_OFFSETS) {
        text_add(said, "serial ");
        text_quoted(said, payload->serial, payload->serial_length);
        payload->serial_length = strlen(value);
        if (payload->serial_length > BOARDID_VENDOR_SERIAL_MAX) {
            text_free(&shown);
            return refuse(job, STATUS_REFUSED, BOARDID_REFUSED_PAYLOAD_LENGTH,
                          "a serial of %zu bytes; it has at most 255", payload->serial_length);
        }
        memcpy(payload->serial, value, payload->serial_length);
        text_add(said, " -> ");
        text_quoted(said, payload->serial, payload->serial_length);
    } else if (read_decibels(value, &tenths)) {
        text_add(said, "%s ", offset_names[k]);
        put_decibels(said, payload->offsets[k]);
        text_add(said, " -> ");
        put_decibels(said, tenths);
        payload->offsets[k] = tenths;
    } else {
        refuse(job, STATUS_REFUSED, BOARDID_REFUSED_RULE,
               "%s: an offset is -12.8 to 12.7 decibels, with at most one decimal",
               text_of(&shown));
        text_free(&shown);
        return STATUS_REFUSED;
    }
    text_free(&shown);
    return STATUS_DONE;
}

/* The lengths of the new pieces: the old ones, or as few as possible. Gives how many. */
static size_t cut(const struct image *image, const struct payload *payload, uint8_t *lengths)
{
    size_t left = BOARDID_VENDOR_PAYLOAD_MIN + payload->serial_length, k;

    if (left == payload->length) {
        for (k = 0; k < payload->pieces; k++) {
            const struct boardid_record *record = &image->records[payload->entries[k]];

            boardid_vendor_piece_set(lengths, k, record->value_length - (uint32_t)sizeof prefix);
        }
        return payload->pieces;
    }
    for (k = 0; left > 0; k++) {
        const size_t piece = left < BOARDID_VENDOR_PIECE_MAX ? left : BOARDID_VENDOR_PIECE_MAX;

        boardid_vendor_piece_set(lengths, k, (uint32_t)piece);
        left -= piece;
    }
    return k;
}

/* An image that is changed step by step: what it is now, and where the next step goes. */
struct steps {
    uint8_t *now, *next;
    size_t length;
    uint64_t refused; /* the answer of a step that was refused, or 0 */
};

/* Takes the answer of a step: the new image is the next one. */
static void stepped(struct steps *steps, uint64_t answer)
{
    uint8_t *now = steps->next;

    if (boardid_answer_number(answer) != 0) {
        steps->refused = answer;
        return;
    }
    steps->next = steps->now;
    steps->now = now;
    steps->length = boardid_answer_count(answer);
}

/* Puts the values of the new pieces into the image: removals, then what shrinks, then grows. */
static void put_pieces(const struct image *image, const struct payload *payload,
                       const uint8_t *lengths, size_t count, const uint8_t *values,
                       size_t values_length, struct steps *steps)
{
    size_t k, place;
    int grow;

    for (k = payload->pieces; k > count && steps->refused == 0; k--) {
        stepped(steps, boardid_remove(image->format, image->edition, steps->now, ROOM_MAX,
                                      payload->entries[k - 1], steps->next, ROOM_MAX));
    }
    for (grow = 0; grow < 2; grow++) {
        place = 0;
        for (k = 0; k < count && k < payload->pieces && steps->refused == 0; k++) {
            const size_t length = sizeof prefix + boardid_vendor_piece_at(lengths, k);
            const uint32_t n = payload->entries[k];

            if ((length > image->records[n].value_length) == (grow == 1)) {
                stepped(steps, boardid_edit(image->format, image->edition, steps->now, ROOM_MAX, n,
                                            values + place, length, steps->next, ROOM_MAX));
            }
            place += length;
        }
    }
    place = 0;
    for (k = 0; k < count && steps->refused == 0; k++) {
        const size_t length = sizeof prefix + boardid_vendor_piece_at(lengths, k);
        const struct boardid_field field = {BOARDID_ONIE_VENDOR_EXTENSION, 0, 0, (uint32_t)place,
                                            (uint32_t)length};
        uint8_t bytes[BOARDID_FIELD_SIZE];

        if (k >= payload->pieces) {
            boardid_field_set(bytes, 0, field);
            stepped(steps, boardid_add(image->format, image->edition, steps->now, ROOM_MAX, bytes,
                                       sizeof bytes, values, values_length, steps->next, ROOM_MAX));
        }
        place += length;
    }
}

/* Makes the image with the new payload. Gives its bytes in `out`, which has ROOM_MAX bytes. */
static int make_payload(struct job *job, const struct image *image, const struct payload *payload,
                        uint8_t *out, size_t room, size_t *length)
{
    const size_t most = payload->pieces + 2;
    uint8_t *lengths = memory(most * BOARDID_VENDOR_PIECE_SIZE);
    uint8_t *values = memory(BOARDID_VENDOR_PAYLOAD_MAX + most * sizeof prefix);
    const size_t count = cut(image, payload, lengths);
    uint64_t answer = boardid_vendor_write(
        image->format, image->edition, payload->serial, payload->serial_length,
        boardid_vendor_offsets_word(payload->offsets), lengths, count * BOARDID_VENDOR_PIECE_SIZE,
        values, BOARDID_VENDOR_PAYLOAD_MAX + most * sizeof prefix);
    struct steps steps = {memory(ROOM_MAX), memory(ROOM_MAX), image->length, 0};
    int status = STATUS_DONE;

    if (boardid_answer_number(answer) != 0) {
        status = explain_payload(job, image, boardid_answer_number(answer));
    } else {
        memset(steps.now, 0xFF, ROOM_MAX);
        memcpy(steps.now, image->bytes, image->length);
        put_pieces(image, payload, lengths, count, values, boardid_answer_count(answer), &steps);
        *length = steps.length;
        if (boardid_answer_number(steps.refused) == BOARDID_REFUSED_NO_ROOM) {
            status = explain_no_room(job, image, 0, room);
        } else if (steps.refused != 0) {
            status = refuse(job, STATUS_REFUSED, (int)boardid_answer_number(steps.refused), "%s",
                            boardid_refusal_text(boardid_answer_number(steps.refused)));
        } else if (steps.length > room) {
            status = explain_no_room(job, image, steps.length, room);
        } else {
            memcpy(out, steps.now, room);
        }
    }
    free(steps.now);
    free(steps.next);
    free(lengths);
    free(values);
    return status;
}

/* vendor: shows the payload, or changes it. */
int command_vendor(struct job *job)
{
    const bool changes = job->options.count > 1;
    struct change change = {.done = "changed", .would = "would change", .entry = -1};
    bool taken[BOARDID_VENDOR_OFFSETS + 1] = {false};
    struct payload *payload = memory(sizeof *payload);
    uint8_t *out = memory(ROOM_MAX);
    struct input input = {.bytes = NULL};
    struct image image = {.records = NULL};
    size_t room = 0, length = 0;
    int status = STATUS_DONE, i;

    if (!changes && (job->options.dry_run || job->options.in_place || job->options.has_size)) {
        status = usage(job, "--dry-run, --in-place and --size go with NAME=VALUE");
    }
    if (status == STATUS_DONE) {
        status = changes ? open_change(job, &input, &image) : open_image(job, &input, &image);
    }
    if (status == STATUS_DONE) {
        status = read_payload(job, &image, changes, payload);
    }
    if (status == STATUS_DONE && !changes) {
        show_payload(job, &image, payload);
    }
    for (i = 1; status == STATUS_DONE && i < job->options.count; i++) {
        status = take_word(job, job->options.words[i], payload, taken, &change.said);
    }
    if (status == STATUS_DONE && changes) {
        status = new_room(job, &image, &room);
    }
    if (status == STATUS_DONE && changes) {
        status = make_payload(job, &image, payload, out, room, &length);
    }
    if (status == STATUS_DONE && changes) {
        status = finish_image(job, &input, &image, out, room, length, &change);
    }
    text_free(&change.said);
    free(payload->entries);
    free(payload);
    free(image.records);
    free(input.bytes);
    free(out);
    return status;
}
