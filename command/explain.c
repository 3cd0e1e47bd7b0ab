/*
 * explain.c: refusals for people. Which entry it is, where it stands in the file, which rule it
 * breaks and what was found, and what can be done about it.
 */
#include "command.h"

#include <inttypes.h>
#include <stdlib.h>
#include <string.h>

/* The fields that every FBOSS image has. */
static const uint32_t required[] = {1, 8, 9, 10, 11};

/* Begins a message with the entry that it is about, and keeps entry, name and place for JSON. */
void at_entry(struct job *job, const struct image *image, int64_t entry, uint32_t code,
              const uint8_t *key, size_t key_length, int64_t place)
{
    struct problem *problem = &job->problem;

    if (entry >= 0) {
        text_add(&problem->message, "entry %" PRId64 ", ", entry);
    }
    put_label(&problem->message, image, code, key, key_length);
    if (place >= 0) {
        text_add(&problem->message, ", at byte %" PRId64, place);
    }
    text_add(&problem->message, ": ");
    problem->entry = entry;
    problem->place = place;
    json_decref(problem->name);
    problem->name = json_name(image, code, key, key_length);
}

/* Puts the entry that a message is about before it. */
void prefix_entry(struct job *job, const struct image *image, int64_t entry, uint32_t code,
                  const uint8_t *key, size_t key_length, int64_t place)
{
    struct text message = job->problem.message;

    job->problem.message = (struct text){NULL, 0, 0};
    at_entry(job, image, entry, code, key, key_length, place);
    text_add(&job->problem.message, "%s", text_of(&message));
    text_free(&message);
}

/* Says that an edition does not name a code, and which does. */
int explain_not_named(struct job *job, const struct image *image, uint32_t code)
{
    struct problem *problem = &job->problem;
    const uint32_t since = edition_that_names(image->format, code);
    const char *title = code_title(image->format, code);

    problem->number = BOARDID_REFUSED_NOT_NAMED;
    if (since != 0) {
        text_add(&problem->message, "edition %u does not name code ", image->edition);
        put_code(&problem->message, image->format, code);
        text_add(&problem->message, "; edition %u does: -e %u", since, since);
        if (title != NULL) {
            hint(job, "edition %u calls it %s", since, title);
        }
    } else {
        text_add(&problem->message, "no edition names code ");
        put_code(&problem->message, image->format, code);
        text_add(&problem->message, ", so it is %s",
                 problem->entry >= 0 ? "kept as it is" : "not written");
        hint(job, "boardid names -f %s lists those that are named", format_word(image->format));
    }
    return STATUS_REFUSED;
}

/* Adds which byte of a text is none, and where. */
static bool put_bad_byte(struct text *text, const uint8_t *value, size_t length, int64_t place)
{
    size_t i;

    for (i = 0; i < length; i++) {
        if (value[i] < 0x20 || value[i] > 0x7E) {
            text_add(text, "its text has byte %02Xh", value[i]);
            if (place >= 0) {
                text_add(text, " at byte %" PRId64, place + (int64_t)i);
            } else {
                text_add(text, " as character %zu", i + 1);
            }
            text_add(text, "; text is bytes 20h to 7Eh");
            return true;
        }
    }
    return false;
}

/* Adds a short value: as it is where it is text, else in hexadecimal. */
static void put_value(struct text *text, const uint8_t *value, size_t length)
{
    if (length > 0 && length <= 32 && is_printable(value, length)) {
        text_escaped(text, value, length);
    } else {
        text_cut_hex(text, value, length);
    }
}

/* Adds what is wrong with an identity. */
static void put_identity_rule(struct text *text, const uint8_t *value, size_t length)
{
    if (length >= 6 && !(value[2] <= 99 || (value[2] >= 128 && value[2] <= 153))) {
        text_add(text, "major revision %u; it is 0 to 99, or 128 to 153 for 0A to 0Z", value[2]);
    } else if (length >= 6 && value[3] > 99) {
        text_add(text, "minor revision %u; it is 0 to 99", value[3]);
    } else if (length == 8) {
        text_add(text, "batch %u; it is at most 9999", (uint32_t)value[7] << 8 | value[6]);
    } else {
        text_add(text, "it is no identity");
    }
}

/* Adds which character of a VPD key may not be written. */
static void put_key_rule(struct text *text, const struct wanted *wanted)
{
    size_t i;

    for (i = 0; i < wanted->key_length; i++) {
        const uint8_t c = wanted->key[i];

        if (!((c >= 'a' && c <= 'z') || (c >= 'A' && c <= 'Z') || (c >= '0' && c <= '9') ||
              c == '_')) {
            text_add(text, "its key has ");
            if (c > 0x20 && c < 0x7F) {
                text_add(text, "%c", c);
            } else {
                text_add(text, "byte %02Xh", c);
            }
            text_add(text, "; a key that is written has only a-z, A-Z, 0-9 and _");
            return;
        }
    }
    text_add(text, "it breaks the rule of its type");
}

/* Whether a value begins as a pattern says: a digit for each 0 of it, and else its own bytes. */
static bool has_digits(const uint8_t *value, const char *pattern)
{
    for (; *pattern != '\0'; pattern++, value++) {
        if (*pattern == '0' ? *value < '0' || *value > '9' : *value != (uint8_t)*pattern) {
            return false;
        }
    }
    return true;
}

/* Adds what is wrong with a date with time. */
static void put_datetime_rule(struct text *text, const uint8_t *value, size_t length)
{
    put_value(text, value, length);
    if (length != 19 || !has_digits(value, "00/00/0000 00:00:00")) {
        text_add(text, " is not written as MM/DD/YYYY HH:MM:SS");
    } else if (value[11] > '2' || (value[11] == '2' && value[12] > '3') || value[14] > '5' ||
               value[17] > '5') {
        text_add(text, " is no time of the day");
    } else {
        text_add(text, " is no day of the calendar");
    }
}

/*
 * Says in words which rule of its code an entry or a new value breaks. The message begins with what
 * at_entry has put there. `place` is that of a stored value, or -1.
 */
int explain_rule(struct job *job, const struct image *image, const struct wanted *wanted,
                 int64_t place, bool writing)
{
    struct text *text = &job->problem.message;
    const struct known *known = find_known(image->format, wanted->code);
    const uint8_t *value = wanted->value;
    const size_t length = wanted->value_length;

    job->problem.number = BOARDID_REFUSED_RULE;
    if (known == NULL) {
        text_add(text, "%s", boardid_refusal_text(BOARDID_REFUSED_RULE));
        return STATUS_REFUSED;
    }
    if (image->format == BOARDID_FORMAT_VPD && wanted->code == BOARDID_VPD_STRING) {
        if (wanted->key_length == 0) {
            text_add(text, "its key is empty; a key has at least one byte");
        } else if (writing) {
            put_key_rule(text, wanted);
        }
        return STATUS_REFUSED;
    }
    if (known->length != 0 && known->type != TYPE_DATE && known->type != TYPE_DATETIME &&
        length != known->length) {
        text_add(text, "%zu byte%s; it has exactly %u", length, length == 1 ? "" : "s",
                 known->length);
        return STATUS_REFUSED;
    }
    if (image->format == BOARDID_FORMAT_ONIE && wanted->code == BOARDID_ONIE_VENDOR_EXTENSION &&
        length < 4) {
        text_add(text, "%zu byte%s; it has at least 4", length, length == 1 ? "" : "s");
        return STATUS_REFUSED;
    }
    if (length > 255) {
        text_add(text, "%zu bytes; it has at most 255", length);
        return STATUS_REFUSED;
    }
    switch (known->type) {
    case TYPE_TEXT:
        if (put_bad_byte(text, value, length, place)) {
            break;
        }
        put_value(text, value, length);
        text_add(text, image->format == BOARDID_FORMAT_ONIE &&
                               wanted->code == BOARDID_ONIE_COUNTRY_CODE
                           ? " is no country of two letters A-Z"
                           : " breaks the rule of its code");
        break;
    case TYPE_DATE:
        put_value(text, value, length);
        text_add(text, length == 8 && has_digits(value, "00000000")
                           ? " is no day of the calendar"
                           : " is not written as YYYYMMDD");
        break;
    case TYPE_DATETIME:
        put_datetime_rule(text, value, length);
        break;
    case TYPE_IDENTITY:
        put_identity_rule(text, value, length);
        break;
    default:
        text_add(text, "%s", boardid_refusal_text(BOARDID_REFUSED_RULE));
        break;
    }
    return STATUS_REFUSED;
}

/* Says how many bytes an image would need, and how to give it those. */
int explain_no_room(struct job *job, const struct image *image, size_t need, size_t room)
{
    const size_t most = image->format == BOARDID_FORMAT_TINY   ? 255
                        : image->format == BOARDID_FORMAT_ONIE ? 2059
                                                               : ROOM_MAX;

    if (need == 0 || need > most) {
        refuse(job, STATUS_REFUSED, BOARDID_REFUSED_NO_ROOM, "%s has at most %zu bytes",
               format_title(image->format), most);
        if (need != 0) {
            text_add(&job->problem.message, ", and this would have %zu", need);
        }
        hint(job, "a shorter value, or one entry less, makes room");
        return STATUS_REFUSED;
    }
    refuse(job, STATUS_REFUSED, BOARDID_REFUSED_NO_ROOM, "needs %zu bytes, the room has %zu", need,
           room);
    if (job->options.in_place || job->options.has_length) {
        hint(job, "a shorter value, or one entry less, makes room; -s makes it longer, without -i "
             "and -l");
    } else {
        hint(job, "-s %zu makes it longer", need);
    }
    return STATUS_REFUSED;
}

/* Says what is wrong with the first bytes: 3 and 4. */
static int explain_header(struct job *job, const struct image *image, int number)
{
    static const uint8_t fboss[] = {0xFB, 0xFB}, tiny[] = {0x56};
    static const uint8_t onie[] = {'T', 'l', 'v', 'I', 'n', 'f', 'o', 0};
    const size_t header = frames_begin(image->format);
    const uint8_t *magic = image->format == BOARDID_FORMAT_FBOSS  ? fboss
                           : image->format == BOARDID_FORMAT_TINY ? tiny
                                                                  : onie;
    const size_t length = image->format == BOARDID_FORMAT_FBOSS  ? sizeof fboss
                          : image->format == BOARDID_FORMAT_TINY ? sizeof tiny
                                                                 : sizeof onie;
    const uint32_t version = image->format == BOARDID_FORMAT_FBOSS  ? 5
                             : image->format == BOARDID_FORMAT_TINY ? 2
                                                                    : 1;
    struct text *text = &job->problem.message;

    job->problem.number = number;
    job->problem.place = (int64_t)image->offset;
    if (image->room < header) {
        text_add(text, "%zu byte%s, and the header of %s has %zu", image->room,
                 image->room == 1 ? "" : "s", format_title(image->format), header);
        hint(job, "cut short: read the chip again");
        return STATUS_REFUSED;
    }
    if (number == BOARDID_REFUSED_VERSION) {
        text_add(text, "byte %" PRIu64 " says version %u, and %s has version %u",
                 image->offset + length, image->bytes[length], format_title(image->format),
                 version);
        return STATUS_REFUSED;
    }
    if (memcmp(image->bytes, magic, length) == 0) {
        text_add(text, "byte %" PRIu64 " of the header is %02Xh, and FFh is needed",
                 image->offset + 3, image->bytes[3]);
        return STATUS_REFUSED;
    }
    text_add(text, "begins with ");
    text_hex(text, image->bytes, length, " ");
    text_add(text, ", and %s begins with ", format_title(image->format));
    text_hex(text, magic, length, " ");
    if (job->options.format != 0) {
        hint(job, "without -f the format is detected");
    }
    return STATUS_REFUSED;
}

/* Says what is wrong with a stored length: 5 of Tiny at 2, of ONIE at 9. */
static bool explain_length(struct job *job, const struct image *image, uint64_t place)
{
    const uint8_t *bytes = image->bytes;
    struct text *text = &job->problem.message;
    uint32_t length;

    if (image->format == BOARDID_FORMAT_TINY && place == 2) {
        length = bytes[2];
        text_add(text, "the length at byte %" PRIu64 " says %u bytes, ", image->offset + 2, length);
        if (length < 4) {
            text_add(text, "and an image has at least 4");
        } else {
            text_add(text, "and the room has %zu", image->room);
        }
    } else if (image->format == BOARDID_FORMAT_ONIE && place == 9) {
        length = (uint32_t)bytes[9] << 8 | bytes[10];
        text_add(text, "the length at byte %" PRIu64 " says %u bytes after the header, ",
                 image->offset + 9, length);
        if (length > 2048) {
            text_add(text, "and at most 2048 are taken");
        } else if (length > image->room - 11) {
            text_add(text, "and the room has %zu", image->room - 11);
        } else {
            text_add(text, "and the check ends before that, at byte %" PRIu64, image->offset +
                     image_length(image->format, bytes, image->room));
        }
    } else {
        return false;
    }
    hint(job, "damaged or cut short: read the chip again");
    return true;
}

/* Says what is wrong with a frame: 5 and 6. */
static void explain_frame(struct job *job, const struct image *image, const struct frame *frame,
                          int64_t entry)
{
    const uint64_t end = image->offset + frames_end(image->format, image->bytes, image->room);
    const uint64_t place = image->offset + frame->place;
    struct text *text = &job->problem.message;

    if (frame->state == FRAME_NONE) {
        text_add(text, "the entries run out at byte %" PRIu64 " without an end, after %" PRId64
                 " of them", place, entry);
        hint(job, "cut short: read the chip again");
        job->problem.place = (int64_t)place;
        return;
    }
    if (frame->state == FRAME_FORBIDDEN) {
        job->problem.place = (int64_t)place;
        job->problem.entry = entry;
        text_add(text, "entry %" PRId64 ", at byte %" PRIu64 ": %02Xh is no %s that an entry can "
                 "have", entry, place, frame->code,
                 image->format == BOARDID_FORMAT_VPD    ? "type"
                 : image->format == BOARDID_FORMAT_TINY ? "tag"
                                                        : "code");
        hint(job, frame->code == 0xFF ? "an erased byte: the image was cut off, or half written"
                                      : "damaged, or another format: see -f and --offset");
        return;
    }
    at_entry(job, image, entry, frame->code, image->bytes + frame->key_place,
             frame->state == FRAME_LONG ? frame->key_length : 0, (int64_t)place);
    switch (frame->state) {
    case FRAME_CUT:
        text_add(text, "its length is missing: the room ends at byte %" PRIu64, end);
        break;
    case FRAME_LONG_KEY:
        text_add(text, "its key of %zu bytes runs past the room, which ends at byte %" PRIu64,
                 frame->key_length, end);
        break;
    case FRAME_LONG:
        text_add(text, "its value of %zu bytes from byte %" PRIu64 " on runs past the room, which "
                 "ends at byte %" PRIu64, frame->value_length, image->offset + frame->value_place,
                 end);
        break;
    case FRAME_BAD_LENGTH:
        if (image->format == BOARDID_FORMAT_VPD) {
            text_add(text, "a length has a fifth byte, and at most four are taken");
        } else {
            text_add(text, "the end of the entries has a length of %zu, and %d is needed",
                     frame->value_length, image->format == BOARDID_FORMAT_FBOSS ? 2 : 4);
        }
        break;
    default:
        text_add(text, "%s", boardid_refusal_text((uint32_t)job->problem.number));
        break;
    }
    hint(job, "damaged or cut short: read the chip again");
}

/* Says which check is stored: 10. */
static int explain_check(struct job *job, const struct image *image, uint64_t place)
{
    const size_t length = image->format == BOARDID_FORMAT_TINY   ? 1
                          : image->format == BOARDID_FORMAT_ONIE ? 4
                                                                 : 2;
    struct text *text = &job->problem.message;

    text_add(text, "the check at byte %" PRIu64 " is ", image->offset + place);
    if (place + length <= image->room) {
        text_hex(text, image->bytes + place, length, " ");
    }
    text_add(text, ", which is not that of the bytes before it");
    hint(job, "damaged or half written: read the chip again");
    job->problem.place = (int64_t)(image->offset + place);
    return STATUS_REFUSED;
}

/* Says which required fields are missing, of the codes that are there: 11. */
int explain_missing(struct job *job, uint32_t format, const bool there[256])
{
    struct text *text = &job->problem.message;
    bool any = false;
    size_t i;

    refuse(job, STATUS_REFUSED, BOARDID_REFUSED_MISSING, "%s", "");
    for (i = 0; i < sizeof required / sizeof required[0]; i++) {
        if (!there[required[i]]) {
            text_add(text, "%s%s (code %u)", any ? ", " : "required, and missing: ",
                     code_title(format, required[i]), required[i]);
            any = true;
        }
    }
    if (!any) {
        text_add(text, "%s", boardid_refusal_text(BOARDID_REFUSED_MISSING));
    }
    return STATUS_REFUSED;
}

/* Says which required fields an image does not have. */
static int explain_missing_entry(struct job *job, const struct image *image)
{
    bool there[256] = {false};
    size_t place = frames_begin(image->format);

    for (;;) {
        const struct frame frame = frame_at(image->format, image->bytes, image->room, place);

        if (frame.state != FRAME_ENTRY) {
            break;
        }
        there[frame.code & 0xFF] = true;
        place += frame.length;
    }
    explain_missing(job, image->format, there);
    job->problem.place = (int64_t)image->offset;
    hint(job, "boardid write makes such an image anew");
    return STATUS_REFUSED;
}

/* Whether two frames are of the same code and, in VPD 01h, of the same key. */
static bool is_same(const struct image *image, const struct frame *a, const struct frame *b)
{
    if (a->code != b->code) {
        return false;
    }
    return image->format != BOARDID_FORMAT_VPD || a->code != BOARDID_VPD_STRING ||
           (a->key_length == b->key_length &&
            memcmp(image->bytes + a->key_place, image->bytes + b->key_place, a->key_length) == 0);
}

/* Says what is wrong with the entry at a place: 5 to 9. */
static int explain_entry(struct job *job, const struct image *image, int number, uint64_t place)
{
    struct text *text = &job->problem.message;
    size_t at = frames_begin(image->format);
    struct frame frame, wrong, found = {FRAME_NONE, 0, 0, 0, 0, 0, 0, 0};
    struct wanted wanted;
    int64_t entry = 0, first = -1, pool = -1, n;

    for (frame = frame_at(image->format, image->bytes, image->room, at);
         frame.state == FRAME_ENTRY && frame.place < place;
         frame = frame_at(image->format, image->bytes, image->room, at)) {
        if (image->format == BOARDID_FORMAT_TINY && frame.code == BOARDID_TINY_ASCII_STRINGS) {
            pool = entry;
        }
        at += frame.length;
        entry++;
    }
    wrong = frame;
    if (number == BOARDID_REFUSED_PAST_ROOM || number == BOARDID_REFUSED_FORBIDDEN) {
        explain_frame(job, image, &wrong, entry);
        return STATUS_REFUSED;
    }
    at_entry(job, image, entry, wrong.code, image->bytes + wrong.key_place, wrong.key_length,
             (int64_t)(image->offset + wrong.place));
    if (number == BOARDID_REFUSED_AFTER_POOL) {
        text_add(text, "comes after the string pool, entry %" PRId64 ", which has to be the last",
                 pool);
        return STATUS_REFUSED;
    }
    if (number == BOARDID_REFUSED_RULE) {
        wanted = (struct wanted){wrong.code, image->bytes + wrong.key_place, wrong.key_length,
                                 image->bytes + wrong.value_place, wrong.value_length};
        explain_rule(job, image, &wanted, (int64_t)(image->offset + wrong.value_place), false);
        return STATUS_REFUSED;
    }
    at = frames_begin(image->format);
    for (n = 0; n < entry && first < 0; n++) {
        found = frame_at(image->format, image->bytes, image->room, at);
        first = is_same(image, &found, &wrong) ? n : -1;
        at += found.length;
    }
    text_add(text, "a second ");
    put_label(text, image, wrong.code, image->bytes + wrong.key_place, wrong.key_length);
    if (first >= 0) {
        text_add(text, "; the first is entry %" PRId64 ", at byte %" PRIu64, first,
                 image->offset + found.place);
    }
    return STATUS_REFUSED;
}

/* Says that the room of an image is too long, and how to say where the image is. */
int explain_too_long(struct job *job, size_t room)
{
    refuse(job, STATUS_REFUSED, BOARDID_REFUSED_TOO_LONG,
           "%s%zu bytes, and an image has at most %d", room > FILE_MAX ? "more than " : "",
           room > FILE_MAX ? (size_t)FILE_MAX : room, ROOM_MAX);
    if (strchr(job->command->options, 'l') != NULL) {
        hint(job, "--length %d, and --offset N where it does not begin at byte 0", ROOM_MAX);
    }
    return STATUS_REFUSED;
}

/* Says why the library refuses an image. */
int explain_image(struct job *job, const struct image *image, uint64_t answer)
{
    const int number = (int)boardid_answer_number(answer);
    const uint64_t place = boardid_answer_place(answer);
    const uint32_t has = edition_that_has(image->format);

    refuse(job, STATUS_REFUSED, number, "%s", "");
    switch (number) {
    case BOARDID_REFUSED_EDITION:
        text_add(&job->problem.message, "the library does not know edition %u", image->edition);
        hint(job, "it knows the editions 1 to %u", newest_edition());
        return STATUS_REFUSED;
    case BOARDID_REFUSED_TOO_LONG:
        return explain_too_long(job, image->room);
    case BOARDID_REFUSED_FORMAT:
        text_add(&job->problem.message, "edition %u does not have %s", image->edition,
                 format_title(image->format));
        if (has != 0) {
            text_add(&job->problem.message, "; edition %u does", has);
            hint(job, "-e %u", has);
        }
        return STATUS_REFUSED;
    case BOARDID_REFUSED_HEADER:
    case BOARDID_REFUSED_VERSION:
        return explain_header(job, image, number);
    case BOARDID_REFUSED_CHECK:
        return explain_check(job, image, place);
    case BOARDID_REFUSED_MISSING:
        return explain_missing_entry(job, image);
    case BOARDID_REFUSED_PAST_ROOM:
        if (explain_length(job, image, place)) {
            job->problem.place = (int64_t)(image->offset + place);
            return STATUS_REFUSED;
        }
        return explain_entry(job, image, number, place);
    case BOARDID_REFUSED_FORBIDDEN:
    case BOARDID_REFUSED_RULE:
    case BOARDID_REFUSED_TWICE:
    case BOARDID_REFUSED_AFTER_POOL:
        return explain_entry(job, image, number, place);
    default:
        text_add(&job->problem.message, "%s", boardid_refusal_text((uint32_t)number));
        return STATUS_REFUSED;
    }
}
