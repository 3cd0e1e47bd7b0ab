/* images.c: finds and lists an image; the commands list, get, check and strings. */
#include "command.h"

#include <inttypes.h>
#include <stdlib.h>
#include <string.h>
#include <unistd.h>

/* Finds the room of the image in a file, by --offset and --length. */
int find_room(struct job *job, const struct input *input, size_t *offset, size_t *room)
{
    const struct options *options = &job->options;
    const bool cut = input->length > FILE_MAX;
    const char *more = cut ? "more than " : "";
    const size_t length = cut ? FILE_MAX : input->length;

    if (cut && (options->offset > FILE_MAX ||
                (options->has_length ? options->length : ROOM_MAX + 1) >
                    FILE_MAX - options->offset)) {
        return refuse(job, STATUS_FILE, -1, "only the first %d bytes of a file are read", FILE_MAX);
    }
    if (options->offset > length) {
        return refuse(job, STATUS_FILE, -1, "--offset %" PRIu64 " is past the end: the file has "
                      "%s%zu bytes", options->offset, more, length);
    }
    *offset = (size_t)options->offset;
    *room = input->length - *offset;
    if (options->has_length) {
        if (options->length > *room) {
            return refuse(job, STATUS_FILE, -1, "--length %" PRIu64 " from byte %zu on is past the "
                          "end: the file has %s%zu bytes", options->length, *offset, more, length);
        }
        *room = (size_t)options->length;
    }
    if (*room == 0) {
        return refuse(job, STATUS_FILE, -1, input->length == 0 ? "is empty"
                      : "is empty: the image's room has no bytes");
    }
    return STATUS_DONE;
}

/* Whether all bytes are the same one, FFh or 00h. */
static bool is_blank(const uint8_t *bytes, size_t room)
{
    size_t i;

    for (i = 0; i < room; i++) {
        if (bytes[i] != bytes[0]) {
            return false;
        }
    }
    return room > 0 && (bytes[0] == 0xFF || bytes[0] == 0x00);
}

/* Says that the chip is blank. */
static int blank(struct job *job, const uint8_t *bytes, size_t room)
{
    refuse(job, STATUS_BLANK, -1, "the chip is blank: all %s%zu bytes are %02Xh",
           room > FILE_MAX ? "of its first " : "", room > FILE_MAX ? (size_t)FILE_MAX : room,
           bytes[0]);
    hint(job, "boardid write makes an image");
    return STATUS_BLANK;
}

/* Finds the format: the one of --format, or the one that the bytes begin like. */
int find_format(struct job *job, const uint8_t *bytes, size_t room, uint64_t offset,
                uint32_t *format)
{
    struct image image = {.format = BOARDID_FORMAT_VPD, .edition = job->options.edition,
                          .bytes = bytes, .room = room, .offset = offset};
    uint64_t answer;

    if (job->options.format != 0) {
        *format = job->options.format;
        return STATUS_DONE;
    }
    if (is_blank(bytes, room)) {
        return blank(job, bytes, room);
    }
    if (room >= 8 && memcmp(bytes, "TlvInfo", 8) == 0) {
        *format = BOARDID_FORMAT_ONIE;
        return STATUS_DONE;
    }
    if (room >= 2 && bytes[0] == 0xFB && bytes[1] == 0xFB) {
        *format = BOARDID_FORMAT_FBOSS;
        return STATUS_DONE;
    }
    if (bytes[0] == 0x56) {
        *format = BOARDID_FORMAT_TINY;
        return STATUS_DONE;
    }
    *format = BOARDID_FORMAT_VPD;
    answer = boardid_check(BOARDID_FORMAT_VPD, job->options.edition, bytes, room);
    if (boardid_answer_number(answer) == 0) {
        return STATUS_DONE;
    }
    if (bytes[0] == BOARDID_VPD_STRING || bytes[0] == BOARDID_VPD_INFO ||
        boardid_answer_number(answer) <= BOARDID_REFUSED_TOO_LONG) {
        return explain_image(job, &image, answer);
    }
    explain_image(job, &image, answer);
    {
        struct text vpd = job->problem.message;

        job->problem.message = (struct text){NULL, 0, 0};
        text_add(&job->problem.message, "begins like no format: ");
        text_hex(&job->problem.message, bytes, room < 8 ? room : 8, " ");
        text_add(&job->problem.message, "; as VPD 2.0: %s", text_of(&vpd));
        text_free(&vpd);
    }
    text_free(&job->problem.hint);
    if (room >= 2 && bytes[0] == 0x52 && bytes[1] == 0x4D) {
        hint(job, "it begins like a room file: boardid room list");
    } else {
        hint(job, strchr(job->command->options, 'o') == NULL
             ? "--format F says which format it has"
             : "--offset N says where the image begins, --format F which format it has");
    }
    return STATUS_REFUSED;
}

/* Says why the library refuses an image, or that it is blank. */
int explain_or_blank(struct job *job, const struct image *image, uint64_t answer)
{
    const uint32_t number = boardid_answer_number(answer);

    if (number != BOARDID_REFUSED_EDITION && number != BOARDID_REFUSED_FORMAT &&
        is_blank(image->bytes, image->room)) {
        return blank(job, image->bytes, image->room);
    }
    return explain_image(job, image, answer);
}

/* Lists an image: fills its records. A refusal is explained. */
int list_image(struct job *job, struct image *image)
{
    uint64_t answer = boardid_check(image->format, image->edition, image->bytes, image->room);
    uint8_t *records;
    uint32_t n;

    if (boardid_answer_number(answer) != 0) {
        return explain_or_blank(job, image, answer);
    }
    image->count = boardid_answer_count(answer);
    records = memory((size_t)image->count * BOARDID_RECORD_SIZE);
    image->records = memory((size_t)image->count * sizeof *image->records);
    boardid_list(image->format, image->edition, image->bytes, image->room, records,
                 (size_t)image->count * BOARDID_RECORD_SIZE);
    for (n = 0; n < image->count; n++) {
        image->records[n] = boardid_record_at(records, n);
    }
    free(records);
    image->length = image_length(image->format, image->bytes, image->room);
    return STATUS_DONE;
}

/* Reads the file of a command and lists its image. */
int open_image(struct job *job, struct input *input, struct image *image)
{
    size_t offset = 0, room = 0;
    int status = read_input(job, job->file, false, input);

    *image = (struct image){.edition = job->options.edition};
    if (status == STATUS_DONE) {
        status = find_room(job, input, &offset, &room);
    }
    if (status != STATUS_DONE) {
        return status;
    }
    image->bytes = input->bytes + offset;
    image->room = room;
    image->offset = offset;
    status = find_format(job, image->bytes, room, offset, &image->format);
    return status == STATUS_DONE ? list_image(job, image) : status;
}

/* Asks for a string of a Tiny pool; gives the refusal's number, or 0. */
int ask_string(const struct image *image, uint32_t number, struct boardid_part *part)
{
    const uint64_t answer =
        boardid_string(image->format, image->edition, image->bytes, image->room, number);

    *part = boardid_answer_part(answer);
    return (int)boardid_answer_number(answer);
}

/* What the JSON of every command on an image begins with. */
json_t *image_json(const struct job *job, const struct image *image)
{
    json_t *object = json_object();

    put(object, "file", json_word(job->file));
    put(object, "format", json_string(format_word(image->format)));
    put(object, "edition", json_integer(image->edition));
    put(object, "offset", json_integer((json_int_t)image->offset));
    put(object, "length", json_integer((json_int_t)image->length));
    put(object, "room", json_integer((json_int_t)image->room));
    return object;
}

/* Gives back what a command on an image has read. */
static void close_image(struct input *input, struct image *image)
{
    free(image->records);
    free(input->bytes);
}

/* Adds what every listing begins with: the file, its format and the edition. */
static void put_head(struct text *text, const struct job *job, const struct image *image)
{
    put_file_name(text, job->file);
    text_add(text, ": %s, edition %u", format_title(image->format), image->edition);
}

/* Adds a count and the word for what is counted. */
static void put_count(struct text *text, size_t count, const char *one, const char *many)
{
    text_add(text, "%zu %s", count, count == 1 ? one : many);
}

/* Whether a word fits entry n and no other. */
static bool fits_only(const struct image *image, uint32_t n, const char *word)
{
    bool by_code[2][256];
    uint64_t number;
    uint32_t i;

    if (!entry_fits(image, n, word)) {
        return false;
    }
    if (is_entry_number(word, &number)) {
        return true;
    }
    for (i = 0; i < 256; i++) {
        by_code[0][i] = name_fits(image->format, i, false, word);
        by_code[1][i] = name_fits(image->format, i, true, word);
    }
    for (i = 0; i < image->count; i++) {
        const struct boardid_record *record = &image->records[i];

        if (i != n && (by_code[record->kind != 0][record->code & 0xFF] ||
                       (record->key_length == strlen(word) && record->key_length != 0 &&
                        memcmp(image->bytes + record->key_place, word, strlen(word)) == 0))) {
            return false;
        }
    }
    return true;
}

/* Adds the name of entry n by which get takes it: a key, a short name, a title, a code, #n. */
void put_entry_name(struct text *text, const struct image *image, uint32_t n)
{
    const struct boardid_record *record = &image->records[n];
    const struct known *known = find_known(image->format, record->code);
    struct text tries[6] = {{NULL, 0, 0}};
    int count = 0, i;

    if (record->key_length != 0 && is_printable(image->bytes + record->key_place,
                                                record->key_length)) {
        text_put(&tries[count++], (const char *)image->bytes + record->key_place,
                 record->key_length);
    }
    for (i = 0; record->kind != 0 && known != NULL && i < 2 && known->shorts[i] != NULL; i++) {
        text_add(&tries[count++], "%s", known->shorts[i]);
    }
    if (record->kind != 0 && code_title(image->format, record->code) != NULL) {
        text_add(&tries[count++], "%s", code_title(image->format, record->code));
    }
    text_add(&tries[count++], "0x%02x", record->code);
    text_add(&tries[count++], "#%u", n);
    for (i = 0; i < count; i++) {
        if (fits_only(image, n, text_of(&tries[i]))) {
            text_add(text, "%s", text_of(&tries[i]));
            break;
        }
    }
    for (i = 0; i < count; i++) {
        text_free(&tries[i]);
    }
}

/* Prints the table of an image's entries. */
static void print_table(const struct job *job, const struct image *image)
{
    struct text head = {NULL, 0, 0};
    size_t widest = 4;
    uint32_t n;

    put_head(&head, job, image);
    text_add(&head, ", ");
    put_count(&head, image->count, "entry", "entries");
    text_add(&head, ", %zu of %zu bytes", image->length, image->room);
    printf("%s\n", text_of(&head));
    text_free(&head);
    for (n = 0; n < image->count; n++) {
        struct text label = {NULL, 0, 0};

        put_entry_label(&label, image, n);
        widest = label.length > widest && label.length <= 40 ? label.length : widest;
        text_free(&label);
    }
    if (image->count != 0) {
        printf("%5s  %-4s  %-*s  %s\n", "entry", "code", (int)widest, "name", "value");
    }
    for (n = 0; n < image->count; n++) {
        struct text label = {NULL, 0, 0}, value = {NULL, 0, 0}, number = {NULL, 0, 0};

        text_add(&number, "#%u", n);
        put_entry_label(&label, image, n);
        show_value(&value, image, n, STYLE_TABLE);
        printf("%5s  ", text_of(&number));
        if (image->format == BOARDID_FORMAT_FBOSS) {
            printf("%4u", image->records[n].code);
        } else {
            printf("0x%02x", image->records[n].code);
        }
        printf("  %-*s  %s\n", (int)widest, text_of(&label), text_of(&value));
        text_free(&number);
        text_free(&label);
        text_free(&value);
    }
}

/* list: all entries of an image. */
int command_list(struct job *job)
{
    struct input input;
    struct image image;
    const int status = open_image(job, &input, &image);
    uint32_t n;

    if (status == STATUS_DONE && job->options.json) {
        json_t *object = image_json(job, &image), *entries = json_array();

        for (n = 0; n < image.count; n++) {
            append(entries, entry_json(&image, n));
        }
        put(object, "entries", entries);
        print_json(object);
    } else if (status == STATUS_DONE && job->options.names) {
        for (n = 0; n < image.count; n++) {
            struct text name = {NULL, 0, 0};

            put_entry_name(&name, &image, n);
            printf("%s\n", text_of(&name));
            text_free(&name);
        }
    } else if (status == STATUS_DONE) {
        print_table(job, &image);
    }
    close_image(&input, &image);
    return status;
}

/* Prints one value alone. */
static void print_value(const struct job *job, const struct image *image, uint32_t n)
{
    const struct boardid_record *record = &image->records[n];
    const uint8_t *value = image->bytes + record->value_place;
    struct text text = {NULL, 0, 0};

    if (job->options.raw) {
        fwrite(value, 1, record->value_length, stdout);
        return;
    }
    if (job->options.hex) {
        text_hex(&text, value, record->value_length, "");
    } else {
        show_value(&text, image, n, STYLE_GET);
    }
    printf("%s\n", text_of(&text));
    text_free(&text);
}

/* get: one value. */
int command_get(struct job *job)
{
    struct input input;
    struct image image;
    uint32_t n = 0;
    int status;

    if (job->options.raw && (job->options.hex || job->options.json)) {
        return usage(job, "--raw goes with neither --hex nor --json");
    }
    if (job->options.raw && isatty(STDOUT_FILENO)) {
        return usage(job, "--raw: standard output is a terminal");
    }
    status = open_image(job, &input, &image);
    if (status == STATUS_DONE) {
        status = find_entry(job, &image, job->options.words[1], &n);
    }
    if (status == STATUS_DONE && job->options.json) {
        json_t *object = image_json(job, &image);

        put(object, "entry", entry_json(&image, n));
        print_json(object);
    } else if (status == STATUS_DONE) {
        print_value(job, &image, n);
    }
    close_image(&input, &image);
    return status;
}

/* check: whether the library accepts an image, and how much room it takes. */
int command_check(struct job *job)
{
    struct text text = {NULL, 0, 0};
    struct input input;
    struct image image;
    const int status = open_image(job, &input, &image);

    if (status == STATUS_DONE && job->options.json) {
        json_t *object = image_json(job, &image);

        put(object, "entries", json_integer(image.count));
        print_json(object);
    } else if (status == STATUS_DONE) {
        put_head(&text, job, &image);
        text_add(&text, ": accepted, ");
        put_count(&text, image.count, "entry", "entries");
        text_add(&text, ", %zu of %zu bytes used, %zu free", image.length, image.room,
                 image.room - image.length);
        printf("%s\n", text_of(&text));
        text_free(&text);
    }
    close_image(&input, &image);
    return status;
}

/* Prints the strings of a Tiny pool, or puts them into an object. */
static void print_strings(const struct job *job, const struct image *image)
{
    const struct boardid_record *pool = &image->records[image->count - 1];
    const size_t end = pool->value_place + pool->value_length;
    size_t place = pool->value_place;
    json_t *object = job->options.json ? image_json(job, image) : NULL;
    json_t *array = job->options.json ? json_array() : NULL;
    struct boardid_part part;
    uint32_t number;

    for (number = 0; ask_string(image, number, &part) == 0; number++) {
        if (job->options.json) {
            json_t *string = json_object();

            put(string, "number", json_integer(number));
            put(string, "text", string_json(image, number));
            put(string, "place", json_integer((json_int_t)(image->offset + part.place)));
            put(string, "length", json_integer(part.length));
            append(array, string);
        } else {
            struct text text = {NULL, 0, 0};
            uint8_t last = image->bytes[part.place + part.length - 1] & 0x7F;

            text_escaped(&text, image->bytes + part.place, part.length - 1);
            text_escaped(&text, &last, 1);
            printf("%3u  %s\n", number, text_of(&text));
            text_free(&text);
        }
        place = part.place + part.length;
    }
    if (job->options.json) {
        put(object, "strings", array);
        put(object, "rest", json_hex(image->bytes + place, end - place));
        print_json(object);
    } else if (place != end) {
        struct text text = {NULL, 0, 0};

        text_cut_hex(&text, image->bytes + place, end - place);
        printf("and %zu bytes of no string: %s\n", end - place, text_of(&text));
        text_free(&text);
    }
}

/* strings: the strings of a Tiny image's pool. */
int command_strings(struct job *job)
{
    struct input input;
    struct image image;
    int status = open_image(job, &input, &image);

    if (status == STATUS_DONE && image.format != BOARDID_FORMAT_TINY) {
        status = refuse(job, STATUS_REFUSED, BOARDID_REFUSED_FORMAT,
                        "%s has no pool of strings: only Tiny EEPROM version 2 has one",
                        format_title(image.format));
    } else if (status == STATUS_DONE &&
               (image.count == 0 ||
                image.records[image.count - 1].code != BOARDID_TINY_ASCII_STRINGS)) {
        status = refuse(job, STATUS_REFUSED, BOARDID_REFUSED_NO_STRING, "there is no string pool");
        hint(job, "boardid add with a text makes one");
    }
    if (status == STATUS_DONE) {
        print_strings(job, &image);
    }
    close_image(&input, &image);
    return status;
}
