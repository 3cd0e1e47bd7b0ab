/*
 * changes.c: set, add and remove.
 *
 * A new image is made in a second buffer by calls of the library alone. The file is written once,
 * at the end, and only where nothing was refused.
 */
#include "command.h"

#include <inttypes.h>
#include <stdlib.h>
#include <string.h>
#include <unistd.h>

/* Says that a file is longer than one that is changed. */
int too_long_to_change(struct job *job)
{
    return refuse(job, STATUS_FILE, -1, "is too long: a file that is changed has at most %d bytes",
                  FILE_MAX);
}

/* Whether the command line is one of a change: what goes with standard input, and what does not. */
int check_change(struct job *job)
{
    if (!is_standard(job->file)) {
        return STATUS_DONE;
    }
    if (job->options.in_place) {
        return usage(job, "--in-place: standard input is no file to write into");
    }
    if (job->options.dry_run) {
        return STATUS_DONE;
    }
    if (job->options.json) {
        return usage(job, "--json: the new file goes to standard output; --dry-run goes with it");
    }
    if (isatty(STDOUT_FILENO)) {
        return usage(job, "the new file goes to standard output, which is a terminal");
    }
    return STATUS_DONE;
}

/*
 * Sees that nothing is lost after the image's end, where a change puts FFh: whatever stands there is
 * FFh or 00h, or --length or --size says how long the image's room is.
 */
static int check_rest(struct job *job, const struct image *image)
{
    size_t place = image->length, used;

    while (place < image->room && (image->bytes[place] == 0xFF || image->bytes[place] == 0)) {
        place++;
    }
    if (place == image->room || job->options.has_length || job->options.has_size) {
        return STATUS_DONE;
    }
    for (used = image->room; image->bytes[used - 1] == 0xFF || image->bytes[used - 1] == 0; used--) {
    }
    refuse(job, STATUS_REFUSED, -1, "what stands after the image, from byte %zu to byte %zu, would "
           "be lost", (size_t)image->offset + place, (size_t)image->offset + used - 1);
    job->problem.place = (int64_t)(image->offset + place);
    hint(job, "--length %zu keeps it; --size %zu gives its room to the image", place, image->room);
    return STATUS_REFUSED;
}

/* Reads the file of a change and lists its image. */
int open_change(struct job *job, struct input *input, struct image *image)
{
    int status = check_change(job);

    *input = (struct input){.name = job->file};
    *image = (struct image){.edition = job->options.edition};
    if (status == STATUS_DONE) {
        status = open_image(job, input, image);
    }
    if (input->length > FILE_MAX && status != STATUS_USAGE) {
        return too_long_to_change(job);
    }
    return status == STATUS_DONE ? check_rest(job, image) : status;
}

/* The room that the new image gets: the old one, or that of --size. */
int new_room(struct job *job, const struct image *image, size_t *room)
{
    *room = image->room;
    if (job->options.has_size) {
        if (job->options.size > ROOM_MAX) {
            return refuse(job, STATUS_REFUSED, BOARDID_REFUSED_TOO_LONG,
                          "--size %" PRIu64 ": an image has at most 65536 bytes",
                          job->options.size);
        }
        *room = (size_t)job->options.size;
    }
    return STATUS_DONE;
}

/* The runs in which a file and its new bytes differ, in JSON. */
static json_t *runs_json(const struct input *input, const uint8_t *bytes, size_t length)
{
    json_t *array = json_array();
    struct run run = {0, 0};

    while (next_run(input, bytes, length, &run)) {
        const size_t old_end = run.end < input->length ? run.end : input->length;
        const size_t new_end = run.end < length ? run.end : length;
        json_t *object = json_object();

        put(object, "place", json_integer((json_int_t)run.place));
        put(object, "old", json_hex(input->bytes + run.place,
                                    old_end > run.place ? old_end - run.place : 0));
        put(object, "new", json_hex(bytes + run.place,
                                    new_end > run.place ? new_end - run.place : 0));
        append(array, object);
    }
    return array;
}

/* Prints the runs in which a file and its new bytes differ. */
static void print_runs(FILE *out, const struct input *input, const uint8_t *bytes, size_t length)
{
    struct run run = {0, 0};

    while (next_run(input, bytes, length, &run)) {
        const size_t old_end = run.end < input->length ? run.end : input->length;
        const size_t new_end = run.end < length ? run.end : length;
        struct text text = {NULL, 0, 0};

        text_cut_hex(&text, input->bytes + run.place,
                     old_end > run.place ? old_end - run.place : 0);
        text_add(&text, " -> ");
        text_cut_hex(&text, bytes + run.place, new_end > run.place ? new_end - run.place : 0);
        fprintf(out, "  byte %zu: %s\n", run.place, text_of(&text));
        text_free(&text);
    }
}

/* Writes a change, or shows it with --dry-run, and says what was done. `object` is given back. */
int finish_change(struct job *job, const struct input *input, const uint8_t *bytes, size_t length,
                  json_t *object, struct change *change)
{
    const bool standard = is_standard(input->name);
    const bool dry = job->options.dry_run;
    struct run run = {0, 0};
    const bool differs = !input->there || next_run(input, bytes, length, &run);
    FILE *out = standard ? stderr : stdout;
    struct text text = {NULL, 0, 0};
    int status = STATUS_DONE;

    if (differs) {
        status = may_write(job, input, length);
    }
    if (status == STATUS_DONE && !dry && (differs || standard)) {
        status = write_output(job, input, bytes, length);
    }
    if (status == STATUS_DONE && job->options.json) {
        put(object, "dry_run", json_boolean(dry));
        put(object, "in_place", json_boolean(job->options.in_place));
        put(object, "changes", runs_json(input, bytes, length));
        print_json(object);
        object = NULL;
    } else if (status == STATUS_DONE) {
        if (standard) {
            text_add(&text, "standard output");
        } else {
            put_file_name(&text, input->name);
        }
        text_add(&text, ": %s %s", dry ? change->would : change->done, text_of(&change->said));
        if (!differs) {
            text_add(&text, "; no byte changes%s", standard ? "" : ", and nothing is written");
        }
        fprintf(out, "%s\n", text_of(&text));
        if (dry) {
            print_runs(out, input, bytes, length);
        }
    }
    text_free(&text);
    text_free(&change->said);
    json_decref(object);
    return status;
}

/* Puts a new image into its file, and finishes the change. */
int finish_image(struct job *job, const struct input *input, const struct image *image,
                 const uint8_t *out, size_t room, size_t length, struct change *change)
{
    const size_t before = (size_t)image->offset;
    const size_t after = input->length - before - image->room;
    uint8_t *bytes = memory(before + room + after);
    json_t *object = NULL;
    int status;

    if (before != 0) {
        memcpy(bytes, input->bytes, before);
    }
    if (room != 0) {
        memcpy(bytes + before, out, room);
    }
    if (after != 0) {
        memcpy(bytes + before + room, input->bytes + before + image->room, after);
    }
    if (job->options.json) {
        object = json_object();
        put(object, "file", json_word(job->file));
        put(object, "format", json_string(format_word(image->format)));
        put(object, "edition", json_integer(image->edition));
        put(object, "offset", json_integer((json_int_t)image->offset));
        put(object, "command", json_string(job->command->name));
        put(object, "entry", change->entry < 0 ? json_null() : json_integer(change->entry));
        put(object, "name", change->name == NULL ? json_null() : json_incref(change->name));
        put(object, "length", json_integer((json_int_t)length));
        put(object, "room", json_integer((json_int_t)room));
    }
    text_add(&change->said, "; the image has %zu of %zu bytes", length, room);
    status = finish_change(job, input, bytes, before + room + after, object, change);
    json_decref(change->name);
    free(bytes);
    return status;
}

/* What is to be done to an image: entry n gets a value, or a field is added. */
struct wish {
    int64_t entry; /* -1: a field is added */
    struct wanted wanted;
    struct text value;
    struct pool pool;
    int64_t pool_entry; /* -1: there is none */
};

/* Whether entry n has the code, and in VPD 01h the key, of a field that was to be added. */
static bool is_taken_by(const struct image *image, uint32_t n, const struct wanted *wanted)
{
    const struct boardid_record *record = &image->records[n];

    if (record->code != wanted->code) {
        return false;
    }
    return image->format != BOARDID_FORMAT_VPD || wanted->code != BOARDID_VPD_STRING ||
           (record->key_length == wanted->key_length &&
            memcmp(image->bytes + record->key_place, wanted->key, wanted->key_length) == 0);
}

/* The refusal of one step, for people. `need` is what the image would take. */
static int explain_step(struct job *job, const struct image *image, const struct wish *wish,
                        uint64_t answer, size_t need, size_t room)
{
    const uint32_t number = boardid_answer_number(answer);
    const struct wanted *wanted = &wish->wanted;
    const int64_t place =
        wish->entry < 0 ? -1 : (int64_t)(image->offset + image->records[wish->entry].place);
    uint32_t n;

    if (number == BOARDID_REFUSED_NO_ROOM) {
        return explain_no_room(job, image, need, room);
    }
    refuse(job, STATUS_REFUSED, (int)number, "%s", "");
    at_entry(job, image, wish->entry, wanted->code, wanted->key, wanted->key_length, place);
    if (number == BOARDID_REFUSED_NOT_NAMED) {
        return explain_not_named(job, image, wanted->code);
    }
    if (number == BOARDID_REFUSED_RULE) {
        return explain_rule(job, image, wanted, -1, wish->entry < 0);
    }
    if (number == BOARDID_REFUSED_TWICE) {
        for (n = 0; n < image->count && !is_taken_by(image, n, wanted); n++) {
        }
        text_add(&job->problem.message, "it is there already, as entry %u, and may come only once",
                 n);
        hint(job, "boardid set changes it");
        return STATUS_REFUSED;
    }
    if (number == BOARDID_REFUSED_MISSING) {
        text_add(&job->problem.message, "%s needs it", format_title(image->format));
        hint(job, "boardid set changes its value");
        return STATUS_REFUSED;
    }
    text_add(&job->problem.message, "%s", boardid_refusal_text(number));
    return STATUS_REFUSED;
}

/* One call of the library: entry n gets a value, or a field is added. */
static uint64_t step(const struct image *image, const uint8_t *bytes, size_t length, int64_t entry,
                     const struct wanted *wanted, uint8_t *out, size_t room)
{
    struct boardid_field field = {wanted->code, 0, (uint32_t)wanted->key_length,
                                  (uint32_t)wanted->key_length, (uint32_t)wanted->value_length};
    uint8_t field_bytes[BOARDID_FIELD_SIZE];
    uint8_t *values;
    uint64_t answer;

    if (entry >= 0) {
        return boardid_edit(image->format, image->edition, bytes, length, (uint64_t)entry,
                            wanted->value, wanted->value_length, out, room);
    }
    values = memory(wanted->key_length + wanted->value_length);
    if (wanted->key_length != 0) {
        memcpy(values, wanted->key, wanted->key_length);
    }
    if (wanted->value_length != 0) {
        memcpy(values + wanted->key_length, wanted->value, wanted->value_length);
    }
    boardid_field_set(field_bytes, 0, field);
    answer = boardid_add(image->format, image->edition, bytes, length, field_bytes,
                         sizeof field_bytes, values, wanted->key_length + wanted->value_length, out,
                         room);
    free(values);
    return answer;
}

/* Makes the new image of a wish in `out`: the pool first where it changes, then the entry. */
static int make(struct job *job, const struct image *image, struct wish *wish, uint8_t *out,
                size_t room, size_t *length)
{
    const uint8_t *bytes = image->bytes;
    size_t bytes_length = image->room;
    uint8_t *work = memory(ROOM_MAX), *large = memory(ROOM_MAX);
    int status = STATUS_DONE;
    uint64_t answer;

    wish->wanted.value = (const uint8_t *)text_of(&wish->value);
    wish->wanted.value_length = wish->value.length;
    if (wish->pool.changed) {
        const struct wanted pool = {BOARDID_TINY_ASCII_STRINGS, NULL, 0, wish->pool.bytes,
                                    wish->pool.length};

        answer = step(image, bytes, bytes_length, wish->pool_entry, &pool, work, ROOM_MAX);
        if (boardid_answer_number(answer) != 0) {
            const struct wish of_pool = {.entry = wish->pool_entry, .wanted = pool};

            status = explain_step(job, image, &of_pool, answer, 0, room);
        }
        bytes = work;
        bytes_length = ROOM_MAX;
    }
    if (status == STATUS_DONE) {
        answer = step(image, bytes, bytes_length, wish->entry, &wish->wanted, out, room);
        *length = boardid_answer_count(answer);
        if (boardid_answer_number(answer) != 0) {
            const uint64_t with_room =
                step(image, bytes, bytes_length, wish->entry, &wish->wanted, large, ROOM_MAX);

            status = explain_step(job, image, wish, answer, boardid_answer_count(with_room), room);
        }
    }
    free(work);
    free(large);
    return status;
}

/* The value of a Tiny identity: what is typed, and of what is left out the old one. */
static int identity_value(struct job *job, const struct image *image, struct wish *wish,
                          const char *word)
{
    const bool batch = wish->wanted.code == BOARDID_TINY_PRODUCT_IDENTITY_BATCH ||
                       wish->wanted.code == BOARDID_TINY_SYSTEM_PRODUCT_IDENTITY_BATCH;
    struct typed_identity typed;
    uint8_t value[8] = {0};
    int status = typed_identity(job, word, &typed);

    if (wish->entry >= 0) {
        memcpy(value, image->bytes + image->records[wish->entry].value_place, batch ? 8 : 6);
    } else if (status == STATUS_DONE &&
               (typed.serial == NULL || typed.part == NULL || !typed.has_revision)) {
        status = refuse(job, STATUS_REFUSED, BOARDID_REFUSED_RULE,
                        "a new identity needs serial=, part= and revision=");
    }
    if (status == STATUS_DONE && typed.has_batch && !batch) {
        status = refuse(job, STATUS_REFUSED, BOARDID_REFUSED_RULE, "it has no batch");
        hint(job, "identity-batch and system-identity-batch have one");
    }
    if (status == STATUS_DONE && typed.serial != NULL) {
        status = pool_number(job, image, &wish->pool, typed.serial, wish->entry, 0, &value[0]);
        wish->pool.taken = value[0];
    }
    if (status == STATUS_DONE && typed.part != NULL) {
        status = pool_number(job, image, &wish->pool, typed.part, wish->entry, 1, &value[1]);
    }
    if (typed.has_revision) {
        value[2] = typed.major;
        value[3] = typed.minor;
    }
    if (typed.has_free) {
        memcpy(value + 4, typed.free_bytes, 2);
    }
    if (typed.has_batch) {
        value[6] = (uint8_t)typed.batch;
        value[7] = (uint8_t)(typed.batch >> 8);
    }
    text_put(&wish->value, (const char *)value, batch ? 8 : 6);
    free(typed.serial);
    free(typed.part);
    return status;
}

/* The value of a wish, as it is typed. */
static int wish_value(struct job *job, const struct image *image, struct wish *wish, bool named,
                      const char *word)
{
    const struct known *known = find_known(image->format, wish->wanted.code);
    const enum type type = !named || known == NULL ? TYPE_TEXT : known->type;
    const int64_t place =
        wish->entry < 0 ? -1 : (int64_t)(image->offset + image->records[wish->entry].place);
    uint8_t number = 0;
    int status;

    pool_of(image, &wish->pool, &wish->pool_entry);
    if (!named && !job->options.hex) {
        text_put(&wish->value, word, strlen(word));
        return STATUS_DONE;
    }
    if (type == TYPE_STRING && !job->options.hex) {
        status = pool_number(job, image, &wish->pool, word, wish->entry, 0, &number);
        text_put(&wish->value, (const char *)&number, 1);
    } else if (type == TYPE_IDENTITY && !job->options.hex) {
        status = identity_value(job, image, wish, word);
    } else {
        status = typed_value(job, image->format, wish->wanted.code, type, word, &wish->value);
    }
    if (status == STATUS_REFUSED) {
        prefix_entry(job, image, wish->entry, wish->wanted.code, wish->wanted.key,
                     wish->wanted.key_length, place);
    }
    return status;
}

/* Lists a new image, which the library has made, for what is said of it. */
static int list_new(struct job *job, const struct image *image, const uint8_t *out, size_t room,
                    struct image *made)
{
    *made = (struct image){.format = image->format, .edition = image->edition, .bytes = out,
                           .room = room, .offset = image->offset};
    return list_image(job, made);
}

/* set: an entry gets a new value. */
int command_set(struct job *job)
{
    struct change change = {.done = "set", .would = "would set", .entry = -1};
    struct wish wish = {.entry = -1};
    struct input input;
    struct image image, made = {.records = NULL};
    uint8_t *out = memory(ROOM_MAX);
    size_t room = 0, length = 0;
    uint32_t n = 0;
    int status = open_change(job, &input, &image);

    if (status == STATUS_DONE) {
        status = find_entry(job, &image, job->options.words[1], &n);
    }
    if (status == STATUS_DONE) {
        status = new_room(job, &image, &room);
    }
    if (status == STATUS_DONE) {
        wish.entry = n;
        wish.wanted.code = image.records[n].code;
        wish.wanted.key = image.bytes + image.records[n].key_place;
        wish.wanted.key_length = image.records[n].key_length;
        status = wish_value(job, &image, &wish, image.records[n].kind != 0, job->options.words[2]);
    }
    if (status == STATUS_DONE) {
        status = make(job, &image, &wish, out, room, &length);
    }
    if (status == STATUS_DONE) {
        status = list_new(job, &image, out, room, &made);
    }
    if (status == STATUS_DONE) {
        put_entry_label(&change.said, &image, n);
        text_add(&change.said, " (entry %u): ", n);
        show_value(&change.said, &image, n, STYLE_SAID);
        text_add(&change.said, " -> ");
        show_value(&change.said, &made, n, STYLE_SAID);
        change.entry = n;
        change.name = json_name(&image, wish.wanted.code, wish.wanted.key, wish.wanted.key_length);
        status = finish_image(job, &input, &image, out, room, length, &change);
    }
    text_free(&wish.value);
    free(made.records);
    free(image.records);
    free(input.bytes);
    free(out);
    return status;
}

/* Finds the code of the field that is to be added, and its key. */
static int wish_field(struct job *job, const struct image *image, struct wish *wish)
{
    const char *name = job->options.words[1];

    if (image->format != BOARDID_FORMAT_VPD && job->options.has_code) {
        return usage(job, "--code is for VPD alone, and this is %s", format_title(image->format));
    }
    if (image->format != BOARDID_FORMAT_VPD) {
        return find_code(job, image, name, &wish->wanted.code);
    }
    wish->wanted.code =
        job->options.has_code ? (uint32_t)job->options.code : BOARDID_VPD_STRING;
    wish->wanted.key = (const uint8_t *)name;
    wish->wanted.key_length = strlen(name);
    return STATUS_DONE;
}

/* add: one more entry. */
int command_add(struct job *job)
{
    struct change change = {.done = "added", .would = "would add", .entry = -1};
    struct wish wish = {.entry = -1};
    struct input input;
    struct image image, made = {.records = NULL};
    uint8_t *out = memory(ROOM_MAX);
    size_t room = 0, length = 0;
    int status = open_change(job, &input, &image);

    if (status == STATUS_DONE) {
        status = wish_field(job, &image, &wish);
    }
    if (status == STATUS_DONE) {
        status = new_room(job, &image, &room);
    }
    if (status == STATUS_DONE) {
        status = wish_value(job, &image, &wish,
                            edition_names(image.format, image.edition, wish.wanted.code),
                            job->options.words[2]);
    }
    if (status == STATUS_DONE) {
        status = make(job, &image, &wish, out, room, &length);
    }
    if (status == STATUS_DONE) {
        status = list_new(job, &image, out, room, &made);
    }
    if (status == STATUS_DONE) {
        uint32_t n = made.count - 1;

        if (image.format == BOARDID_FORMAT_TINY && made.count > 1 &&
            wish.wanted.code != BOARDID_TINY_ASCII_STRINGS &&
            made.records[n].code == BOARDID_TINY_ASCII_STRINGS) {
            n--;
        }
        put_entry_label(&change.said, &made, n);
        text_add(&change.said, " (entry %u): ", n);
        show_value(&change.said, &made, n, STYLE_SAID);
        change.entry = n;
        change.name = json_name(&image, wish.wanted.code, wish.wanted.key, wish.wanted.key_length);
        status = finish_image(job, &input, &image, out, room, length, &change);
    }
    text_free(&wish.value);
    free(made.records);
    free(image.records);
    free(input.bytes);
    free(out);
    return status;
}

/* remove: one entry less. */
int command_remove(struct job *job)
{
    struct change change = {.done = "removed", .would = "would remove", .entry = -1};
    struct wish wish = {.entry = -1};
    struct input input;
    struct image image;
    uint8_t *out = memory(ROOM_MAX);
    size_t room = 0;
    uint32_t n = 0;
    int status = open_change(job, &input, &image);
    uint64_t answer;

    if (status == STATUS_DONE) {
        status = find_entry(job, &image, job->options.words[1], &n);
    }
    if (status == STATUS_DONE) {
        status = new_room(job, &image, &room);
    }
    if (status == STATUS_DONE) {
        const struct boardid_record *record = &image.records[n];

        wish.entry = n;
        wish.wanted = (struct wanted){record->code, image.bytes + record->key_place,
                                      record->key_length, NULL, 0};
        answer = boardid_remove(image.format, image.edition, image.bytes, image.room, n, out, room);
        if (boardid_answer_number(answer) != 0) {
            const size_t need = image.length - frame_at(image.format, image.bytes, image.room,
                                                        record->place).length;

            status = explain_step(job, &image, &wish, answer, need, room);
        } else {
            put_entry_label(&change.said, &image, n);
            text_add(&change.said, " (entry %u): ", n);
            show_value(&change.said, &image, n, STYLE_SAID);
            change.entry = n;
            change.name = json_name(&image, record->code, wish.wanted.key, record->key_length);
            status = finish_image(job, &input, &image, out, room, boardid_answer_count(answer),
                                  &change);
        }
    }
    free(image.records);
    free(input.bytes);
    free(out);
    return status;
}
