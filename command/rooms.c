/* rooms.c: lists a room file, and adds, replaces, removes and fetches boards. */
#include "command.h"

#include <inttypes.h>
#include <stdlib.h>
#include <string.h>
#include <unistd.h>

enum { FORM = BOARDID_ROOM_FORM_1 };

/* A command of room. */
struct part_command {
    const char *name, *full;
    int words; /* with its own */
    int (*run)(struct job *job, uint32_t board);
    const char *options;
};

/* Says what is wrong with the head or the contents of a room file: 21. */
static int explain_file(struct job *job, const struct input *input)
{
    const uint8_t *bytes = input->bytes;
    const size_t length = input->length;
    struct text *text = &job->problem.message;
    size_t rows, place, end, k;
    uint32_t before = 0;

    refuse(job, STATUS_REFUSED, BOARDID_REFUSED_ROOM_FILE, "%s", "");
    if (length < BOARDID_ROOM_HEAD_SIZE) {
        text_add(text, "%zu bytes, and the head of a room file has 8", length);
        return STATUS_REFUSED;
    }
    if (bytes[0] != 0x52 || bytes[1] != 0x4D) {
        text_add(text, "begins with %02x %02x, and a room file begins with 52 4d", bytes[0],
                 bytes[1]);
        return STATUS_REFUSED;
    }
    if (bytes[2] != FORM) {
        text_add(text, "is of form %u, and form 1 is read", bytes[2]);
        return STATUS_REFUSED;
    }
    if (bytes[3] != 0 || bytes[6] != 0 || bytes[7] != 0) {
        text_add(text, "bytes 3, 6 and 7 of the head are %02x %02x %02x, and 00 is needed",
                 bytes[3], bytes[6], bytes[7]);
        return STATUS_REFUSED;
    }
    rows = (size_t)bytes[4] << 8 | bytes[5];
    end = BOARDID_ROOM_HEAD_SIZE + rows * BOARDID_ROOM_ROW_SIZE;
    if (end > length) {
        text_add(text, "the head counts %zu boards, whose rows end at byte %zu; the file has %zu "
                 "bytes", rows, end, length);
        return STATUS_REFUSED;
    }
    for (k = 0; k < rows; k++) {
        const uint8_t *row = bytes + BOARDID_ROOM_HEAD_SIZE + k * BOARDID_ROOM_ROW_SIZE;
        const uint32_t board = (uint32_t)row[0] << 24 | (uint32_t)row[1] << 16 |
                               (uint32_t)row[2] << 8 | row[3];

        place = BOARDID_ROOM_HEAD_SIZE + k * BOARDID_ROOM_ROW_SIZE;
        if (k > 0 && board <= before) {
            text_add(text, "row %zu, at byte %zu, has board %u after board %u; they have to rise",
                     k, place, board, before);
            job->problem.place = (int64_t)place;
            return STATUS_REFUSED;
        }
        if (row[5] != 0 || (row[6] == 0 && row[7] == 0)) {
            text_add(text, "row %zu, at byte %zu, board %u: %s", k, place, board,
                     row[5] != 0 ? "its byte 5 is not 00" : "its body has no bytes");
            job->problem.place = (int64_t)place;
            return STATUS_REFUSED;
        }
        before = board;
        end += (size_t)row[6] << 8 | row[7];
    }
    text_add(text, "the bodies end at byte %zu, and the file has %zu bytes", end, length);
    hint(job, end > length ? "cut short: copy the file again" : "bytes follow the last body");
    return STATUS_REFUSED;
}

/* Says what a stored body is refused for; the place counts bytes of the file. */
static int explain_body(struct job *job, const struct input *input, uint64_t answer)
{
    const uint64_t place = boardid_answer_place(answer);
    const uint32_t rows = boardid_room_rows(FORM, input->bytes, input->length);
    struct boardid_room_row row = {0, 0, 0, 0};
    struct image image = {.edition = job->options.edition};
    struct text message;
    uint32_t k;

    for (k = 0; k < rows; k++) {
        row = boardid_room_row_at(FORM, input->bytes, input->length, k);
        if (boardid_answer_number(boardid_check(row.format, image.edition,
                                                input->bytes + row.body_place, row.body_length)) !=
            0) {
            break;
        }
    }
    if (k == rows) {
        return refuse(job, STATUS_REFUSED, (int)boardid_answer_number(answer), "%s",
                      boardid_refusal_text(boardid_answer_number(answer)));
    }
    image.format = row.format;
    image.bytes = input->bytes + row.body_place;
    image.room = row.body_length;
    image.offset = row.body_place;
    explain_image(job, &image, boardid_check(row.format, image.edition, image.bytes, image.room));
    if (job->problem.place < 0) {
        job->problem.place = (int64_t)place;
    }
    message = job->problem.message;
    job->problem.message = (struct text){NULL, 0, 0};
    text_add(&job->problem.message, "board %u, at byte %u: %s", row.board, row.body_place,
             text_of(&message));
    text_free(&message);
    return STATUS_REFUSED;
}

/* Says why a call on a room file is refused. The body is that of the call, or null. */
static int explain_room(struct job *job, const struct input *input, uint32_t board, uint64_t answer,
                        const struct input *body, uint32_t format)
{
    const uint32_t number = boardid_answer_number(answer);
    const uint32_t rows = boardid_room_rows(FORM, input->bytes, input->length);
    uint64_t stored = 0;
    uint32_t k;

    switch (number) {
    case BOARDID_REFUSED_EDITION:
        refuse(job, STATUS_REFUSED, (int)number, "the library does not know edition %u",
               job->options.edition);
        hint(job, "it knows the editions 1 to %u", newest_edition());
        return STATUS_REFUSED;
    case BOARDID_REFUSED_ROOM_FILE:
        return explain_file(job, input);
    case BOARDID_REFUSED_NO_BOARD:
        refuse(job, STATUS_REFUSED, (int)number, "no board %u; it has: %s", board,
               rows == 0 ? "none" : "");
        for (k = 0; k < rows && k < 32; k++) {
            text_add(&job->problem.message, "%s%u", k == 0 ? "" : ", ",
                     boardid_room_row_at(FORM, input->bytes, input->length, k).board);
        }
        if (k < rows) {
            text_add(&job->problem.message, " .. (%u boards)", rows);
        }
        return STATUS_REFUSED;
    case BOARDID_REFUSED_BOARD_THERE:
        refuse(job, STATUS_REFUSED, (int)number, "board %u is there already", board);
        hint(job, "boardid room replace gives it another body");
        return STATUS_REFUSED;
    case BOARDID_REFUSED_NO_ROOM:
        refuse(job, STATUS_REFUSED, (int)number,
               "with this body the file would be too long: a room file has at most 65536 bytes");
        return STATUS_REFUSED;
    default:
        break;
    }
    if (number == BOARDID_REFUSED_TOO_LONG && input->length > BOARDID_ROOM_MAX) {
        return refuse(job, STATUS_REFUSED, (int)number,
                      "%s%zu bytes, and a room file has at most 65536",
                      input->length > FILE_MAX ? "more than " : "",
                      input->length > FILE_MAX ? (size_t)FILE_MAX : input->length);
    }
    for (k = 0; k < rows && boardid_answer_number(stored) == 0; k++) {
        const struct boardid_room_row row =
            boardid_room_row_at(FORM, input->bytes, input->length, k);

        stored = boardid_check(row.format, job->options.edition, input->bytes + row.body_place,
                               row.body_length);
    }
    if (boardid_answer_number(stored) != 0 || body == NULL) {
        return explain_body(job, input, answer);
    }
    {
        const struct image image = {.format = format, .edition = job->options.edition,
                                    .bytes = body->bytes, .room = body->length};

        job->problem.file = body->name;
        return explain_or_blank(job, &image, answer);
    }
}

/* Reads a room file, and sees that the library takes all of it. */
static int open_room(struct job *job, struct input *input)
{
    int status = read_input(job, job->file, false, input);
    uint64_t answer;

    if (status == STATUS_DONE && input->length == 0) {
        status = refuse(job, STATUS_FILE, -1, "is empty");
    }
    if (status != STATUS_DONE) {
        return status;
    }
    answer = boardid_room_fetch(FORM, job->options.edition, input->bytes, input->length, 0);
    if (boardid_answer_number(answer) == BOARDID_REFUSED_NO_BOARD) {
        if (boardid_room_rows(FORM, input->bytes, input->length) == 0) {
            return STATUS_DONE;
        }
        answer = boardid_room_fetch(
            FORM, job->options.edition, input->bytes, input->length,
            boardid_room_row_at(FORM, input->bytes, input->length, 0).board);
    }
    return boardid_answer_number(answer) == 0 ? STATUS_DONE
                                              : explain_room(job, input, 0, answer, NULL, 0);
}

/* room list: the boards of a room file. */
static int room_list(struct job *job, uint32_t board)
{
    struct text text = {NULL, 0, 0};
    json_t *boards = job->options.json ? json_array() : NULL;
    struct input input;
    int status = open_room(job, &input);
    uint32_t rows = 0, k;

    (void)board;
    if (status == STATUS_DONE) {
        rows = boardid_room_rows(FORM, input.bytes, input.length);
        put_file_name(&text, job->file);
        text_add(&text, ": room file, form 1, edition %u, %u board%s, %zu bytes\n",
                 job->options.edition, rows, rows == 1 ? "" : "s", input.length);
        text_add(&text, "%s", rows == 0 ? "" : "     board  format   place  length  entries\n");
    }
    for (k = 0; k < rows; k++) {
        const struct boardid_room_row row = boardid_room_row_at(FORM, input.bytes, input.length, k);
        const uint32_t entries = boardid_answer_count(
            boardid_check(row.format, job->options.edition, input.bytes + row.body_place,
                          row.body_length));

        if (job->options.json) {
            json_t *object = json_object();

            put(object, "board", json_integer(row.board));
            put(object, "format", json_string(format_word(row.format)));
            put(object, "place", json_integer(row.body_place));
            put(object, "length", json_integer(row.body_length));
            put(object, "entries", json_integer(entries));
            append(boards, object);
        } else {
            text_add(&text, "%10u  %-6s  %6u  %6u  %7u\n", row.board, format_word(row.format),
                     row.body_place, row.body_length, entries);
        }
    }
    if (status == STATUS_DONE && job->options.json) {
        json_t *object = json_object();

        put(object, "file", json_word(job->file));
        put(object, "form", json_integer(FORM));
        put(object, "edition", json_integer(job->options.edition));
        put(object, "length", json_integer((json_int_t)input.length));
        put(object, "boards", boards);
        print_json(object);
        boards = NULL;
    } else if (status == STATUS_DONE) {
        fputs(text_of(&text), stdout);
    }
    json_decref(boards);
    text_free(&text);
    free(input.bytes);
    return status;
}

/* Writes a changed room file, and says what was done. */
static int finish_room(struct job *job, const struct input *input, uint32_t board, uint32_t format,
                       const uint8_t *out, size_t length, const char *full, struct change *change)
{
    json_t *object = NULL;

    if (job->options.json) {
        object = json_object();
        put(object, "file", json_word(job->file));
        put(object, "format", json_string(format_word(format)));
        put(object, "edition", json_integer(job->options.edition));
        put(object, "offset", json_integer(0));
        put(object, "command", json_string(full));
        put(object, "board", json_integer(board));
        put(object, "length", json_integer((json_int_t)length));
        put(object, "room", json_integer((json_int_t)length));
    }
    text_add(&change->said, "; the room file has %zu bytes, %u board%s", length,
             boardid_room_rows(FORM, out, length),
             boardid_room_rows(FORM, out, length) == 1 ? "" : "s");
    return finish_change(job, input, out, length, object, change);
}

/* Reads the room file of a change; `may_miss`: one without boards where there is none. */
static int read_room(struct job *job, bool may_miss, struct input *input, struct input *old)
{
    int status = check_change(job);

    if (status == STATUS_DONE) {
        status = read_input(job, job->file, may_miss && !job->options.in_place, input);
    }
    if (status != STATUS_DONE) {
        return status;
    }
    if (input->length > FILE_MAX) {
        return too_long_to_change(job);
    }
    if (input->there && input->length == 0) {
        return refuse(job, STATUS_FILE, -1, "is empty");
    }
    *old = *input;
    if (!input->there) {
        old->bytes = memory(BOARDID_ROOM_HEAD_SIZE);
        old->length = boardid_room_write_empty(FORM, old->bytes, BOARDID_ROOM_HEAD_SIZE);
    } else {
        old->bytes = memory(input->length);
        memcpy(old->bytes, input->bytes, input->length);
    }
    return STATUS_DONE;
}

/* room add, room replace: a board gets a body. */
static int put_board(struct job *job, uint32_t board, bool adds)
{
    struct change change = {.done = adds ? "added" : "replaced",
                            .would = adds ? "would add" : "would replace", .entry = -1};
    const char *name = job->options.words[3];
    uint8_t *out = memory(BOARDID_ROOM_MAX);
    struct input input = {.bytes = NULL}, old = {.bytes = NULL}, body = {.bytes = NULL};
    uint32_t format = 0;
    int status;
    uint64_t answer;

    if (is_standard(name) && is_standard(job->file)) {
        free(out);
        return usage(job, "only one of FILE and BODY can be standard input");
    }
    status = read_room(job, adds, &input, &old);
    if (status == STATUS_DONE) {
        status = read_input(job, name, false, &body);
    }
    if (status == STATUS_DONE) {
        job->problem.file = name;
        status = body.length == 0 ? refuse(job, STATUS_FILE, -1, "is empty")
                                  : find_format(job, body.bytes, body.length, 0, &format);
    }
    if (status == STATUS_DONE) {
        job->problem.file = NULL;
        answer = adds ? boardid_room_add(FORM, job->options.edition, old.bytes, old.length, board,
                                         format, body.bytes, body.length, out, BOARDID_ROOM_MAX)
                      : boardid_room_replace(FORM, job->options.edition, old.bytes, old.length,
                                             board, format, body.bytes, body.length, out,
                                             BOARDID_ROOM_MAX);
        if (boardid_answer_number(answer) != 0) {
            status = explain_room(job, &old, board, answer, &body, format);
        } else {
            text_add(&change.said, "board %u: %s, %zu bytes", board, format_title(format),
                     body.length);
            status = finish_room(job, &input, board, format, out, boardid_answer_count(answer),
                                 adds ? "room add" : "room replace", &change);
        }
    }
    free(input.bytes);
    free(old.bytes);
    free(body.bytes);
    free(out);
    return status;
}

/* room add. */
static int room_add(struct job *job, uint32_t board)
{
    return put_board(job, board, true);
}

/* room replace. */
static int room_replace(struct job *job, uint32_t board)
{
    return put_board(job, board, false);
}

/* The row of a board in a file that the library takes. */
static struct boardid_room_row row_of(const struct input *input, uint32_t board)
{
    const uint32_t rows = boardid_room_rows(FORM, input->bytes, input->length);
    struct boardid_room_row row = {0, 0, 0, 0};
    uint32_t k;

    for (k = 0; k < rows; k++) {
        row = boardid_room_row_at(FORM, input->bytes, input->length, k);
        if (row.board == board) {
            break;
        }
    }
    return row;
}

/* room remove: one board less. */
static int room_remove(struct job *job, uint32_t board)
{
    struct change change = {.done = "removed", .would = "would remove", .entry = -1};
    uint8_t *out = memory(BOARDID_ROOM_MAX);
    struct input input = {.bytes = NULL}, old = {.bytes = NULL};
    int status = read_room(job, false, &input, &old);

    if (status == STATUS_DONE) {
        const uint64_t answer = boardid_room_remove(FORM, job->options.edition, old.bytes,
                                                    old.length, board, out, BOARDID_ROOM_MAX);

        if (boardid_answer_number(answer) != 0) {
            status = explain_room(job, &old, board, answer, NULL, 0);
        } else {
            const struct boardid_room_row row = row_of(&old, board);

            text_add(&change.said, "board %u: %s, %u bytes", board, format_title(row.format),
                     row.body_length);
            status = finish_room(job, &input, board, row.format, out, boardid_answer_count(answer),
                                 "room remove", &change);
        }
    }
    free(input.bytes);
    free(old.bytes);
    free(out);
    return status;
}

/* Writes a body that was fetched, and says so. */
static int finish_fetch(struct job *job, const struct input *room, const struct input *target,
                        uint32_t board, struct boardid_part part)
{
    const struct boardid_room_row row = row_of(room, board);
    const uint8_t *body = room->bytes + part.place;
    struct text text = {NULL, 0, 0};
    int status = STATUS_DONE;

    if (!job->options.dry_run) {
        status = write_output(job, target, body, part.length);
    }
    if (status == STATUS_DONE && job->options.json) {
        json_t *object = json_object();

        put(object, "file", json_word(job->file));
        put(object, "board", json_integer(board));
        put(object, "format", json_string(format_word(row.format)));
        put(object, "place", json_integer(part.place));
        put(object, "length", json_integer(part.length));
        put(object, "out", json_word(target->name));
        print_json(object);
    } else if (status == STATUS_DONE) {
        if (is_standard(target->name)) {
            text_add(&text, "standard output");
        } else {
            text_word(&text, target->name);
        }
        text_add(&text, ": %s board %u of ", job->options.dry_run ? "would be" : "is", board);
        put_file_name(&text, job->file);
        text_add(&text, ": %s, %u bytes", format_title(row.format), part.length);
        fprintf(is_standard(target->name) ? stderr : stdout, "%s\n", text_of(&text));
    }
    text_free(&text);
    return status;
}

/* room fetch: the body of a board goes into a file of its own. */
static int room_fetch(struct job *job, uint32_t board)
{
    const char *name = job->options.words[3];
    struct input input = {.bytes = NULL}, target = {.bytes = NULL};
    uint64_t answer = 0;
    int status;

    if (is_standard(name) && !job->options.dry_run && isatty(STDOUT_FILENO)) {
        return usage(job, "the body goes to standard output, which is a terminal");
    }
    if (is_standard(name) && (job->options.in_place || (job->options.json &&
                                                        !job->options.dry_run))) {
        return usage(job, "the body goes to standard output: no --json, no --in-place");
    }
    status = read_input(job, job->file, false, &input);
    if (status == STATUS_DONE && input.length == 0) {
        status = refuse(job, STATUS_FILE, -1, "is empty");
    }
    if (status == STATUS_DONE) {
        answer = boardid_room_fetch(FORM, job->options.edition, input.bytes, input.length, board);
        if (boardid_answer_number(answer) != 0) {
            status = explain_room(job, &input, board, answer, NULL, 0);
        }
    }
    target.name = name;
    if (status == STATUS_DONE && !is_standard(name)) {
        status = read_input(job, name, !job->options.in_place, &target);
    }
    if (status == STATUS_DONE && !is_standard(name) && !is_standard(job->file) && target.there &&
        target.stat.st_dev == input.stat.st_dev && target.stat.st_ino == input.stat.st_ino) {
        status = usage(job, "OUT is the room file itself");
    }
    if (status == STATUS_DONE) {
        status = finish_fetch(job, &input, &target, board, boardid_answer_part(answer));
    }
    free(input.bytes);
    free(target.bytes);
    return status;
}

/* room: which of its commands it is. */
int command_room(struct job *job)
{
    static const struct part_command parts[] = {
        {"list", "room list", 2, room_list, "ej"},
        {"add", "room add", 4, room_add, "fejni"},
        {"replace", "room replace", 4, room_replace, "fejni"},
        {"remove", "room remove", 3, room_remove, "ejni"},
        {"fetch", "room fetch", 4, room_fetch, "ejni"},
    };
    const struct options *options = &job->options;
    uint64_t board = 0;
    size_t k;

    for (k = 0; k < sizeof parts / sizeof parts[0]; k++) {
        if (strcmp(parts[k].name, options->words[0]) == 0) {
            break;
        }
    }
    if (k == sizeof parts / sizeof parts[0]) {
        return usage(job, "room has list, add, replace, remove and fetch");
    }
    job->file = options->words[1];
    if (options->count != parts[k].words) {
        return usage(job, "%s: too %s words", parts[k].full,
                     options->count < parts[k].words ? "few" : "many");
    }
    if ((options->format != 0 && strchr(parts[k].options, 'f') == NULL) ||
        ((options->dry_run || options->in_place) && strchr(parts[k].options, 'n') == NULL)) {
        return usage(job, "%s has no such option", parts[k].full);
    }
    if (options->count > 2 && !read_number(options->words[2], UINT32_MAX, &board)) {
        return usage(job, "a board's number is 0 to 4294967295");
    }
    return parts[k].run(job, (uint32_t)board);
}
