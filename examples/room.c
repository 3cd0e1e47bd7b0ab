/*
 * room: keeps the boards of a machine room in one file.
 *
 *     room FILE
 *     room FILE add NUMBER fboss|vpd|tiny|onie BODY
 *     room FILE replace NUMBER fboss|vpd|tiny|onie BODY
 *     room FILE remove NUMBER
 *     room FILE fetch NUMBER OUT
 *
 * Compiled with the header of edition 1 or 2, it has no onie. To compile this program takes a
 * header of version 4.2 or later.
 *
 * Without a command it lists the boards: the number, the format, the place and the length of the
 * body in the file, and how many entries the body has. NUMBER is the board's number, in decimal, or
 * in hexadecimal as 0x2A. BODY is an image file, which goes in as it is, with the bytes after the
 * image's end; replace may give a board another format. An add makes FILE where it is not there.
 * OUT gets the body as it went in, and is made, or replaced where it is there.
 *
 * Every body in FILE has to be one that the library accepts with this header's edition: one that is
 * not makes it refuse every command. The program then says which board it is.
 *
 * FILE and OUT are at any time either what they were or new, whole: what is new is made in a second
 * buffer, written to a temporary file beside the old one, brought to the disk, and only then given
 * the old one's name. Permissions and owner stay. Where anything is refused or fails, the files stay
 * as they were.
 *
 * Exit status: 0 done, 1 the library refused it, 2 a wrong command line, 3 a file could not be read
 * or written, or the list not be written.
 */
#define _XOPEN_SOURCE 700

#include "whole_file.h"

/* A command, as the command line says it. */
struct command {
    enum { LIST, ADD, REPLACE, REMOVE, FETCH } what;
    uint32_t board;
    uint32_t format;  /* of add and replace */
    const char *name; /* of the file that add and replace read, and that fetch writes */
};

/* The word for a format; null of one that this edition does not have. */
static const char *format_word(uint32_t format)
{
    switch (format) {
    case BOARDID_FORMAT_FBOSS:
        return "fboss";
    case BOARDID_FORMAT_VPD:
        return "vpd";
    case BOARDID_FORMAT_TINY:
        return "tiny";
#if BOARDID_EDITION >= 3
    case BOARDID_FORMAT_ONIE:
        return "onie";
#endif
    default:
        return NULL;
    }
}

/* Row k of a room file. */
static struct boardid_room_row row_of(const struct image_file *room, uint32_t k)
{
    return boardid_room_row_at(BOARDID_ROOM_FORM_1, room->bytes, room->length, k);
}

/* Checks the body of a row, which lies inside the file; returns the library's answer. */
static uint64_t check_body(const struct image_file *room, const struct boardid_room_row *row)
{
    return boardid_check_image(row->format, room->bytes + row->body_place, row->body_length);
}

/*
 * Finds the stored body that a call was refused for. Bodies are checked in the order of the rows, so
 * that it is the first one that is refused by itself; the place alone does not always tell, since
 * where the entries of a body run out is the first byte of the next body. Returns 0 where there is
 * none, so that it is the new body.
 */
static int refused_row(const struct image_file *room, struct boardid_room_row *row)
{
    const uint32_t rows = boardid_room_rows(BOARDID_ROOM_FORM_1, room->bytes, room->length);
    uint32_t k;

    for (k = 0; k < rows; k++) {
        *row = row_of(room, k);
        if (boardid_answer_number(check_body(room, row)) != 0) {
            return 1;
        }
    }
    return 0;
}

/* Says on standard error what was refused, and what a person may do about it. */
static void report(const char *name, const struct image_file *room, const struct command *command,
                   const struct image_file *body, uint64_t answer)
{
    struct boardid_room_row row;

    switch (boardid_answer_number(answer)) {
    case BOARDID_REFUSED_EDITION:
        report_refusal("room", name, answer);
        return;
    case BOARDID_REFUSED_ROOM_FILE:
        report_refusal("room", name, answer);
        fprintf(stderr, "room: this is no room file of form 1, or it was cut or damaged\n");
        return;
    case BOARDID_REFUSED_NO_BOARD:
        report_refusal("room", name, answer);
        fprintf(stderr, "room: there is no board %lu; without a command the boards are listed\n",
                (unsigned long)command->board);
        return;
    case BOARDID_REFUSED_BOARD_THERE:
        report_refusal("room", name, answer);
        fprintf(stderr, "room: board %lu is there; replace gives it another body\n",
                (unsigned long)command->board);
        return;
    case BOARDID_REFUSED_NO_ROOM:
        report_refusal("room", name, answer);
        fprintf(stderr, "room: with the body of %lu bytes the file would pass %d bytes\n",
                (unsigned long)body->length, BOARDID_ROOM_MAX);
        return;
    default:
        break;
    }
    if (room->length > BOARDID_ROOM_MAX) {
        report_refusal("room", name, answer);
    } else if (refused_row(room, &row)) {
        report_refusal("room", name, answer);
        fprintf(stderr, "room: that is board %lu, at %llu of its body\n", (unsigned long)row.board,
                (unsigned long long)(boardid_answer_place(answer) - row.body_place));
    } else {
        report_refusal("room", command->name, answer);
        fprintf(stderr, "room: that is the new body of board %lu\n",
                (unsigned long)command->board);
    }
}

/* Lists the boards of a room file; returns the exit status. */
static int list(const char *name, const struct image_file *room)
{
    /* Any call on room files checks the whole file: this one asks for the first board. */
    const struct command command = {LIST, row_of(room, 0).board, 0, NULL};
    const uint64_t answer = boardid_room_fetch_board(BOARDID_ROOM_FORM_1, room->bytes,
                                                     room->length, command.board);
    const uint32_t number = boardid_answer_number(answer);
    const uint32_t rows = boardid_room_rows(BOARDID_ROOM_FORM_1, room->bytes, room->length);
    int status = DONE;
    uint32_t k;

    if (number == BOARDID_REFUSED_EDITION || number == BOARDID_REFUSED_ROOM_FILE ||
        room->length > BOARDID_ROOM_MAX) {
        report(name, room, &command, NULL, answer);
        return REFUSED;
    }
    /* What is refused now is a body, or that a file without boards does not have the board. */
    printf(rows == 1 ? "%s: room file, edition %d, %lu board, %lu bytes\n"
                     : "%s: room file, edition %d, %lu boards, %lu bytes\n",
           name, BOARDID_EDITION, (unsigned long)rows, (unsigned long)room->length);
    for (k = 0; k < rows; k++) {
        struct boardid_room_row row = row_of(room, k);
        uint64_t checked = check_body(room, &row);

        printf("%10lu  ", (unsigned long)row.board);
        if (format_word(row.format) != NULL) {
            printf("%-5s", format_word(row.format));
        } else {
            printf("%-5lu", (unsigned long)row.format);
        }
        printf(row.body_length == 1 ? "  at %5lu, %5lu byte,  " : "  at %5lu, %5lu bytes, ",
               (unsigned long)row.body_place, (unsigned long)row.body_length);
        if (boardid_answer_number(checked) != 0) {
            printf("refused %lu at %llu of the body\n",
                   (unsigned long)boardid_answer_number(checked),
                   (unsigned long long)boardid_answer_place(checked));
        } else {
            printf(boardid_answer_count(checked) == 1 ? "%lu entry\n" : "%lu entries\n",
                   (unsigned long)boardid_answer_count(checked));
        }
    }
    if (fflush(stdout) != 0 || ferror(stdout)) {
        fprintf(stderr, "room: the list could not be written: %s\n", strerror(errno));
        return FAILED;
    }
    if (number != 0 && rows != 0) {
        report(name, room, &command, NULL, answer);
        status = REFUSED;
    }
    return status;
}

/* Puts bytes into a file, all or nothing; returns the exit status. */
static int put(const char *name, const struct target *target, const uint8_t *bytes, size_t length)
{
    if (replace_file(target->path, target->there ? &target->old : NULL, bytes, length) != 0) {
        fprintf(stderr, "room: %s: not written: %s\n", name, strerror(errno));
        return FAILED;
    }
    if (sync_folder(target->path) != 0) {
        fprintf(stderr, "room: %s: written, but its folder could not be synced: %s\n", name,
                strerror(errno));
        return FAILED;
    }
    return DONE;
}

/* Fetches a board's body from a room file into a file; returns the exit status. */
static int fetch(const char *name, const struct image_file *room, const struct command *command)
{
    const uint64_t answer = boardid_room_fetch_board(BOARDID_ROOM_FORM_1, room->bytes,
                                                     room->length, command->board);
    const struct boardid_part part = boardid_answer_part(answer);
    struct target out;
    int status;

    if (boardid_answer_number(answer) != 0) {
        report(name, room, command, NULL, answer);
        return REFUSED;
    }
    status = find_target("room", command->name, &out);
    if (status != DONE) {
        return status;
    }
    status = is_another("room", command->name, &out, name, "the room file");
    if (status == DONE) {
        status = put(command->name, &out, room->bytes + part.place, part.length);
    }
    if (status == DONE) {
        printf("%s: board %lu, the %lu bytes from place %lu on, written to %s\n", name,
               (unsigned long)command->board, (unsigned long)part.length,
               (unsigned long)part.place, command->name);
    }
    free(out.path);
    return status;
}

/* Puts the changed room file into out; returns the library's answer. */
static uint64_t changed(const struct image_file *room, const struct command *command,
                        const struct image_file *body, uint8_t *out, size_t out_length)
{
    switch (command->what) {
    case ADD:
        return boardid_room_add_board(BOARDID_ROOM_FORM_1, room->bytes, room->length,
                                      command->board, command->format, body->bytes, body->length,
                                      out, out_length);
    case REPLACE:
        return boardid_room_replace_board(BOARDID_ROOM_FORM_1, room->bytes, room->length,
                                          command->board, command->format, body->bytes,
                                          body->length, out, out_length);
    default:
        return boardid_room_remove_board(BOARDID_ROOM_FORM_1, room->bytes, room->length,
                                         command->board, out, out_length);
    }
}

/* Adds, replaces or removes a board of a room file; returns the exit status. */
static int change(const char *name, const struct target *target, const struct image_file *room,
                  const struct command *command)
{
    static const char *const words[] = {
        [ADD] = "added", [REPLACE] = "replaced", [REMOVE] = "removed"};
    struct image_file body = {NULL, 0};
    uint8_t *out;
    uint64_t answer;
    int status;

    if (command->what != REMOVE && read_image_file(command->name, &body) != 0) {
        fprintf(stderr, "room: %s: %s\n", command->name, strerror(errno));
        return FAILED;
    }
    out = malloc(BOARDID_ROOM_MAX);
    if (out == NULL) {
        fprintf(stderr, "room: %s: no memory for %d bytes\n", name, BOARDID_ROOM_MAX);
        free(body.bytes);
        return FAILED;
    }
    answer = changed(room, command, &body, out, BOARDID_ROOM_MAX);
    if (boardid_answer_number(answer) != 0) {
        report(name, room, command, &body, answer);
        status = REFUSED;
    } else {
        status = put(name, target, out, boardid_answer_count(answer));
    }
    if (status == DONE) {
        printf("%s: board %lu %s, the file has %lu bytes\n", name, (unsigned long)command->board,
               words[command->what], (unsigned long)boardid_answer_count(answer));
    }
    free(out);
    free(body.bytes);
    return status;
}

/*
 * Reads the room file at a target, or makes one without boards where there is none and a board is to
 * be added. Returns the exit status; where it is DONE, the bytes are to be freed.
 */
static int read_room(const char *name, const struct target *target, const struct command *command,
                     struct image_file *room)
{
    if (target->there || command->what != ADD) {
        if (read_image_file(target->path, room) != 0) {
            fprintf(stderr, "room: %s: %s\n", name, strerror(errno));
            return FAILED;
        }
        return DONE;
    }
    room->bytes = malloc(BOARDID_ROOM_HEAD_SIZE);
    if (room->bytes == NULL) {
        fprintf(stderr, "room: %s: no memory for a new file\n", name);
        return FAILED;
    }
    room->length = boardid_room_write_empty(BOARDID_ROOM_FORM_1, room->bytes,
                                            BOARDID_ROOM_HEAD_SIZE);
    return DONE;
}

/* Does what the command line says with a room file; returns the exit status. */
static int run(const char *name, const struct command *command)
{
    struct target target;
    struct image_file room;
    int status = find_target("room", name, &target);

    if (status != DONE) {
        return status;
    }
    status = read_room(name, &target, command, &room);
    if (status == DONE) {
        status = command->what == LIST    ? list(name, &room)
                 : command->what == FETCH ? fetch(name, &room, command)
                                          : change(name, &target, &room, command);
        free(room.bytes);
    }
    free(target.path);
    return status;
}

/* Reads a command from the words after the file's name; returns 0, or -1 where it is none. */
static int command_of_words(char **words, int count, struct command *command)
{
    if (count == 0) {
        command->what = LIST;
        return 0;
    }
    if (count == 4 && strcmp(words[0], "add") == 0) {
        command->what = ADD;
    } else if (count == 4 && strcmp(words[0], "replace") == 0) {
        command->what = REPLACE;
    } else if (count == 2 && strcmp(words[0], "remove") == 0) {
        command->what = REMOVE;
    } else if (count == 3 && strcmp(words[0], "fetch") == 0) {
        command->what = FETCH;
    } else {
        return -1;
    }
    command->name = words[count - 1];
    command->format = count == 4 ? format_of_word(words[2]) : 0;
    return word32_of_word(words[1], &command->board) != 0 || (count == 4 && command->format == 0)
               ? -1
               : 0;
}

int main(int argc, char **argv)
{
    struct command command = {LIST, 0, 0, NULL};

    if (argc < 2 || command_of_words(argv + 2, argc - 2, &command) != 0) {
        fprintf(stderr, "usage: room FILE\n"
                        "       room FILE add NUMBER " FORMAT_WORDS " BODY\n"
                        "       room FILE replace NUMBER " FORMAT_WORDS " BODY\n"
                        "       room FILE remove NUMBER\n"
                        "       room FILE fetch NUMBER OUT\n"
                        "  NUMBER  the board's number, as 42 or 0x2A\n"
                        "  BODY    an image file, which goes into FILE as it is\n"
                        "  OUT     where the board's body goes\n");
        return BAD_USAGE;
    }
    return run(argv[1], &command);
}
