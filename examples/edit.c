/*
 * edit: changes an image file: gives one entry a new value, adds a field, or removes an entry.
 *
 *     edit [-x] [-s SIZE] fboss|vpd|tiny|onie FILE ENTRY VALUE
 *     edit [-x] [-s SIZE] fboss|tiny|onie FILE add CODE VALUE
 *     edit [-x] [-s SIZE] vpd FILE add CODE KEY VALUE
 *     edit [-s SIZE] fboss|vpd|tiny|onie FILE remove ENTRY
 *
 * Compiled with the header of edition 1 or 2, it has no onie. To compile this program takes a
 * header of version 4.1 or later.
 *
 * ENTRY is the entry's number, as the example list prints it. CODE is the code of the new field, in
 * decimal, or in hexadecimal as 0x2D. KEY is its key, as text. VALUE is the new value as text; with
 * -x it is bytes in hexadecimal, which may be parted by colons or spaces. The file keeps its size,
 * or gets that of -s; its bytes after the image's end become FFh. Where the image has no room for a
 * new field, -s gives it some.
 *
 * The file is either the old one or the new one, whole, at any time: the new image is made in a
 * second buffer, written to a temporary file beside the old one, brought to the disk, and only then
 * given the old one's name. Its permissions and its owner stay. Where anything is refused or fails,
 * the file stays as it was.
 *
 * Exit status: 0 changed, 1 the library refused the change, 2 a wrong command line, 3 the file
 * could not be read or written.
 */
#define _XOPEN_SOURCE 700

#include "whole_file.h"

/* The bytes of a new value; of a new field its key, and then its value. */
struct new_bytes {
    uint8_t *bytes;
    size_t length;
};

/* Appends a word to bytes that have room for its characters. */
static void append_word(const char *word, struct new_bytes *bytes)
{
    size_t length = strlen(word);

    memcpy(bytes->bytes + bytes->length, word, length);
    bytes->length += length;
}

/*
 * Appends bytes written in hexadecimal to bytes that have room for as many as the word has
 * characters. Returns 0, or -1 where the word is no such bytes.
 */
static int append_hex(const char *word, struct new_bytes *bytes)
{
    while (*word != '\0') {
        int high = hex_digit(word[0]);
        int low = high >= 0 ? hex_digit(word[1]) : -1;

        if (low < 0) {
            return -1;
        }
        bytes->bytes[bytes->length++] = (uint8_t)(high * 16 + low);
        word += 2;
        if ((*word == ':' || *word == ' ') && word[1] != '\0') {
            word++;
        }
    }
    return 0;
}

/* A change of an image, as the command line says it. */
struct change {
    enum { EDIT, ADD, REMOVE } what;
    const char *word;                  /* the entry's number or the field's code, as given */
    unsigned long long entry;          /* of an edit and a removal */
    uint8_t field[BOARDID_FIELD_SIZE]; /* of an addition; its parts are parts of the bytes */
    struct new_bytes bytes;
};

/* Puts the changed image into out; returns the library's answer. */
static uint64_t changed(uint32_t format, const struct image_file *image,
                        const struct change *change, uint8_t *out, size_t out_length)
{
    switch (change->what) {
    case ADD:
        return boardid_add_field(format, image->bytes, image->length, change->field,
                                 sizeof change->field, change->bytes.bytes, change->bytes.length,
                                 out, out_length);
    case REMOVE:
        return boardid_remove_entry(format, image->bytes, image->length, change->entry, out,
                                    out_length);
    default:
        return boardid_edit_entry(format, image->bytes, image->length, change->entry,
                                  change->bytes.bytes, change->bytes.length, out, out_length);
    }
}

/* Says what was done to a file. */
static void print_done(const char *name, const struct change *change, uint64_t answer,
                       size_t file_length)
{
    static const char *const words[][2] = {
        [EDIT] = {"entry", "edited"}, [ADD] = {"code", "added"}, [REMOVE] = {"entry", "removed"}};

    printf("%s: %s %s %s, the image has %lu of the file's %lu bytes\n", name,
           words[change->what][0], change->word, words[change->what][1],
           (unsigned long)boardid_answer_count(answer), (unsigned long)file_length);
}

/*
 * Changes the file of a name as the user gave it, whose own path, with symbolic links followed, is
 * path. Returns the exit status.
 */
static int change_file(const char *name, const char *path, uint32_t format,
                       const struct change *change, long long size)
{
    struct image_file image;
    struct stat old;
    size_t out_length;
    uint8_t *out;
    uint64_t answer;
    int status = DONE;

    if (stat(path, &old) != 0) {
        fprintf(stderr, "edit: %s: %s\n", name, strerror(errno));
        return FAILED;
    }
    if (!S_ISREG(old.st_mode)) {
        fprintf(stderr, "edit: %s: not a regular file\n", name);
        return FAILED;
    }
    if (read_image_file(path, &image) != 0) {
        fprintf(stderr, "edit: %s: %s\n", name, strerror(errno));
        return FAILED;
    }
    out_length = size < 0 ? image.length : (size_t)size;
    out = malloc(out_length != 0 ? out_length : 1);
    if (out == NULL) {
        fprintf(stderr, "edit: %s: no memory for %lu bytes\n", name, (unsigned long)out_length);
        free(image.bytes);
        return FAILED;
    }
    answer = changed(format, &image, change, out, out_length);
    if (boardid_answer_number(answer) != 0) {
        report_refusal("edit", name, answer);
        status = REFUSED;
    } else if (replace_file(path, &old, out, out_length) != 0) {
        fprintf(stderr, "edit: %s: not changed: %s\n", name, strerror(errno));
        status = FAILED;
    } else if (sync_folder(path) != 0) {
        fprintf(stderr, "edit: %s: changed, but its folder could not be synced: %s\n", name,
                strerror(errno));
        status = FAILED;
    } else {
        print_done(name, change, answer, out_length);
    }
    free(out);
    free(image.bytes);
    return status;
}

/* Says how the program is used; returns the exit status. */
static int usage(void)
{
    fprintf(stderr, "usage: edit [-x] [-s SIZE] " FORMAT_WORDS " FILE ENTRY VALUE\n"
                    "       edit [-x] [-s SIZE] " FORMAT_WORDS " FILE add CODE [KEY] VALUE\n"
                    "       edit [-s SIZE] " FORMAT_WORDS " FILE remove ENTRY\n"
                    "  -x       VALUE is bytes in hexadecimal, as 0a1b or 0a:1b\n"
                    "  -s SIZE  the size of the new file, at most 65536; else it stays\n"
                    "  ENTRY    the entry's number, as list prints it\n"
                    "  CODE     the new field's code, as 17 or 0x2D\n"
                    "  KEY      the new field's key, in vpd, and only there\n");
    return BAD_USAGE;
}

/*
 * Reads a change from the words of the command line after the file's name, into bytes that have
 * room for them all. Returns the exit status; where it is not DONE, the user has been told.
 */
static int change_of_words(uint32_t format, char **words, int count, int hex, struct change *change)
{
    const int key = format == BOARDID_FORMAT_VPD ? 1 : 0;
    struct boardid_field field = {0, 0, 0, 0, 0};

    change->what = EDIT;
    if (strcmp(words[0], "add") == 0 || strcmp(words[0], "remove") == 0) {
        change->what = strcmp(words[0], "add") == 0 ? ADD : REMOVE;
        words++;
        count--;
    }
    if (count != (change->what == ADD ? 2 + key : change->what == EDIT ? 2 : 1)) {
        return usage();
    }
    change->word = words[0];
    if (change->what == ADD ? word32_of_word(words[0], &field.code) != 0
                            : number_of_word(words[0], UINT64_MAX, &change->entry) != 0) {
        return usage();
    }
    if (change->what == ADD && key) {
        append_word(words[1], &change->bytes);
        field.key_length = (uint32_t)change->bytes.length;
    }
    if (change->what != REMOVE && !hex) {
        append_word(words[count - 1], &change->bytes);
    } else if (change->what != REMOVE && append_hex(words[count - 1], &change->bytes) != 0) {
        fprintf(stderr, "edit: %s is not bytes in hexadecimal\n", words[count - 1]);
        return BAD_USAGE;
    }
    field.value_place = field.key_length;
    field.value_length = (uint32_t)change->bytes.length - field.key_length;
    boardid_field_set(change->field, 0, field);
    return DONE;
}

int main(int argc, char **argv)
{
    unsigned long long number = 0;
    struct change change = {EDIT, NULL, 0, {0}, {NULL, 0}};
    long long size = -1;
    int hex = 0, option, count, k, status;
    size_t room = 1;
    uint32_t format;
    char **words, *path;

    /* The plus sign keeps glibc from taking a VALUE that begins with a minus for an option. */
    while ((option = getopt(argc, argv, "+xs:")) != -1) {
        if (option == 'x') {
            hex = 1;
        } else if (option == 's' && number_of_word(optarg, BOARDID_IMAGE_MAX, &number) == 0) {
            size = (long long)number;
        } else {
            return usage();
        }
    }
    words = argv + optind;
    count = argc - optind;
    format = count >= 3 ? format_of_word(words[0]) : 0;
    if (format == 0) {
        return usage();
    }
    for (k = 2; k < count; k++) {
        room += strlen(words[k]);
    }
    change.bytes.bytes = malloc(room);
    if (change.bytes.bytes == NULL) {
        fprintf(stderr, "edit: no memory for the value\n");
        return FAILED;
    }
    status = change_of_words(format, words + 2, count - 2, hex, &change);
    if (status == DONE) {
        path = realpath(words[1], NULL);
        if (path == NULL) {
            fprintf(stderr, "edit: %s: %s\n", words[1], strerror(errno));
            status = FAILED;
        } else {
            status = change_file(words[1], path, format, &change, size);
        }
        free(path);
    }
    free(change.bytes.bytes);
    return status;
}
