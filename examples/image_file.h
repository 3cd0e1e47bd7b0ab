/*
 * What the examples do with an image file: find the format that the user names, read the file, print
 * bytes of it safely, and report a refusal. Each example includes this file once, and uses what it
 * needs.
 */
#ifndef IMAGE_FILE_H
#define IMAGE_FILE_H

#include <errno.h>
#include <stdio.h>
#include <stdlib.h>
#include <string.h>

#include <boardid.h>

/* The exit statuses of the examples. */
enum {
    DONE = 0,
    REFUSED = 1,   /* the library refused the call */
    BAD_USAGE = 2, /* the command line is wrong */
    FAILED = 3     /* a file could not be read or written, or there is no memory */
};

/* The bytes of a file. */
struct image_file {
    uint8_t *bytes;
    size_t length;
};

/* The words for the formats that this edition has. */
#if BOARDID_EDITION >= 3
#define FORMAT_WORDS "fboss|vpd|tiny|onie"
#else
#define FORMAT_WORDS "fboss|vpd|tiny"
#endif

/* The number of the format that the user names; 0 of any other word. */
static inline uint32_t format_of_word(const char *word)
{
    if (strcmp(word, "fboss") == 0) {
        return BOARDID_FORMAT_FBOSS;
    }
    if (strcmp(word, "vpd") == 0) {
        return BOARDID_FORMAT_VPD;
    }
    if (strcmp(word, "tiny") == 0) {
        return BOARDID_FORMAT_TINY;
    }
#if BOARDID_EDITION >= 3
    if (strcmp(word, "onie") == 0) {
        return BOARDID_FORMAT_ONIE;
    }
#endif
    return 0;
}

/*
 * Reads a file, of a longer one the first 65,537 bytes: the library refuses these as too long, so
 * no more are needed. Returns 0, or -1 with errno set.
 */
static inline int read_image_file(const char *path, struct image_file *file)
{
    const size_t room = (size_t)BOARDID_IMAGE_MAX + 1;
    FILE *stream = fopen(path, "rb");
    int error;

    if (stream == NULL) {
        return -1;
    }
    file->bytes = malloc(room);
    if (file->bytes == NULL) {
        fclose(stream);
        errno = ENOMEM;
        return -1;
    }
    errno = 0;
    file->length = fread(file->bytes, 1, room, stream);
    error = ferror(stream) ? (errno != 0 ? errno : EIO) : 0;
    fclose(stream);
    if (error != 0) {
        free(file->bytes);
        errno = error;
        return -1;
    }
    return 0;
}

/* Prints one byte of what stands in quotes, or \x and two digits for it. */
static inline void print_character(unsigned character)
{
    if (character < 0x20 || character > 0x7E || character == '"' || character == '\\') {
        printf("\\x%02X", character);
    } else {
        printf("%c", (int)character);
    }
}

/* Prints bytes, as a text, a key or a serial number, in quotes. */
static inline void print_text(const uint8_t *bytes, size_t length)
{
    size_t i;

    printf("\"");
    for (i = 0; i < length; i++) {
        print_character(bytes[i]);
    }
    printf("\"");
}

/* Reports a refusal on standard error: its number, its place and its text. */
static inline void report_refusal(const char *program, const char *path, uint64_t answer)
{
    uint32_t number = boardid_answer_number(answer);

    fprintf(stderr, "%s: %s: refused %lu at %llu: %s\n", program, path, (unsigned long)number,
            (unsigned long long)boardid_answer_place(answer), boardid_refusal_text(number));
}

#endif
