/*
 * backup: backs up one entry of an image file, frame and all.
 *
 *     backup fboss|vpd|tiny|onie IMAGE ENTRY FILE
 *
 * ENTRY is the entry's number, as the example list prints it. FILE gets the entry's bytes as they
 * stand in the image: its code, its length bytes as stored, its key and its value. To compile this
 * program takes a header of edition 4 or later, whose records have the length of the whole frame.
 *
 * FILE is made, or replaced where it is there: it is at any time either what it was or the whole
 * backup. The bytes are written to a temporary file beside it, brought to the disk, and only then
 * given its name. A FILE that is replaced keeps its permissions and its owner. The image is only
 * read, and a FILE that is the image itself is not taken. Where anything is refused or fails, FILE
 * stays as it was.
 *
 * Exit status: 0 backed up, 1 the library refused the image or has no such entry, 2 a wrong command
 * line, 3 a file could not be read or written.
 */
#define _XOPEN_SOURCE 700

#include "whole_file.h"

/* Backs up an entry of an image to a file; returns the exit status. */
static int backup(uint32_t format, const char *image_name, const struct image_file *image,
                  uint64_t entry, const char *name)
{
    uint8_t bytes[BOARDID_RECORD_SIZE];
    struct boardid_record record;
    struct target target;
    uint64_t answer = boardid_entry_at(format, image->bytes, image->length, entry, bytes,
                                       sizeof bytes);
    int status;

    if (boardid_answer_number(answer) != 0) {
        report_refusal("backup", image_name, answer);
        return REFUSED;
    }
    record = boardid_record_at(bytes, 0);
    status = find_target("backup", name, &target);
    if (status != DONE) {
        return status;
    }
    status = is_another("backup", name, &target, image_name, "the image");
    if (status != DONE) {
        free(target.path);
        return status;
    }
    if (replace_file(target.path, target.there ? &target.old : NULL, image->bytes + record.place,
                     record.frame_length) != 0) {
        fprintf(stderr, "backup: %s: not written: %s\n", name, strerror(errno));
        status = FAILED;
    } else if (sync_folder(target.path) != 0) {
        fprintf(stderr, "backup: %s: written, but its folder could not be synced: %s\n", name,
                strerror(errno));
        status = FAILED;
    } else {
        printf("%s: entry %llu, the %lu bytes from place %lu on, written to %s\n", image_name,
               (unsigned long long)entry, (unsigned long)record.frame_length,
               (unsigned long)record.place, name);
    }
    free(target.path);
    return status;
}

int main(int argc, char **argv)
{
    struct image_file image;
    unsigned long long entry = 0;
    uint32_t format = argc == 5 ? format_of_word(argv[1]) : 0;
    int status;

    if (format == 0 || number_of_word(argv[3], UINT64_MAX, &entry) != 0) {
        fprintf(stderr, "usage: backup " FORMAT_WORDS " IMAGE ENTRY FILE\n"
                        "  ENTRY  the entry's number, as list prints it\n"
                        "  FILE   where the entry's bytes go, its frame included\n");
        return BAD_USAGE;
    }
    if (read_image_file(argv[2], &image) != 0) {
        fprintf(stderr, "backup: %s: %s\n", argv[2], strerror(errno));
        return FAILED;
    }
    status = backup(format, argv[2], &image, entry, argv[4]);
    free(image.bytes);
    return status;
}
