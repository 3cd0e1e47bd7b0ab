/*
 * What the examples edit, backup and room do to write a file: it is at any time either the old one
 * or the new one, whole. A program that includes this file defines _XOPEN_SOURCE as 700 before
 * anything else.
 */
#ifndef WHOLE_FILE_H
#define WHOLE_FILE_H

#include <fcntl.h>
#include <libgen.h>
#include <sys/stat.h>
#include <sys/types.h>
#include <unistd.h>

#include "image_file.h"

/* A number in decimal; returns 0, or -1 where the word is none or is above the limit. */
static inline int number_of_word(const char *word, unsigned long long limit,
                                 unsigned long long *number)
{
    char *end;

    if (word[0] < '0' || word[0] > '9') {
        return -1;
    }
    errno = 0;
    *number = strtoull(word, &end, 10);
    return errno == 0 && *end == '\0' && *number <= limit ? 0 : -1;
}

/* The value of a hexadecimal digit; -1 of any other character. */
static inline int hex_digit(char character)
{
    static const char digits[] = "0123456789abcdefABCDEF";
    const char *found = character != '\0' ? strchr(digits, character) : NULL;

    if (found == NULL) {
        return -1;
    }
    return found - digits < 16 ? (int)(found - digits) : (int)(found - digits) - 6;
}

/*
 * A number of 32 bits in decimal, or in hexadecimal after 0x; returns 0, or -1 where the word is
 * none.
 */
static inline int word32_of_word(const char *word, uint32_t *value)
{
    unsigned long long number = 0;

    if (word[0] != '0' || (word[1] != 'x' && word[1] != 'X')) {
        if (number_of_word(word, UINT32_MAX, &number) != 0) {
            return -1;
        }
    } else {
        word += 2;
        do {
            int digit = hex_digit(*word++);

            if (digit < 0 || number > UINT32_MAX / 16) {
                return -1;
            }
            number = number * 16 + (unsigned)digit;
        } while (*word != '\0');
    }
    *value = (uint32_t)number;
    return 0;
}

/* Writes all bytes to a file descriptor and brings them to the disk; returns 0, or -1 with errno. */
static inline int write_through(int descriptor, const uint8_t *bytes, size_t length)
{
    while (length > 0) {
        ssize_t written = write(descriptor, bytes, length);

        if (written < 0) {
            if (errno == EINTR) {
                continue;
            }
            return -1;
        }
        bytes += written;
        length -= (size_t)written;
    }
    return fsync(descriptor);
}

/* Brings the name of a file to the disk, which its folder holds; returns 0, or -1 with errno set. */
static inline int sync_folder(const char *path)
{
    char *copy = strdup(path);
    int descriptor, result, error;

    if (copy == NULL) {
        return -1;
    }
    descriptor = open(dirname(copy), O_RDONLY);
    free(copy);
    if (descriptor < 0) {
        return -1;
    }
    result = fsync(descriptor);
    error = errno;
    close(descriptor);
    errno = error;
    return result;
}

/* Gives an open file the permissions and the owner of the old one; returns 0, or -1 with errno. */
static inline int keep_ownership(int descriptor, const struct stat *old)
{
    struct stat made;

    if (fstat(descriptor, &made) != 0) {
        return -1;
    }
    if ((made.st_uid != old->st_uid || made.st_gid != old->st_gid) &&
        fchown(descriptor, old->st_uid, old->st_gid) != 0) {
        return -1;
    }
    return fchmod(descriptor, old->st_mode & 07777);
}

/* Gives an open file the permissions that a new one gets here; returns 0, or -1 with errno set. */
static inline int new_ownership(int descriptor)
{
    mode_t mask = umask(0);

    umask(mask);
    return fchmod(descriptor, 0666 & ~mask);
}

/*
 * Replaces a file by a new one of these bytes, all or nothing, or makes it, where old is null. The
 * new one is a temporary file beside it, is brought to the disk, and only then gets its name.
 * Returns 0, or -1 with errno set.
 */
static inline int replace_file(const char *path, const struct stat *old, const uint8_t *bytes,
                               size_t length)
{
    static const char suffix[] = ".XXXXXX";
    size_t name_length = strlen(path);
    char *temporary = malloc(name_length + sizeof suffix);
    int descriptor, result, error;

    if (temporary == NULL) {
        return -1;
    }
    memcpy(temporary, path, name_length);
    memcpy(temporary + name_length, suffix, sizeof suffix);
    descriptor = mkstemp(temporary);
    if (descriptor < 0) {
        error = errno;
        free(temporary);
        errno = error;
        return -1;
    }
    result = old != NULL ? keep_ownership(descriptor, old) : new_ownership(descriptor);
    if (result == 0) {
        result = write_through(descriptor, bytes, length);
    }
    error = errno;
    if (close(descriptor) != 0 && result == 0) {
        result = -1;
        error = errno;
    }
    if (result == 0) {
        result = rename(temporary, path);
        error = errno;
    }
    if (result != 0) {
        unlink(temporary);
    }
    free(temporary);
    errno = error;
    return result;
}

/* Where something is written to: the file's own path, and what is there, if anything is. */
struct target {
    char *path;
    struct stat old;
    int there;
};

/*
 * Finds out where something is written to, symbolic links followed. Returns the exit status; a file
 * that is no regular one is not taken. Where it is DONE, the path is to be freed.
 */
static inline int find_target(const char *program, const char *name, struct target *target)
{
    struct stat link;

    target->there = lstat(name, &link) == 0;
    if (!target->there && errno != ENOENT) {
        fprintf(stderr, "%s: %s: %s\n", program, name, strerror(errno));
        return FAILED;
    }
    target->path = target->there ? realpath(name, NULL) : strdup(name);
    if (target->path == NULL) {
        fprintf(stderr, "%s: %s: %s\n", program, name, strerror(errno));
        return FAILED;
    }
    if (!target->there) {
        return DONE;
    }
    if (stat(target->path, &target->old) != 0) {
        fprintf(stderr, "%s: %s: %s\n", program, name, strerror(errno));
    } else if (!S_ISREG(target->old.st_mode)) {
        fprintf(stderr, "%s: %s: not a regular file\n", program, name);
    } else {
        return DONE;
    }
    free(target->path);
    return FAILED;
}

/* Sees to it that a target is not the file that was read; returns the exit status. */
static inline int is_another(const char *program, const char *name, const struct target *target,
                             const char *read_name, const char *read_what)
{
    struct stat source;

    if (!target->there) {
        return DONE;
    }
    if (stat(read_name, &source) != 0) {
        fprintf(stderr, "%s: %s: %s\n", program, read_name, strerror(errno));
        return FAILED;
    }
    if (source.st_dev == target->old.st_dev && source.st_ino == target->old.st_ino) {
        fprintf(stderr, "%s: %s: is %s itself\n", program, name, read_what);
        return FAILED;
    }
    return DONE;
}

#endif
