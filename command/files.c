/*
 * files.c: reads a file, and writes it so that it is at any time either the old one or the new one.
 *
 * A new file is written beside the real one, brought to the disk and then put in its place. With
 * --in-place the bytes that differ are written into the file itself, and read back.
 */
#include "command.h"

#include <errno.h>
#include <fcntl.h>
#include <libgen.h>
#include <limits.h>
#include <signal.h>
#include <stdlib.h>
#include <string.h>
#include <sys/file.h>
#include <sys/xattr.h>
#include <unistd.h>

/*
 * Sees that no file is opened in the place of a standard one that is closed. What stands there then
 * can neither be read nor written, so that it is told.
 */
void hold_standard(void)
{
    int fd;

    for (fd = STDIN_FILENO; fd <= STDERR_FILENO; fd++) {
        if (fcntl(fd, F_GETFD) < 0 && errno == EBADF &&
            open("/dev/null", fd == STDIN_FILENO ? O_WRONLY : O_RDONLY) < 0) {
            exit(STATUS_FILE);
        }
    }
}

/* Whether a file's name stands for standard input and output. */
bool is_standard(const char *name)
{
    return strcmp(name, "-") == 0;
}

/* Adds a file's name for people. */
void put_file_name(struct text *text, const char *name)
{
    if (is_standard(name)) {
        text_add(text, "standard input");
    } else {
        text_word(text, name);
    }
}

/* Reads all bytes of an open file, but no more than one above the most. */
static int read_all(struct job *job, int fd, struct input *input)
{
    size_t room = 0;

    if (fstat(fd, &input->stat) == 0 && S_ISREG(input->stat.st_mode) && input->stat.st_size > 0) {
        room = input->stat.st_size < FILE_MAX ? (size_t)input->stat.st_size : FILE_MAX;
    }
    for (room++;;) {
        ssize_t got;

        if (input->bytes == NULL || input->length == room) {
            uint8_t *grown;

            if (input->bytes != NULL) {
                room = room < 4096 ? 8192 : 2 * room;
            }
            room = room > (size_t)FILE_MAX + 1 ? (size_t)FILE_MAX + 1 : room;
            grown = realloc(input->bytes, room);
            if (grown == NULL) {
                no_memory();
            }
            input->bytes = grown;
        }
        got = read(fd, input->bytes + input->length, room - input->length);
        if (got < 0 && errno == EINTR) {
            continue;
        }
        if (got < 0 && errno == EISDIR) {
            return refuse(job, STATUS_FILE, -1, "is a folder");
        }
        if (got < 0) {
            return refuse(job, STATUS_FILE, -1, "cannot be read: %s", strerror(errno));
        }
        input->length += (size_t)got;
        if (got == 0 || input->length > FILE_MAX) {
            return STATUS_DONE;
        }
    }
}

/* Reads a file, or standard input where its name is -. */
int read_input(struct job *job, const char *name, bool may_miss, struct input *input)
{
    const bool standard = is_standard(name);
    int fd, status;

    *input = (struct input){.name = name, .there = true};
    job->problem.file = name;
    fd = standard ? STDIN_FILENO : open(name, O_RDONLY | O_CLOEXEC | O_NOCTTY);
    if (fd < 0 && errno == ENOENT && may_miss) {
        struct stat link;

        if (lstat(name, &link) == 0) {
            return refuse(job, STATUS_FILE, -1, "is a link to a file that is not there");
        }
        input->there = false;
        input->bytes = memory(1);
        job->problem.file = NULL;
        return STATUS_DONE;
    }
    if (fd < 0 && errno == ENOENT) {
        return refuse(job, STATUS_FILE, -1, "no such file");
    }
    if (fd < 0) {
        return refuse(job, STATUS_FILE, -1, "cannot be read: %s", strerror(errno));
    }
    status = read_all(job, fd, input);
    if (!standard) {
        close(fd);
    }
    if (status == STATUS_DONE) {
        job->problem.file = NULL;
    }
    return status;
}

/* The next run, from run->end on, in which a file and its new bytes differ; false: none. */
bool next_run(const struct input *input, const uint8_t *bytes, size_t length, struct run *run)
{
    const size_t both = input->length < length ? input->length : length;
    const size_t all = input->length < length ? length : input->length;
    size_t place = run->end;

    while (place < both && input->bytes[place] == bytes[place]) {
        place++;
    }
    if (place >= all) {
        return false;
    }
    run->place = place;
    while (place < both && input->bytes[place] != bytes[place]) {
        place++;
    }
    run->end = place < both ? place : all;
    return true;
}

/* Writes all bytes at a place of an open file; a negative place: where the file is. */
static bool write_all(int fd, const uint8_t *bytes, size_t length, off_t place)
{
    while (length > 0) {
        const ssize_t done = place < 0 ? write(fd, bytes, length)
                                       : pwrite(fd, bytes, length, place);

        if (done < 0 && errno == EINTR) {
            continue;
        }
        if (done <= 0) {
            errno = done == 0 ? ENOSPC : errno;
            return false;
        }
        bytes += done;
        length -= (size_t)done;
        place = place < 0 ? place : place + done;
    }
    return true;
}

/* Brings a file to the disk. */
static bool sync_all(int fd)
{
    while (fsync(fd) != 0) {
        if (errno != EINTR) {
            return false;
        }
    }
    return true;
}

/* The same of a file that may have no such thing, as many devices. */
static bool sync_file(int fd)
{
    return sync_all(fd) || errno == EINVAL || errno == ENOTSUP;
}

/* Reads back the runs that were written, and compares them. */
static int read_back(struct job *job, const struct input *input, const uint8_t *bytes,
                     size_t length)
{
    struct run run = {0, 0};
    const int fd = open(input->name, O_RDONLY | O_CLOEXEC | O_NOCTTY);

    if (fd < 0) {
        return refuse(job, STATUS_FILE, -1, "written, but cannot be read back: %s",
                      strerror(errno));
    }
    (void)posix_fadvise(fd, 0, 0, POSIX_FADV_DONTNEED);
    while (next_run(input, bytes, length, &run)) {
        uint8_t block[4096];

        while (run.place < run.end) {
            const size_t want =
                run.end - run.place < sizeof block ? run.end - run.place : sizeof block;
            ssize_t got = pread(fd, block, want, (off_t)run.place);
            size_t i = 0;

            if (got < 0 && errno == EINTR) {
                continue;
            }
            while (got > 0 && i < (size_t)got && block[i] == bytes[run.place + i]) {
                i++;
            }
            if (got <= 0 || i < (size_t)got) {
                const int why = errno;

                close(fd);
                if (got < 0) {
                    refuse(job, STATUS_FILE, -1, "written, but cannot be read back at byte %zu: %s",
                           run.place, strerror(why));
                } else if (got == 0) {
                    refuse(job, STATUS_FILE, -1, "written, but ends at byte %zu now", run.place);
                } else {
                    refuse(job, STATUS_FILE, -1, "written, but byte %zu reads %02Xh, not %02Xh: "
                           "the chip does not keep it", run.place + i, block[i],
                           bytes[run.place + i]);
                    hint(job, "is the chip protected against writing?");
                }
                job->problem.place = (int64_t)(run.place + i);
                return STATUS_FILE;
            }
            run.place += (size_t)got;
        }
    }
    close(fd);
    return STATUS_DONE;
}

/* Whether an open file is the one that was read, with the bytes that were read. */
static bool has_bytes(int fd, const struct input *input)
{
    uint8_t block[4096];
    size_t place = 0;
    struct stat now;

    if (fstat(fd, &now) != 0 || now.st_dev != input->stat.st_dev ||
        now.st_ino != input->stat.st_ino) {
        return false;
    }
    while (place < input->length) {
        const size_t left = input->length - place;
        const ssize_t got =
            pread(fd, block, left < sizeof block ? left : sizeof block, (off_t)place);

        if (got < 0 && errno == EINTR) {
            continue;
        }
        if (got <= 0 || memcmp(block, input->bytes + place, (size_t)got) != 0) {
            return false;
        }
        place += (size_t)got;
    }
    return true;
}

/*
 * Opens a file to write into it, and sees that it is still as it was read and that no other program
 * holds a lock on it, as this one does while it writes. Less than 0: it was refused.
 */
static int open_in_place(struct job *job, const struct input *input)
{
    const int fd = open(input->name, O_RDWR | O_CLOEXEC | O_NOCTTY);

    if (fd < 0) {
        refuse(job, STATUS_FILE, -1, "cannot be written: %s", strerror(errno));
        return -1;
    }
    if (flock(fd, LOCK_EX | LOCK_NB) != 0 && errno == EWOULDBLOCK) {
        refuse(job, STATUS_FILE, -1, "another program has locked it; nothing is written");
    } else if (!has_bytes(fd, input)) {
        refuse(job, STATUS_FILE, -1, "another program has changed it; nothing is written");
    } else {
        return fd;
    }
    close(fd);
    return -1;
}

/* Writes the bytes that differ into the file itself, and reads them back. */
static int write_in_place(struct job *job, const struct input *input, const uint8_t *bytes,
                          size_t length)
{
    struct run run = {0, 0};
    sigset_t all, before;
    int fd, why = 0;

    fd = open_in_place(job, input);
    if (fd < 0) {
        return STATUS_FILE;
    }
    sigfillset(&all);
    sigprocmask(SIG_BLOCK, &all, &before);
    while (why == 0 && next_run(input, bytes, length, &run)) {
        if (!write_all(fd, bytes + run.place, run.end - run.place, (off_t)run.place)) {
            why = errno;
        }
    }
    if (why == 0 && !sync_file(fd)) {
        why = errno;
    }
    if (close(fd) != 0 && errno != EINTR && why == 0) {
        why = errno;
    }
    sigprocmask(SIG_SETMASK, &before, NULL);
    if (why != 0) {
        refuse(job, STATUS_FILE, -1, "cannot be written: %s", strerror(why));
        hint(job, "it may be half written: see what boardid check says of it");
        job->problem.place = run.end == 0 ? -1 : (int64_t)run.place;
        return STATUS_FILE;
    }
    return read_back(job, input, bytes, length);
}

/* The parts of a new file's way: where it goes, and the temporary file beside it. */
struct way {
    char *real;   /* the file, links followed */
    char *folder; /* the folder that it is in */
    char *beside; /* the temporary file */
};

/* Gives back what a way holds. */
static void way_free(struct way *way)
{
    free(way->real);
    free(way->folder);
    free(way->beside);
}

/* Finds the way of a new file. */
static int find_way(struct job *job, const struct input *input, struct way *way)
{
    struct text text = {NULL, 0, 0};
    char *copy;
    const char *last;

    *way = (struct way){NULL, NULL, NULL};
    way->real = input->there ? realpath(input->name, NULL) : strdup(input->name);
    if (way->real == NULL) {
        return refuse(job, STATUS_FILE, -1, "cannot be written: %s", strerror(errno));
    }
    copy = strdup(way->real);
    way->folder = copy == NULL ? NULL : strdup(dirname(copy));
    free(copy);
    if (way->folder == NULL) {
        no_memory();
    }
    last = strrchr(way->real, '/');
    last = last == NULL ? way->real : last + 1;
    if (*last == '\0') {
        return refuse(job, STATUS_FILE, -1, "is a folder's name");
    }
    text_add(&text, "%s/.%.200s.XXXXXX", way->folder, last);
    way->beside = text.bytes;
    return STATUS_DONE;
}

/* Gives the temporary file the mode and the owner of the real one, or those of a new file. */
static bool keep_owner(int fd, const struct input *input)
{
    struct stat now;

    if (!input->there) {
        const mode_t mask = umask(0);

        umask(mask);
        return fchmod(fd, 0666 & ~mask) == 0;
    }
    if (fstat(fd, &now) != 0) {
        return false;
    }
    if ((now.st_uid != input->stat.st_uid || now.st_gid != input->stat.st_gid) &&
        fchown(fd, input->stat.st_uid, input->stat.st_gid) != 0) {
        return false;
    }
    return fchmod(fd, input->stat.st_mode & 07777) == 0;
}

/* Whether the file is still the one that was read. */
static bool is_unchanged(const struct input *input, const char *real)
{
    struct stat now;

    if (!input->there) {
        return lstat(real, &now) != 0;
    }
    return stat(real, &now) == 0 && now.st_dev == input->stat.st_dev &&
           now.st_ino == input->stat.st_ino && now.st_size == input->stat.st_size &&
           now.st_mtim.tv_sec == input->stat.st_mtim.tv_sec &&
           now.st_mtim.tv_nsec == input->stat.st_mtim.tv_nsec;
}

/* What did not work in putting a new file in the place of the old one. */
enum trouble {
    NO_TROUBLE,
    NO_TEMPORARY,
    NO_OWNER,
    NOT_WRITTEN,
    CHANGED,
    OTHER_BESIDE, /* another program's file stands beside the new one, under the temporary name */
    NOT_SYNCED
};

/*
 * Gives the temporary file the real one's name. An old file changes places with it, and is looked at
 * only then: so a change that another program has made meanwhile is seen, and stays. A file system
 * that cannot do so is asked for a plain rename, after a last look.
 */
static enum trouble take_place(const struct input *input, const struct way *way, int *why)
{
    const unsigned flag = input->there ? RENAME_EXCHANGE : RENAME_NOREPLACE;

    if (renameat2(AT_FDCWD, way->beside, AT_FDCWD, way->real, flag) == 0) {
        if (input->there && !is_unchanged(input, way->beside)) {
            if (renameat2(AT_FDCWD, way->beside, AT_FDCWD, way->real, flag) != 0) {
                *why = errno;
                return OTHER_BESIDE;
            }
            unlink(way->beside);
            return CHANGED;
        }
        if (input->there) {
            unlink(way->beside);
        }
        return NO_TROUBLE;
    }
    *why = errno;
    if (errno == EINVAL || errno == ENOSYS) {
        if (is_unchanged(input, way->real)) {
            if (rename(way->beside, way->real) == 0) {
                return NO_TROUBLE;
            }
            *why = errno;
        } else {
            *why = EEXIST;
        }
    }
    unlink(way->beside);
    return *why == EEXIST || (*why == ENOENT && input->there) ? CHANGED : NOT_WRITTEN;
}

/* Puts a new file in the place of the old one. Nothing here takes memory. */
static enum trouble put_in_place(const struct input *input, const struct way *way,
                                 const uint8_t *bytes, size_t length, int *why)
{
    enum trouble trouble = NO_TROUBLE;
    const int fd = mkostemp(way->beside, O_CLOEXEC);
    int folder;

    if (fd < 0) {
        *why = errno;
        return NO_TEMPORARY;
    }
    if (!keep_owner(fd, input)) {
        trouble = NO_OWNER;
    } else if (!write_all(fd, bytes, length, -1) || !sync_all(fd)) {
        trouble = NOT_WRITTEN;
    }
    *why = errno;
    if (close(fd) != 0 && errno != EINTR && trouble == NO_TROUBLE) {
        *why = errno;
        trouble = NOT_WRITTEN;
    }
    if (trouble != NO_TROUBLE) {
        unlink(way->beside);
        return trouble;
    }
    trouble = take_place(input, way, why);
    if (trouble != NO_TROUBLE) {
        return trouble;
    }
    folder = open(way->folder, O_RDONLY | O_DIRECTORY | O_CLOEXEC);
    if (folder >= 0) {
        if (!sync_file(folder)) {
            *why = errno;
            trouble = NOT_SYNCED;
        }
        close(folder);
    }
    return trouble;
}

/* Writes a new file beside the real one and puts it in its place. */
static int replace(struct job *job, const struct input *input, const uint8_t *bytes, size_t length)
{
    sigset_t all, before;
    enum trouble trouble;
    struct way way;
    int why = 0, status;

    status = find_way(job, input, &way);
    if (status == STATUS_DONE && input->there &&
        faccessat(AT_FDCWD, way.real, W_OK, AT_EACCESS) != 0) {
        status = refuse(job, STATUS_FILE, -1, "cannot be written: %s", strerror(errno));
    }
    if (status != STATUS_DONE) {
        way_free(&way);
        return status;
    }
    sigfillset(&all);
    sigprocmask(SIG_BLOCK, &all, &before);
    trouble = put_in_place(input, &way, bytes, length, &why);
    sigprocmask(SIG_SETMASK, &before, NULL);
    if (trouble == OTHER_BESIDE) {
        struct text text = {NULL, 0, 0};

        text_word(&text, way.beside);
        refuse(job, STATUS_FILE, -1, "is the new file, but another program had changed it; what "
               "that has written is %s: %s", text_of(&text), strerror(why));
        text_free(&text);
    }
    way_free(&way);
    switch (trouble) {
    case NO_TROUBLE:
        return STATUS_DONE;
    case NO_TEMPORARY:
        refuse(job, STATUS_FILE, -1, "no file can be made beside it: %s", strerror(why));
        break;
    case NO_OWNER:
        refuse(job, STATUS_FILE, -1, "its owner and mode cannot be kept: %s", strerror(why));
        break;
    case NOT_SYNCED:
        return refuse(job, STATUS_FILE, -1, "is the new file, but its folder cannot be brought to "
                      "the disk: %s", strerror(why));
    case CHANGED:
        return refuse(job, STATUS_FILE, -1, "another program has changed it; nothing is written");
    case OTHER_BESIDE:
        return STATUS_FILE;
    default:
        return refuse(job, STATUS_FILE, -1, "cannot be written: %s", strerror(why));
    }
    if (input->there) {
        hint(job, "--in-place writes into it");
    }
    return STATUS_FILE;
}

/*
 * Whether a file can be changed at all, as far as its kind tells: into itself where its length stays
 * and it has places, else by a new file where that has all that the old one has.
 */
int may_write(struct job *job, const struct input *input, size_t length)
{
    const mode_t mode = input->stat.st_mode;
    int status = STATUS_DONE;

    if (is_standard(input->name) || !input->there) {
        return STATUS_DONE;
    }
    job->problem.file = input->name;
    if (job->options.in_place) {
        if (length != input->length) {
            status = refuse(job, STATUS_FILE, -1, "--in-place keeps a file's length: it has %zu "
                            "bytes, and %zu are to be written", input->length, length);
        } else if (S_ISFIFO(mode) || S_ISSOCK(mode)) {
            status = refuse(job, STATUS_FILE, -1, "has no places to write to: it is a pipe or a "
                            "socket");
        }
    } else {
        if (!S_ISREG(mode)) {
            status = refuse(job, STATUS_FILE, -1, "is no regular file, and cannot be replaced");
        } else if (input->stat.st_nlink > 1) {
            status = refuse(job, STATUS_FILE, -1, "has %ju names, of which only one would have the "
                            "new file", (uintmax_t)input->stat.st_nlink);
        } else if (getxattr(input->name, "system.posix_acl_access", NULL, 0) > 0) {
            status = refuse(job, STATUS_FILE, -1, "has an access list, which a new file would not "
                            "have");
        }
        if (status != STATUS_DONE) {
            hint(job, "--in-place writes into it");
        }
    }
    if (status == STATUS_DONE) {
        job->problem.file = NULL;
    }
    return status;
}

/* Writes the new bytes of a file: to standard output, into the file, or as a new file. */
int write_output(struct job *job, const struct input *input, const uint8_t *bytes, size_t length)
{
    int status;

    if (is_standard(input->name)) {
        if (fwrite(bytes, 1, length, stdout) != length || fflush(stdout) != 0) {
            return refuse(job, STATUS_FILE, -1, "standard output cannot be written: %s",
                          strerror(errno));
        }
        return STATUS_DONE;
    }
    job->problem.file = input->name;
    status = job->options.in_place && input->there ? write_in_place(job, input, bytes, length)
                                                   : replace(job, input, bytes, length);
    if (status == STATUS_DONE) {
        job->problem.file = NULL;
    }
    return status;
}
