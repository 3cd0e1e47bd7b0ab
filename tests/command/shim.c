/*
 * Stands before the C library's calls that write, by LD_PRELOAD. Every call is a line of the file
 * SHIM_LOG: its name, the file it is on, the place and the length. SHIM_DO says what else is done:
 *   damage   a pwrite stores its first byte with one bit changed
 *   drop     a pwrite stores nothing and says that it did
 *   short    a write or pwrite takes one byte at a time
 *   eintr    every second write, pwrite and fsync is interrupted
 *   einval   fsync gives EINVAL
 *   slow     every call waits SHIM_SLOW microseconds first
 *   fail-X   the call X gives EIO
 */
#define _GNU_SOURCE
#include <errno.h>
#include <fcntl.h>
#include <stdint.h>
#include <stdio.h>
#include <stdlib.h>
#include <string.h>
#include <sys/stat.h>
#include <sys/syscall.h>
#include <sys/types.h>
#include <time.h>
#include <unistd.h>

static unsigned long asked;

/* Whether SHIM_DO is this word. */
static int does(const char *word)
{
    const char *what = getenv("SHIM_DO");

    return what != NULL && strcmp(what, word) == 0;
}

/* Notes a call; returns whether it is to fail. */
static int noted(const char *name, int fd, long long place, size_t length)
{
    const char *path = getenv("SHIM_LOG"), *slow = getenv("SHIM_SLOW");
    char line[600], link[64], target[400], fail[32];
    int interruptible = strstr("write pwrite fsync", name) != NULL, log;
    long at;

    snprintf(link, sizeof link, "/proc/self/fd/%d", fd);
    at = fd < 0 ? -1 : (long)syscall(SYS_readlinkat, AT_FDCWD, link, target, sizeof target - 1);
    target[at < 0 ? 0 : at] = 0;
    if (path != NULL) {
        log = (int)syscall(SYS_openat, AT_FDCWD, path, O_WRONLY | O_CREAT | O_APPEND, 0666);
        if (log >= 0) {
            snprintf(line, sizeof line, "%s %lld %zu %s\n", name, place, length, target);
            (void)syscall(SYS_write, log, line, strlen(line));
            (void)syscall(SYS_close, log);
        }
    }
    if (does("slow") && slow != NULL && fd > 2) {
        struct timespec wait = {0, atol(slow) * 1000};

        syscall(SYS_nanosleep, &wait, NULL);
    }
    snprintf(fail, sizeof fail, "fail-%s", name);
    if (does(fail) && fd > 2) {
        errno = EIO;
        return 1;
    }
    if (does("eintr") && fd > 2 && interruptible && ++asked % 2 == 1) {
        errno = EINTR;
        return 1;
    }
    return 0;
}

/* What a pwrite gives: it stores what SHIM_DO says, or all. */
static ssize_t put(int fd, const void *bytes, size_t length, off_t place)
{
    size_t most = does("short") && length > 1 ? 1 : length;
    uint8_t first;

    if (noted("pwrite", fd, (long long)place, length)) {
        return -1;
    }
    if (does("drop")) {
        return (ssize_t)length;
    }
    if (does("damage") && length > 0) {
        first = (uint8_t)(*(const uint8_t *)bytes ^ 1);
        syscall(SYS_pwrite64, fd, (const uint8_t *)bytes + 1, length - 1, place + 1);
        syscall(SYS_pwrite64, fd, &first, (size_t)1, place);
        return (ssize_t)length;
    }
    return syscall(SYS_pwrite64, fd, bytes, most, place);
}

/* The C library's call, by either name. */
ssize_t pwrite(int fd, const void *bytes, size_t length, off_t place)
{
    return put(fd, bytes, length, place);
}

/* The same. */
ssize_t pwrite64(int fd, const void *bytes, size_t length, off64_t place)
{
    return put(fd, bytes, length, place);
}

/* What a write gives; standard output and standard error are written whole. */
ssize_t write(int fd, const void *bytes, size_t length)
{
    size_t most = does("short") && length > 1 && fd > 2 ? 1 : length;

    if (noted("write", fd, -1, length)) {
        return -1;
    }
    return syscall(SYS_write, fd, bytes, most);
}

/* What an fsync gives. */
int fsync(int fd)
{
    if (noted("fsync", fd, -1, 0)) {
        return -1;
    }
    if (does("einval")) {
        errno = EINVAL;
        return -1;
    }
    return (int)syscall(SYS_fsync, fd);
}

/* The same. */
int fdatasync(int fd)
{
    return fsync(fd);
}

/* What an fchown gives. */
int fchown(int fd, uid_t owner, gid_t group)
{
    return noted("fchown", fd, -1, 0) ? -1 : (int)syscall(SYS_fchown, fd, owner, group);
}

/* What an fchmod gives. */
int fchmod(int fd, mode_t mode)
{
    return noted("fchmod", fd, -1, 0) ? -1 : (int)syscall(SYS_fchmod, fd, mode);
}

/* A rename is on no open file; 3 stands for one, so that it may fail and wait. */
int rename(const char *from, const char *to)
{
    return noted("rename", 3, -1, 0) ? -1 : (int)syscall(SYS_rename, from, to);
}

/* The same, from folder to folder. */
int renameat(int from_folder, const char *from, int to_folder, const char *to)
{
    if (noted("rename", 3, -1, 0)) {
        return -1;
    }
    return (int)syscall(SYS_renameat, from_folder, from, to_folder, to);
}

/* The same, with flags. */
int renameat2(int from_folder, const char *from, int to_folder, const char *to, unsigned flags)
{
    if (noted("rename", 3, -1, 0)) {
        return -1;
    }
    return (int)syscall(SYS_renameat2, from_folder, from, to_folder, to, flags);
}
