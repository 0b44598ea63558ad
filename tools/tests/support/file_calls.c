/* Tells which calls a program makes on files that can change something, and lets one fail. Built as a shared library and preloaded by
   test_file_calls.py.

   FILE_CALLS_REPORT   the file in which each of these calls is told, in one line: its name and the last part of the path, of two paths
                       the new one; an open is told as "create FILE" where it may make the file, as "open FILE" where it may write or cut
                       it, and else not at all
   FILE_CALLS_STOP     the program is killed in the place of this call of these, counted from 1
   FILE_CALLS_LOCK     flock fails with this error
   FILE_CALLS_SWAP     before the first call that gives a file an owner, this file is moved to the path of that one
   FILE_CALLS_BREAK    a signal interrupts as many writes to the output as this says, each before it writes anything */
#define _GNU_SOURCE
#include <errno.h>
#include <fcntl.h>
#include <limits.h>
#include <signal.h>
#include <stdarg.h>
#include <stdbool.h>
#include <stdio.h>
#include <stdlib.h>
#include <string.h>
#include <sys/file.h>
#include <sys/stat.h>
#include <sys/syscall.h>
#include <unistd.h>

static long calls;

static void tell(const char *call, const char *path) {
    const char *report = getenv("FILE_CALLS_REPORT"), *stop = getenv("FILE_CALLS_STOP"), *slash = strrchr(path, '/');
    char line[PATH_MAX + 16];
    int length = snprintf(line, sizeof line, "%s %s\n", call, slash == NULL ? path : slash + 1);
    if (stop != NULL && ++calls == atol(stop))
        raise(SIGKILL);
    int file = report == NULL ? -1 : (int)syscall(SYS_openat, AT_FDCWD, report, O_WRONLY | O_CREAT | O_APPEND, 0666);
    if (file < 0)
        return;
    syscall(SYS_write, file, line, (size_t)length);
    close(file);
}

/* The call on an open file. */
static void tell_open(const char *call, int descriptor) {
    char link[64], path[PATH_MAX + 1];
    snprintf(link, sizeof link, "/proc/self/fd/%d", descriptor);
    ssize_t length = readlink(link, path, PATH_MAX);
    path[length < 0 ? 0 : length] = 0;
    tell(call, path);
}

int flock(int descriptor, int how) {
    const char *error = getenv("FILE_CALLS_LOCK");
    tell_open("flock", descriptor);
    if (error == NULL)
        return (int)syscall(SYS_flock, descriptor, how);
    errno = atoi(error);
    return -1;
}

/* Calls on open files */

int fsync(int descriptor) {
    tell_open("fsync", descriptor);
    return (int)syscall(SYS_fsync, descriptor);
}

int fdatasync(int descriptor) {
    tell_open("fdatasync", descriptor);
    return (int)syscall(SYS_fdatasync, descriptor);
}

int ftruncate(int descriptor, off_t size) {
    tell_open("ftruncate", descriptor);
    return (int)syscall(SYS_ftruncate, descriptor, size);
}

int fchmod(int descriptor, mode_t mode) {
    tell_open("fchmod", descriptor);
    return (int)syscall(SYS_fchmod, descriptor, mode);
}

/* Moves the other file to a path, once. */
static void swap(const char *path) {
    const char *other = getenv("FILE_CALLS_SWAP");
    static bool is_done;
    if (other != NULL && !is_done)
        syscall(SYS_renameat, AT_FDCWD, other, AT_FDCWD, path);
    is_done = true;
}

int fchown(int descriptor, uid_t owner, gid_t group) {
    char link[64], path[PATH_MAX + 1];
    tell_open("fchown", descriptor);
    snprintf(link, sizeof link, "/proc/self/fd/%d", descriptor);
    ssize_t length = readlink(link, path, PATH_MAX);
    path[length < 0 ? 0 : length] = 0;
    swap(path);
    return (int)syscall(SYS_fchown, descriptor, owner, group);
}

ssize_t write(int descriptor, const void *bytes, size_t count) {
    const char *times = getenv("FILE_CALLS_BREAK");
    static long broken;
    if (times != NULL && descriptor == STDOUT_FILENO && broken < atol(times)) {
        broken++;
        errno = EINTR;
        return -1;
    }
    return syscall(SYS_write, descriptor, bytes, count);
}

/* Calls on paths */

static void tell_opening(const char *path, int flags, bool makes) {
    if (makes)
        tell("create", path);
    else if ((flags & O_ACCMODE) != O_RDONLY || flags & O_TRUNC)
        tell("open", path);
}

static int opened(int folder, const char *path, int flags, va_list rest) {
    bool makes = flags & O_CREAT || (flags & O_TMPFILE) == O_TMPFILE;
    mode_t mode = makes ? va_arg(rest, mode_t) : 0;
    tell_opening(path, flags, makes);
    return (int)syscall(SYS_openat, folder, path, flags, mode);
}

int open(const char *path, int flags, ...) {
    va_list rest;
    va_start(rest, flags);
    int file = opened(AT_FDCWD, path, flags, rest);
    va_end(rest);
    return file;
}

int openat(int folder, const char *path, int flags, ...) {
    va_list rest;
    va_start(rest, flags);
    int file = opened(folder, path, flags, rest);
    va_end(rest);
    return file;
}

int rename(const char *old, const char *new) {
    tell("rename", new);
    return (int)syscall(SYS_renameat, AT_FDCWD, old, AT_FDCWD, new);
}

int unlink(const char *path) {
    tell("unlink", path);
    return (int)syscall(SYS_unlinkat, AT_FDCWD, path, 0);
}

int mkdir(const char *path, mode_t mode) {
    tell("mkdir", path);
    return (int)syscall(SYS_mkdirat, AT_FDCWD, path, mode);
}

int lchown(const char *path, uid_t owner, gid_t group) {
    tell("lchown", path);
    swap(path);
    return (int)syscall(SYS_fchownat, AT_FDCWD, path, owner, group, AT_SYMLINK_NOFOLLOW);
}
