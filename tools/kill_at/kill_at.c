/* A test tool, no part of the program: preloaded in front of the C library, it ends the process at a call on a file, or has that call fail.

   KILL_NAME=PATH     the calls that count: those on files whose path begins so, and on the folder of these
   KILL_AT=N          SIGKILL in place of the Nth of them, counted from 1
   KILL_HALF=1        where the Nth is a write, half of it is done first
   FAIL_AT=N          the Nth fails with EIO, and is not done
   KILL_LOG=FILE      a line for each call that counts: its name

   The calls are open, read, write, fsync, rename, unlink and close. */
#define _GNU_SOURCE
#include <errno.h>
#include <fcntl.h>
#include <signal.h>
#include <stdarg.h>
#include <stdlib.h>
#include <string.h>
#include <sys/syscall.h>
#include <unistd.h>

#define MOST 4096

static const char *name, *folder;
static unsigned long kill_at, fail_at, counted;
static int half, log_file = -1;
static char is_ours[MOST];

static unsigned long number_of(const char *variable) {
    const char *text = getenv(variable);
    return text ? strtoul(text, NULL, 10) : 0;
}

__attribute__((constructor)) static void begin(void) {
    char *end;
    name = getenv("KILL_NAME");
    kill_at = number_of("KILL_AT");
    fail_at = number_of("FAIL_AT");
    half = getenv("KILL_HALF") != NULL;
    if (name) {
        char *copy = strdup(name);
        if (copy && (end = strrchr(copy, '/')))
            *end = 0;
        folder = copy;
    }
    if (getenv("KILL_LOG"))
        log_file = (int)syscall(SYS_openat, AT_FDCWD, getenv("KILL_LOG"), O_WRONLY | O_CREAT | O_APPEND | O_CLOEXEC, 0600);
}

static int counts(const char *path) {
    return name && path && (strncmp(path, name, strlen(name)) == 0 || (folder && strcmp(path, folder) == 0));
}

static int counts_file(int fd) {
    return fd >= 0 && fd < MOST && is_ours[fd];
}

/* Whether the call fails in place of being done. */
static int next(const char *call) {
    counted++;
    if (log_file >= 0) {
        syscall(SYS_write, log_file, call, strlen(call));
        syscall(SYS_write, log_file, "\n", 1);
    }
    if (counted == kill_at && !(half && strcmp(call, "write") == 0))
        kill(getpid(), SIGKILL);
    if (counted != fail_at)
        return 0;
    errno = EIO;
    return 1;
}

static int opened(const char *path, int fd) {
    if (fd >= 0 && fd < MOST)
        is_ours[fd] = (char)counts(path);
    return fd;
}

static int open_at(int at, const char *path, int flags, mode_t mode) {
    if (counts(path) && next("open"))
        return -1;
    return opened(path, (int)syscall(SYS_openat, at, path, flags, mode));
}

#define MODE_OF(flags)                                                   \
    mode_t mode = 0;                                                     \
    if ((flags) & (O_CREAT | O_TMPFILE)) {                               \
        va_list more;                                                    \
        va_start(more, flags);                                           \
        mode = va_arg(more, mode_t);                                     \
        va_end(more);                                                    \
    }

int open(const char *path, int flags, ...) {
    MODE_OF(flags)
    return open_at(AT_FDCWD, path, flags, mode);
}

int open64(const char *path, int flags, ...) {
    MODE_OF(flags)
    return open_at(AT_FDCWD, path, flags, mode);
}

int openat(int at, const char *path, int flags, ...) {
    MODE_OF(flags)
    return open_at(at, path, flags, mode);
}

int openat64(int at, const char *path, int flags, ...) {
    MODE_OF(flags)
    return open_at(at, path, flags, mode);
}

ssize_t read(int fd, void *bytes, size_t count) {
    if (counts_file(fd) && next("read"))
        return -1;
    return syscall(SYS_read, fd, bytes, count);
}

ssize_t write(int fd, const void *bytes, size_t count) {
    if (counts_file(fd)) {
        if (next("write"))
            return -1;
        if (half && counted == kill_at) {
            syscall(SYS_write, fd, bytes, count / 2);
            kill(getpid(), SIGKILL);
        }
    }
    return syscall(SYS_write, fd, bytes, count);
}

int fsync(int fd) {
    if (counts_file(fd) && next("fsync"))
        return -1;
    return (int)syscall(SYS_fsync, fd);
}

int fdatasync(int fd) {
    if (counts_file(fd) && next("fsync"))
        return -1;
    return (int)syscall(SYS_fdatasync, fd);
}

int rename(const char *from, const char *to) {
    if ((counts(from) || counts(to)) && next("rename"))
        return -1;
    return (int)syscall(SYS_rename, from, to);
}

int unlink(const char *path) {
    if (counts(path) && next("unlink"))
        return -1;
    return (int)syscall(SYS_unlink, path);
}

int close(int fd) {
    if (counts_file(fd)) {
        is_ours[fd] = 0;
        if (next("close")) {
            syscall(SYS_close, fd);
            return -1;
        }
    }
    return (int)syscall(SYS_close, fd);
}
