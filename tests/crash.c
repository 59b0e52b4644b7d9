// A library that stands before the C library (LD_PRELOAD) and counts a program's calls on files, to end the program at any of
// them, to let one fail, or to log them. tests/file uses it on dossier_file, tests/command on dossier. The program's new file is the
// one that it makes by mkstemp, or by open with O_EXCL.
//
//   SHIM_LOG=FILE       each call's name is added to FILE, one to a line
//   SHIM_END=N          the program ends before call N
//   SHIM_HALF=N         the program ends within call N: of a write half of the bytes are written, any other call is made whole
//   SHIM_FAIL=N         call N is not made and fails
//   SHIM_SHORT=1        a write takes 1,000 bytes at most
//   SHIM_STATX=1        statx is counted too: of a name as lstat, of an open file as fstat
//   SHIM_FAULT=in-place the program's new file is the store's file itself, and is not renamed
//   SHIM_FAULT=no-sync  fsync does nothing
//
// Where the program ends, what it wrote to its new file and did not sync is lost: the file is cut to no bytes.
#define _GNU_SOURCE
#include <errno.h>
#include <fcntl.h>
#include <stdarg.h>
#include <stdlib.h>
#include <string.h>
#include <sys/stat.h>
#include <sys/syscall.h>
#include <sys/types.h>
#include <unistd.h>

static long calls = 0;
// the new file's descriptor, one more of the same file, and whether bytes were written that are not synced
static int new_fd = -1;
static int kept_fd = -1;
static int unsynced = 0;

static long number(const char *name) {
    const char *text = getenv(name);
    return text ? atol(text) : 0;
}

static int has_fault(const char *name) {
    const char *text = getenv("SHIM_FAULT");
    return text && strcmp(text, name) == 0;
}

static void end(void) {
    if (kept_fd >= 0 && unsynced) {
        syscall(SYS_ftruncate, kept_fd, 0L);
    }
    syscall(SYS_exit_group, 41);
}

static void add_to_log(const char *name) {
    const char *file = getenv("SHIM_LOG");
    if (file == NULL) {
        return;
    }
    long fd = syscall(SYS_openat, AT_FDCWD, file, O_WRONLY | O_CREAT | O_APPEND, 0644);
    if (fd < 0) {
        return;
    }
    syscall(SYS_write, fd, name, strlen(name));
    syscall(SYS_write, fd, "\n", 1L);
    syscall(SYS_close, fd);
}

// Counts a call. Ends the program if it is to end before it, and yields whether the call is to fail.
static int counted(const char *name) {
    calls += 1;
    add_to_log(name);
    if (number("SHIM_END") == calls) {
        end();
    }
    return number("SHIM_FAIL") == calls;
}

// After a call that was made: ends the program if it is to end within it.
static void made(void) {
    if (number("SHIM_HALF") == calls) {
        end();
    }
}

static int failed(int error) {
    errno = error;
    return -1;
}

// The store's file itself, emptied: the new file's name without its last seven bytes.
static int open_in_place(const char *template) {
    char name[4096];
    size_t n = strlen(template) - 7;
    memcpy(name, template, n);
    name[n] = 0;
    return (int)syscall(SYS_openat, AT_FDCWD, name, O_RDWR | O_CREAT | O_TRUNC, 0600);
}

// Keeps the new file's descriptor, and one more.
static void is_made(int fd) {
    new_fd = fd;
    kept_fd = fd < 0 ? -1 : (int)syscall(SYS_dup, fd);
}

// Opens a file, or makes the new one.
static int open_any(const char *path, int flags, mode_t mode) {
    int is_new = (flags & O_EXCL) != 0;
    if (counted(is_new ? "create" : "open")) {
        return failed(EIO);
    }
    int fd = is_new && has_fault("in-place") ? open_in_place(path) : (int)syscall(SYS_openat, AT_FDCWD, path, flags, mode);
    if (is_new) {
        is_made(fd);
    }
    made();
    return fd;
}

int open(const char *path, int flags, ...) {
    va_list rest;
    va_start(rest, flags);
    mode_t mode = (flags & O_CREAT) ? va_arg(rest, mode_t) : 0;
    va_end(rest);
    return open_any(path, flags, mode);
}

int open64(const char *path, int flags, ...) {
    va_list rest;
    va_start(rest, flags);
    mode_t mode = (flags & O_CREAT) ? va_arg(rest, mode_t) : 0;
    va_end(rest);
    return open_any(path, flags, mode);
}

ssize_t read(int fd, void *to, size_t n) {
    if (counted("read")) {
        return failed(EIO);
    }
    ssize_t got = syscall(SYS_read, fd, to, n);
    made();
    return got;
}

ssize_t write(int fd, const void *from, size_t n) {
    if (counted(fd == new_fd ? "write new" : fd == 1 ? "write output" : "write")) {
        return failed(ENOSPC);
    }
    if (fd == new_fd) {
        unsynced = 1;
    }
    if (number("SHIM_HALF") == calls) {
        syscall(SYS_write, fd, from, n / 2);
        end();
    }
    if (number("SHIM_SHORT") && n > 1000) {
        n = 1000;
    }
    return syscall(SYS_write, fd, from, n);
}

int fsync(int fd) {
    if (counted(fd == new_fd ? "fsync new" : "fsync folder")) {
        return failed(EIO);
    }
    if (has_fault("no-sync")) {
        return 0;
    }
    int status = (int)syscall(SYS_fsync, fd);
    if (fd == new_fd && status == 0) {
        unsynced = 0;
    }
    made();
    return status;
}

int fchmod(int fd, mode_t mode) {
    if (counted("fchmod")) {
        return failed(EPERM);
    }
    int status = (int)syscall(SYS_fchmod, fd, mode);
    made();
    return status;
}

int fchown(int fd, uid_t owner, gid_t group) {
    if (counted("fchown")) {
        return failed(EPERM);
    }
    int status = (int)syscall(SYS_fchown, fd, owner, group);
    made();
    return status;
}

int fstat(int fd, struct stat *about) {
    if (counted("fstat")) {
        return failed(EIO);
    }
    int status = (int)syscall(SYS_fstat, fd, about);
    made();
    return status;
}

int statx(int folder, const char *path, int flags, unsigned int mask, struct statx *about) {
    int is_counted = number("SHIM_STATX") != 0;
    if (is_counted && counted(path[0] == 0 ? "fstat" : "lstat")) {
        return failed(EIO);
    }
    int status = (int)syscall(SYS_statx, folder, path, flags, mask, about);
    if (is_counted) {
        made();
    }
    return status;
}

int access(const char *path, int mode) {
    if (counted("access")) {
        return failed(EACCES);
    }
    int status = (int)syscall(SYS_access, path, mode);
    made();
    return status;
}

int close(int fd) {
    int is_new = fd == new_fd;
    if (counted(is_new ? "close new" : "close")) {
        return failed(EIO);
    }
    int status = (int)syscall(SYS_close, fd);
    if (is_new) {
        new_fd = -1;
    }
    made();
    return status;
}

int rename(const char *from, const char *to) {
    if (counted("rename")) {
        return failed(EIO);
    }
    int status = has_fault("in-place") ? 0 : (int)syscall(SYS_rename, from, to);
    made();
    return status;
}

int unlink(const char *path) {
    if (counted("unlink")) {
        return failed(EIO);
    }
    int status = (int)syscall(SYS_unlink, path);
    made();
    return status;
}

ssize_t readlink(const char *path, char *to, size_t n) {
    if (counted("readlink")) {
        return failed(EIO);
    }
    ssize_t got = syscall(SYS_readlink, path, to, n);
    made();
    return got;
}

int mkstemp(char *template) {
    if (counted("mkstemp")) {
        return failed(EACCES);
    }
    int fd = has_fault("in-place") ? open_in_place(template) : mkostemp(template, 0);
    is_made(fd);
    made();
    return fd;
}
