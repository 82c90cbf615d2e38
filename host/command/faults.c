/* For the tests alone: the system calls of the command, any of which can be made to fail, to be cut short or to be the
 * last one. The linker puts these in the place of the real ones (--wrap).
 *
 * CROWNHAZEL_FAULT is 'KIND NUMBER [CALL]': the fault comes at call NUMBER, counted from 1, of all calls or of those
 * named CALL; at each of them where NUMBER is 0.
 *   kill   the command is killed before the call
 *   stop   the command is stopped before the call, and goes on when it is told to
 *   cut    half is written, then the command is killed; where the call is no write, as kill
 *   short  a read or write does one byte; other calls are as they are
 *   skip   the call is not made, and answers 0
 *   ERRNO  a number: the call fails with it
 * CROWNHAZEL_FAULT_LOG names a file to which the name of each call is appended, with '!' after it where the fault
 * came. */
#define _GNU_SOURCE
#include <dirent.h>
#include <errno.h>
#include <fcntl.h>
#include <signal.h>
#include <stdarg.h>
#include <stdbool.h>
#include <stdio.h>
#include <stdlib.h>
#include <string.h>
#include <sys/stat.h>
#include <sys/types.h>
#include <unistd.h>

int __real_access(const char *path, int rights);
int __real_close(int descriptor);
int __real_fchmod(int descriptor, mode_t mode);
int __real_fchown(int descriptor, uid_t owner, gid_t group);
ssize_t __real_fgetxattr(int descriptor, const char *name, void *value, size_t room);
int __real_flock(int descriptor, int operation);
pid_t __real_fork(void);
int __real_fremovexattr(int descriptor, const char *name);
int __real_fsetxattr(int descriptor, const char *name, const void *value, size_t length, int flags);
int __real_fstat(int descriptor, struct stat *status);
int __real_fsync(int descriptor);
int __real_link(const char *from, const char *to);
int __real_linkat(int from_folder, const char *from, int to_folder, const char *to, int flags);
off_t __real_lseek(int descriptor, off_t offset, int from);
int __real_lstat(const char *path, struct stat *status);
int __real_memfd_create(const char *name, unsigned flags);
int __real_mkostemps(char *template, int ending, int flags);
int __real_open(const char *path, int flags, ...);
DIR *__real_opendir(const char *path);
int __real_pipe2(int ends[2], int flags);
ssize_t __real_read(int descriptor, void *into, size_t room);
struct dirent *__real_readdir(DIR *folder);
int __real_rename(const char *from, const char *to);
int __real_renameat2(int from_folder, const char *from, int to_folder, const char *to, unsigned flags);
int __real_unlink(const char *path);
pid_t __real_waitpid(pid_t child, int *status, int options);
ssize_t __real_write(int descriptor, const void *from, size_t length);

int __wrap_access(const char *path, int rights);
int __wrap_close(int descriptor);
int __wrap_fchmod(int descriptor, mode_t mode);
int __wrap_fchown(int descriptor, uid_t owner, gid_t group);
ssize_t __wrap_fgetxattr(int descriptor, const char *name, void *value, size_t room);
int __wrap_flock(int descriptor, int operation);
pid_t __wrap_fork(void);
int __wrap_fremovexattr(int descriptor, const char *name);
int __wrap_fsetxattr(int descriptor, const char *name, const void *value, size_t length, int flags);
int __wrap_fstat(int descriptor, struct stat *status);
int __wrap_fsync(int descriptor);
int __wrap_link(const char *from, const char *to);
int __wrap_linkat(int from_folder, const char *from, int to_folder, const char *to, int flags);
off_t __wrap_lseek(int descriptor, off_t offset, int from);
int __wrap_lstat(const char *path, struct stat *status);
int __wrap_memfd_create(const char *name, unsigned flags);
int __wrap_mkostemps(char *template, int ending, int flags);
int __wrap_open(const char *path, int flags, ...);
DIR *__wrap_opendir(const char *path);
int __wrap_pipe2(int ends[2], int flags);
ssize_t __wrap_read(int descriptor, void *into, size_t room);
struct dirent *__wrap_readdir(DIR *folder);
int __wrap_rename(const char *from, const char *to);
int __wrap_renameat2(int from_folder, const char *from, int to_folder, const char *to, unsigned flags);
int __wrap_unlink(const char *path);
pid_t __wrap_waitpid(pid_t child, int *status, int options);
ssize_t __wrap_write(int descriptor, const void *from, size_t length);

/* What is to happen at a call. */
enum fault { NOTHING, KILL, STOP, CUT, SHORT, SKIP, FAIL };

static void log_call(const char *call, bool faulty) {
    const char *name = getenv("CROWNHAZEL_FAULT_LOG");
    char line[32];
    int length = snprintf(line, sizeof line, "%s%s\n", call, faulty ? "!" : "");
    int log = name == NULL ? -1 : __real_open(name, O_WRONLY | O_CREAT | O_APPEND | O_CLOEXEC, 0600);
    if (name != NULL && (log < 0 || __real_write(log, line, (size_t)length) != length || __real_close(log) != 0)) {
        abort();
    }
}

/* The fault of the environment, its number and its call; NOTHING where none is named. */
static enum fault wanted(unsigned long *number, char call[16]) {
    static const char *const kinds[] = {
        [KILL] = "kill", [STOP] = "stop", [CUT] = "cut", [SHORT] = "short", [SKIP] = "skip"};
    char kind[16] = "";
    const char *text = getenv("CROWNHAZEL_FAULT");
    call[0] = '\0';
    if (text == NULL || sscanf(text, "%15s %lu %15s", kind, number, call) < 2) {
        return NOTHING;
    }
    for (enum fault fault = KILL; fault <= SKIP; fault++) {
        if (strcmp(kind, kinds[fault]) == 0) {
            return fault;
        }
    }
    errno = atoi(kind);
    return FAIL;
}

/* Counts a call, and says what is to happen at it. */
static enum fault fault_at(const char *call) {
    static unsigned long count;
    unsigned long number = 0;
    char only[16];
    int before = errno;
    enum fault fault = wanted(&number, only);
    bool counted = only[0] == '\0' || strcmp(only, call) == 0;
    bool now = fault != NOTHING && counted && (++count == number || number == 0);
    int after = errno;
    log_call(call, now);
    if (now && (fault == KILL || (fault == CUT && strcmp(call, "write") != 0))) {
        raise(SIGKILL);
    }
    if (now && fault == STOP) {
        raise(SIGSTOP);
    }
    errno = now ? after : before;
    return now ? fault : NOTHING;
}

/* Whether the call is not made: it fails, or is skipped. */
static bool is_kept_from(const char *call, int *result) {
    enum fault fault = fault_at(call);
    *result = fault == FAIL ? -1 : 0;
    return fault == FAIL || fault == SKIP;
}

int __wrap_open(const char *path, int flags, ...) {
    int result;
    va_list values;
    va_start(values, flags);
    mode_t mode = (flags & O_CREAT) != 0 ? va_arg(values, mode_t) : 0;
    va_end(values);
    return is_kept_from("open", &result) ? result : __real_open(path, flags, mode);
}

ssize_t __wrap_read(int descriptor, void *into, size_t room) {
    enum fault fault = fault_at("read");
    if (fault == FAIL) {
        return -1;
    }
    return __real_read(descriptor, into, fault == SHORT && room > 1 ? 1 : room);
}

ssize_t __wrap_write(int descriptor, const void *from, size_t length) {
    enum fault fault = fault_at("write");
    if (fault == CUT) {
        ssize_t written = __real_write(descriptor, from, length / 2);
        raise(SIGKILL);
        return written;
    }
    if (fault == FAIL) {
        return -1;
    }
    return __real_write(descriptor, from, fault == SHORT && length > 1 ? 1 : length);
}

/* The descriptor is closed although the call fails, as it is on Linux. */
int __wrap_close(int descriptor) {
    enum fault fault = fault_at("close");
    int error = errno;
    int status = __real_close(descriptor);
    if (fault == FAIL) {
        errno = error;
        return -1;
    }
    return status;
}

int __wrap_access(const char *path, int rights) {
    int result;
    return is_kept_from("access", &result) ? result : __real_access(path, rights);
}

int __wrap_fchmod(int descriptor, mode_t mode) {
    int result;
    return is_kept_from("fchmod", &result) ? result : __real_fchmod(descriptor, mode);
}

int __wrap_fchown(int descriptor, uid_t owner, gid_t group) {
    int result;
    return is_kept_from("fchown", &result) ? result : __real_fchown(descriptor, owner, group);
}

ssize_t __wrap_fgetxattr(int descriptor, const char *name, void *value, size_t room) {
    int result;
    return is_kept_from("fgetxattr", &result) ? result : __real_fgetxattr(descriptor, name, value, room);
}

int __wrap_flock(int descriptor, int operation) {
    int result;
    return is_kept_from("flock", &result) ? result : __real_flock(descriptor, operation);
}

pid_t __wrap_fork(void) {
    int result;
    return is_kept_from("fork", &result) ? result : __real_fork();
}

int __wrap_fremovexattr(int descriptor, const char *name) {
    int result;
    return is_kept_from("fremovexattr", &result) ? result : __real_fremovexattr(descriptor, name);
}

int __wrap_fsetxattr(int descriptor, const char *name, const void *value, size_t length, int flags) {
    int result;
    return is_kept_from("fsetxattr", &result) ? result : __real_fsetxattr(descriptor, name, value, length, flags);
}

int __wrap_fstat(int descriptor, struct stat *status) {
    int result;
    return is_kept_from("fstat", &result) ? result : __real_fstat(descriptor, status);
}

int __wrap_fsync(int descriptor) {
    int result;
    return is_kept_from("fsync", &result) ? result : __real_fsync(descriptor);
}

int __wrap_link(const char *from, const char *to) {
    int result;
    return is_kept_from("link", &result) ? result : __real_link(from, to);
}

int __wrap_linkat(int from_folder, const char *from, int to_folder, const char *to, int flags) {
    int result;
    return is_kept_from("linkat", &result) ? result : __real_linkat(from_folder, from, to_folder, to, flags);
}

off_t __wrap_lseek(int descriptor, off_t offset, int from) {
    int result;
    return is_kept_from("lseek", &result) ? result : __real_lseek(descriptor, offset, from);
}

int __wrap_lstat(const char *path, struct stat *status) {
    int result;
    return is_kept_from("lstat", &result) ? result : __real_lstat(path, status);
}

int __wrap_memfd_create(const char *name, unsigned flags) {
    int result;
    return is_kept_from("memfd_create", &result) ? result : __real_memfd_create(name, flags);
}

int __wrap_mkostemps(char *template, int ending, int flags) {
    int result;
    return is_kept_from("mkostemps", &result) ? result : __real_mkostemps(template, ending, flags);
}

DIR *__wrap_opendir(const char *path) {
    int result;
    return is_kept_from("opendir", &result) ? NULL : __real_opendir(path);
}

/* The end of the folder where it is skipped. */
struct dirent *__wrap_readdir(DIR *folder) {
    int result;
    return is_kept_from("readdir", &result) ? NULL : __real_readdir(folder);
}

int __wrap_pipe2(int ends[2], int flags) {
    int result;
    return is_kept_from("pipe2", &result) ? result : __real_pipe2(ends, flags);
}

int __wrap_rename(const char *from, const char *to) {
    int result;
    return is_kept_from("rename", &result) ? result : __real_rename(from, to);
}

int __wrap_renameat2(int from_folder, const char *from, int to_folder, const char *to, unsigned flags) {
    int result;
    return is_kept_from("renameat2", &result) ? result : __real_renameat2(from_folder, from, to_folder, to, flags);
}

int __wrap_unlink(const char *path) {
    int result;
    return is_kept_from("unlink", &result) ? result : __real_unlink(path);
}

pid_t __wrap_waitpid(pid_t child, int *status, int options) {
    int result;
    return is_kept_from("waitpid", &result) ? result : __real_waitpid(child, status, options);
}
