/* Loaded before a program, it looks at each call of the system on one file, on the log and other files beside it whose names begin with
   the file's, and on their folder. WATCHED has the file's path. The calls are counted from 1; those from FIRST_REFUSED to LAST_REFUSED are
   refused as REFUSAL says: with the error of this name; `short`, a write that takes half of its bytes, or a read that gives half; `kill`,
   the process is killed in place of the call; `torn`, a write takes half of its bytes and then the process is killed. CALLS_TOLD names a file, which gets a line for each call:
   its number, its name, and `refused` where it was. CHANGES_TOLD names another, which gets what a disk has to know, each with a line
   before it: `write FILE AT LENGTH` and the bytes, `truncate FILE LENGTH`, `sync FILE`, `unlink FILE`, where FILE is 0 or, for the log, 1; and
   `answer 1 0 LENGTH` and the bytes that the program printed. */
#define _GNU_SOURCE
#include <dlfcn.h>
#include <errno.h>
#include <fcntl.h>
#include <limits.h>
#include <signal.h>
#include <stdarg.h>
#include <stdio.h>
#include <stdlib.h>
#include <string.h>
#include <sys/stat.h>
#include <sys/syscall.h>
#include <unistd.h>

#define MOST 1024

/* 1 for the file, 2 for its log, 3 for their folder and other files */
static char watched[MOST];
static long seen;

static int is_log(const char *path)
{
    size_t length = strlen(path);
    return length > 4 && !strcmp(path + length - 4, "-wal");
}

/* Puts down a change that was made. */
static void note(const char *what, int file, long at, long length, const void *bytes)
{
    const char *told = getenv("CHANGES_TOLD");
    char line[128];
    int begin = snprintf(line, sizeof line, "%s %d %ld %ld\n", what, file, at, length);
    int to = told ? syscall(SYS_openat, AT_FDCWD, told, O_CREAT | O_WRONLY | O_APPEND | O_CLOEXEC, 0600) : -1;
    if (to < 0)
        return;
    if (syscall(SYS_write, to, line, (size_t)begin) != begin || (bytes && syscall(SYS_write, to, bytes, (size_t)length) != length))
        abort();
    syscall(SYS_close, to);
}

static int is_watched(const char *path)
{
    const char *file = getenv("WATCHED");
    return file && !strncmp(path, file, strlen(file));
}

static int is_folder(const char *path)
{
    const char *file = getenv("WATCHED"), *name = file ? strrchr(file, '/') : NULL;
    size_t length = name ? (size_t)(name - file) : 0;
    return name && strlen(path) == length && !strncmp(path, file, length);
}

static void tell(const char *name, int refused)
{
    const char *told = getenv("CALLS_TOLD");
    char line[64];
    int length = snprintf(line, sizeof line, "%ld %s%s\n", seen, name, refused ? " refused" : "");
    int file = told ? syscall(SYS_openat, AT_FDCWD, told, O_CREAT | O_WRONLY | O_APPEND | O_CLOEXEC, 0600) : -1;
    if (file < 0)
        return;
    if (syscall(SYS_write, file, line, (size_t)length) != length)
        abort();
    syscall(SYS_close, file);
}

static const char *refusal(void)
{
    const char *how = getenv("REFUSAL");
    return how ? how : "";
}

/* Whether this call is refused. */
static int refuses(const char *name)
{
    const char *first = getenv("FIRST_REFUSED"), *last = getenv("LAST_REFUSED");
    seen++;
    int now = first && seen >= atol(first) && (!last || seen <= atol(last));
    tell(name, now);
    if (now && !strcmp(refusal(), "kill"))
        kill(getpid(), SIGKILL);
    return now;
}

static int error_of(void)
{
    static const struct { const char *name; int number; } errors[] = {
        {"EIO", EIO}, {"ENOSPC", ENOSPC}, {"EDQUOT", EDQUOT}, {"EROFS", EROFS}, {"EACCES", EACCES}, {"ENOMEM", ENOMEM},
        {"EINTR", EINTR}, {"EFBIG", EFBIG}, {"EAGAIN", EAGAIN}, {"EMFILE", EMFILE}, {"ENOLCK", ENOLCK},
    };
    for (size_t k = 0; k < sizeof errors / sizeof *errors; k++)
        if (!strcmp(errors[k].name, refusal()))
            return errors[k].number;
    return EIO;
}

static int is_part(void)
{
    return !strcmp(refusal(), "short") || !strcmp(refusal(), "torn");
}

#define REAL(name) \
    static __typeof__(&name) real; \
    if (!real) \
        real = (__typeof__(&name))dlsym(RTLD_NEXT, #name)

#define REFUSE_IF(is_seen, name) \
    if ((is_seen) && refuses(name)) { \
        errno = error_of(); \
        return -1; \
    }

static int has(int fd)
{
    return fd >= 0 && fd < MOST && watched[fd];
}

int open(const char *path, int flags, ...)
{
    va_list rest;
    va_start(rest, flags);
    int mode = va_arg(rest, int), mine = is_watched(path) || is_folder(path);
    va_end(rest);
    REAL(open);
    REFUSE_IF(mine, "open");
    int fd = real(path, flags, mode);
    if (fd >= 0 && fd < MOST)
        watched[fd] = !mine ? 0 : is_log(path) ? 2 : is_folder(path) || strcmp(path, getenv("WATCHED")) ? 3 : 1;
    return fd;
}

int close(int fd)
{
    REAL(close);
    int mine = has(fd);
    if (mine)
        watched[fd] = 0;
    if (mine && refuses("close")) {
        /* as Linux does: the descriptor is closed all the same */
        real(fd);
        errno = error_of();
        return -1;
    }
    return real(fd);
}

ssize_t pread(int fd, void *to, size_t count, off_t at)
{
    REAL(pread);
    if (has(fd) && refuses("pread")) {
        if (is_part())
            return real(fd, to, count > 1 ? count / 2 : count, at);
        errno = error_of();
        return -1;
    }
    return real(fd, to, count, at);
}

ssize_t pwrite(int fd, const void *from, size_t count, off_t at)
{
    REAL(pwrite);
    if (has(fd) && refuses("pwrite")) {
        if (is_part()) {
            ssize_t done = real(fd, from, count > 1 ? count / 2 : count, at);
            if (!strcmp(refusal(), "torn"))
                kill(getpid(), SIGKILL);
            return done;
        }
        errno = error_of();
        return -1;
    }
    ssize_t done = real(fd, from, count, at);
    if (has(fd) && done > 0)
        note("write", watched[fd] - 1, at, done, from);
    return done;
}

/* What the program prints. */
ssize_t write(int fd, const void *from, size_t count)
{
    REAL(write);
    ssize_t done = real(fd, from, count);
    if (fd == 1 && done > 0)
        note("answer", 1, 0, done, from);
    return done;
}

int fdatasync(int fd)
{
    REAL(fdatasync);
    REFUSE_IF(has(fd), "fdatasync");
    int done = real(fd);
    if (has(fd) && !done)
        note("sync", watched[fd] - 1, 0, 0, NULL);
    return done;
}

int fsync(int fd)
{
    REAL(fsync);
    REFUSE_IF(has(fd), "fsync");
    int done = real(fd);
    if (has(fd) && !done)
        note("sync", watched[fd] - 1, 0, 0, NULL);
    return done;
}

int ftruncate(int fd, off_t length)
{
    REAL(ftruncate);
    REFUSE_IF(has(fd), "ftruncate");
    int done = real(fd, length);
    if (has(fd) && !done)
        note("truncate", watched[fd] - 1, length, 0, NULL);
    return done;
}

off_t lseek(int fd, off_t at, int from)
{
    REAL(lseek);
    REFUSE_IF(has(fd), "lseek");
    return real(fd, at, from);
}

int fcntl(int fd, int command, ...)
{
    va_list rest;
    va_start(rest, command);
    void *word = va_arg(rest, void *);
    va_end(rest);
    REAL(fcntl);
    REFUSE_IF(has(fd), "fcntl");
    return real(fd, command, word);
}

int statx(int folder, const char *path, int flags, unsigned mask, struct statx *to)
{
    REAL(statx);
    REFUSE_IF(*path ? is_watched(path) || is_folder(path) : has(folder), "statx");
    return real(folder, path, flags, mask, to);
}

int fchmod(int fd, mode_t mode)
{
    REAL(fchmod);
    REFUSE_IF(has(fd), "fchmod");
    return real(fd, mode);
}

int fchown(int fd, uid_t owner, gid_t group)
{
    REAL(fchown);
    REFUSE_IF(has(fd), "fchown");
    return real(fd, owner, group);
}

/* this one gives its error back */
int posix_fadvise(int fd, off_t at, off_t length, int advice)
{
    REAL(posix_fadvise);
    return has(fd) && refuses("posix_fadvise") ? error_of() : real(fd, at, length, advice);
}

int unlink(const char *path)
{
    REAL(unlink);
    REFUSE_IF(is_watched(path), "unlink");
    int done = real(path);
    if (is_watched(path) && !done)
        note("unlink", is_log(path), 0, 0, NULL);
    return done;
}

char *realpath(const char *path, char *to)
{
    REAL(realpath);
    if (is_watched(path) && refuses("realpath")) {
        errno = error_of();
        return NULL;
    }
    return real(path, to);
}
