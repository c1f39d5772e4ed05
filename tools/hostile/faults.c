/* A library to preload: calls of the C library of the program behind it fail, as the environment says.

   Built by faults.py. HOSTILE_CALL names the kind of call, HOSTILE_AT which one of that kind, counted from 1, and HOSTILE_HOW what
   becomes of it:
     alloc  fail    this allocation is refused
            all     this one and all after it are
     open, read, write
            fail    this call fails (EACCES, EIO, ENOSPC)
            all     this one and all after it do
            some    this one moves one byte (not for open)
            every   each call from this one on moves one byte
            stop    this one is interrupted before it does anything (EINTR)
   Where a call was touched, a line is added to the file HOSTILE_REPORT: the kind, and the path of the file that it was for. */
#define _GNU_SOURCE
#include <dlfcn.h>
#include <errno.h>
#include <fcntl.h>
#include <stdarg.h>
#include <stdlib.h>
#include <string.h>
#include <sys/syscall.h>
#include <sys/types.h>
#include <sys/uio.h>
#include <unistd.h>

enum { FAIL = 'f', ALL = 'a', SOME = 's', EVERY = 'e', STOP = 'i' };

static char kind;               /* the first letter of HOSTILE_CALL */
static char how;
static unsigned long at, done;
static const char *report;

__attribute__((constructor)) static void begin(void) {
    const char *call = getenv("HOSTILE_CALL"), *number = getenv("HOSTILE_AT"), *what = getenv("HOSTILE_HOW");
    report = getenv("HOSTILE_REPORT");
    if (!call || !number || !what)
        return;
    at = strtoul(number, 0, 10);
    how = strcmp(what, "stop") == 0 ? STOP : what[0];
    kind = call[0];
}

static void tell(const char *name, const char *path) {
    if (!report)
        return;
    int fd = syscall(SYS_openat, AT_FDCWD, report, O_WRONLY | O_CREAT | O_APPEND, 0666);
    if (fd < 0)
        return;
    syscall(SYS_write, fd, name, strlen(name));
    syscall(SYS_write, fd, " ", 1);
    syscall(SYS_write, fd, path, strlen(path));
    syscall(SYS_write, fd, "\n", 1);
    syscall(SYS_close, fd);
}

/* Whether this call is to be touched. */
static int touched(char which) {
    if (which != kind)
        return 0;
    done++;
    return how == ALL || how == EVERY ? done >= at : done == at;
}

static const char *path_of(int fd, char *room, size_t size) {
    char link[32] = "/proc/self/fd/";
    char digits[12];
    int n = 0;
    do digits[n++] = '0' + fd % 10; while (fd /= 10);
    size_t end = strlen(link);
    while (n) link[end++] = digits[--n];
    link[end] = 0;
    ssize_t got = syscall(SYS_readlinkat, AT_FDCWD, link, room, size - 1);
    room[got < 0 ? 0 : got] = 0;
    return room;
}


/* ---- Memory ---- */

extern void *__libc_malloc(size_t);
extern void *__libc_calloc(size_t, size_t);
extern void *__libc_realloc(void *, size_t);
extern void *__libc_memalign(size_t, size_t);

static int refused(void) {
    if (!touched('a'))
        return 0;
    int before = done == at;
    if (before)
        tell("alloc", "");
    errno = ENOMEM;
    return 1;
}

void *malloc(size_t size) { return refused() ? 0 : __libc_malloc(size); }
void *calloc(size_t count, size_t size) { return refused() ? 0 : __libc_calloc(count, size); }
void *realloc(void *old, size_t size) { return refused() ? 0 : __libc_realloc(old, size); }
void *memalign(size_t align, size_t size) { return refused() ? 0 : __libc_memalign(align, size); }
void *aligned_alloc(size_t align, size_t size) { return refused() ? 0 : __libc_memalign(align, size); }

int posix_memalign(void **out, size_t align, size_t size) {
    if (refused())
        return ENOMEM;
    void *got = __libc_memalign(align, size);
    if (!got)
        return ENOMEM;
    *out = got;
    return 0;
}

/* ---- Files and streams ---- */

static int opens(const char *path, int *failed) {
    if (!touched('o'))
        return 0;
    tell("open", path);
    errno = how == STOP ? EINTR : EACCES;
    *failed = -1;
    return 1;
}

static mode_t mode_of(int flags, va_list more) { return flags & (O_CREAT | O_TMPFILE) ? va_arg(more, mode_t) : 0; }

int openat(int folder, const char *path, int flags, ...) {
    int failed;
    va_list more;
    va_start(more, flags);
    mode_t mode = mode_of(flags, more);
    va_end(more);
    return opens(path, &failed) ? failed : (int)syscall(SYS_openat, folder, path, flags, mode);
}

int open(const char *path, int flags, ...) {
    int failed;
    va_list more;
    va_start(more, flags);
    mode_t mode = mode_of(flags, more);
    va_end(more);
    return opens(path, &failed) ? failed : (int)syscall(SYS_openat, AT_FDCWD, path, flags, mode);
}

int open64(const char *path, int flags, ...) __attribute__((alias("open")));
int openat64(int folder, const char *path, int flags, ...) __attribute__((alias("openat")));

/* Of a read or write of so many bytes: whether it fails, and else how many bytes it is to move. */
static int moves(char which, int fd, size_t *size) {
    char room[4096];
    if (!touched(which))
        return 0;
    int is_short = how == SOME || how == EVERY;
    if (!is_short || done == at)
        tell(which == 'r' ? "read" : "write", path_of(fd, room, sizeof room));
    if (is_short) {
        *size = *size > 1 ? 1 : *size;
        return 0;
    }
    errno = how == STOP ? EINTR : which == 'r' ? EIO : ENOSPC;
    return 1;
}

ssize_t read(int fd, void *to, size_t size) { return moves('r', fd, &size) ? -1 : syscall(SYS_read, fd, to, size); }
ssize_t write(int fd, const void *from, size_t size) { return moves('w', fd, &size) ? -1 : syscall(SYS_write, fd, from, size); }

ssize_t writev(int fd, const struct iovec *parts, int count) {
    size_t size = 0;
    for (int k = 0; k < count; k++)
        size += parts[k].iov_len;
    size_t whole = size;
    if (moves('w', fd, &size))
        return -1;
    if (size == whole)
        return syscall(SYS_writev, fd, parts, count);
    for (int k = 0; k < count; k++)
        if (parts[k].iov_len)
            return syscall(SYS_write, fd, parts[k].iov_base, 1);
    return 0;
}
