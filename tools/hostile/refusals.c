/* What a run may be refused: memory, or a call of the desk. It is made into a library that is
 * loaded before the C library (LD_PRELOAD), by runs.py, and takes its orders from the environment:
 *
 *   HOSTILE_COUNTS   a file of 16 bytes, in which requests for memory and calls of the desk are
 *                    counted
 *   HOSTILE_MEMORY   the request for memory that is refused, counted from 1
 *   HOSTILE_ONWARD   set: all requests behind that one are refused as well
 *   HOSTILE_STEP     the most bytes that one call reads or writes
 *   HOSTILE_CALL     the call that fails, counted from 1: of open, read, write and seek, but for
 *                    those on standard error, which are never counted and never fail
 *   HOSTILE_ERROR    the number of the error; 0: a write takes nothing and says so
 *
 * What is asked before `main` is neither counted nor refused.
 */
#define _GNU_SOURCE
#include <errno.h>
#include <fcntl.h>
#include <stdarg.h>
#include <stddef.h>
#include <stdlib.h>
#include <sys/mman.h>
#include <sys/resource.h>
#include <sys/syscall.h>
#include <sys/uio.h>
#include <unistd.h>

extern void *__libc_malloc(size_t);
extern void *__libc_calloc(size_t, size_t);
extern void *__libc_realloc(void *, size_t);
extern void *__libc_memalign(size_t, size_t);

static long unwatched[2];
static volatile long *counts = unwatched;
static long refused, refused_onward, failing, step;
static int has_begun, error = EIO;

static long number(const char *name) {
    const char *text = getenv(name);
    return text ? atol(text) : 0;
}

__attribute__((constructor)) static void begin(void) {
    const char *file = getenv("HOSTILE_COUNTS");
    refused = number("HOSTILE_MEMORY");
    refused_onward = getenv("HOSTILE_ONWARD") != NULL;
    failing = number("HOSTILE_CALL");
    step = number("HOSTILE_STEP");
    if (getenv("HOSTILE_ERROR")) error = (int)number("HOSTILE_ERROR");
    if (file) {
        int fd = (int)syscall(SYS_openat, AT_FDCWD, file, O_RDWR, 0);
        void *page = mmap(NULL, 16, PROT_READ | PROT_WRITE, MAP_SHARED, fd, 0);
        if (page != MAP_FAILED) counts = page;
        syscall(SYS_close, fd);
    }
    setrlimit(RLIMIT_CPU, &(struct rlimit){60, 60});
    has_begun = 1;
}

/* Whether this request for memory is refused. */
static int is_refused(void) {
    long now;
    if (!has_begun) return 0;
    now = ++counts[0];
    if (!refused || now < refused || (now > refused && !refused_onward)) return 0;
    errno = ENOMEM;
    return 1;
}

void *malloc(size_t size) { return is_refused() ? NULL : __libc_malloc(size); }

void *calloc(size_t count, size_t size) {
    return is_refused() ? NULL : __libc_calloc(count, size);
}

void *realloc(void *block, size_t size) {
    return is_refused() ? NULL : __libc_realloc(block, size);
}

void *memalign(size_t unit, size_t size) {
    return is_refused() ? NULL : __libc_memalign(unit, size);
}

void *aligned_alloc(size_t unit, size_t size) { return memalign(unit, size); }

int posix_memalign(void **block, size_t unit, size_t size) {
    void *made = memalign(unit, size);
    if (!made) return ENOMEM;
    *block = made;
    return 0;
}

void *mmap(void *at, size_t size, int allowed, int kind, int fd, off_t from) {
    if (is_refused()) return MAP_FAILED;
    return (void *)syscall(SYS_mmap, at, size, allowed, kind, fd, from);
}

void *mmap64(void *at, size_t size, int allowed, int kind, int fd, off_t from)
    __attribute__((alias("mmap")));

/* Whether this call of the desk fails. */
static int fails(int fd) {
    if (!has_begun || fd == 2 || ++counts[1] != failing) return 0;
    errno = error;
    return 1;
}

static size_t piece(size_t size) { return step && size > (size_t)step ? (size_t)step : size; }

ssize_t read(int fd, void *into, size_t size) {
    return fails(fd) ? -1 : syscall(SYS_read, fd, into, piece(size));
}

ssize_t pread64(int fd, void *into, size_t size, off_t at) {
    return fails(fd) ? -1 : syscall(SYS_pread64, fd, into, piece(size), at);
}

ssize_t write(int fd, const void *from, size_t size) {
    if (fails(fd)) return error ? -1 : 0;
    return syscall(SYS_write, fd, from, fd == 2 ? size : piece(size));
}

ssize_t writev(int fd, const struct iovec *parts, int count) {
    int first = 0;
    if (fails(fd)) return error ? -1 : 0;
    if (fd == 2 || !step) return syscall(SYS_writev, fd, parts, count);
    while (first < count - 1 && parts[first].iov_len == 0) first++;
    return count ? syscall(SYS_write, fd, parts[first].iov_base, piece(parts[first].iov_len)) : 0;
}

off_t lseek(int fd, off_t by, int from) {
    return fails(fd) ? -1 : syscall(SYS_lseek, fd, by, from);
}

off_t lseek64(int fd, off_t by, int from) { return lseek(fd, by, from); }

int openat(int folder, const char *name, int how, ...) {
    va_list rest;
    mode_t mode;
    va_start(rest, how);
    mode = how & (O_CREAT | O_TMPFILE) ? va_arg(rest, mode_t) : 0;
    va_end(rest);
    return fails(-1) ? -1 : (int)syscall(SYS_openat, folder, name, how, mode);
}

int openat64(int folder, const char *name, int how, ...) __attribute__((alias("openat")));

int open(const char *name, int how, ...) {
    va_list rest;
    mode_t mode;
    va_start(rest, how);
    mode = how & (O_CREAT | O_TMPFILE) ? va_arg(rest, mode_t) : 0;
    va_end(rest);
    return fails(-1) ? -1 : (int)syscall(SYS_openat, AT_FDCWD, name, how, mode);
}

int open64(const char *name, int how, ...) __attribute__((alias("open")));
