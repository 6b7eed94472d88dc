/* Loaded before the program (LD_PRELOAD), this refuses one call of the system in its place: the allocation, the call that reads or
 * the call that writes whose number, counted from 1, the environment gives as FAIL_ALLOC, FAIL_READ or FAIL_WRITE. To open a file and
 * to list a folder are calls that read. SHORT_READ and SHORT_WRITE bound how many bytes a call moves. Where CALL_COUNTS names a file,
 * the numbers of calls are written there at the end. */
#define _GNU_SOURCE
#include <errno.h>
#include <fcntl.h>
#include <stdarg.h>
#include <stdatomic.h>
#include <stdio.h>
#include <stdlib.h>
#include <sys/syscall.h>
#include <sys/types.h>
#include <sys/uio.h>
#include <unistd.h>

extern void *__libc_malloc(size_t);
extern void *__libc_calloc(size_t, size_t);
extern void *__libc_realloc(void *, size_t);
extern void *__libc_memalign(size_t, size_t);

static long fail_alloc, fail_read, fail_write, short_read, short_write;
static atomic_long allocs, reads, writes;
static int begun;

static long number(const char *name) {
    const char *text = getenv(name);
    return text ? strtol(text, NULL, 10) : 0;
}

__attribute__((constructor)) static void begin(void) {
    fail_alloc = number("FAIL_ALLOC");
    fail_read = number("FAIL_READ");
    fail_write = number("FAIL_WRITE");
    short_read = number("SHORT_READ");
    short_write = number("SHORT_WRITE");
    begun = 1;
}

static void write_counts(const char *path) {
    char text[96];
    int length = snprintf(text, sizeof text, "%ld %ld %ld\n", atomic_load(&allocs), atomic_load(&reads), atomic_load(&writes));
    int file = syscall(SYS_openat, AT_FDCWD, path, O_WRONLY | O_CREAT | O_TRUNC, 0600);
    if (file >= 0 && syscall(SYS_write, file, text, length) == length) syscall(SYS_close, file);
}

__attribute__((destructor)) static void end(void) {
    const char *path = getenv("CALL_COUNTS");
    begun = 0;
    if (path) write_counts(path);
}

/* The program ends by this call, after which no destructor runs. */
void _exit(int status) {
    end();
    syscall(SYS_exit_group, status);
    __builtin_unreachable();
}

/* Whether this call is the one that is refused. */
static int refused(atomic_long *calls, long which) {
    return begun && atomic_fetch_add(calls, 1) + 1 == which;
}

static size_t within(size_t length, long most) { return most > 0 && length > (size_t)most ? (size_t)most : length; }

void *malloc(size_t size) {
    if (refused(&allocs, fail_alloc)) return errno = ENOMEM, NULL;
    return __libc_malloc(size);
}

void *calloc(size_t count, size_t size) {
    if (refused(&allocs, fail_alloc)) return errno = ENOMEM, NULL;
    return __libc_calloc(count, size);
}

/* Where the size is 0 this lets go and may answer NULL, which is no refusal, so it is not counted. */
void *realloc(void *old, size_t size) {
    if (size > 0 && refused(&allocs, fail_alloc)) return errno = ENOMEM, NULL;
    return __libc_realloc(old, size);
}

void *aligned_alloc(size_t alignment, size_t size) {
    if (refused(&allocs, fail_alloc)) return errno = ENOMEM, NULL;
    return __libc_memalign(alignment, size);
}

void *memalign(size_t alignment, size_t size) { return aligned_alloc(alignment, size); }

int posix_memalign(void **place, size_t alignment, size_t size) {
    void *block = aligned_alloc(alignment, size);
    if (!block) return ENOMEM;
    *place = block;
    return 0;
}

ssize_t read(int file, void *bytes, size_t length) {
    if (refused(&reads, fail_read)) return errno = EIO, -1;
    return syscall(SYS_read, file, bytes, within(length, short_read));
}

static int opened(int folder, const char *path, int flags, mode_t mode) {
    if (refused(&reads, fail_read)) return errno = EIO, -1;
    return syscall(SYS_openat, folder, path, flags, mode);
}

int open(const char *path, int flags, ...) {
    va_list rest;
    va_start(rest, flags);
    mode_t mode = flags & O_CREAT ? va_arg(rest, mode_t) : 0;
    va_end(rest);
    return opened(AT_FDCWD, path, flags, mode);
}

int openat(int folder, const char *path, int flags, ...) {
    va_list rest;
    va_start(rest, flags);
    mode_t mode = flags & O_CREAT ? va_arg(rest, mode_t) : 0;
    va_end(rest);
    return opened(folder, path, flags, mode);
}

ssize_t getdents64(int file, void *bytes, size_t length) {
    if (refused(&reads, fail_read)) return errno = EIO, -1;
    return syscall(SYS_getdents64, file, bytes, length);
}

ssize_t write(int file, const void *bytes, size_t length) {
    if (refused(&writes, fail_write)) return errno = EIO, -1;
    return syscall(SYS_write, file, bytes, within(length, short_write));
}

/* Where writes are short it takes bytes of its first piece that is not empty alone. */
ssize_t writev(int file, const struct iovec *pieces, int count) {
    if (refused(&writes, fail_write)) return errno = EIO, -1;
    if (short_write <= 0) return syscall(SYS_writev, file, pieces, count);
    while (count > 1 && pieces->iov_len == 0) pieces++, count--;
    return count > 0 ? syscall(SYS_write, file, pieces->iov_base, within(pieces->iov_len, short_write)) : 0;
}
