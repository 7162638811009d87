// What a program is refused, for the program that it is loaded into: cc -O2 -shared -fPIC -o shim.so shim.c, then
// WORD=N LD_PRELOAD=./shim.so PROGRAM. Calls are counted from 1, and 0 or no word leaves them as they are.
//   REFUSE=N       the Nth allocation answers that there is no memory
//   FAIL_READ=N    the Nth read fails with EIO; FAIL_WRITE=N the Nth write of standard output; with LASTING=1 those
//                  after it, too
//   NARROW_READ=1  a read gives at most one octet; NARROW_WRITE=1 a write of standard output takes one
// At its end the program's allocations, reads and writes are counted in the file COUNTS, in one line.
#define _GNU_SOURCE
#include <errno.h>
#include <fcntl.h>
#include <stdio.h>
#include <stdlib.h>
#include <sys/syscall.h>
#include <sys/uio.h>
#include <unistd.h>

static unsigned long allocations, reads, writes;
static unsigned long refused, failed_read, failed_write, lasting, narrow_read, narrow_write;

static unsigned long number(const char *word) {
    const char *given = getenv(word);
    return given ? strtoul(given, 0, 10) : 0;
}

__attribute__((constructor)) static void begin(void) {
    refused = number("REFUSE");
    failed_read = number("FAIL_READ");
    failed_write = number("FAIL_WRITE");
    lasting = number("LASTING");
    narrow_read = number("NARROW_READ");
    narrow_write = number("NARROW_WRITE");
    allocations = 0;
}

__attribute__((destructor)) static void end(void) {
    char line[80];
    int size = snprintf(line, sizeof line, "%lu %lu %lu\n", allocations, reads, writes);
    const char *path = getenv("COUNTS");
    int file = path ? open(path, O_WRONLY | O_CREAT | O_TRUNC, 0600) : -1;
    if (file < 0) return;
    if (syscall(SYS_write, file, line, size) != size) _exit(70);
    close(file);
}

static int is_refused(void) {
    if (++allocations != refused) return 0;
    errno = ENOMEM;
    return 1;
}

extern void *__libc_malloc(size_t);
extern void *__libc_calloc(size_t, size_t);
extern void *__libc_realloc(void *, size_t);
extern void *__libc_memalign(size_t, size_t);

void *malloc(size_t size) { return is_refused() ? 0 : __libc_malloc(size); }

void *calloc(size_t count, size_t size) { return is_refused() ? 0 : __libc_calloc(count, size); }

void *realloc(void *old, size_t size) { return is_refused() ? 0 : __libc_realloc(old, size); }

void *aligned_alloc(size_t alignment, size_t size) { return is_refused() ? 0 : __libc_memalign(alignment, size); }

int posix_memalign(void **block, size_t alignment, size_t size) {
    if (is_refused()) return ENOMEM;
    *block = __libc_memalign(alignment, size);
    return *block ? 0 : ENOMEM;
}

// Whether this call of the descriptor fails.
static int is_failed(unsigned long *calls, unsigned long wanted) {
    ++*calls;
    if (*calls != wanted && !(lasting && wanted && *calls > wanted)) return 0;
    errno = EIO;
    return 1;
}

ssize_t read(int file, void *octets, size_t size) {
    if (is_failed(&reads, failed_read)) return -1;
    if (narrow_read && size > 1) size = 1;
    return syscall(SYS_read, file, octets, size);
}

ssize_t write(int file, const void *octets, size_t size) {
    if (file == 1) {
        if (is_failed(&writes, failed_write)) return -1;
        if (narrow_write && size > 1) size = 1;
    }
    return syscall(SYS_write, file, octets, size);
}

// The forms with several pieces, by the first that isn't empty.
static int first_of(const struct iovec *pieces, int count) {
    int at = 0;
    while (at + 1 < count && pieces[at].iov_len == 0) at++;
    return at;
}

ssize_t readv(int file, const struct iovec *pieces, int count) {
    int at = first_of(pieces, count);
    if (count < 1) return syscall(SYS_readv, file, pieces, count);
    return read(file, pieces[at].iov_base, pieces[at].iov_len);
}

ssize_t writev(int file, const struct iovec *pieces, int count) {
    int at = first_of(pieces, count);
    if (file != 1 || count < 1) return syscall(SYS_writev, file, pieces, count);
    return write(file, pieces[at].iov_base, pieces[at].iov_len);
}
