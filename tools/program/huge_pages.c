/* Asks the system for huge pages under large memory, where it gives them to those that ask (madvise(2), MADV_HUGEPAGE).
   tools/program/toolchain.py has the prover load it: the prover walks through a gigabyte and more, and takes a seventh less time. */
#define _GNU_SOURCE
#include <dlfcn.h>
#include <stddef.h>
#include <sys/mman.h>
#include <sys/types.h>

#define HUGE_PAGE ((size_t)2 << 20)

typedef void *mapping(void *, size_t, int, int, int, off_t);

void *mmap(void *address, size_t length, int protection, int flags, int file, off_t offset) {
    static mapping *map;
    if (!map)
        map = (mapping *)dlsym(RTLD_NEXT, "mmap");
    void *given = map(address, length, protection, flags, file, offset);
    if (given != MAP_FAILED && (flags & MAP_ANONYMOUS) && length >= HUGE_PAGE)
        madvise(given, length, MADV_HUGEPAGE);
    return given;
}

void *mmap64(void *address, size_t length, int protection, int flags, int file, off_t offset) {
    return mmap(address, length, protection, flags, file, offset);
}
