/*
 * Loaded into the program before its other libraries: notes in the file READS_IN, in their order, each place of a file that is read
 * and how many bytes are wanted there, and when a file is mapped. No more than READS_MOST bytes are read at once, if it is there;
 * with READS_INTERRUPTED every other read is interrupted, and those of block READS_FAIL fail as a medium does.
 */
#define _GNU_SOURCE
#include <dlfcn.h>
#include <errno.h>
#include <fcntl.h>
#include <stdio.h>
#include <stdlib.h>
#include <sys/mman.h>
#include <unistd.h>

enum { BLOCK_SIZE = 4096 };

static void note(const char *what, long long at, size_t len)
{
    int file = open(getenv("READS_IN"), O_WRONLY | O_APPEND | O_CREAT | O_CLOEXEC, 0666);
    dprintf(file, "%s %lld %zu\n", what, at, len);
    close(file);
}

static int fail(int error)
{
    errno = error;
    return -1;
}

ssize_t pread(int file, void *bytes, size_t len, off_t offset)
{
    static int nth;
    const char *most = getenv("READS_MOST"), *fails = getenv("READS_FAIL");
    ssize_t (*next)(int, void *, size_t, off_t);
    *(void **)&next = dlsym(RTLD_NEXT, "pread64");
    if (getenv("READS_INTERRUPTED") != NULL && ++nth % 2 == 1)
        return fail(EINTR);
    note("read", offset, len);
    if (fails != NULL && offset / BLOCK_SIZE == atoll(fails))
        return fail(EIO);
    if (most != NULL && len > (size_t)atoll(most))
        len = (size_t)atoll(most);
    return next(file, bytes, len, offset);
}

void *mmap(void *address, size_t len, int protection, int flags, int file, off_t offset)
{
    void *(*next)(void *, size_t, int, int, int, off_t);
    *(void **)&next = dlsym(RTLD_NEXT, "mmap64");
    if (file >= 0)
        note("mapped", offset, len);
    return next(address, len, protection, flags, file, offset);
}
