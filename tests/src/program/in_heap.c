/*
 * Linked into a build of the program in place of mmap: an image is read into heap memory of just its length, so that the address
 * sanitizer sees a look outside it. A large one is mapped between two pages that nobody may touch, which is as exact for whole
 * pages and costs no copy. IN_HEAP_LESS leaves out so many bytes at the end, which the program doesn't know.
 */
#include <stdint.h>
#include <stdlib.h>
#include <sys/mman.h>
#include <unistd.h>

enum { PAGE = 4096, LARGE = 1 << 28 };

void *__real_mmap64(void *address, size_t len, int protection, int flags, int file, off_t offset);
int __real_munmap(void *bytes, size_t len);

static void *map_between(size_t len, size_t room, int file, off_t offset)
{
    uint8_t *all = __real_mmap64(NULL, PAGE + len + PAGE, PROT_NONE, MAP_PRIVATE | MAP_ANONYMOUS | MAP_NORESERVE, -1, 0);
    if (all == MAP_FAILED)
        return MAP_FAILED;
    return __real_mmap64(all + PAGE, room, PROT_READ, MAP_PRIVATE | MAP_FIXED, file, offset);
}

static void *read_all(size_t room, int file, off_t offset)
{
    uint8_t *bytes = malloc(room);
    for (size_t at = 0; bytes != NULL && at < room;) {
        ssize_t got = pread(file, bytes + at, room - at, offset + (off_t)at);
        if (got <= 0)
            abort();
        at += (size_t)got;
    }
    return bytes == NULL ? MAP_FAILED : bytes;
}

void *__wrap_mmap64(void *address, size_t len, int protection, int flags, int file, off_t offset)
{
    (void)address, (void)protection, (void)flags;
    const char *less = getenv("IN_HEAP_LESS");
    size_t room = len - (less == NULL ? 0 : strtoul(less, NULL, 10));
    return len < LARGE ? read_all(room, file, offset) : map_between(len, room, file, offset);
}

int __wrap_munmap(void *bytes, size_t len)
{
    if (len >= LARGE)
        return __real_munmap((uint8_t *)bytes - PAGE, PAGE + len + PAGE);
    free(bytes);
    return 0;
}
