/*
 * Memory to lend, of which an access outside is noticed. Right before or right behind a slice lies a
 * page that can't be touched, and a sealed slice can't be written: either ends in a fault, which is
 * caught. No bytes lie at such a page too, or at null. On the heap a slice is a malloc'ed block of its
 * exact length, for valgrind.
 */
#ifndef LENDING_H
#define LENDING_H

#ifndef _GNU_SOURCE
#error "SEEK_DATA needs _GNU_SOURCE before any header"
#endif

#include <errno.h>
#include <setjmp.h>
#include <signal.h>
#include <stdint.h>
#include <stdio.h>
#include <stdlib.h>
#include <string.h>
#include <sys/mman.h>
#include <unistd.h>

enum placement { BEHIND_GUARD, BEFORE_GUARD, ON_HEAP };
static enum placement placement;

struct slice {
    const char *name;
    uint8_t *bytes;
    size_t len;
    uint8_t *mapping; /* the two guard pages, and what lies between them */
    size_t mapping_len;
};

static _Noreturn void give_up(const char *why)
{
    printf("FAILED: %s\n0 passed, 1 failed\n", why);
    exit(1);
}

/* A slice that isn't initialised on the heap, and has zeros elsewhere. */
static inline struct slice lend(const char *name, size_t len)
{
    struct slice s = {.name = name, .len = len};
    if (placement == BEFORE_GUARD && len == 0)
        return s; /* null, as hosts pass for an empty list */
    if (placement == ON_HEAP) {
        s.bytes = malloc(len);
        if (s.bytes == NULL)
            give_up("no memory");
        return s;
    }
    size_t page = (size_t)sysconf(_SC_PAGESIZE);
    size_t inside = (len + page - 1) / page * page;
    s.mapping_len = inside + 2 * page;
    /* Pages that aren't written take no memory, so that a slice may have 16 GiB. */
    s.mapping = mmap(NULL, s.mapping_len, PROT_NONE, MAP_PRIVATE | MAP_ANONYMOUS | MAP_NORESERVE, -1, 0);
    if (s.mapping == MAP_FAILED || mprotect(s.mapping + page, inside, PROT_READ | PROT_WRITE) != 0)
        give_up("no memory between guard pages");
    s.bytes = s.mapping + page + (placement == BEFORE_GUARD ? inside - len : 0);
    return s;
}

/* A slice of zeros, also on the heap. */
static inline struct slice lend_zeros(const char *name, size_t len)
{
    struct slice s = lend(name, len);
    if (placement == ON_HEAP)
        memset(s.bytes, 0, len);
    return s;
}

/* Reads the part of a file from `at` to before `end` to the same place of a slice. */
static inline void read_part(const struct slice *s, int file, size_t at, size_t end)
{
    while (at < end) {
        ssize_t got = pread(file, s->bytes + at, end - at, (off_t)at);
        if (got <= 0)
            give_up("a file can't be read");
        at += (size_t)got;
    }
}

/* A slice with a file's first bytes. What is a hole in the file isn't read, and takes no memory. */
static inline struct slice lend_file(const char *name, int file, size_t len)
{
    struct slice s = lend_zeros(name, len);
    off_t at = 0;
    while ((at = lseek(file, at, SEEK_DATA)) >= 0 && (size_t)at < len) {
        off_t end = lseek(file, at, SEEK_HOLE);
        if (end < 0)
            give_up("the end of a file's data isn't found");
        read_part(&s, file, (size_t)at, (size_t)end < len ? (size_t)end : len);
        at = end;
    }
    if (at < 0 && errno != ENXIO) /* which is: no data any more */
        give_up("a file's data isn't found");
    return s;
}

/* A slice with these bytes. */
static inline struct slice lend_copy(const char *name, const uint8_t *from, size_t len)
{
    struct slice s = lend(name, len);
    if (len != 0)
        memcpy(s.bytes, from, len);
    return s;
}

static inline void give_back(struct slice *s)
{
    if (s->mapping != NULL)
        munmap(s->mapping, s->mapping_len);
    else
        free(s->bytes);
    *s = (struct slice){0};
}

/* Protects the pages that have some bytes of a slice. On the heap nothing is enforced. */
static inline void protect(const struct slice *s, size_t at, size_t len, int protection)
{
    uintptr_t page = (uintptr_t)sysconf(_SC_PAGESIZE);
    uintptr_t start = (uintptr_t)(s->bytes + at) / page * page;
    uintptr_t end = (uintptr_t)(s->bytes + at + len);
    if (s->mapping != NULL && mprotect((void *)start, end - start, protection) != 0)
        give_up("pages can't be protected");
}

/* From now on it can only be read. */
static inline void seal(const struct slice *s)
{
    protect(s, 0, s->len, PROT_READ);
}

/* Writes bytes of a sealed slice. */
static inline void put(const struct slice *s, size_t at, const uint8_t *bytes, size_t len)
{
    protect(s, at, len, PROT_READ | PROT_WRITE);
    memcpy(s->bytes + at, bytes, len);
    protect(s, at, len, PROT_READ);
}

static sigjmp_buf escape;
static volatile sig_atomic_t trying;
static uint8_t *volatile fault_at;

static inline void on_fault(int number, siginfo_t *info, void *context)
{
    (void)context;
    if (!trying) {
        signal(number, SIG_DFL); /* the fault comes again and ends the program */
        return;
    }
    fault_at = info->si_addr;
    siglongjmp(escape, 1);
}

static inline void catch_faults(void)
{
    struct sigaction action = {.sa_sigaction = on_fault, .sa_flags = SA_SIGINFO | SA_NODEFER};
    sigaction(SIGSEGV, &action, NULL);
    sigaction(SIGBUS, &action, NULL);
}

/* Whether it ends in a fault. */
static inline int faults(void (*call)(void *), void *with)
{
    volatile int faulted = 1;
    trying = 1;
    if (sigsetjmp(escape, 0) == 0) {
        call(with);
        faulted = 0;
    }
    trying = 0;
    return faulted;
}

#endif
