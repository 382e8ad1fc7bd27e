/*
 * Loaded into the program before its other libraries: holds it at the first look at one block of one of the
 * images that it maps, or before it reads that block of an image that it doesn't map, until the other end of a FIFO is
 * closed. So a test can write an image while it is read.
 * And, if it is told so, it takes from the program the files that have no name, as some file systems do.
 */
#define _GNU_SOURCE
#include <dlfcn.h>
#include <errno.h>
#include <fcntl.h>
#include <signal.h>
#include <stdarg.h>
#include <stdint.h>
#include <stdlib.h>
#include <sys/mman.h>
#include <unistd.h>

enum { BLOCK_SIZE = 4096 };

static uint8_t *held; /* the block */

static void hold(void)
{
    uint8_t byte;
    int fifo = open(getenv("HELD_BY"), O_RDONLY);
    while (read(fifo, &byte, 1) > 0)
        ;
    close(fifo);
}

static void on_look(int number, siginfo_t *info, void *context)
{
    (void)context;
    if ((uintptr_t)info->si_addr - (uintptr_t)held >= BLOCK_SIZE) {
        signal(number, SIG_DFL); /* a fault of the program: it comes again, and ends it */
        return;
    }
    hold();
    mprotect(held, BLOCK_SIZE, PROT_READ);
}

/* Whoever runs the tests behind nohup, or in the background, has the program ignore some of these; a test sends each of them. */
__attribute__((constructor)) static void end_by_signals(void)
{
    static const int signals[] = {SIGHUP, SIGINT, SIGQUIT, SIGTERM};
    for (size_t i = 0; i < sizeof signals / sizeof *signals; i++)
        signal(signals[i], SIG_DFL);
}

static unsigned long number_of(const char *variable)
{
    return strtoul(getenv(variable), NULL, 10);
}

void *mmap(void *address, size_t len, int protection, int flags, int file, off_t offset)
{
    static unsigned long images;
    void *(*next)(void *, size_t, int, int, int, off_t);
    *(void **)&next = dlsym(RTLD_NEXT, "mmap64");
    uint8_t *bytes = next(address, len, protection, flags, file, offset);
    if (bytes == MAP_FAILED || file < 0 || images++ != number_of("HELD_IMAGE"))
        return bytes;
    held = bytes + BLOCK_SIZE * number_of("HELD_BLOCK");
    struct sigaction action = {.sa_sigaction = on_look, .sa_flags = SA_SIGINFO};
    sigemptyset(&action.sa_mask);
    sigaction(SIGSEGV, &action, NULL);
    mprotect(held, BLOCK_SIZE, PROT_NONE);
    return bytes;
}

ssize_t pread(int file, void *bytes, size_t len, off_t offset)
{
    static int was_held;
    ssize_t (*next)(int, void *, size_t, off_t);
    *(void **)&next = dlsym(RTLD_NEXT, "pread64");
    if (!was_held && offset / BLOCK_SIZE == (off_t)number_of("HELD_BLOCK")) {
        was_held = 1;
        hold();
    }
    return next(file, bytes, len, offset);
}

int openat(int folder, const char *path, int flags, ...)
{
    int (*next)(int, const char *, int, mode_t);
    *(void **)&next = dlsym(RTLD_NEXT, "openat64");
    va_list rest;
    va_start(rest, flags);
    mode_t mode = (flags & O_CREAT) != 0 || (flags & O_TMPFILE) == O_TMPFILE ? va_arg(rest, mode_t) : 0;
    va_end(rest);
    if ((flags & O_TMPFILE) == O_TMPFILE && getenv("HELD_NAMED") != NULL) {
        errno = EOPNOTSUPP;
        return -1;
    }
    return next(folder, path, flags, mode);
}
