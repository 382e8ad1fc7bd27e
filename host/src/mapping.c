#include "mapping.h"

#include <errno.h>
#include <fcntl.h>
#include <linux/loop.h>
#include <signal.h>
#include <stdio.h>
#include <stdlib.h>
#include <string.h>
#include <sys/ioctl.h>
#include <sys/mman.h>
#include <unistd.h>

#include "harptimber.h"
#include "request.h"
#include "text.h"
#include "whole.h"

/* Those that are mapped now. */
static struct mapping *mapped;

/* Ends the program, where bytes can't be read; that was said. */
static _Noreturn void give_up(void)
{
    whole_drop_at_once();
    _exit(REFUSED);
}

/* Says it by a message that was made beforehand: a signal handler may neither allocate nor print. */
static _Noreturn void lose(const char *message)
{
    ssize_t written = write(STDERR_FILENO, message, strlen(message));
    (void)written;
    give_up();
}

/*
 * Bytes of a mapping that the file no longer has, or that the medium fails to give, arrive as SIGBUS in
 * the middle of a library call. There is no way back from there but to say so and to end.
 */
static void on_bus_error(int number, siginfo_t *info, void *context)
{
    (void)number;
    (void)context;
    const char *message = "harptimber: memory can't be read\n";
    for (const struct mapping *m = mapped; m != NULL; m = m->next)
        if ((uintptr_t)info->si_addr - (uintptr_t)m->bytes < m->len)
            message = m->lost;
    lose(message);
}

static void watch_bus_errors(void)
{
    struct sigaction action = {.sa_sigaction = on_bus_error, .sa_flags = SA_SIGINFO};
    sigemptyset(&action.sa_mask);
    sigaction(SIGBUS, &action, NULL);
}

static char *message_if_lost(const char *path)
{
    char *message = NULL;
    size_t len;
    FILE *out = open_memstream(&message, &len);
    if (out == NULL)
        return NULL;
    show_subject(out, path);
    fputs("can't be read any more: it was cut short, or its medium fails\n", out);
    return fclose(out) == 0 ? message : NULL;
}

/* Finds out how many bytes it has, or returns why it can't be read. */
static const char *measure(struct mapping *mapping)
{
    off_t size = mapping->info.st_size;
    if (S_ISDIR(mapping->info.st_mode))
        return "is a directory";
    if (S_ISBLK(mapping->info.st_mode))
        size = lseek(mapping->file, 0, SEEK_END);
    else if (!S_ISREG(mapping->info.st_mode))
        return "is neither a file nor a block device";
    if (size < 0)
        return strerror(errno);
    if ((uintmax_t)size > SIZE_MAX)
        return "is too big to map";
    mapping->len = (size_t)size;
    return NULL;
}

/* Some bytes of a file that isn't mapped. The first of its pieces has none. */
struct piece {
    struct piece *next;
    uint64_t at;
    size_t len;
    uint8_t bytes[];
};

/* Begins its pieces, or returns why not. */
static const char *leave_unmapped(struct mapping *mapping)
{
    mapping->pieces = calloc(1, sizeof *mapping->pieces);
    return mapping->pieces == NULL ? strerror(ENOMEM) : NULL;
}

/*
 * Maps what was opened, or returns why not. Neither kind of mapping would hold the bytes still while
 * another program writes the file; mapping_is_settled looks for that. A private one is enough to read, and
 * there are file systems that give no other. No bytes can't be mapped.
 */
static const char *map(struct mapping *mapping)
{
    if (mapping->len == 0)
        return NULL;
    void *bytes = mmap(NULL, mapping->len, PROT_READ, MAP_PRIVATE, mapping->file, 0);
    if (bytes == MAP_FAILED)
        return errno == ENOMEM ? "is too big to map" : strerror(errno);
    mapping->bytes = bytes;
    return NULL;
}

/* Opens it and finds out its length, or returns why not. Without O_NONBLOCK, opening a FIFO would wait for a writer. */
static const char *begin(struct mapping *mapping)
{
    mapping->file = open(mapping->path, O_RDONLY | O_NONBLOCK | O_NOCTTY | O_CLOEXEC);
    if (mapping->file < 0 || fstat(mapping->file, &mapping->info) != 0)
        return strerror(errno);
    return measure(mapping);
}

/* Makes a file ready to be read, mapped or not. */
static bool make_ready(struct mapping *mapping, const char *(*make)(struct mapping *))
{
    const char *why = begin(mapping);
    if (why == NULL)
        why = make(mapping);
    if (why == NULL && (mapping->lost = message_if_lost(mapping->path)) == NULL)
        why = strerror(ENOMEM);
    if (why == NULL)
        return true;
    complain(mapping->path, "%s", why);
    mapping_close(mapping);
    return false;
}

bool mapping_open_unmapped(struct mapping *mapping, const char *path, const char *itself)
{
    *mapping = (struct mapping){.path = path, .itself = itself};
    return make_ready(mapping, leave_unmapped);
}

bool mapping_open(struct mapping *mapping, const char *path, const char *itself)
{
    *mapping = (struct mapping){.path = path, .itself = itself};
    if (!make_ready(mapping, map))
        return false;
    mapping->next = mapped;
    mapped = mapping;
    watch_bus_errors();
    return true;
}

/* One pread may come short of what the next one has; only at the file's end there is none. */
void mapping_read(const struct mapping *mapping, uint64_t at, uint8_t *room, size_t len)
{
    while (len != 0) {
        size_t part = len < HARPTIMBER_BLOCK_BYTES ? len : HARPTIMBER_BLOCK_BYTES;
        ssize_t got = pread(mapping->file, room, part, (off_t)at);
        if (got < 0 && errno == EINTR)
            continue;
        if (got <= 0)
            lose(mapping->lost);
        room += got;
        at += (uint64_t)got;
        len -= (size_t)got;
    }
}

static struct piece *read_piece(const struct mapping *mapping, uint64_t at, size_t len)
{
    struct piece *piece = malloc(sizeof *piece + len);
    if (piece == NULL) {
        complain(mapping->path, "%s", strerror(ENOMEM));
        give_up();
    }
    *piece = (struct piece){.at = at, .len = len};
    mapping_read(mapping, at, piece->bytes, len);
    return piece;
}

const uint8_t *mapping_bytes(const struct mapping *mapping, uint64_t at, size_t len)
{
    struct piece *last = mapping->pieces;
    if (last == NULL)
        return mapping->bytes + at;
    while (last->next != NULL && (last->next->at != at || last->next->len != len))
        last = last->next;
    if (last->next == NULL)
        last->next = read_piece(mapping, at, len);
    return last->next->bytes;
}

static void drop_pieces(struct piece *piece)
{
    while (piece != NULL) {
        struct piece *next = piece->next;
        free(piece);
        piece = next;
    }
}

void mapping_close(struct mapping *mapping)
{
    struct mapping **link = &mapped;
    while (*link != NULL && *link != mapping)
        link = &(*link)->next;
    if (*link != NULL)
        *link = mapping->next;
    if (mapping->bytes != NULL)
        munmap((void *)(uintptr_t)mapping->bytes, mapping->len);
    if (mapping->file >= 0)
        close(mapping->file);
    drop_pieces(mapping->pieces);
    free(mapping->lost);
}

static bool same_time(struct timespec one, struct timespec other)
{
    return one.tv_sec == other.tv_sec && one.tv_nsec == other.tv_nsec;
}

bool mapping_is_settled(const struct mapping *mapping)
{
    struct stat now;
    const struct stat *then = &mapping->info;
    if (fstat(mapping->file, &now) == 0 && now.st_size == then->st_size &&
        same_time(now.st_mtim, then->st_mtim) && same_time(now.st_ctim, then->st_ctim))
        return true;
    complain(mapping->path, "was changed while it was read");
    return false;
}

bool mapping_is(const struct mapping *mapping, const struct stat *info)
{
    struct loop_info64 loop;
    if (S_ISBLK(mapping->info.st_mode) && S_ISBLK(info->st_mode))
        return mapping->info.st_rdev == info->st_rdev;
    if (S_ISBLK(mapping->info.st_mode) && ioctl(mapping->file, LOOP_GET_STATUS64, &loop) == 0)
        return loop.lo_device == info->st_dev && loop.lo_inode == info->st_ino;
    return mapping->info.st_dev == info->st_dev && mapping->info.st_ino == info->st_ino;
}

/* Two loop devices may have one file. Partitions of a loop device have its number, and are none themselves. */
bool mapping_is_same(const struct mapping *mapping, const struct mapping *other)
{
    struct loop_info64 one, two;
    if (mapping_is(mapping, &other->info) || mapping_is(other, &mapping->info))
        return true;
    bool loops = S_ISBLK(mapping->info.st_mode) && S_ISBLK(other->info.st_mode) &&
                 ioctl(mapping->file, LOOP_GET_STATUS64, &one) == 0 &&
                 ioctl(other->file, LOOP_GET_STATUS64, &two) == 0;
    return loops && one.lo_number != two.lo_number && one.lo_device == two.lo_device && one.lo_inode == two.lo_inode &&
           one.lo_offset == two.lo_offset;
}
