/* A file to be read: a card image or a keep file. It is mapped; or, unmapped, its bytes are read as they are asked for. */
#ifndef MAPPING_H
#define MAPPING_H

#include <stdbool.h>
#include <stddef.h>
#include <stdint.h>
#include <sys/stat.h>

struct mapping {
    const char *path;
    const char *itself;   /* what to say of an output that is this file */
    const uint8_t *bytes; /* null if it has none, or isn't mapped */
    size_t len;
    int file;         /* stays open, for mapping_is_settled; negative if it isn't */
    struct stat info; /* as it was when it was opened */
    char *lost;       /* what to say if its bytes can't be read any more */
    struct piece *pieces; /* what was read of it so far; null if it is mapped */
    struct mapping *next; /* of those that are mapped now */
};

/*
 * Maps a regular file or a block device. The structure may not be moved until it is closed. If that fails, says why and
 * returns false.
 */
bool mapping_open(struct mapping *mapping, const char *path, const char *itself);

/* The same without mapping it. */
bool mapping_open_unmapped(struct mapping *mapping, const char *path, const char *itself);

void mapping_close(struct mapping *mapping);

/* Some of its bytes, which lie inside. They stay where they are until it is closed. */
const uint8_t *mapping_bytes(const struct mapping *mapping, uint64_t at, size_t len);

/*
 * Reads them from the file into `room`, a block at a time. If they can't be had, that is said and the program ends, as it does
 * where a mapping fails to give them.
 */
void mapping_read(const struct mapping *mapping, uint64_t at, uint8_t *room, size_t len);

/*
 * Whether an answer still stands: the library's promises hold for bytes that nobody writes meanwhile.
 * Says so if the file was changed since it was opened, by its length and times: a writer can put the
 * date back, but not the time of the change. On a block device that can't be seen.
 */
bool mapping_is_settled(const struct mapping *mapping);

/* Whether a file is this one, or what a loop device that is this one has its bytes from. */
bool mapping_is(const struct mapping *mapping, const struct stat *info);

/* Whether two of them have their bytes from the same place: a file or device, by whatever path or loop device. */
bool mapping_is_same(const struct mapping *mapping, const struct mapping *other);

#endif
