/* The names in a directory of a card. They are read in C; nothing of this is proved. */
#ifndef LISTING_H
#define LISTING_H

#include "walk.h"

struct listed {
    char name[HARPTIMBER_NAME_BYTES_MOST + 1]; /* with zero bytes behind it, and perhaps in it */
    uint32_t len, inode;
};

/* So many things that are wrong are told; then the directory isn't read on. */
enum { MOST_PROBLEMS = 16 };

struct listing {
    struct walk walk;
    struct listed *names; /* in the order of their bytes */
    size_t count, room;
    char *problems[MOST_PROBLEMS]; /* why names may be missing, in plain text */
    size_t problem_count, problem_len; /* how many, and how long the last one is */
    bool stopped;
    /* A bit for each of the card's blocks: those that were read as blocks of entries. Of its 512 KiB on the largest card, only
     * what has such a bit is ever touched. */
    uint8_t *seen;
};

/* Reads the directory that a walk on a card has come to. Returns false, with a message, if there is no memory for it. */
bool listing_read(struct listing *listing, const struct walk *walk);

bool listing_is_complete(const struct listing *listing);

void listing_free(struct listing *listing);

#endif
