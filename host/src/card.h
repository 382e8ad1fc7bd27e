/* A card image that is open to be read, mapped or not, and the library's pulls on it. */
#ifndef CARD_H
#define CARD_H

#include <stdbool.h>
#include <stddef.h>
#include <stdint.h>

#include "harptimber.h"
#include "mapping.h"
#include "request.h"

enum { BLOCK_SIZE = HARPTIMBER_BLOCK_BYTES };

/* `bytes` are the card: all of the file, or the part of it that options choose. They are null if the file isn't mapped. */
struct card {
    const char *path;
    const uint8_t *bytes;
    size_t len;
    uint64_t offset; /* so many bytes of the file lie before it */
    struct mapping file;
};

/* What a pull rested on: numbers of four bytes, the lowest byte first. There is always room for all. */
struct lists {
    uint8_t nodes[HARPTIMBER_NODES_BYTES];
    uint8_t blocks[HARPTIMBER_BLOCKS_BYTES];
};

/* What the longest run of pulls gives, and what it rested on. Too large for a stack. */
struct run_room {
    uint8_t bytes[HARPTIMBER_RUN_BYTES];
    uint8_t nodes[HARPTIMBER_RUN_NODES_BYTES];
    uint8_t blocks[HARPTIMBER_RUN_BLOCKS_BYTES];
};

/*
 * Maps a file, or opens it to be read blockwise, and takes the part of it that the request's options choose. If that fails,
 * says why and returns what to end with; else DONE.
 */
enum status card_open(struct card *card, const struct request *request, const char *path);

void card_close(struct card *card);

/* Whether its blocks are read one at a time. Then it is pulled from by a reader, and there are no runs of pulls. */
bool card_is_blockwise(const struct card *card);

/* What the library says of the card as a whole: 0 if it opens, else 4 to 8. */
uint32_t card_opens(const struct card *card);

/* Whether an answer still stands; says so if it doesn't. */
bool card_is_settled(const struct card *card);

/* Block `index` of the file that a path leads to, into 4,096 bytes at `block`. */
struct harptimber_pulled card_pull(const struct card *card, const char *path, size_t path_len, uint32_t index,
                                   uint8_t *block, struct lists *lists);

/* As many blocks of it from `index` on as a run has. */
struct harptimber_run card_pull_run(const struct card *card, const char *path, size_t path_len, uint32_t index,
                                    struct run_room *room);

/* Whether a pull's answer is a block: data or a hole. */
bool is_block(uint32_t answer);

/* Whether it is one of those before the walk, 4 to 8: a card that doesn't open, or a call out of shape. */
bool is_before_walk(uint32_t answer);

#endif
