/* What a pull gave, be it made now or kept: in words, as JSON, and its bytes. */
#ifndef PULLED_H
#define PULLED_H

#include <stdio.h>

#include "json.h"
#include "list.h"
#include "mapping.h"
#include "source.h"
#include "words.h"

struct pulled {
    struct source source; /* the card, or the keep file */
    const char *path;
    size_t path_len;
    uint32_t index;
    struct harptimber_pulled gave;
    const uint8_t *block; /* 4,096 bytes, if the answer is a block */
    struct list nodes, blocks;
};

/* A pull on a card. The block, of 4,096 bytes, and the lists are the caller's room for it. */
struct pulled pulled_from(const struct card *card, const char *path, size_t path_len, uint32_t index, uint8_t *block,
                          struct lists *lists);

/* What a keep file has of its pull; this stands as long as the file does. */
struct pulled pulled_kept(const struct keep_file *keep);

/* The call of the library, for its words. */
struct asked pulled_asked(const struct pulled *pulled);

/* A line with the answer, and one with how much it rested on. */
void pulled_words(FILE *out, const struct pulled *pulled);

/* The lists, a line each. Both print nothing of what a pull rested on that was refused before its walk. */
void pulled_lists(FILE *out, const struct pulled *pulled);

/* Name, index, byte count and lists. */
void pulled_json(struct json *json, const struct pulled *pulled);

/* How many bytes of the block are the file's; a keep file that nobody wrote as one may say more than a block has. */
uint32_t pulled_len(const struct pulled *pulled);

/*
 * Writes the file's bytes of the block to -o's FILE, if there is one and the answer is a block. `read` is what they come from,
 * and isn't written to. If that fails, says why and returns false.
 */
bool pulled_write(const struct pulled *pulled, const struct request *request, const struct mapping *read);

/* Shows them on a terminal, if it is data and nothing else is wanted. */
void pulled_show(const struct pulled *pulled, const struct request *request);

#endif
