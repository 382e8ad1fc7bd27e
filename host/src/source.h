/*
 * What a second walk in C reads: the node table, blocks and the bounds of the main area. It is a card, or a keep file: that
 * has all that the walk of its pull comes to, and nothing else.
 */
#ifndef SOURCE_H
#define SOURCE_H

#include "card.h"
#include "keep_file.h"

struct source {
    const struct card *card;      /* null if it is a keep file */
    const struct keep_file *keep; /* null if it is a card */
};

/* What the library never answers. */
static const uint32_t NO_ANSWER = UINT32_MAX;

struct source source_of_card(const struct card *card);
struct source source_of_keep(const struct keep_file *keep);

/* What the table says of a node; NO_ANSWER if a keep file hasn't it. */
struct harptimber_entry source_entry(const struct source *source, uint32_t number);

/* A block of the card; null if it, or the keep file, has none of that number. */
const uint8_t *source_block(const struct source *source, uint32_t number);

/* The main area's first block, and the first one behind it; both are 0 if it isn't known. */
void source_bounds(const struct source *source, uint64_t *first, uint64_t *end);

#endif
