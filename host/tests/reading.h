/* Readers on the small card: pulls that are handed its blocks one at a time, beside those of the whole card. */
#ifndef READING_H
#define READING_H

#include "pulling.h"

/* What a reader asked for, one block behind the other. */
static uint32_t asked[HARPTIMBER_READER_BLOCKS_MOST + 1], asked_count;

/* What a result is lent. Behind each length that a pull takes there is more. */
static struct harptimber_pulled read_gave;
static uint8_t read_block[BLOCK + 8], read_nodes[HARPTIMBER_NODES_BYTES + 8], read_blocks[HARPTIMBER_BLOCKS_BYTES + 8];

static inline void start(struct harptimber_reader *reader, const char *path, size_t len, uint32_t index)
{
    asked_count = 0;
    *reader = harptimber_reader_start(CARD_BLOCKS, (const uint8_t *)path, len, index);
}

/* Hands it the block that it asks for. Returns 0 if that isn't one of the card's, or one too many. */
static inline int feed(struct harptimber_reader *reader)
{
    if (reader->asks != 1 || reader->block >= CARD_BLOCKS || asked_count == HARPTIMBER_READER_BLOCKS_MOST)
        return 0;
    asked[asked_count++] = reader->block;
    *reader = harptimber_reader_step(*reader, block_at(reader->block), BLOCK);
    return 1;
}

/* As long as it asks. */
static inline void feed_all(struct harptimber_reader *reader)
{
    while (reader->asks != 0 && feed(reader))
        ;
}

static inline void take_result(const struct harptimber_reader *reader, size_t block_len, size_t nodes_len, size_t blocks_len)
{
    memset(read_block, PATTERN, sizeof read_block);
    memset(read_nodes, PATTERN, sizeof read_nodes);
    memset(read_blocks, PATTERN, sizeof read_blocks);
    read_gave = harptimber_reader_result(*reader, read_block, block_len, read_nodes, nodes_len, read_blocks, blocks_len);
}

/* Whether the last result is the last pull's, in its numbers and in every byte, and what lies behind is as it was. */
static inline int is_as_pulled(void)
{
    return memcmp(&read_gave, &got, sizeof got) == 0 && memcmp(read_block, block, sizeof block) == 0 &&
           memcmp(read_nodes, nodes, sizeof nodes) == 0 && memcmp(read_blocks, blocks, sizeof blocks) == 0 &&
           all_are(read_block + sizeof block, sizeof read_block - sizeof block, PATTERN) &&
           all_are(read_nodes + sizeof nodes, sizeof read_nodes - sizeof nodes, PATTERN) &&
           all_are(read_blocks + sizeof blocks, sizeof read_blocks - sizeof blocks, PATTERN);
}

/* Whether it was refused before a walk: nothing is written, and every number but the answer is 0. */
static inline int is_refused(uint32_t answer)
{
    return read_gave.answer == answer && read_gave.byte_count == 0 && read_gave.node_count == 0 &&
           read_gave.block_count == 0 && all_are(read_block, sizeof read_block, PATTERN) &&
           all_are(read_nodes, sizeof read_nodes, PATTERN) && all_are(read_blocks, sizeof read_blocks, PATTERN);
}

/* Whether a reader has its answer, by what it shows. */
static inline int is_over(const struct harptimber_reader *reader)
{
    return reader->asks == 0 && reader->block == 0;
}

#endif
