/* Pulls from the small card, with every lent byte looked at, and compares by the lists that pulls leave. */
#ifndef PULLING_H
#define PULLING_H

#include <inttypes.h>

#include "check.h"
#include "small_card.h"

#define PATTERN 0xA5
#define COUNT_OF(array) (sizeof(array) / sizeof *(array))

static uint8_t block[BLOCK], nodes[HARPTIMBER_NODES_BYTES], blocks[HARPTIMBER_BLOCKS_BYTES], fresh[sizeof card];
static struct harptimber_pulled got;

/* A pull with so many bytes lent for its lists. */
static inline void pull_with(const char *path, size_t len, uint32_t index, size_t nodes_len, size_t blocks_len)
{
    memset(block, PATTERN, sizeof block);
    memset(nodes, PATTERN, sizeof nodes);
    memset(blocks, PATTERN, sizeof blocks);
    got = harptimber_pull(card, sizeof card, (const uint8_t *)path, len, index, block, sizeof block, nodes, nodes_len,
                          blocks, blocks_len);
}

static inline void pull(const char *path, uint32_t index)
{
    pull_with(path, strlen(path), index, sizeof nodes, sizeof blocks);
}

static inline int all_are(const uint8_t *bytes, size_t len, uint8_t byte)
{
    for (size_t i = 0; i < len; i++)
        if (bytes[i] != byte)
            return 0;
    return 1;
}

/* Whether a list has just these numbers, and is as it was behind them. */
static inline int lists(const uint8_t *list, size_t len, uint32_t count, const uint32_t *numbers, uint32_t expected)
{
    for (uint32_t i = 0; i < expected; i++)
        if (harptimber_list_entry(list, i) != numbers[i])
            return 0;
    return count == expected && all_are(list + 4 * expected, len - 4 * expected, PATTERN);
}

/* The buffer, by what the file's inode has as contents. */
static inline int buffer_is(uint32_t answer, uint32_t count)
{
    if (answer != HARPTIMBER_DATA)
        return all_are(block, sizeof block, PATTERN);
    return memcmp(block, block_at(FILE_AT) + CONTENTS, count) == 0 && all_are(block + count, sizeof block - count, 0);
}

/* Lists, and how many numbers were written to them. */
struct left {
    const uint8_t *nodes, *blocks;
    size_t nodes_len, blocks_len;
    uint32_t node_count, block_count;
};

/* A compare by such lists, with one byte of the new card changed. */
static inline void expect_compared_by(const struct left *left, uint32_t address, size_t at, uint32_t answer)
{
    uint8_t *byte = fresh + (size_t)address * BLOCK + at;
    *byte ^= 1;
    struct harptimber_compared compared =
        harptimber_compare(card, sizeof card, fresh, sizeof fresh, left->nodes, left->nodes_len, left->node_count,
                           left->blocks, left->blocks_len, left->block_count);
    *byte ^= 1;
    uint32_t kind = answer == HARPTIMBER_CHANGED ? HARPTIMBER_BLOCK_DIFFERS : 0;
    uint32_t number = answer == HARPTIMBER_CHANGED ? address : 0;
    if (fails(compared.answer == answer && compared.side == 0 && compared.kind == kind && compared.number == number))
        printf("FAILED compare with byte %zu of block %" PRIu32 " changed: answer %" PRIu32 ", kind %" PRIu32
               ", number %" PRIu32 "; expected %" PRIu32 "\n",
               at, address, compared.answer, compared.kind, compared.number, answer);
}

/* By those of the last pull. */
static inline void expect_compared(uint32_t address, size_t at, uint32_t answer)
{
    struct left left = {nodes, blocks, sizeof nodes, sizeof blocks, got.node_count, got.block_count};
    expect_compared_by(&left, address, at, answer);
}

#endif
