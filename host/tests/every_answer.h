/* The small card with the file inline, and with what makes a pull answer each number: behind opening, and before it. */
#ifndef EVERY_ANSWER_H
#define EVERY_ANSWER_H

#include "small_card.h"

enum { OUT_OF_RANGE = 1 << 20, DATA_AT = MAIN + 77 };

/* A sound card, with the file inline. */
static inline void put_sound(void)
{
    put_card();
    put_root(&plain_root);
    put(block_at(ROOT_AT) + 364, 0, 4); /* the bucket's other block is a hole */
    put_file(DATA, SIZE);
}

static inline uint8_t *table_entry(uint32_t number)
{
    return block_at(NAT) + 9 * number;
}

/* The file's first address. */
static inline void put_address(uint32_t address)
{
    put_file(0, 2 * BLOCK);
    put(block_at(FILE_AT) + 360, address, 4);
}

static inline void put_data(void)
{
    put_address(DATA_AT);
}

static inline void put_hole(void)
{
    put_address(0);
}

static inline void put_outside(void)
{
    put_address(MAIN - 1);
}

static inline void put_unused(void)
{
    put(table_entry(FILE_NUMBER) + 5, 0, 4);
}

/* Where the root's entry for the file leads. */
static inline void put_out_of_range(void)
{
    struct entries entries = entries_in_block(ENTRIES_AT);
    put_entry(&entries, 2, OUT_OF_RANGE, road, strlen(road));
}

static inline void put_node_outside(void)
{
    put(table_entry(FILE_NUMBER) + 5, CARD_BLOCKS, 4);
}

static inline void put_foreign(void)
{
    block_at(FILE_AT)[4072] ^= 1;
}

static inline void put_kind(void)
{
    put(block_at(FILE_AT), DIRECTORY, 2);
}

static inline void put_malformed(void)
{
    struct entries entries = entries_in_block(ENTRIES_AT);
    put_entry(&entries, 1, FILE_NUMBER, road, 0);
}

static inline void put_nothing(void)
{
}

/* Pulls of every answer behind opening. */
static const struct pull_case {
    const char *what;
    void (*change)(void);
    const char *path;
    uint32_t index, answer;
} pulls[] = {
    {"inline data", put_nothing, road, 0, HARPTIMBER_DATA},
    {"data", put_data, road, 0, HARPTIMBER_DATA},
    {"a hole", put_hole, road, 0, HARPTIMBER_HOLE},
    {"no name", put_nothing, "r", 0, HARPTIMBER_NO_NAME},
    {"no name on a way", put_nothing, "r/x", 7, HARPTIMBER_NO_NAME},
    {"past the end", put_nothing, road, 1, HARPTIMBER_PAST_END},
    {"far past the end", put_nothing, road, UINT32_MAX, HARPTIMBER_PAST_END},
    {"a number not in use", put_unused, road, 0, HARPTIMBER_NO_NODE},
    {"a number out of range", put_out_of_range, road, 0, HARPTIMBER_NO_NODE},
    {"a node outside", put_node_outside, road, 0, HARPTIMBER_NODE_OUTSIDE},
    {"a foreign node", put_foreign, road, 0, HARPTIMBER_FOREIGN_NODE},
    {"a kind that isn't read", put_kind, road, 0, HARPTIMBER_KIND_NOT_READ},
    {"data outside", put_outside, road, 0, HARPTIMBER_DATA_OUTSIDE},
    {"a malformed slot", put_malformed, road, 0, HARPTIMBER_MALFORMED_SLOT},
};

static inline void put_pull(const struct pull_case *pull)
{
    put_sound();
    pull->change();
}

static inline void no_superblock(uint8_t *image)
{
    image[1024] ^= 1;
}

static inline void with_features(uint8_t *image)
{
    image[1024 + 2180] = 1;
}

static inline void no_checkpoint(uint8_t *image)
{
    image[CHECKPOINT * BLOCK] ^= 1;
}

static inline void marked_as_damaged(uint8_t *image)
{
    image[CHECKPOINT * BLOCK + 132] |= 8;
    put_checksum(image + CHECKPOINT * BLOCK);
}

/* Cards that don't open. */
static const struct unopened {
    void (*damage)(uint8_t *image);
    uint32_t answer;
} unopened[] = {
    {no_superblock, HARPTIMBER_NO_SUPERBLOCK},
    {with_features, HARPTIMBER_FEATURES},
    {no_checkpoint, HARPTIMBER_NO_CHECKPOINT},
    {marked_as_damaged, HARPTIMBER_UNREADABLE},
};

#endif
