/*
 * A small card that opens, with a root directory and a file, for calls that walk. What no rule fixes is a pattern and no zeros, so
 * that bytes from a wrong place are seen. The file's inode is the card's last block.
 */
#ifndef SMALL_CARD_H
#define SMALL_CARD_H

#include <stdint.h>
#include <string.h>

#include "harptimber.h"

#define JUNK 0xC3

enum { BLOCK = HARPTIMBER_BLOCK_BYTES, AREA = 2 * HARPTIMBER_SEGMENT_BLOCKS };

/* Where the areas start, in blocks; there is no SSA. */
enum {
    CHECKPOINT = 2,
    SIT = CHECKPOINT + AREA,
    NAT = SIT + AREA,
    MAIN = NAT + AREA,
    CARD_BLOCKS = MAIN + HARPTIMBER_SEGMENT_BLOCKS
};

/* What modes and inline flags say. */
enum { DIRECTORY = 0x41ED, REGULAR = 0x81A4 };
enum { XATTR = 1, DATA = 2, DENTRY = 4, EXTRA = 0x20 };

/* Where inline contents start in an inode. */
enum { CONTENTS = 364 };

/* Two inodes, where they are, and where the root directory has entries if they aren't inline. */
enum { ROOT = 3, FILE_NUMBER = 7, ROOT_AT = MAIN + 5, ENTRIES_AT = MAIN + 9, FILE_AT = CARD_BLOCKS - 1 };

/* The file's name, and its bytes where it matters little how many they are. */
static const char road[] = "road.bin";
enum { SIZE = 100 };

static uint8_t card[CARD_BLOCKS * BLOCK];

static inline uint8_t *block_at(uint32_t number)
{
    return card + (size_t)number * BLOCK;
}

static inline void put(uint8_t *at, uint64_t number, size_t len)
{
    for (size_t i = 0; i < len; i++)
        at[i] = (uint8_t)(number >> 8 * i);
}

static inline void put_superblock(void)
{
    static const struct {
        uint32_t at, number;
    } fields[] = {
        {0, 0xF2F52010}, {8, 9},   {12, 3},          {16, 12},         {20, 9},   {24, 1},   {28, 1},    {36, CARD_BLOCKS},
        {48, 7},         {52, 2},  {56, 2},          {60, 2},          {64, 0},   {68, 1},   {96, ROOT}, {100, 1},
        {104, 2},        {72, CHECKPOINT}, {76, CHECKPOINT}, {80, SIT}, {84, NAT}, {88, MAIN}, {92, MAIN},
    };
    for (size_t i = 0; i < sizeof fields / sizeof *fields; i++)
        put(card + 1024 + fields[i].at, fields[i].number, 4);
}

/* Ends a checkpoint block with the checksum of what lies before. */
static inline void put_checksum(uint8_t *block)
{
    uint32_t sum = 0xF2F52010;
    put(block + 164, BLOCK - 4, 4);
    for (size_t i = 0; i < BLOCK - 4; i++) {
        sum ^= block[i];
        for (int bit = 0; bit < 8; bit++)
            sum = sum >> 1 ^ ((sum & 1) != 0 ? 0xEDB88320 : 0);
    }
    put(block + BLOCK - 4, sum, 4);
}

/* A compact pack of three blocks; in the middle one the journal is empty. */
static inline void put_checkpoint(void)
{
    uint8_t *first = block_at(CHECKPOINT), *last = block_at(CHECKPOINT + 2);
    put(first, 1, 8);
    put(first + 132, 5, 4);
    put(first + 136, 3, 4);
    put(first + 140, 1, 4);
    put(first + 156, 64, 4);
    put(first + 160, 64, 4);
    put_checksum(first);
    put(last, 1, 8);
    put_checksum(last);
}

/* An inode's fields that decide. */
struct inode {
    uint16_t mode;
    uint8_t inline_flags, level;
    uint32_t depth;
    uint64_t size;
};

/* Makes a block an inode, and the table lead there. */
static inline void put_inode(uint32_t number, uint32_t address, const struct inode *inode)
{
    uint8_t *block = block_at(address), *entry = block_at(NAT) + 9 * number;
    memset(block, JUNK, BLOCK);
    put(block, inode->mode, 2);
    block[3] = inode->inline_flags;
    put(block + 16, inode->size, 8);
    put(block + 72, inode->depth, 4);
    block[347] = inode->level;
    put(block + 4072, number, 4);
    put(block + 4076, number, 4);
    put(block + 4080, 5, 4); /* place 0: only bits from 8 on are the place */
    put(entry + 1, number, 4);
    put(entry + 5, address, 4);
}

/* Directory entries in a block, or in an inode behind its first address. */
struct entries {
    uint8_t *bytes;
    size_t slots, map_bytes, names_at;
};

static inline struct entries entries_in_block(uint32_t address)
{
    return (struct entries){block_at(address), 214, 27, 2384};
}

static inline struct entries entries_in_inode(uint32_t address)
{
    return (struct entries){block_at(address) + CONTENTS, 182, 23, 2032};
}

static inline void clear_entries(const struct entries *entries)
{
    memset(entries->bytes, 0, entries->map_bytes);
}

/*
 * An entry that leads to an inode, and says that its name has so many bytes. Of its slots only the first one's bit is
 * set, and as much of the name is written as there are slots for.
 */
static inline void put_entry(const struct entries *entries, size_t slot, uint32_t inode, const char *name, size_t len)
{
    uint8_t *entry = entries->bytes + 30 + 11 * slot;
    size_t name_len = strlen(name), room = slot < entries->slots ? 8 * (entries->slots - slot) : 0;
    entries->bytes[slot / 8] |= (uint8_t)(1 << slot % 8);
    put(entry, harptimber_name_hash((const uint8_t *)name, name_len).hash, 4);
    put(entry + 4, inode, 4);
    put(entry + 8, len, 2);
    memcpy(entries->bytes + entries->names_at + 8 * slot, name, name_len < room ? name_len : room);
}

/* The file, with these inline flags; each byte of its contents is another than the one before, as far as there is room. */
static inline void put_file(uint8_t flags, uint64_t size)
{
    enum { ROOM = 3688 };
    struct inode inode = {.mode = REGULAR, .inline_flags = flags, .level = 99, .depth = 99, .size = size};
    put_inode(FILE_NUMBER, FILE_AT, &inode);
    for (uint64_t i = 0; i < size && i < ROOM; i++)
        block_at(FILE_AT)[CONTENTS + i] = (uint8_t)(7 * i + i / 256 + 1);
}

/* A root directory with the file's entry in a block, and inline in slot 3. */
static inline void put_root(const struct inode *inode)
{
    put_inode(ROOT, ROOT_AT, inode);
    struct entries in_block = entries_in_block(ENTRIES_AT), in_inode = entries_in_inode(ROOT_AT);
    put(block_at(ROOT_AT) + 360, ENTRIES_AT, 4);
    clear_entries(&in_block);
    clear_entries(&in_inode);
    put_entry(&in_block, 2, FILE_NUMBER, road, strlen(road));
    put_entry(&in_inode, 3, FILE_NUMBER, road, strlen(road));
}

/* One that isn't inline. */
static const struct inode plain_root = {.mode = DIRECTORY, .depth = 1, .size = BLOCK};

/* A card without inodes. */
static inline void put_card(void)
{
    memset(card, 0, sizeof card);
    memset(block_at(MAIN), JUNK, (size_t)(CARD_BLOCKS - MAIN) * BLOCK);
    put_superblock();
    put_checkpoint();
}

#endif
