/*
 * The small card with all that a pull can come through: a superblock in its second copy, two checkpoint packs of which the second is
 * newer, numbers in its journal and in the table, a path of eight names through directories with several hash levels and inline ones,
 * and a file with blocks behind every number of nodes.
 */
#ifndef DEEP_CARD_H
#define DEEP_CARD_H

#include "every_answer.h"
#include "paths.h"

enum { SECOND_PACK = CHECKPOINT + HARPTIMBER_SEGMENT_BLOCKS };

/* Indexes whose ways have one node to four, and where their nodes and blocks are. */
enum { WAYS = 4, NODE_NUMBER = 30, NODE_AT = MAIN + 130, WAY_DATA_AT = MAIN + 170 };
static const uint32_t way_indexes[WAYS] = {7, 923 + 9, 923 + 2 * 1018 + 11, 923 + 2 * 1018 + 2 * 1018 * 1018 + 13};

/* Entries without any name of the path, and where the root directory has them. */
enum { DECOYS_AT = MAIN + 190, ROOT_DEPTH = 3 };

/* The copy in the first block is damaged. */
static inline void put_second_copy(void)
{
    memcpy(block_at(1), block_at(0), BLOCK);
    no_superblock(block_at(0));
}

/* A copy of the first pack that is newer than it. */
static inline void put_second_pack(void)
{
    memcpy(block_at(SECOND_PACK), block_at(CHECKPOINT), 3 * (size_t)BLOCK);
    for (uint32_t at = SECOND_PACK; at <= SECOND_PACK + 2; at += 2) {
        put(block_at(at), 2, 8);
        put_checksum(block_at(at));
    }
}

/* Moves a number's entry from the table to the journal in use. */
static inline void put_in_journal(uint32_t number)
{
    uint8_t *journal = block_at(SECOND_PACK + 1), *entry = journal + 2 + 13 * journal[0]++;
    put(entry, number, 4);
    memcpy(entry + 4, table_entry(number), 9);
    memset(table_entry(number), JUNK, 9);
}

/* A node that is no inode: its number, where the table has it, and which place of the file it is. */
static inline void put_node(uint32_t number, uint32_t address, uint32_t place)
{
    struct inode any = {.mode = REGULAR};
    put_inode(number, address, &any);
    put(table_entry(number) + 1, FILE_NUMBER, 4);
    put(block_at(address) + 4076, FILE_NUMBER, 4);
    put(block_at(address) + 4080, 8 * place, 4);
}

/* The way to one of those indexes: each node has the next one's number, and the last one the data's address. */
static inline void put_way(uint32_t which)
{
    struct harptimber_place way = harptimber_file_place(923, way_indexes[which]);
    const uint32_t places[] = {way.place0, way.place1, way.place2, way.place3};
    const uint32_t slots[] = {way.slot0, way.slot1, way.slot2, way.slot3};
    uint8_t *numbers = block_at(FILE_AT) + (way.steps == 1 ? 360 : 4052);
    for (uint32_t i = 1; i < way.steps; i++) {
        uint32_t number = NODE_NUMBER + WAYS * which + i, address = NODE_AT + WAYS * which + i;
        put(numbers + 4 * slots[i - 1], number, 4);
        put_node(number, address, places[i]);
        numbers = block_at(address);
    }
    put(numbers + 4 * slots[way.steps - 1], WAY_DATA_AT + which, 4);
    memset(block_at(WAY_DATA_AT + which), (int)(which + 1), BLOCK);
}

/* Hash levels in the root directory, with the name in the second block of the last one's bucket, and decoys everywhere else. */
static inline void put_levels(const char *name, size_t len)
{
    uint32_t hash = harptimber_name_hash((const uint8_t *)name, len).hash;
    struct entries decoys = entries_in_block(DECOYS_AT);
    clear_entries(&decoys);
    for (size_t slot = 0; slot < 214; slot += 2)
        put_entry(&decoys, slot, FILE_NUMBER, "decoy", 5);
    put(block_at(ROOT_AT) + 72, ROOT_DEPTH, 4);
    for (uint32_t index = 0; index < 14; index++)
        put(block_at(ROOT_AT) + 360 + 4 * index, index == 6 + 2 * (hash % 4) + 1 ? entries_at(0) : (uint32_t)DECOYS_AT, 4);
}

/* The card, with a path of eight names. */
static inline struct path put_deep_card(void)
{
    struct path path = path_of(HARPTIMBER_NAMES_MOST, HARPTIMBER_NAME_BYTES_MOST);
    put_path(&path);
    put_file(0, (uint64_t)(way_indexes[WAYS - 1] + 1) * BLOCK);
    for (uint32_t which = 0; which < WAYS; which++)
        put_way(which);
    put_levels(path.text, HARPTIMBER_NAME_BYTES_MOST);
    put_second_pack();
    put_in_journal(ROOT);
    put_in_journal(FILE_NUMBER);
    put_second_copy();
    return path;
}

#endif
