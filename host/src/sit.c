#include "sit.h"

#include "disk.h"

/* An entry: 16 bits that have the count below the type, the map, and a time. */
enum { ENTRY_BYTES = 74, COUNT_BITS = 0x3FF, MAP_AT = 2, MAP_BYTES = 64 };

/* Entries of a block of the table, and of the journal behind its count: a segment's number, then the entry. */
enum { ENTRIES_A_BLOCK = 55, JOURNAL_ENTRIES_AT = 2, NUMBER_BYTES = 4 };

static uint32_t ones_of(const uint8_t *map)
{
    uint32_t ones = 0;
    for (size_t i = 0; i < 8 * MAP_BYTES; i++)
        ones += map[i / 8] >> i % 8 & 1U;
    return ones;
}

static struct sit_entry entry_of(const uint8_t *bytes, bool in_journal, uint32_t block)
{
    return (struct sit_entry){
        .count = disk16(bytes) & COUNT_BITS,
        .ones = ones_of(bytes + MAP_AT),
        .in_journal = in_journal,
        .block = block,
    };
}

bool sit_is_off(const struct sit_entry *entry)
{
    return entry->count != entry->ones;
}

/* Then the rules of opening hold, and the journal's block, for one, lies on the card. */
static bool opens(const struct opening *opening)
{
    return opening->answer == HARPTIMBER_DATA && opening->agrees;
}

static const uint8_t *journal_of(const struct opening *opening, const struct card *card)
{
    return disk_block(card, opening->sit_journal.block) + opening->sit_journal.at;
}

uint32_t sit_journal_count(const struct opening *opening, const struct card *card)
{
    return opens(opening) ? disk16(journal_of(opening, card)) : 0;
}

/* The table's entries of all segments. Returns false if one isn't on the card. */
static bool read_table(struct sit *sit, const struct opening *opening, const struct card *card, const uint8_t *superblock)
{
    const uint8_t *copies = disk_block(card, opening->pack_first) + DISK_COPIES_AT;
    uint32_t first = disk_area_first(superblock, DISK_SIT);
    uint32_t half = DISK_SEGMENT_BLOCKS / 2 * disk_area_segments(superblock, DISK_SIT);
    for (uint32_t i = 0; i < sit->segments; i++) {
        uint32_t number = i / ENTRIES_A_BLOCK;
        uint32_t block = first + number + (disk_map_bit(copies, number) ? half : 0);
        const uint8_t *bytes = disk_block(card, block);
        if (bytes == NULL)
            return false;
        sit->entries[i] = entry_of(bytes + i % ENTRIES_A_BLOCK * ENTRY_BYTES, false, block);
    }
    return true;
}

/* The journal's entries over the table's, the last one first: of two for one segment the first decides. */
static void read_journal(struct sit *sit, const struct opening *opening, const struct card *card, uint32_t count)
{
    const uint8_t *entries = journal_of(opening, card) + JOURNAL_ENTRIES_AT;
    for (uint32_t i = count; i-- > 0;) {
        const uint8_t *bytes = entries + i * (NUMBER_BYTES + ENTRY_BYTES);
        uint32_t segment = disk32(bytes);
        if (segment < sit->segments)
            sit->entries[segment] = entry_of(bytes + NUMBER_BYTES, true, opening->sit_journal.block);
    }
}

bool sit_read(struct sit *sit, const struct opening *opening, const struct card *card)
{
    uint32_t count = sit_journal_count(opening, card);
    if (!opens(opening) || count > SIT_JOURNAL_MOST)
        return false;
    /* Where the card is changed meanwhile, its superblock may say anything by now. */
    const uint8_t *superblock = disk_superblock(card, (uint32_t)opening->copy_in_use);
    sit->segments = disk_area_segments(superblock, DISK_MAIN);
    if (sit->segments > HARPTIMBER_SEGMENTS_MOST || !read_table(sit, opening, card, superblock))
        return false;
    read_journal(sit, opening, card, count);
    return true;
}
