#include "nat.h"

#include "disk.h"
#include "opening.h"

/* An entry: a version, then the inode and the address. A segment of the table is there twice. */
enum { ENTRY_BYTES = 9, INODE_AT = 1, ADDRESS_AT = 5, ENTRIES_A_BLOCK = 455 };

/* The journal's entries stand behind their count, each behind its number. */
enum { JOURNAL_ENTRIES_AT = 2, NUMBER_BYTES = 4 };

const uint8_t *nat_journal_entry(const uint8_t *journal, uint32_t i)
{
    return journal + JOURNAL_ENTRIES_AT + (size_t)NAT_JOURNAL_BYTES * i;
}

/* The journal's entry for a number; null if it has none. */
static const uint8_t *find_in_journal(const struct opening *opening, const struct card *card, uint32_t number)
{
    const uint8_t *journal = disk_block(card, opening->nat_journal.block) + opening->nat_journal.at;
    for (uint32_t i = 0; i < disk16(journal); i++)
        if (disk32(nat_journal_entry(journal, i)) == number)
            return nat_journal_entry(journal, i) + NUMBER_BYTES;
    return NULL;
}

/* The table's, in the copy in use of its block. The second copy of a segment lies right behind the first. */
static const uint8_t *find_in_table(const struct opening *opening, const struct card *card, const uint8_t *superblock,
                                    uint32_t number)
{
    const uint8_t *first = disk_block(card, opening->pack_first);
    const uint8_t *copies = first + DISK_COPIES_AT + disk32(first + 156);
    uint32_t block = number / ENTRIES_A_BLOCK, in_segment = block % DISK_SEGMENT_BLOCKS;
    uint32_t second = disk_map_bit(copies, block) ? DISK_SEGMENT_BLOCKS : 0;
    uint32_t at = disk_area_first(superblock, DISK_NAT) + 2 * (block - in_segment) + in_segment + second;
    return disk_block(card, at) + (size_t)ENTRY_BYTES * (number % ENTRIES_A_BLOCK);
}

struct harptimber_entry nat_lookup(const struct card *card, uint32_t number)
{
    struct opening opening;
    uint32_t judged = opening_judge(&opening, card);
    if (judged != HARPTIMBER_DATA)
        return (struct harptimber_entry){.answer = judged};
    const uint8_t *superblock = disk_superblock(card, (uint32_t)opening.copy_in_use);
    uint64_t blocks = (uint64_t)DISK_SEGMENT_BLOCKS / 2 * disk_area_segments(superblock, DISK_NAT);
    if (number == 0 || number >= ENTRIES_A_BLOCK * blocks)
        return (struct harptimber_entry){.answer = HARPTIMBER_NO_NODE};
    const uint8_t *entry = find_in_journal(&opening, card, number);
    if (entry == NULL)
        entry = find_in_table(&opening, card, superblock, number);
    return (struct harptimber_entry){HARPTIMBER_DATA, disk32(entry + INODE_AT), disk32(entry + ADDRESS_AT)};
}
