/*
 * Pulls of inline files, and through inline root directories, from C: the answer, the other numbers and every lent byte, on both
 * sides of each bound. Compares by the lists that they leave.
 */
#include "check.h"
#include "pulling.h"

enum { ROOM = 3688, ROOM_WITH_XATTR = 3488, SLOTS = 182 };

/* What a walk rests on: the root's inode, with a block of entries or without, and the file's inode if it comes so far. */
enum walked { ROOT_ALONE, THROUGH_INODE, THROUGH_BLOCK };

static int rests_on(enum walked walked)
{
    static const uint32_t numbers[] = {ROOT, FILE_NUMBER};
    static const uint32_t through_inode[] = {ROOT_AT, FILE_AT}, through_block[] = {ROOT_AT, ENTRIES_AT, FILE_AT};
    const uint32_t *read = walked == THROUGH_BLOCK ? through_block : through_inode;
    uint32_t node_count = walked == ROOT_ALONE ? 1 : 2, block_count = walked == THROUGH_BLOCK ? 3 : node_count;
    return lists(nodes, sizeof nodes, got.node_count, numbers, node_count) &&
           lists(blocks, sizeof blocks, got.block_count, read, block_count);
}

static void expect(const char *what, uint64_t value, uint32_t answer, uint32_t count, enum walked walked)
{
    int numbers = got.answer == answer && got.byte_count == count;
    if (fails(numbers && rests_on(walked) && buffer_is(answer, count)))
        printf("FAILED %s %" PRIu64 ": answer %" PRIu32 " and %" PRIu32 " bytes, expected %" PRIu32 " and %" PRIu32
               "; %" PRIu32 " nodes and %" PRIu32 " blocks; buffer %s\n",
               what, value, got.answer, got.byte_count, answer, count, got.node_count, got.block_count,
               buffer_is(answer, count) ? "as expected" : "other");
}

static const struct inode inline_root = {.mode = DIRECTORY, .inline_flags = DENTRY, .depth = 1, .size = ROOM_WITH_XATTR};

/* Sizes on both sides of each room, in an inode that keeps some for attributes and in one that doesn't. */
static void test_sizes(void)
{
    static const uint64_t sizes[] = {0,    1,    2,    3343, 3344, 3345, 3487,       3488,             3489,      3687,
                                     3688, 3689, 4095, 4096, 4097, 8192, 1ULL << 32, (1ULL << 32) + 1, UINT64_MAX};
    static const uint8_t flags[] = {DATA, DATA | XATTR, DATA | 8, DATA | XATTR | 8 | 0x10 | 0x40 | 0x80};
    static const uint32_t indexes[] = {0, 1, 2, UINT32_MAX};
    put_root(&plain_root);
    for (size_t i = 0; i < COUNT_OF(sizes) * COUNT_OF(flags); i++) {
        uint64_t size = sizes[i / COUNT_OF(flags)];
        uint8_t flag = flags[i % COUNT_OF(flags)];
        put_file(flag, size);
        for (size_t j = 0; j < COUNT_OF(indexes); j++) {
            uint32_t answer = HARPTIMBER_PAST_END;
            if (size > ((flag & XATTR) != 0 ? ROOM_WITH_XATTR : ROOM))
                answer = HARPTIMBER_KIND_NOT_READ;
            else if (indexes[j] == 0 && size > 0)
                answer = HARPTIMBER_DATA;
            pull(road, indexes[j]);
            expect("an inline file of size", size, answer, answer == HARPTIMBER_DATA ? (uint32_t)size : 0, THROUGH_BLOCK);
        }
    }
}

/* Every inline byte of a file: without inline data, its first address is junk. */
static void test_file_flags(void)
{
    put_root(&plain_root);
    for (uint32_t flags = 0; flags < 256; flags++) {
        put_file((uint8_t)flags, 100);
        uint32_t answer = HARPTIMBER_DATA_OUTSIDE;
        if ((flags & (EXTRA | DENTRY)) != 0)
            answer = HARPTIMBER_KIND_NOT_READ;
        else if ((flags & DATA) != 0)
            answer = HARPTIMBER_DATA;
        pull(road, 0);
        expect("a file with inline flags", flags, answer, answer == HARPTIMBER_DATA ? 100 : 0, THROUGH_BLOCK);
    }
}

/* And of the root: without inline entries, they are in its block. */
static void test_root_flags(void)
{
    put_file(DATA, 100);
    for (uint32_t flags = 0; flags < 256; flags++) {
        struct inode root = inline_root;
        root.inline_flags = (uint8_t)flags;
        put_root(&root);
        pull(road, 0);
        if ((flags & (EXTRA | DATA)) != 0)
            expect("a root with inline flags", flags, HARPTIMBER_KIND_NOT_READ, 0, ROOT_ALONE);
        else
            expect("a root with inline flags", flags, HARPTIMBER_DATA, 100, (flags & DENTRY) != 0 ? THROUGH_INODE : THROUGH_BLOCK);
    }
}

/* A pull through an inline root, with and without the attribute flag. */
static void expect_root(const char *what, uint64_t value, struct inode root, uint32_t answer)
{
    for (int with = 0; with < 2; with++) {
        root.inline_flags = (uint8_t)(DENTRY | (with ? XATTR : 0));
        put_root(&root);
        pull(road, 0);
        expect(what, value, answer, answer == HARPTIMBER_DATA ? 100 : 0, answer == HARPTIMBER_DATA ? THROUGH_INODE : ROOT_ALONE);
    }
}

/* Its size, depth and level, each around its bound; a size of 0 comes last. */
static void test_roots(void)
{
    static const uint64_t sizes[] = {1, 4, 3487, 3488, 3489, 3688, 4096, (1ULL << 32) + 1, UINT64_MAX};
    static const uint32_t depths[] = {0, 1, 2, 31, 62, 63, 64, UINT32_MAX}, levels[] = {0, 1, 29, 30, 31, 255};
    put_file(DATA | XATTR, 100);
    struct inode root = inline_root;
    for (size_t i = 0; i < COUNT_OF(sizes); i++) {
        uint32_t answer = sizes[i] > ROOM_WITH_XATTR ? HARPTIMBER_KIND_NOT_READ : HARPTIMBER_DATA;
        root.size = sizes[i];
        expect_root("an inline root of size", sizes[i], root, answer);
    }
    for (uint64_t size = 0; size < 2; size++) {
        uint32_t read = size == 0 ? HARPTIMBER_NO_NAME : HARPTIMBER_DATA;
        for (size_t i = 0; i < COUNT_OF(depths); i++) {
            root = (struct inode){.mode = DIRECTORY, .size = size, .depth = depths[i]};
            expect_root("an inline root of depth", depths[i], root, depths[i] > 63 ? HARPTIMBER_KIND_NOT_READ : read);
        }
        for (size_t i = 0; i < COUNT_OF(levels); i++) {
            root = (struct inode){.mode = DIRECTORY, .size = size, .level = (uint8_t)levels[i]};
            expect_root("an inline root of level", levels[i], root, levels[i] > 30 ? HARPTIMBER_KIND_NOT_READ : read);
        }
    }
}

/* One inline entry, in this slot, that says its name has so many bytes. */
static void expect_slot(size_t slot, const char *sought, size_t len, uint32_t answer)
{
    struct entries entries = entries_in_inode(ROOT_AT);
    put_root(&inline_root);
    clear_entries(&entries);
    put_entry(&entries, slot, FILE_NUMBER, sought, len);
    pull(sought, 0);
    expect("an inline entry in slot", slot, answer, answer == HARPTIMBER_DATA ? 100 : 0,
           answer == HARPTIMBER_DATA ? THROUGH_INODE : ROOT_ALONE);
}

/* Names that end with the last slot, and one byte or one slot further. The map's last two bits belong to no slot. */
static void test_slots(void)
{
    char longest[256] = "";
    memset(longest, 'n', 255);
    put_file(DATA, 100);
    for (size_t slot = 0; slot < SLOTS; slot++) {
        expect_slot(slot, road, 8, HARPTIMBER_DATA);
        expect_slot(slot, "road.bin2", 9, slot < SLOTS - 1 ? HARPTIMBER_DATA : HARPTIMBER_MALFORMED_SLOT);
        expect_slot(slot, longest, 255, slot <= SLOTS - 32 ? HARPTIMBER_DATA : HARPTIMBER_MALFORMED_SLOT);
        expect_slot(slot, road, 0, HARPTIMBER_MALFORMED_SLOT);
        expect_slot(slot, road, 256, HARPTIMBER_MALFORMED_SLOT);
    }
    for (size_t slot = SLOTS; slot < SLOTS + 58; slot++) /* up to the reserved bytes' last bit */
        expect_slot(slot, road, 8, HARPTIMBER_NO_NAME);
}

/* Inode and inline contents are one block. A block of entries that an inline root doesn't have decides nothing. */
static void test_compares(void)
{
    put_root(&inline_root);
    put_file(DATA, 100);
    memcpy(fresh, card, sizeof card);
    pull(road, 0);
    expect("the file to compare", 100, HARPTIMBER_DATA, 100, THROUGH_INODE);
    expect_compared(FILE_AT, CONTENTS, HARPTIMBER_CHANGED);
    expect_compared(FILE_AT, CONTENTS + 100, HARPTIMBER_CHANGED);
    expect_compared(ROOT_AT, CONTENTS, HARPTIMBER_CHANGED);
    expect_compared(ROOT_AT, BLOCK - 1, HARPTIMBER_CHANGED);
    expect_compared(ENTRIES_AT, 0, HARPTIMBER_SAME);
    expect_compared(FILE_AT - 1, CONTENTS, HARPTIMBER_SAME);
}

int main(void)
{
    put_card();
    test_sizes();
    test_file_flags();
    test_root_flags();
    test_roots();
    test_slots();
    test_compares();
    return finish();
}
