/*
 * A card's own blocks, read in C for what is said to people. Nothing of this is proved and no answer rests on it: the library
 * judges, and this finds words for its judgement. Every function takes any bytes.
 */
#ifndef DISK_H
#define DISK_H

#include <stdint.h>

#include "card.h"

/* The little-endian number at some bytes. */
uint16_t disk16(const uint8_t *bytes);
uint32_t disk32(const uint8_t *bytes);
uint64_t disk64(const uint8_t *bytes);

/* A block of the card; null if it has none of that number. */
const uint8_t *disk_block(const struct card *card, uint32_t number);

/* A bit of the maps that a checkpoint has, which count from a byte's top bit; those of directories don't. */
bool disk_map_bit(const uint8_t *map, uint32_t i);

/* Where a pack's first block has the maps that choose the copies of the tables' blocks: the SIT's, and behind it the NAT's. */
enum { DISK_COPIES_AT = 192 };

/* The root directory's inode number, on every card that opens. */
enum { DISK_ROOT = 3 };

/* An inode's fields that words speak of, under the Linux header's names. */
struct disk_inode {
    uint16_t mode;
    uint8_t advise, inline_flags;
    uint32_t links;
    uint64_t size;
    uint32_t depth, flags;
    uint8_t dir_level;
};

enum {
    DISK_INLINE_XATTR = 0x01,
    DISK_INLINE_DATA = 0x02,
    DISK_INLINE_DENTRY = 0x04,
    DISK_EXTRA_ATTR = 0x20,
    DISK_ADVISE_ENCRYPT = 0x04,
    DISK_FLAG_COMPRESSED = 0x04
};

/* The marks of inodes that have their contents in themselves: a file's bytes, or a directory's entries. */
enum { DISK_INLINE_MARKS = DISK_INLINE_DATA | DISK_INLINE_DENTRY };

/* The kinds that are read, by a mode's top four bits, and the most depth and level of a directory that is. */
enum { DISK_DIRECTORY = 4, DISK_REGULAR = 8, DISK_MOST_DEPTH = 63, DISK_MOST_DIR_LEVEL = 30 };

/* Where an inode has its addresses and its five node numbers. */
enum { DISK_ADDRESSES = 360, DISK_NODES = 4052 };

/* Inline contents start behind the first address. The last 50 are kept for inline attributes, by a directory always. */
enum { DISK_INLINE_AT = DISK_ADDRESSES + 4, DISK_XATTR_BYTES = 4 * 50 };

/* Where every node block has its number, its inode's and, eight times, its place. */
enum { DISK_FOOTER_NUMBER = 4072, DISK_FOOTER_INODE = 4076, DISK_FOOTER_FLAG = 4080 };

struct disk_inode disk_inode_of(const uint8_t *block);

/* How many bytes an inode has room for, if its contents are inline. */
uint32_t disk_inline_room(const struct disk_inode *inode);

/* A node's place in its file, 0 for the inode. */
uint32_t disk_place(const uint8_t *block);

/* The copies of the superblock start so many bytes into blocks 0 and 1, with this mark. */
enum { DISK_SUPERBLOCK_AT = 1024 };
static const uint32_t DISK_MARK = 0xF2F52010;

/* Copy 0 or 1 of the superblock; null if the card hasn't that block. */
const uint8_t *disk_superblock(const struct card *card, uint32_t copy);

/* The areas of a card in their order: each one's name, and where a superblock has its first block and its segments. */
struct disk_area {
    const char *name, *field; /* the field is the first block's name in the Linux header */
    size_t first_at, segments_at;
};

enum { DISK_AREAS = 5, DISK_CHECKPOINT = 0, DISK_SIT = 1, DISK_NAT = 2, DISK_MAIN = 4 };

extern const struct disk_area disk_areas[DISK_AREAS];

enum { DISK_SEGMENT_BLOCKS = HARPTIMBER_SEGMENT_BLOCKS };

/* An area's first block, its segments, and the first block behind it, by a superblock. */
uint32_t disk_area_first(const uint8_t *superblock, int area);
uint32_t disk_area_segments(const uint8_t *superblock, int area);
uint64_t disk_area_end(const uint8_t *superblock, int area);

/* The reflected CRC-32 with polynomial EDB88320 over some bytes, from a start value on and without a complement at the end. */
uint32_t disk_crc32(uint32_t start, const uint8_t *bytes, size_t len);

/* The bits of a superblock's features and of a checkpoint's flags, from the lowest, as dump.f2fs names them. */
enum { DISK_BITS = 32 };
extern const char *const disk_features[DISK_BITS], *const disk_flags[DISK_BITS];

/* A bit's name; one that has none is shown as its number, for which there is room. */
enum { DISK_BIT_ROOM = 11 };
const char *disk_bit_name(const char *const names[], int bit, char room[DISK_BIT_ROOM]);

/* Adds the names of the bits that are set to a text, with spaces between, as far as there is room. */
void disk_bit_names(char *text, size_t room, const char *const names[], uint32_t word);

/* Where a superblock has them. */
enum { DISK_BLOCK_COUNT_AT = 36, DISK_PAYLOAD_AT = 1664, DISK_FEATURES_AT = 2180 };

/* A superblock's volume name, in UTF-8; what isn't UTF-16 there becomes U+FFFD. */
enum { DISK_LABEL_UNITS = 512, DISK_LABEL_ROOM = 3 * DISK_LABEL_UNITS + 1 };
void disk_label(const uint8_t *superblock, char label[DISK_LABEL_ROOM]);

/* Flags of a checkpoint. */
enum {
    DISK_UNMOUNT = 0x1,
    DISK_COMPACT = 0x4,
    DISK_ERROR = 0x8,
    DISK_FSCK = 0x10,
    DISK_FASTBOOT = 0x20,
    DISK_LARGE_NAT_MAP = 0x400
};

#endif
