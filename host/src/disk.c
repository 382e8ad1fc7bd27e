#include "disk.h"

#include <inttypes.h>
#include <stdio.h>
#include <string.h>

uint16_t disk16(const uint8_t *bytes)
{
    return (uint16_t)(bytes[0] | bytes[1] << 8);
}

uint32_t disk32(const uint8_t *bytes)
{
    return disk16(bytes) | (uint32_t)disk16(bytes + 2) << 16;
}

uint64_t disk64(const uint8_t *bytes)
{
    return disk32(bytes) | (uint64_t)disk32(bytes + 4) << 32;
}

const uint8_t *disk_block(const struct card *card, uint32_t number)
{
    if (number >= card->len / BLOCK_SIZE)
        return NULL;
    return mapping_bytes(&card->file, card->offset + (uint64_t)number * BLOCK_SIZE, BLOCK_SIZE);
}

bool disk_map_bit(const uint8_t *map, uint32_t i)
{
    return (map[i / 8] >> (7 - i % 8) & 1) != 0;
}

struct disk_inode disk_inode_of(const uint8_t *block)
{
    return (struct disk_inode){
        .mode = disk16(block),
        .advise = block[2],
        .inline_flags = block[3],
        .links = disk32(block + 12),
        .size = disk64(block + 16),
        .depth = disk32(block + 72),
        .flags = disk32(block + 80),
        .dir_level = block[347],
    };
}

uint32_t disk_inline_room(const struct disk_inode *inode)
{
    bool keeps = (inode->inline_flags & (DISK_INLINE_XATTR | DISK_INLINE_DENTRY)) != 0;
    return DISK_NODES - DISK_INLINE_AT - (keeps ? DISK_XATTR_BYTES : 0);
}

uint32_t disk_place(const uint8_t *block)
{
    return disk32(block + DISK_FOOTER_FLAG) >> 3;
}

const uint8_t *disk_superblock(const struct card *card, uint32_t copy)
{
    const uint8_t *block = disk_block(card, copy);
    return block == NULL ? NULL : block + DISK_SUPERBLOCK_AT;
}

const struct disk_area disk_areas[DISK_AREAS] = {
    [DISK_CHECKPOINT] = {"checkpoint", "cp_blkaddr", 76, 52},
    [DISK_SIT] = {"SIT", "sit_blkaddr", 80, 56},
    [DISK_NAT] = {"NAT", "nat_blkaddr", 84, 60},
    [3] = {"SSA", "ssa_blkaddr", 88, 64},
    [DISK_MAIN] = {"main", "main_blkaddr", 92, 68},
};

uint32_t disk_area_first(const uint8_t *superblock, int area)
{
    return disk32(superblock + disk_areas[area].first_at);
}

uint32_t disk_area_segments(const uint8_t *superblock, int area)
{
    return disk32(superblock + disk_areas[area].segments_at);
}

uint64_t disk_area_end(const uint8_t *superblock, int area)
{
    return disk_area_first(superblock, area) + (uint64_t)DISK_SEGMENT_BLOCKS * disk_area_segments(superblock, area);
}

uint32_t disk_crc32(uint32_t start, const uint8_t *bytes, size_t len)
{
    uint32_t crc = start;
    for (size_t i = 0; i < len; i++) {
        crc ^= bytes[i];
        for (int bit = 0; bit < 8; bit++)
            crc = crc >> 1 ^ ((crc & 1) != 0 ? 0xEDB88320 : 0);
    }
    return crc;
}

/* dump.f2fs has no word for atomic_write, disabled_quick and what came after it; these are the Linux header's. */
const char *const disk_features[DISK_BITS] = {
    "encrypt",       "blkzoned",   "atomic_write",          "extra_attr",   "project_quota", "inode_checksum",
    "flexible_inline_xattr",       "quota_ino",             "inode_crtime", "lost_found",    "verity",
    "sb_checksum",   "casefold",   "compression",           "ro",           "device_alias",  "packed_ssa",
};

const char *const disk_flags[DISK_BITS] = {
    "unmount",  "orphan_inodes", "compacted_summary", "error",           "fsck",     "fastboot",       "crc",      "nat_bits",
    "trimmed",  "allow_nocrc",   "large_nat_bitmap",  "quota_need_fsck", "disabled", "disabled_quick", "resizefs",
};

const char *disk_bit_name(const char *const names[], int bit, char room[DISK_BIT_ROOM])
{
    if (names[bit] != NULL)
        return names[bit];
    snprintf(room, DISK_BIT_ROOM, "0x%" PRIx32, (uint32_t)1 << bit);
    return room;
}

void disk_bit_names(char *text, size_t room, const char *const names[], uint32_t word)
{
    const char *space = "";
    for (int bit = 0; bit < DISK_BITS; bit++)
        if ((word >> bit & 1) != 0) {
            char number[DISK_BIT_ROOM];
            size_t len = strlen(text);
            snprintf(text + len, room - len, "%s%s", space, disk_bit_name(names, bit, number));
            space = " ";
        }
}

/* Writes a character in UTF-8, and returns what follows it. */
static char *put_utf8(char *text, uint32_t character)
{
    if (character < 0x80) {
        *text++ = (char)character;
        return text;
    }
    int more = character < 0x800 ? 1 : character < 0x10000 ? 2 : 3;
    static const uint8_t leads[] = {0, 0xC0, 0xE0, 0xF0};
    *text++ = (char)(leads[more] | character >> 6 * more);
    while (more-- > 0)
        *text++ = (char)(0x80 | (character >> 6 * more & 0x3F));
    return text;
}

void disk_label(const uint8_t *superblock, char label[DISK_LABEL_ROOM])
{
    const uint8_t *units = superblock + 124;
    for (int i = 0; i < DISK_LABEL_UNITS && disk16(units + 2 * i) != 0; i++) {
        uint32_t unit = disk16(units + 2 * i);
        uint32_t next = i + 1 < DISK_LABEL_UNITS ? disk16(units + 2 * i + 2) : 0;
        bool pair = unit >= 0xD800 && unit < 0xDC00 && next >= 0xDC00 && next < 0xE000;
        if (pair) {
            unit = 0x10000 + ((unit - 0xD800) << 10) + (next - 0xDC00);
            i++;
        }
        label = put_utf8(label, unit >= 0xD800 && unit < 0xE000 ? 0xFFFD : unit);
    }
    *label = '\0';
}
