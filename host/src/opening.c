#include "opening.h"

#include <inttypes.h>
#include <stdarg.h>
#include <stdio.h>
#include <string.h>

#include "disk.h"
#include "nat.h"
#include "text.h"
#include "words.h"

static bool is_zeros(const uint8_t *block)
{
    return *block == 0 && memcmp(block, block + 1, BLOCK_SIZE - 1) == 0;
}

__attribute__((format(printf, 2, 0))) static void add_words(char *why, const char *format, va_list arguments)
{
    size_t len = strlen(why);
    vsnprintf(why + len, WHY_ROOM - len, format, arguments);
}

/* Adds words to a reason, as far as there is room. Returns false, for a rule that fails by it. */
__attribute__((format(printf, 2, 3))) static bool because(char *why, const char *format, ...)
{
    va_list arguments;
    va_start(arguments, format);
    add_words(why, format, arguments);
    va_end(arguments);
    return false;
}

const char *const cause_names[CAUSES] = {
    [CAUSE_ERROR_FLAG] = "error_flag",
    [CAUSE_NEEDS_CHECK_FLAG] = "needs_check_flag",
    [CAUSE_LARGE_NAT_BITMAP] = "large_nat_bitmap",
    [CAUSE_MAPS] = "maps",
    [CAUSE_JOURNAL_PLACE] = "journal_place",
    [CAUSE_JOURNAL_COUNT] = "journal_count",
    [CAUSE_NUMBER_TWICE] = "number_twice",
    [CAUSE_SIT_JOURNAL_COUNT] = "sit_journal_count",
};

/* Adds a cause, with its words behind those of the others. Returns false, for a rule that fails by it. */
__attribute__((format(printf, 3, 4))) static bool caused(struct opening *opening, enum cause cause, const char *format, ...)
{
    va_list arguments;
    if (opening->causes != 0)
        because(opening->why, "; ");
    opening->causes |= cause_bit(cause);
    va_start(arguments, format);
    add_words(opening->why, format, arguments);
    va_end(arguments);
    return false;
}

/* Numbers of a superblock that can be only one. */
static bool fixed_numbers_pass(const uint8_t *copy, char *why)
{
    static const struct {
        const char *name;
        size_t at;
        uint32_t only;
    } fixed[] = {{"log_blocksize", 16, 12}, {"log_blocks_per_seg", 20, 9}, {"root_ino", 96, 3},
                 {"node_ino", 100, 1},      {"meta_ino", 104, 2},          {"segment_count_ckpt", 52, 2}};
    for (size_t i = 0; i < sizeof fixed / sizeof *fixed; i++) {
        uint32_t number = disk32(copy + fixed[i].at);
        if (number != fixed[i].only)
            return because(why, "%s is %" PRIu32 ", not %" PRIu32, fixed[i].name, number, fixed[i].only);
    }
    return true;
}

static bool other_numbers_pass(const uint8_t *copy, char *why)
{
    uint32_t sector = disk32(copy + 8), per_block = disk32(copy + 12);
    uint32_t sit = disk_area_segments(copy, DISK_SIT), nat = disk_area_segments(copy, DISK_NAT);
    if (sector < 9 || sector > 12)
        return because(why, "log_sectorsize is %" PRIu32 ", not 9 to 12", sector);
    if (per_block != 12 - sector)
        return because(why, "log_sectors_per_block is %" PRIu32 ", not %" PRIu32, per_block, 12 - sector);
    if (disk32(copy + 24) == 0 || disk32(copy + 28) == 0)
        return because(why, "%s is 0", disk32(copy + 24) == 0 ? "segs_per_sec" : "secs_per_zone");
    if (sit < 2 || sit % 2 != 0)
        return because(why, "segment_count_sit is %" PRIu32 ", not an even number from 2 on", sit);
    if (nat < 2 || nat % 2 != 0)
        return because(why, "segment_count_nat is %" PRIu32 ", not an even number from 2 on", nat);
    return true;
}

/* Each area starts where the one before ends. */
static bool areas_pass(const uint8_t *copy, char *why)
{
    uint32_t segment0 = disk32(copy + 72), checkpoint = disk_area_first(copy, DISK_CHECKPOINT);
    if (segment0 < 2)
        return because(why, "segment0_blkaddr is %" PRIu32 ", but blocks 0 and 1 have the superblock", segment0);
    if (checkpoint != segment0)
        return because(why, "cp_blkaddr is %" PRIu32 ", not %" PRIu32 " as segment0_blkaddr is", checkpoint, segment0);
    for (int area = 1; area < DISK_AREAS; area++) {
        uint32_t first = disk_area_first(copy, area);
        uint64_t end = disk_area_end(copy, area - 1);
        if (first != end)
            return because(why, "%s is %" PRIu32 ", not %" PRIu64 ", where the %s area ends", disk_areas[area].field, first,
                           end, disk_areas[area - 1].name);
    }
    return true;
}

static bool ends_pass(const uint8_t *copy, uint64_t image_blocks, char *why)
{
    uint64_t main_end = disk_area_end(copy, DISK_MAIN), blocks = disk64(copy + DISK_BLOCK_COUNT_AT);
    uint64_t segments_end = disk32(copy + 72) + (uint64_t)DISK_SEGMENT_BLOCKS * disk32(copy + 48);
    if (main_end > segments_end)
        return because(why, "the main area ends at %" PRIu64 ", the segments of segment_count at %" PRIu64, main_end,
                       segments_end);
    if (segments_end > blocks)
        return because(why, "block_count is %" PRIu64 ", but the segments of segment_count end at %" PRIu64, blocks,
                       segments_end);
    char counted[NUMBER_ROOM], room[NUMBER_ROOM];
    if (blocks <= image_blocks)
        return true;
    if (blocks > HARPTIMBER_CARD_BLOCKS_MOST)
        return because(why, "a volume of %s blocks; at most %s are read", number_text(counted, blocks),
                       number_text(room, HARPTIMBER_CARD_BLOCKS_MOST));
    return because(why, "a volume of %s blocks, but the image has only %s", number_text(counted, blocks),
                   number_text(room, image_blocks));
}

static void read_copy(struct opening_copy *copy, const struct card *card, uint32_t number)
{
    const uint8_t *bytes = disk_superblock(card, number);
    uint64_t blocks = card->len / BLOCK_SIZE;
    copy->marked = bytes != NULL && disk32(bytes) == DISK_MARK;
    if (!copy->marked)
        copy->passes = because(copy->why, "no F2FS mark");
    else
        copy->passes = fixed_numbers_pass(bytes, copy->why) && other_numbers_pass(bytes, copy->why) &&
                       areas_pass(bytes, copy->why) && ends_pass(bytes, blocks, copy->why);
}

/* What isn't read. */
static bool features_pass(const uint8_t *copy, char *why)
{
    uint32_t features = disk32(copy + DISK_FEATURES_AT), payload = disk32(copy + DISK_PAYLOAD_AT);
    if (features != 0) {
        because(why, "features: ");
        disk_bit_names(why, WHY_ROOM, disk_features, features);
    }
    if (payload != 0)
        because(why, "%scp_payload is %" PRIu32, features != 0 ? "; " : "", payload);
    return features == 0 && payload == 0;
}

enum { CHECKSUM_AT = 4092 };

/* The first or the last block of a pack. */
static bool checkpoint_block_passes(const uint8_t *block, const char *which, char *why)
{
    uint32_t offset = disk32(block + 164), sum = disk32(block + CHECKSUM_AT);
    bool large_map = (disk32(block + 132) & DISK_LARGE_NAT_MAP) != 0;
    if (offset != CHECKSUM_AT && is_zeros(block))
        return because(why, "its %s block is all zeros", which);
    if (offset != CHECKSUM_AT)
        return because(why, "its %s block has checksum_offset %" PRIu32 ", not 4092%s", which, offset,
                       large_map ? " (large_nat_bitmap, by mkfs.f2fs -i)" : "");
    uint32_t computed = disk_crc32(DISK_MARK, block, CHECKSUM_AT);
    if (sum != computed)
        return because(why, "the checksum of its %s block is %08" PRIx32 ", its bytes make %08" PRIx32, which, sum, computed);
    return true;
}

static bool pack_passes(struct opening_pack *pack, const struct card *card, uint32_t first)
{
    const uint8_t *block = disk_block(card, first);
    pack->has_first = block != NULL && checkpoint_block_passes(block, "first", pack->why);
    if (!pack->has_first)
        return false;
    pack->version = disk64(block);
    pack->flags = disk32(block + 132);
    pack->total = disk32(block + 136);
    if (pack->total < 2 || pack->total > DISK_SEGMENT_BLOCKS)
        return because(pack->why, "cp_pack_total_block_count is %" PRIu32 ", not 2 to 512", pack->total);
    const uint8_t *last = disk_block(card, first + pack->total - 1);
    if (last == NULL || !checkpoint_block_passes(last, "last", pack->why))
        return false;
    if (disk64(last) != pack->version)
        return because(pack->why, "its first block has version %" PRIu64 ", its last %" PRIu64, pack->version, disk64(last));
    return true;
}

/* The flags by which F2FS itself says that the volume is damaged, or may be; and one that isn't read. */
static void judge_flags(struct opening *opening, uint32_t flags)
{
    if ((flags & DISK_ERROR) != 0)
        caused(opening, CAUSE_ERROR_FLAG, "its error flag (0x8) is set");
    if ((flags & DISK_FSCK) != 0)
        caused(opening, CAUSE_NEEDS_CHECK_FLAG, "its fsck flag (0x10) is set: the card needs a check");
    if ((flags & DISK_LARGE_NAT_MAP) != 0)
        caused(opening, CAUSE_LARGE_NAT_BITMAP, "large_nat_bitmap is set, which isn't read");
}

/* The two maps, which fit their segments and their block. */
static void judge_maps(struct opening *opening, const uint8_t *superblock, const uint8_t *first)
{
    uint64_t sit = disk32(first + 156), nat = disk32(first + 160);
    uint64_t sit_wanted = 32 * (uint64_t)disk_area_segments(superblock, DISK_SIT);
    uint64_t nat_wanted = 32 * (uint64_t)disk_area_segments(superblock, DISK_NAT);
    if (sit != sit_wanted)
        caused(opening, CAUSE_MAPS, "sit_ver_bitmap_bytesize is %" PRIu64 ", not %" PRIu64, sit, sit_wanted);
    if (nat != nat_wanted)
        caused(opening, CAUSE_MAPS, "nat_ver_bitmap_bytesize is %" PRIu64 ", not %" PRIu64, nat, nat_wanted);
    if (192 + sit + nat > CHECKSUM_AT)
        caused(opening, CAUSE_MAPS, "the maps end at byte %" PRIu64 " of their block, behind 4092", 192 + sit + nat);
}

/* Puts both journals' places: a compact pack has them in one block, others in the summaries of hot and of cold data. */
static bool judge_journals_place(struct opening *opening, const uint8_t *first)
{
    const struct opening_pack *pack = &opening->packs[opening->pack_in_use];
    uint32_t start = disk32(first + 140), total = pack->total;
    bool clean = (pack->flags & (DISK_UNMOUNT | DISK_FASTBOOT)) != 0;
    uint32_t from_end = clean ? 7 : 4;
    if ((pack->flags & DISK_COMPACT) != 0) {
        opening->nat_journal = (struct journal_place){opening->pack_first + start, 0};
        opening->sit_journal = (struct journal_place){opening->pack_first + start, 507};
        return (start >= 1 && start <= total - 2) ||
               caused(opening, CAUSE_JOURNAL_PLACE, "the journal block is out of place: cp_pack_start_sum is %" PRIu32
                      " in a pack of %" PRIu32 " blocks", start, total);
    }
    uint32_t hot_data = opening->pack_first + total - from_end;
    opening->nat_journal = (struct journal_place){hot_data, 3584};
    opening->sit_journal = (struct journal_place){hot_data + 2, 3584};
    return total > from_end ||
           caused(opening, CAUSE_JOURNAL_PLACE, "the journal block is out of place: the pack has %" PRIu32
                  " blocks, and it lies %" PRIu32 " before the end", total, from_end);
}

static void because_entry(char *why, const char *before, const uint8_t *entry)
{
    because(why, "%sversion %u, inode %" PRIu32 ", block %" PRIu32, before, (unsigned)entry[4], disk32(entry + 5),
            disk32(entry + 9));
}

/* If two entries for one number don't say the same, nothing tells which of them holds. */
static void number_is_twice(struct opening *opening, const uint8_t *journal, uint32_t i, uint32_t j)
{
    const uint8_t *one = nat_journal_entry(journal, i), *other = nat_journal_entry(journal, j);
    caused(opening, CAUSE_NUMBER_TWICE,
           "the NAT journal names node %" PRIu32 " twice, in its entries %" PRIu32 " and %" PRIu32, disk32(one), i, j);
    if (memcmp(one, other, NAT_JOURNAL_BYTES) == 0) {
        because(opening->why, ", which are equal");
        return;
    }
    because_entry(opening->why, ", which differ: ", one);
    because_entry(opening->why, " and ", other);
}

/* How many entries it counts, and that no two of them have the same number. */
static void judge_journal(struct opening *opening, const uint8_t *journal)
{
    uint32_t count = disk16(journal);
    if (count > NAT_JOURNAL_MOST) {
        caused(opening, CAUSE_JOURNAL_COUNT, "the NAT journal counts %" PRIu32 " entries, at most 38 fit", count);
        return;
    }
    for (uint32_t i = 0; i < count; i++)
        for (uint32_t j = i + 1; j < count; j++)
            if (disk32(nat_journal_entry(journal, i)) == disk32(nat_journal_entry(journal, j))) {
                number_is_twice(opening, journal, i, j);
                return;
            }
}

/* All that keeps the pack in use from being read: whoever mends one thing wants to know what is left. */
static bool pack_is_readable(struct opening *opening, const struct card *card, const uint8_t *superblock)
{
    const uint8_t *first = disk_block(card, opening->pack_first);
    judge_flags(opening, opening->packs[opening->pack_in_use].flags);
    judge_maps(opening, superblock, first);
    const uint8_t *journal = judge_journals_place(opening, first) ? disk_block(card, opening->nat_journal.block) : NULL;
    if (journal != NULL)
        judge_journal(opening, journal + opening->nat_journal.at);
    return opening->causes == 0;
}

bool ver_after(uint64_t a, uint64_t b)
{
    uint64_t difference = a - b;
    return difference >= 1 && difference <= INT64_MAX;
}

/* Reads both packs, and returns which is in use: of two that pass, the second only if its version is newer. */
static int read_packs(struct opening *opening, const struct card *card, uint32_t first)
{
    struct opening_pack *packs = opening->packs;
    for (uint32_t i = 0; i < 2; i++)
        packs[i].passes = pack_passes(&packs[i], card, first + i * DISK_SEGMENT_BLOCKS);
    if (packs[1].passes && (!packs[0].passes || ver_after(packs[1].version, packs[0].version)))
        return 1;
    return packs[0].passes ? 0 : NONE_IN_USE;
}

/* Of two that fail, the words for each, or once if they are the same. */
static bool because_both(char *why, const char *thing, const char *one, const char *other)
{
    if (strcmp(one, other) == 0)
        return because(why, "each %s: %s", thing, one);
    return because(why, "%s 1: %s; %s 2: %s", thing, one, thing, other);
}

uint32_t opening_judge(struct opening *opening, const struct card *card)
{
    *opening = (struct opening){.copy_in_use = NONE_IN_USE, .pack_in_use = NONE_IN_USE};
    for (uint32_t i = 0; i < 2; i++)
        read_copy(&opening->copies[i], card, i);
    const struct opening_copy *copies = opening->copies;
    opening->copy_in_use = copies[0].passes ? 0 : copies[1].passes ? 1 : NONE_IN_USE;
    if (!length_is_in_shape(card))
        return HARPTIMBER_OUT_OF_SHAPE;
    if (opening->copy_in_use == NONE_IN_USE) {
        because_both(opening->why, "copy", copies[0].why, copies[1].why);
        return HARPTIMBER_NO_SUPERBLOCK;
    }
    const uint8_t *superblock = disk_superblock(card, (uint32_t)opening->copy_in_use);
    uint32_t first = disk_area_first(superblock, DISK_CHECKPOINT);
    opening->pack_in_use = read_packs(opening, card, first);
    if (!features_pass(superblock, opening->why))
        return HARPTIMBER_FEATURES;
    const struct opening_pack *packs = opening->packs;
    if (opening->pack_in_use == NONE_IN_USE) {
        because_both(opening->why, "pack", packs[0].why, packs[1].why);
        return HARPTIMBER_NO_CHECKPOINT;
    }
    opening->pack_first = first + (uint32_t)opening->pack_in_use * DISK_SEGMENT_BLOCKS;
    return pack_is_readable(opening, card, superblock) ? HARPTIMBER_DATA : HARPTIMBER_UNREADABLE;
}

void opening_read(struct opening *opening, const struct card *card)
{
    uint32_t judged = opening_judge(opening, card);
    opening->answer = card_opens(card);
    opening->agrees = judged == opening->answer;
    if (!opening->agrees) {
        opening->causes = 0;
        *opening->why = '\0';
    }
}

const uint8_t *opening_superblock(const struct card *card)
{
    for (uint32_t number = 0; number < 2; number++) {
        struct opening_copy copy = {.passes = false};
        read_copy(&copy, card, number);
        if (copy.passes)
            return disk_superblock(card, number);
    }
    return NULL;
}
