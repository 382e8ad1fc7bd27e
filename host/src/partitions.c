#include "partitions.h"

#include <inttypes.h>
#include <string.h>

#include "disk.h"

/* A disk, and what is found there. */
struct reading {
    const struct mapping *disk;
    struct partitions *found;
};

/* So many bytes of the disk; null if they don't all lie in it. */
static const uint8_t *bytes_at(const struct reading *reading, uint64_t at, uint64_t len)
{
    bool inside = at <= reading->disk->len && len <= reading->disk->len - at;
    return inside ? mapping_bytes(reading->disk, at, (size_t)len) : NULL;
}

/* Whether either copy of a superblock at that byte has its mark. */
static bool is_marked(const struct reading *reading, uint64_t first)
{
    for (uint64_t copy = 0; copy < 2; copy++) {
        uint64_t at = DISK_SUPERBLOCK_AT + copy * BLOCK_SIZE;
        const uint8_t *mark = first > UINT64_MAX - at ? NULL : bytes_at(reading, first + at, sizeof DISK_MARK);
        if (mark != NULL && disk32(mark) == DISK_MARK)
            return true;
    }
    return false;
}

static void add(const struct reading *reading, uint32_t number, uint64_t first, uint64_t len)
{
    struct partitions *found = reading->found;
    if (found->count < MOST_PARTITIONS)
        found->list[found->count++] = (struct partition){number, first, len, is_marked(reading, first)};
}

/* An entry of an MBR. */
struct entry {
    uint8_t status, type;
    uint32_t first, sectors;
};

enum { SECTOR = 512, ENTRIES_AT = 446, ENTRY_SIZE = 16, ENTRIES = 4, PROTECTIVE = 0xEE, FIRST_LOGICAL = 5 };

static struct entry entry_of(const uint8_t *sector, uint32_t i)
{
    const uint8_t *bytes = sector + ENTRIES_AT + ENTRY_SIZE * (size_t)i;
    return (struct entry){bytes[0], bytes[4], disk32(bytes + 8), disk32(bytes + 12)};
}

static bool is_used(struct entry entry)
{
    return entry.type != 0 && entry.first != 0 && entry.sectors != 0;
}

/* It holds further partitions, and no volume itself. */
static bool is_extended(struct entry entry)
{
    return is_used(entry) && (entry.type == 0x05 || entry.type == 0x0F || entry.type == 0x85);
}

static bool has_signature(const uint8_t *sector)
{
    return sector[510] == 0x55 && sector[511] == 0xAA;
}

/* A volume's first sector may end like an MBR; but then it hardly has entries. */
static bool is_mbr(const uint8_t *sector)
{
    bool used = false;
    for (uint32_t i = 0; i < ENTRIES; i++) {
        struct entry entry = entry_of(sector, i);
        if (entry.status != 0 && entry.status != 0x80)
            return false;
        used = used || is_used(entry);
    }
    return used && has_signature(sector);
}

/* A chain of sectors, each with a partition and the way to the next. A damaged one may go round: its steps are counted. */
static void read_logical(const struct reading *reading, uint64_t extended, uint32_t *number)
{
    uint64_t at = extended;
    for (int steps = 0; steps < MOST_PARTITIONS; steps++) {
        const uint8_t *sector = bytes_at(reading, at * SECTOR, SECTOR);
        if (sector == NULL || !has_signature(sector))
            return;
        struct entry volume = entry_of(sector, 0), next = entry_of(sector, 1);
        if (is_used(volume) && !is_extended(volume))
            add(reading, (*number)++, (at + volume.first) * SECTOR, (uint64_t)volume.sectors * SECTOR);
        if (!is_extended(next))
            return;
        at = extended + next.first;
    }
}

static void read_mbr(const struct reading *reading, const uint8_t *sector)
{
    uint32_t logical = FIRST_LOGICAL;
    reading->found->table = "MBR";
    for (uint32_t i = 0; i < ENTRIES; i++) {
        struct entry entry = entry_of(sector, i);
        if (is_used(entry) && !is_extended(entry))
            add(reading, i + 1, (uint64_t)entry.first * SECTOR, (uint64_t)entry.sectors * SECTOR);
    }
    for (uint32_t i = 0; i < ENTRIES; i++)
        if (is_extended(entry_of(sector, i)))
            read_logical(reading, entry_of(sector, i).first, &logical);
}

/* A GPT's header, and its table once that is found to be sound. */
enum { HEADER_SIZE = 92, GPT_ENTRY_SIZE = 128, MOST_TABLE_BYTES = 1 << 20 };

struct gpt {
    const uint8_t *table;
    uint32_t count, entry_size;
    uint64_t sector;
};

/* Its checksum is over the header with zeros in the checksum's place. */
static bool header_is_sound(const uint8_t *header, uint64_t sector)
{
    static const uint8_t zeros[4];
    uint32_t size = disk32(header + 12);
    if (memcmp(header, "EFI PART", 8) != 0 || size < HEADER_SIZE || size > sector)
        return false;
    uint32_t sum = disk_crc32(UINT32_MAX, header, 16);
    sum = disk_crc32(sum, zeros, sizeof zeros);
    sum = disk_crc32(sum, header + 20, size - 20);
    return ~sum == disk32(header + 16);
}

/* What so many sectors make; one past every file if that is no number of 64 bits. */
static uint64_t sectors_to_bytes(uint64_t sectors, uint64_t sector)
{
    return sectors > UINT64_MAX / sector ? UINT64_MAX : sectors * sector;
}

static bool read_header(const struct reading *reading, uint64_t at, uint64_t sector, struct gpt *gpt)
{
    const uint8_t *header = bytes_at(reading, at, sector);
    if (header == NULL || !header_is_sound(header, sector))
        return false;
    *gpt = (struct gpt){.count = disk32(header + 80), .entry_size = disk32(header + 84), .sector = sector};
    uint64_t len = (uint64_t)gpt->count * gpt->entry_size;
    if (gpt->entry_size < GPT_ENTRY_SIZE || len > MOST_TABLE_BYTES)
        return false;
    gpt->table = bytes_at(reading, sectors_to_bytes(disk64(header + 72), sector), len);
    return gpt->table != NULL && ~disk_crc32(UINT32_MAX, gpt->table, (size_t)len) == disk32(header + 88);
}

static void read_gpt_entries(const struct reading *reading, const struct gpt *gpt)
{
    static const uint8_t unused[16];
    for (uint32_t i = 0; i < gpt->count; i++) {
        const uint8_t *entry = gpt->table + (size_t)i * gpt->entry_size;
        uint64_t first = disk64(entry + 32), last = disk64(entry + 40);
        if (memcmp(entry, unused, sizeof unused) == 0 || last < first)
            continue;
        uint64_t sectors = last - first == UINT64_MAX ? UINT64_MAX : last - first + 1;
        add(reading, i + 1, sectors_to_bytes(first, gpt->sector), sectors_to_bytes(sectors, gpt->sector));
    }
}

/* The header is in the second sector, and again in the last one. */
static void read_gpt(const struct reading *reading)
{
    static const uint64_t sizes[] = {512, 4096};
    struct gpt gpt;
    struct partitions *found = reading->found;
    for (int copy = 0; copy < 2; copy++)
        for (int i = 0; i < 2; i++) {
            uint64_t size = sizes[i], sectors = reading->disk->len / size;
            if (sectors > 1 && read_header(reading, copy == 0 ? size : (sectors - 1) * size, size, &gpt)) {
                found->table = copy == 0 ? "GPT" : "GPT, by its copy at the end";
                read_gpt_entries(reading, &gpt);
                return;
            }
        }
    found->table = "GPT";
    found->damaged = true;
}

void partitions_read(struct partitions *partitions, const struct mapping *disk)
{
    struct reading reading = {disk, partitions};
    const uint8_t *sector = bytes_at(&reading, 0, SECTOR);
    bool protective = false;
    *partitions = (struct partitions){.table = NULL};
    if (sector == NULL || !is_mbr(sector))
        return;
    for (uint32_t i = 0; i < ENTRIES; i++)
        protective = protective || entry_of(sector, i).type == PROTECTIVE;
    if (protective)
        read_gpt(&reading);
    else
        read_mbr(&reading, sector);
}

const struct partition *partitions_find(const struct partitions *partitions, uint32_t number)
{
    for (uint32_t i = 0; i < partitions->count; i++)
        if (partitions->list[i].number == number)
            return &partitions->list[i];
    return NULL;
}

const struct partition *partitions_only_marked(const struct partitions *partitions)
{
    const struct partition *only = NULL;
    for (uint32_t i = 0; i < partitions->count; i++)
        if (partitions->list[i].marked) {
            if (only != NULL)
                return NULL;
            only = &partitions->list[i];
        }
    return only;
}

void show_partitions(FILE *out, const struct partitions *partitions)
{
    if (partitions->table == NULL) {
        fputs("the file has no partition table", out);
        return;
    }
    fprintf(out, "the file is a disk with partitions (%s)", partitions->table);
    if (partitions->damaged)
        fputs(", but the table is damaged", out);
    else if (partitions->count == 0)
        fputs(", but the table is empty", out);
    for (uint32_t i = 0; i < partitions->count; i++) {
        const struct partition *partition = &partitions->list[i];
        fprintf(out, "%s %" PRIu32 " at byte %" PRIu64 "%s", i == 0 ? ":" : ",", partition->number, partition->first,
                partition->marked ? " with an F2FS mark" : "");
    }
}
