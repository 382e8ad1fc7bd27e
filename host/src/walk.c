#include "walk.h"

#include <string.h>

#include "path.h"

/* A bucket has 4 blocks from hash level 31 on, but no directory has a block as far as that. */
enum { BUCKET_BLOCKS = 2 };

enum { SLOT_BYTES = 8, ENTRY_BYTES = 11 };

struct walk walk_begin(struct source source)
{
    struct walk walk = {.source = source, .inodes = {DISK_ROOT}};
    source_bounds(&source, &walk.main_first, &walk.main_end);
    return walk;
}

uint32_t walk_number(const struct walk *walk)
{
    return walk->inodes[walk->names];
}

static bool is_main(const struct walk *walk, uint32_t address)
{
    return address >= walk->main_first && address < walk->main_end;
}

static bool belongs(const uint8_t *node, const struct stop *at)
{
    return disk32(node + DISK_FOOTER_NUMBER) == at->node && disk32(node + DISK_FOOTER_INODE) == at->inode &&
           disk32(node + DISK_FOOTER_FLAG) / 8 == at->place;
}

/* Notes what is sought, the first time that it is met: a node, or a block of the card with this node, or with none. */
static void meet(struct walk *walk, enum harptimber_kind kind, uint32_t number, uint32_t node, uint32_t place)
{
    const struct harptimber_compared *sought = walk->sought;
    if (sought != NULL && !walk->role.is_met && sought->kind == kind && sought->number == number)
        walk->role = (struct role){true, walk->owner, node, place};
}

const uint8_t *walk_node(struct walk *walk, uint32_t number, uint32_t inode, uint32_t place)
{
    struct harptimber_entry entry = source_entry(&walk->source, number);
    struct stop at = {.owner = walk->owner, .node = number, .inode = inode, .place = place, .address = entry.address};
    meet(walk, HARPTIMBER_NODE_DIFFERS, number, number, place);
    meet(walk, HARPTIMBER_BLOCK_DIFFERS, entry.address, number, place);
    const uint8_t *node = source_block(&walk->source, entry.address);
    if (entry.answer != HARPTIMBER_DATA && entry.answer != HARPTIMBER_NO_NODE)
        at.answer = NO_ANSWER; /* not on a card that opens, nor by a keep file that was written as one */
    else if (entry.answer == HARPTIMBER_NO_NODE || entry.address == 0)
        at.answer = HARPTIMBER_NO_NODE;
    else if (!is_main(walk, entry.address))
        at.answer = HARPTIMBER_NODE_OUTSIDE;
    else if (node == NULL)
        at.answer = NO_ANSWER;
    else if (entry.inode != inode || !belongs(node, &at))
        at.answer = HARPTIMBER_FOREIGN_NODE;
    walk->address = entry.address;
    walk->stop = at;
    return at.answer == HARPTIMBER_DATA ? node : NULL;
}

const uint8_t *walk_address(struct walk *walk, uint32_t address, uint32_t index)
{
    if (address == 0 || address == UINT32_MAX)
        return NULL;
    const uint8_t *block = source_block(&walk->source, address);
    meet(walk, HARPTIMBER_BLOCK_DIFFERS, address, 0, 0);
    walk->address = address;
    if (block != NULL && is_main(walk, address))
        return block;
    walk->stop = (struct stop){.answer = is_main(walk, address) ? NO_ANSWER : (uint32_t)HARPTIMBER_DATA_OUTSIDE,
                               .owner = walk->owner,
                               .index = index,
                               .address = address};
    return NULL;
}

struct step step_of(const struct harptimber_place *place, uint32_t i)
{
    const struct step way[] = {{place->place0, place->slot0},
                               {place->place1, place->slot1},
                               {place->place2, place->slot2},
                               {place->place3, place->slot3}};
    return way[i];
}

bool is_inline(const struct disk_inode *inode)
{
    return (inode->inline_flags & DISK_INLINE_MARKS) != 0;
}

/* Only a directory has inline entries, only a file inline data. A file's depth and level aren't asked for. */
enum unread unread_by(const struct disk_inode *inode, bool as_file)
{
    uint8_t other_mark = as_file ? DISK_INLINE_DENTRY : DISK_INLINE_DATA;
    if (inode->mode >> 12 != (as_file ? DISK_REGULAR : DISK_DIRECTORY))
        return UNREAD_KIND;
    if ((inode->inline_flags & (other_mark | DISK_EXTRA_ATTR)) != 0)
        return UNREAD_MARKS;
    if (is_inline(inode) && inode->size > disk_inline_room(inode))
        return UNREAD_SIZE;
    if (!as_file && inode->depth > DISK_MOST_DEPTH)
        return UNREAD_DEPTH;
    return !as_file && inode->dir_level > DISK_MOST_DIR_LEVEL ? UNREAD_LEVEL : UNREAD_NOT;
}

uint32_t addresses_of(const uint8_t *inode)
{
    return (disk_inode_of(inode).inline_flags & DISK_INLINE_XATTR) != 0 ? 873 : 923;
}

/* Behind the inode's own addresses come those of two direct nodes, two indirect ones and a double one. */
uint32_t last_index_of(const uint8_t *inode)
{
    enum { DIRECT = NODE_SLOTS, INDIRECT = NODE_SLOTS * DIRECT, DOUBLE = NODE_SLOTS * INDIRECT };
    return addresses_of(inode) + 2 * DIRECT + 2 * INDIRECT + DOUBLE - 1;
}

static bool is_past_end(const uint8_t *inode, uint32_t index)
{
    return index > last_index_of(inode) || (uint64_t)index * BLOCK_SIZE >= disk_inode_of(inode).size;
}

/* A block of the file with this inode; null if it is a hole, or where the walk stops. */
static const uint8_t *file_block(struct walk *walk, uint32_t number, const uint8_t *inode, uint32_t index)
{
    struct harptimber_place place = harptimber_file_place(addresses_of(inode), index);
    const uint8_t *node = inode, *slots = inode + (place.steps == 1 ? DISK_ADDRESSES : DISK_NODES);
    if (place.answer != HARPTIMBER_DATA)
        return NULL;
    for (uint32_t i = 1; i < place.steps; i++) {
        uint32_t next = disk32(slots + 4 * step_of(&place, i - 1).slot);
        node = next == 0 ? NULL : walk_node(walk, next, number, step_of(&place, i).place);
        if (node == NULL)
            return NULL;
        slots = node;
    }
    return walk_address(walk, disk32(slots + 4 * step_of(&place, place.steps - 1).slot), index);
}

uint32_t slots_of(uint32_t len)
{
    return (len + SLOT_BYTES - 1) / SLOT_BYTES;
}

struct dentries dentries_of_block(const uint8_t *block)
{
    return (struct dentries){.bytes = block, .slots = 214, .entries_at = 30, .names_at = 2384};
}

/* 23 bytes of map and 7 reserved, then as in a block. */
struct dentries dentries_of_inode(const uint8_t *block)
{
    enum { SLOTS = 182 };
    return (struct dentries){.bytes = block + DISK_INLINE_AT,
                             .is_inline = true,
                             .slots = SLOTS,
                             .entries_at = 30,
                             .names_at = 30 + SLOTS * ENTRY_BYTES};
}

bool dentry_from(const struct dentries *dentries, uint32_t slot, struct dentry *dentry)
{
    const uint8_t *map = dentries->bytes;
    while (slot < dentries->slots && (map[slot / 8] >> slot % 8 & 1) == 0)
        slot++;
    if (slot >= dentries->slots)
        return false;
    const uint8_t *entry = dentries->bytes + dentries->entries_at + (size_t)ENTRY_BYTES * slot;
    *dentry = (struct dentry){.slot = slot, .hash = disk32(entry), .inode = disk32(entry + 4), .len = disk16(entry + 8)};
    if (dentry->len >= 1 && dentry->len <= HARPTIMBER_NAME_BYTES_MOST && slots_of(dentry->len) <= dentries->slots - slot)
        dentry->name = dentries->bytes + dentries->names_at + (size_t)SLOT_BYTES * slot;
    return true;
}

void stop_at_malformed(struct walk *walk, const struct dentries *dentries, const struct dentry *dentry, uint32_t index)
{
    walk->stop = (struct stop){
        .answer = HARPTIMBER_MALFORMED_SLOT,
        .owner = walk->owner,
        .index = index,
        .address = walk->address,
        .is_inline = dentries->is_inline,
        .slot = dentry->slot,
        .len = dentry->len,
    };
}

/* A name that is sought in the directory that a walk is at. */
struct search {
    const char *name;
    size_t len;
    uint32_t hash;
    const uint8_t *directory; /* its inode's block */
    uint32_t inode;           /* where the last entry leads that was looked at */
};

/* Seeks the name among some entries. Returns whether the search is over: found, or stopped. */
static bool seek_among(struct walk *walk, struct search *search, const struct dentries *dentries, uint32_t index)
{
    struct dentry dentry;
    for (uint32_t slot = 0; dentry_from(dentries, slot, &dentry); slot = dentry.slot + slots_of(dentry.len)) {
        if (dentry.name == NULL) {
            stop_at_malformed(walk, dentries, &dentry, index);
            return true;
        }
        search->inode = dentry.inode;
        if (dentry.hash == search->hash && dentry.len == search->len &&
            memcmp(dentry.name, search->name, search->len) == 0)
            return true;
    }
    return false;
}

static bool seek_in_block(struct walk *walk, struct search *search, const uint8_t *block, uint32_t index)
{
    struct dentries dentries = dentries_of_block(block);
    return seek_among(walk, search, &dentries, index);
}

/* Inline entries are looked at once, whatever the depth and the directory level are. */
static bool seek_in_inode(struct walk *walk, struct search *search)
{
    struct dentries dentries = dentries_of_inode(search->directory);
    return seek_among(walk, search, &dentries, 0);
}

/* Seeks the name in the bucket with this first block. Past the last index there is no block. */
static bool seek_in_bucket(struct walk *walk, struct search *search, uint64_t first)
{
    uint32_t last = last_index_of(search->directory);
    for (uint64_t index = first; index < first + BUCKET_BLOCKS && index <= last; index++) {
        const uint8_t *block = file_block(walk, walk_number(walk), search->directory, (uint32_t)index);
        bool over = block != NULL && seek_in_block(walk, search, block, (uint32_t)index);
        if (over || walk->stop.answer != HARPTIMBER_DATA)
            return true;
    }
    return false;
}

/*
 * Seeks the name by the directory's hash levels. Returns whether the search is over. The first has 2^(directory level)
 * buckets, and each later one twice as many as the one before, up to 2^30. None in reach needs that limit: unless it is the first, at
 * least as many blocks lie before it as it has buckets, and a directory's last block is below 2^30. How many are in reach depends on
 * the directory level, so that each one's first block is asked.
 */
static bool seek_in_levels(struct walk *walk, struct search *search)
{
    struct disk_inode directory = disk_inode_of(search->directory);
    uint64_t first = 0, buckets = (uint64_t)1 << directory.dir_level;
    for (uint32_t n = 0; n < directory.depth && first <= last_index_of(search->directory); n++) {
        if (seek_in_bucket(walk, search, first + BUCKET_BLOCKS * (search->hash % buckets)))
            return true;
        first += BUCKET_BLOCKS * buckets;
        buckets *= 2;
    }
    return false;
}

/* Seeks the name; false where the walk stops. */
static bool seek(struct walk *walk, struct search *search)
{
    struct disk_inode directory = disk_inode_of(search->directory);
    bool over = directory.size != 0 && (is_inline(&directory) ? seek_in_inode : seek_in_levels)(walk, search);
    if (!over) {
        walk->stop.answer = HARPTIMBER_NO_NAME;
        walk->stop.len = (uint32_t)search->len;
    }
    return walk->stop.answer == HARPTIMBER_DATA;
}

/* The inode that the walk has come to, if it is of a kind that is read; null where the walk stops. */
static const uint8_t *read_inode(struct walk *walk)
{
    uint32_t number = walk_number(walk);
    const uint8_t *block = walk_node(walk, number, number, 0);
    if (block == NULL)
        return NULL;
    struct disk_inode inode = disk_inode_of(block);
    if (unread_by(&inode, walk->owner.is_file) == UNREAD_NOT)
        return block;
    walk->stop.answer = HARPTIMBER_KIND_NOT_READ;
    return NULL;
}

/* Reads the directory that the walk is at, and follows the path's next name. Returns false where the walk stops. */
static bool walk_name(struct walk *walk, size_t path_len)
{
    size_t at = path_next(walk->owner.len), end = path_name_end(walk->owner.path, path_len, at);
    struct search search = {.name = walk->owner.path + at, .len = end - at};
    search.hash = harptimber_name_hash((const uint8_t *)search.name, search.len).hash;
    search.directory = read_inode(walk);
    if (search.directory == NULL || !seek(walk, &search))
        return false;
    walk->inodes[++walk->names] = search.inode;
    walk->owner.len = end;
    walk->owner.is_file = end == path_len;
    return true;
}

bool walk_path(struct walk *walk, const char *path, size_t len)
{
    walk->owner.path = path;
    while (walk->owner.len < len)
        if (walk->names == HARPTIMBER_NAMES_MOST || !walk_name(walk, len))
            return false;
    return true;
}

/* Walks on from the file's inode. Its inline bytes are there already. */
static void walk_file(struct walk *walk, const uint8_t *block, uint32_t index)
{
    struct disk_inode inode = disk_inode_of(block);
    if (is_past_end(block, index))
        walk->stop.answer = HARPTIMBER_PAST_END;
    else if (!is_inline(&inode))
        file_block(walk, walk_number(walk), block, index);
}

/* Walks as a pull does, from a walk's beginning on. */
static void walk_on(struct walk *walk, const char *path, size_t len, uint32_t index)
{
    const uint8_t *inode = walk_path(walk, path, len) ? read_inode(walk) : NULL;
    if (inode != NULL)
        walk_file(walk, inode, index);
}

struct stop walk_pull(struct source source, const char *path, size_t len, uint32_t index)
{
    struct walk walk = walk_begin(source);
    walk_on(&walk, path, len, index);
    return walk.stop;
}

/* Whether all of the path leads to a directory, which stopped the walk. */
static bool is_at_directory(const struct walk *walk)
{
    const struct stop *stop = &walk->stop;
    return stop->answer == HARPTIMBER_KIND_NOT_READ && stop->owner.is_file &&
           disk_inode_of(source_block(&walk->source, stop->address)).mode >> 12 == DISK_DIRECTORY;
}

struct role walk_role(struct source source, const char *path, size_t len, uint32_t index,
                      const struct harptimber_compared *difference)
{
    struct walk walk = walk_begin(source);
    walk.sought = difference;
    walk_on(&walk, path, len, index);
    if (is_at_directory(&walk))
        walk.role.owner.is_file = false;
    return walk.role;
}

const uint8_t *walk_inode(struct source source, const char *path, size_t len, uint32_t answer)
{
    if (answer != HARPTIMBER_PAST_END && answer != HARPTIMBER_KIND_NOT_READ)
        return NULL;
    struct stop stop = walk_pull(source, path, len, UINT32_MAX);
    return stop.answer == answer && stop.owner.is_file ? source_block(&source, stop.address) : NULL;
}
