#include "listing.h"

#include <errno.h>
#include <inttypes.h>
#include <stdlib.h>
#include <string.h>

#include "reason.h"
#include "text.h"

/* A directory with more names than this isn't read to its end. */
enum { MOST_NAMES = 1000000 };

enum { INODE_NODES = 5 };

/* Goes on behind something that is wrong, unless there was too much of it already. */
static void go_on(struct listing *listing)
{
    bool noted = listing->problems[listing->problem_count] != NULL;
    listing->stopped = !noted || ++listing->problem_count == MOST_PROBLEMS;
    listing->walk.stop = (struct stop){.answer = HARPTIMBER_DATA};
}

static FILE *open_problem(struct listing *listing)
{
    return open_memstream(&listing->problems[listing->problem_count], &listing->problem_len);
}

/* Notes what the walk stopped at. */
static void add_stop(struct listing *listing)
{
    FILE *out = open_problem(listing);
    if (out != NULL) {
        show_stop(out, &listing->walk.stop, &listing->walk.source);
        fclose(out);
    }
    go_on(listing);
}

/* Notes a block that the directory has a second time. */
static void add_twice(struct listing *listing, uint32_t address)
{
    FILE *out = open_problem(listing);
    if (out != NULL) {
        fprintf(out, "the card's block %" PRIu32 " is in ", address);
        show_owner(out, &listing->walk.owner);
        fputs(" twice", out);
        fclose(out);
    }
    go_on(listing);
}

/* Notes something else that is wrong, and reads on no further. */
static void give_up(struct listing *listing, const char *problem)
{
    listing->problems[listing->problem_count] = strdup(problem);
    go_on(listing);
    listing->stopped = true;
}

static bool add_name(struct listing *listing, const struct dentry *dentry)
{
    if (listing->count == listing->room) {
        size_t room = 2 * listing->room + 64;
        struct listed *names = reallocarray(listing->names, room, sizeof *names);
        if (names == NULL)
            return false;
        listing->names = names;
        listing->room = room;
    }
    struct listed *listed = &listing->names[listing->count++];
    *listed = (struct listed){.len = dentry->len, .inode = dentry->inode};
    memcpy(listed->name, dentry->name, dentry->len);
    return true;
}

/* The directory before this one, where the path first comes to it; the root's is itself. */
static uint32_t parent_of(const struct walk *walk)
{
    uint32_t i = 0;
    while (walk->inodes[i] != walk_number(walk))
        i++;
    return walk->inodes[i == 0 ? 0 : i - 1];
}

/* A directory's entries for itself and for the one that it is in. */
static bool is_dots(const struct walk *walk, const struct dentry *dentry)
{
    if (dentry->len > 2 || memcmp(dentry->name, "..", dentry->len) != 0)
        return false;
    return dentry->inode == (dentry->len == 1 ? walk_number(walk) : parent_of(walk));
}

/* The entries up to the first one that is malformed, which hides the others. */
static void list_entries(struct listing *listing, const struct dentries *dentries, uint32_t index)
{
    struct dentry dentry;
    for (uint32_t slot = 0; dentry_from(dentries, slot, &dentry); slot = dentry.slot + slots_of(dentry.len)) {
        if (dentry.name == NULL) {
            stop_at_malformed(&listing->walk, dentries, &dentry, index);
            add_stop(listing);
            return;
        }
        if (listing->count == MOST_NAMES) {
            give_up(listing, "there are more than 1,000,000 names");
            return;
        }
        if (!is_dots(&listing->walk, &dentry) && !add_name(listing, &dentry)) {
            give_up(listing, strerror(ENOMEM));
            return;
        }
    }
}

/* A block of entries, by its address. One that is read a second time would list its names twice. */
static void list_address(struct listing *listing, uint32_t address, uint32_t index)
{
    const uint8_t *block = walk_address(&listing->walk, address, index);
    if (block == NULL) {
        if (listing->walk.stop.answer != HARPTIMBER_DATA)
            add_stop(listing);
        return;
    }
    uint8_t bit = (uint8_t)(1 << address % 8);
    if ((listing->seen[address / 8] & bit) != 0) {
        add_twice(listing, address);
        return;
    }
    listing->seen[address / 8] |= bit;
    struct dentries dentries = dentries_of_block(block);
    list_entries(listing, &dentries, index);
}

/* How many blocks, and how many nodes, hang below a node: height 1 holds addresses, the others numbers of nodes. */
struct subtree {
    uint32_t height, blocks, nodes;
};

static const struct subtree subtrees[] = {
    {0, 1, 0}, {1, NODE_SLOTS, 1}, {2, NODE_SLOTS * NODE_SLOTS, 1 + NODE_SLOTS},
    {3, NODE_SLOTS * NODE_SLOTS * NODE_SLOTS, 1 + NODE_SLOTS * (1 + NODE_SLOTS)},
};

/* What hangs below a node. Each node has one place only, so that none is read twice. */
static void list_node(struct listing *listing, uint32_t number, uint32_t place, uint32_t height, uint32_t index)
{
    const uint8_t *node = walk_node(&listing->walk, number, walk_number(&listing->walk), place);
    if (node == NULL) {
        add_stop(listing);
        return;
    }
    const struct subtree *below = &subtrees[height - 1];
    for (uint32_t i = 0; i < NODE_SLOTS && !listing->stopped; i++) {
        uint32_t number_below = disk32(node + 4 * (size_t)i);
        if (number_below == 0)
            continue;
        if (height == 1)
            list_address(listing, number_below, index + i);
        else
            list_node(listing, number_below, place + 1 + i * below->nodes, height - 1, index + i * below->blocks);
    }
}

/* Every block of the directory with this inode. */
static void list_blocks(struct listing *listing, const uint8_t *directory)
{
    static const uint32_t heights[INODE_NODES] = {1, 1, 2, 2, 3};
    uint32_t addresses = addresses_of(directory), place = 1, index = addresses;
    for (uint32_t i = 0; i < addresses && !listing->stopped; i++)
        list_address(listing, disk32(directory + DISK_ADDRESSES + 4 * (size_t)i), i);
    for (size_t i = 0; i < INODE_NODES && !listing->stopped; i++) {
        uint32_t number = disk32(directory + DISK_NODES + 4 * i);
        if (number != 0)
            list_node(listing, number, place, heights[i], index);
        place += subtrees[heights[i]].nodes;
        index += subtrees[heights[i]].blocks;
    }
}

/* The directory, whatever its size, its depth and its directory level are. */
static void list_directory(struct listing *listing)
{
    uint32_t number = walk_number(&listing->walk);
    const uint8_t *directory = walk_node(&listing->walk, number, number, 0);
    if (directory == NULL) {
        add_stop(listing);
        return;
    }
    struct disk_inode inode = disk_inode_of(directory);
    enum unread why = unread_by(&inode, false);
    if (why == UNREAD_KIND || why == UNREAD_MARKS) {
        listing->walk.stop.answer = HARPTIMBER_KIND_NOT_READ;
        add_stop(listing);
    } else if (is_inline(&inode)) {
        struct dentries dentries = dentries_of_inode(directory);
        list_entries(listing, &dentries, 0);
    } else {
        list_blocks(listing, directory);
    }
}

static int in_order(const void *one, const void *other)
{
    const struct listed *a = one, *b = other;
    int order = memcmp(a->name, b->name, a->len < b->len ? a->len : b->len);
    return order != 0 ? order : (a->len > b->len) - (a->len < b->len);
}

bool listing_read(struct listing *listing, const struct walk *walk)
{
    *listing = (struct listing){.walk = *walk};
    listing->walk.owner.is_file = false;
    const struct card *card = walk->source.card;
    listing->seen = calloc(card->len / BLOCK_SIZE / 8 + 1, 1);
    if (listing->seen == NULL) {
        complain(card->path, "%s", strerror(ENOMEM));
        return false;
    }
    list_directory(listing);
    if (listing->count != 0)
        qsort(listing->names, listing->count, sizeof *listing->names, in_order);
    return true;
}

bool listing_is_complete(const struct listing *listing)
{
    return listing->problem_count == 0 && !listing->stopped;
}

void listing_free(struct listing *listing)
{
    for (size_t i = 0; i < listing->problem_count; i++)
        free(listing->problems[i]);
    free(listing->names);
    free(listing->seen);
}
