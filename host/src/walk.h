/*
 * A pull's walk through a card's nodes, made once more in C: to say where it stopped, to name what it met, and to
 * list directories. Nothing of this is proved. A pull's answer is the library's, and where this doesn't stop with the
 * same, nothing is said of it. It may go by a keep file as well as by the card that this was written from.
 */
#ifndef WALK_H
#define WALK_H

#include "disk.h"
#include "source.h"

/* Whose nodes and blocks a walk is at: those of a directory on the path, or of what all of the path leads to. */
struct owner {
    const char *path;
    size_t len;   /* of the part that leads there; 0 for the root directory */
    bool is_file; /* all of the path; it isn't a directory, or not yet known to be one */
};

/* What a walk stopped at. */
struct stop {
    uint32_t answer; /* by the library's rules; HARPTIMBER_DATA if it didn't stop */
    struct owner owner;
    uint32_t node;    /* 9 to 12: the node's number, the inode that it should belong to, and its place there */
    uint32_t inode, place;
    uint32_t index;   /* 13, 14: which block of the file or of the directory */
    uint32_t address; /* 10, 11, 13, 14: the card's block that this was to be in, or is in */
    bool is_inline;   /* 14: that block is the directory's inode, and none by an index */
    uint32_t slot;    /* 14: of the entry */
    uint32_t len;     /* 14: how many bytes the entry's name has; 2: and so the one that the owner hasn't */
};

/* What a node or a block of the card is to a pull. In two roles, it has the first on the path. */
struct role {
    bool is_met; /* else the walk doesn't come to it */
    struct owner owner;
    uint32_t node, place; /* the node that it is or holds, and the node's place; the number 0 if it holds contents */
};

struct walk {
    struct source source;
    uint64_t main_first, main_end;
    struct owner owner;
    uint32_t address; /* the card's block that was read last */
    uint32_t names;                              /* so many of the path's were followed, */
    uint32_t inodes[HARPTIMBER_NAMES_MOST + 1]; /* from the root directory's inode to these */
    struct stop stop;
    const struct harptimber_compared *sought; /* what is to be met, by its kind and number; null for nothing */
    struct role role;
};

/* On a card that opens, or by a keep file; it starts in the root directory. */
struct walk walk_begin(struct source source);

/* A node's block, if it is the one asked for; null where the walk stops. */
const uint8_t *walk_node(struct walk *walk, uint32_t number, uint32_t inode, uint32_t place);

/* The block that an address leads to: null if it is a hole, or where the walk stops. */
const uint8_t *walk_address(struct walk *walk, uint32_t address, uint32_t index);

/* Follows a path to the number of an inode, which isn't looked at yet. Returns false where the walk stops. */
bool walk_path(struct walk *walk, const char *path, size_t len);

/* The inode's number that the walk has come to. */
uint32_t walk_number(const struct walk *walk);

/* Walks as a pull does, to its end or to where it stops. */
struct stop walk_pull(struct source source, const char *path, size_t len, uint32_t index);

/* What a compare found to differ is to this pull. */
struct role walk_role(struct source source, const char *path, size_t len, uint32_t index,
                      const struct harptimber_compared *difference);

/* The inode's block of a file, by a walk past its end, if a pull there answers so; null if that doesn't come so far. */
const uint8_t *walk_inode(struct source source, const char *path, size_t len, uint32_t answer);

/* How many addresses, or numbers of nodes, a node has that is no inode. */
enum { NODE_SLOTS = 1018 };

/* What keeps an inode from being read, as a file's or as a directory's: the first of these. */
enum unread { UNREAD_NOT, UNREAD_KIND, UNREAD_MARKS, UNREAD_SIZE, UNREAD_DEPTH, UNREAD_LEVEL };
enum unread unread_by(const struct disk_inode *inode, bool as_file);

/* Whether an inode has its contents in itself. */
bool is_inline(const struct disk_inode *inode);

/* How many addresses an inode holds. */
uint32_t addresses_of(const uint8_t *inode);

/* The last block that has a place in the file with this inode, however long it says that it is. */
uint32_t last_index_of(const uint8_t *inode);

/* A node on the way to a block's address. */
struct step {
    uint32_t place, slot;
};

struct step step_of(const struct harptimber_place *place, uint32_t i);

/* Directory entries: those of a block, or those that stand in an inode. */
struct dentries {
    const uint8_t *bytes;
    bool is_inline;
    uint32_t slots;
    size_t entries_at, names_at;
};

struct dentry {
    uint32_t slot, hash, inode, len;
    const uint8_t *name; /* null if the entry is malformed */
};

struct dentries dentries_of_block(const uint8_t *block);
struct dentries dentries_of_inode(const uint8_t *block);

/* Finds the first entry from `slot` on. Returns false if there is none. */
bool dentry_from(const struct dentries *dentries, uint32_t slot, struct dentry *dentry);

/* How many slots a name needs. */
uint32_t slots_of(uint32_t len);

/* Stops at a malformed entry of these, in the block that was read last, which is this one of the directory, or its inode. */
void stop_at_malformed(struct walk *walk, const struct dentries *dentries, const struct dentry *dentry, uint32_t index);

#endif
