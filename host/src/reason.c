#include "reason.h"

#include <inttypes.h>

#include "path.h"
#include "text.h"

const char *kind_of(uint16_t mode)
{
    static const char *const kinds[16] = {
        [1] = "FIFO",         [2] = "character device", [4] = "directory", [6] = "block device",
        [8] = "regular file", [10] = "symbolic link",   [12] = "socket",
    };
    return kinds[mode >> 12] == NULL ? "file of no known kind" : kinds[mode >> 12];
}

void show_owner(FILE *out, const struct owner *owner)
{
    if (owner->is_file) {
        fputs("the file", out);
    } else if (owner->len == 0) {
        fputs("the root directory", out);
    } else {
        fputs("the directory ", out);
        show_bytes(out, owner->path, owner->len);
    }
}

void show_owners_inode(FILE *out, const struct owner *owner)
{
    if (owner->is_file || owner->len == 0) {
        show_owner(out, owner);
        fputs("'s inode", out);
    } else { /* names may end in anything, so that none gets an 's */
        fputs("the inode of ", out);
        show_bytes(out, owner->path, owner->len);
    }
}

/* 'node 77 (place 1 of the file)'. */
static void show_node(FILE *out, const struct stop *stop)
{
    fprintf(out, "node %" PRIu32 " (", stop->node);
    if (stop->place == 0) {
        show_owners_inode(out, &stop->owner);
    } else {
        fprintf(out, "place %" PRIu32 " of ", stop->place);
        show_owner(out, &stop->owner);
    }
    fputc(')', out);
}

void show_main_area(FILE *out, const struct source *source)
{
    uint64_t first, end;
    source_bounds(source, &first, &end);
    if (first < end)
        fprintf(out, "the main area is blocks %" PRIu64 " to %" PRIu64, first, end - 1);
    else
        fputs("the main area has no blocks", out);
}

static void show_no_node(FILE *out, const struct stop *stop, const struct source *source)
{
    struct harptimber_entry entry = source_entry(source, stop->node);
    show_node(out, stop);
    fputs(entry.answer == HARPTIMBER_DATA ? " isn't in use" : " is out of range", out);
}

static void show_outside(FILE *out, const struct stop *stop, const struct source *source)
{
    if (stop->answer == HARPTIMBER_NODE_OUTSIDE) {
        show_node(out, stop);
    } else {
        fprintf(out, "block %" PRIu32 " of ", stop->index);
        show_owner(out, &stop->owner);
    }
    fprintf(out, " has address %" PRIu32 "; ", stop->address);
    show_main_area(out, source);
}

/* Which of its numbers make a node block another one's. */
static void show_foreign(FILE *out, const struct stop *stop, const struct source *source)
{
    const uint8_t *node = source_block(source, stop->address);
    struct harptimber_entry entry = source_entry(source, stop->node);
    const struct {
        const char *what;
        uint32_t found, wanted;
    } numbers[] = {
        {"the block's number", disk32(node + DISK_FOOTER_NUMBER), stop->node},
        {"the block's inode", disk32(node + DISK_FOOTER_INODE), stop->inode},
        {"the block's place", disk32(node + DISK_FOOTER_FLAG) / 8, stop->place},
        {"the table's inode", entry.inode, stop->inode},
    };
    show_node(out, stop);
    fprintf(out, " should be in block %" PRIu32, stop->address);
    const char *between = ", but ";
    for (size_t i = 0; i < sizeof numbers / sizeof *numbers; i++)
        if (numbers[i].found != numbers[i].wanted) {
            fprintf(out, "%s%s is %" PRIu32 ", not %" PRIu32, between, numbers[i].what, numbers[i].found, numbers[i].wanted);
            between = "; ";
        }
}

/* The inline marks of an inode with both, or with the other kind's; null if they are right. */
static const char *words_on_marks(const struct disk_inode *inode)
{
    bool is_directory = inode->mode >> 12 == DISK_DIRECTORY;
    uint8_t marks = inode->inline_flags & DISK_INLINE_MARKS;
    if (marks == DISK_INLINE_MARKS)
        return "it is marked as an inline file (inline data) and as an inline directory (inline dentry)";
    if (marks == DISK_INLINE_DATA && is_directory)
        return "it is marked as an inline file (inline data)";
    return marks == DISK_INLINE_DENTRY && !is_directory ? "it is marked as an inline directory (inline dentry)" : NULL;
}

/* What an inode of the right kind is marked with that keeps it from being read. */
static void show_marks(FILE *out, const struct disk_inode *inode)
{
    const char *const marks[] = {
        words_on_marks(inode),
        (inode->inline_flags & DISK_EXTRA_ATTR) != 0 ? "its inode has extra attributes" : NULL,
        (inode->advise & DISK_ADVISE_ENCRYPT) != 0 ? "it is encrypted" : NULL,
        (inode->flags & DISK_FLAG_COMPRESSED) != 0 ? "it is compressed" : NULL,
    };
    const char *between = "";
    for (size_t i = 0; i < sizeof marks / sizeof *marks; i++)
        if (marks[i] != NULL) {
            fprintf(out, "%s%s", between, marks[i]);
            between = "; ";
        }
}

/* Contents that are inline, and more than there is room for. */
static void show_size_and_room(FILE *out, const struct disk_inode *inode)
{
    fputs("it is inline, but its size is ", out);
    show_count(out, inode->size, "byte");
    fputs(", over the ", out);
    show_number(out, disk_inline_room(inode));
    fputs(" that its inode has room for", out);
}

static void show_unread(FILE *out, const struct disk_inode *inode, enum unread why)
{
    if (why == UNREAD_KIND)
        fprintf(out, "it is a %s", kind_of(inode->mode));
    else if (why == UNREAD_MARKS)
        show_marks(out, inode);
    else if (why == UNREAD_SIZE)
        show_size_and_room(out, inode);
    else if (why == UNREAD_DEPTH)
        fprintf(out, "its depth is %" PRIu32 ", over %d", inode->depth, DISK_MOST_DEPTH);
    else if (why == UNREAD_LEVEL)
        fprintf(out, "its directory level is %u, over %d", (unsigned)inode->dir_level, DISK_MOST_DIR_LEVEL);
}

static void show_kind(FILE *out, const struct stop *stop, const struct source *source)
{
    struct disk_inode inode = disk_inode_of(source_block(source, stop->address));
    const struct owner *owner = &stop->owner;
    enum unread why = unread_by(&inode, owner->is_file);
    if (why == UNREAD_KIND && owner->len != 0 && !owner->is_file) {
        show_bytes(out, owner->path, owner->len);
        fputs(" isn't a directory: ", out);
    } else if (!owner->is_file) {
        show_owner(out, owner);
        fputs(" isn't read: ", out);
    }
    show_unread(out, &inode, why);
}

static void show_malformed(FILE *out, const struct stop *stop)
{
    fprintf(out, "%sslot %" PRIu32 " of the card's block %" PRIu32 " (", stop->is_inline ? "inline " : "", stop->slot,
            stop->address);
    if (stop->is_inline) {
        show_owners_inode(out, &stop->owner);
    } else {
        fprintf(out, "block %" PRIu32 " of ", stop->index);
        show_owner(out, &stop->owner);
    }
    fputs(") has a name of ", out);
    show_count(out, stop->len, "byte");
}

/* Which directory has no such name. */
static void show_no_name(FILE *out, const struct stop *stop)
{
    show_owner(out, &stop->owner);
    fputs(" has no ", out);
    show_bytes(out, stop->owner.path + path_next(stop->owner.len), stop->len);
}

/* How long the file is. */
static void show_end(FILE *out, const struct stop *stop, const struct source *source)
{
    const uint8_t *inode = source_block(source, stop->address);
    uint64_t size = disk_inode_of(inode).size;
    if (size == 0) {
        fputs("it is empty", out);
        return;
    }
    fputs("it has ", out);
    show_count(out, size, "byte");
    uint64_t last = (size - 1) / BLOCK_SIZE;
    if (last <= last_index_of(inode))
        fprintf(out, ", so that its last block is %" PRIu64, last);
    else
        fprintf(out, ", but no place for a block behind %" PRIu32, last_index_of(inode));
}

void show_stop(FILE *out, const struct stop *stop, const struct source *source)
{
    if (stop->answer == HARPTIMBER_NO_NAME)
        show_no_name(out, stop);
    else if (stop->answer == HARPTIMBER_PAST_END)
        show_end(out, stop, source);
    else if (stop->answer == HARPTIMBER_NO_NODE)
        show_no_node(out, stop, source);
    else if (stop->answer == HARPTIMBER_NODE_OUTSIDE || stop->answer == HARPTIMBER_DATA_OUTSIDE)
        show_outside(out, stop, source);
    else if (stop->answer == HARPTIMBER_FOREIGN_NODE)
        show_foreign(out, stop, source);
    else if (stop->answer == HARPTIMBER_KIND_NOT_READ)
        show_kind(out, stop, source);
    else if (stop->answer == HARPTIMBER_MALFORMED_SLOT)
        show_malformed(out, stop);
}
