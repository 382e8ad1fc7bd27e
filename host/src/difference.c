#include "difference.h"

#include <inttypes.h>
#include <stdbool.h>
#include <string.h>

#include "text.h"
#include "walk.h"

/* How a field's values are shown. */
enum style { NAMED_ONLY, QUANTITY, DECIMAL, OCTAL, HEXADECIMAL };

/* Some fields have a second part, like the nanoseconds of a date. */
struct field {
    const char *name;
    enum style style;
    uint16_t at, len, more_at, more_len;
};

static const struct field inode_fields[] = {
    {"mode", OCTAL, 0, 2, 0, 0},
    {"hints", HEXADECIMAL, 2, 1, 0, 0},
    {"inline flags", HEXADECIMAL, 3, 1, 0, 0},
    {"owner", DECIMAL, 4, 4, 0, 0},
    {"group", DECIMAL, 8, 4, 0, 0},
    {"link count", QUANTITY, 12, 4, 0, 0},
    {"size", QUANTITY, 16, 8, 0, 0},
    {"block count", QUANTITY, 24, 8, 0, 0},
    {"access time", NAMED_ONLY, 32, 8, 56, 4},
    {"change time", NAMED_ONLY, 40, 8, 60, 4},
    {"modification time", NAMED_ONLY, 48, 8, 64, 4},
    {"generation", DECIMAL, 68, 4, 0, 0},
    {"depth", QUANTITY, 72, 4, 0, 0},
    {"attribute node", DECIMAL, 76, 4, 0, 0},
    {"flags", HEXADECIMAL, 80, 4, 0, 0},
    {"parent's inode", DECIMAL, 84, 4, 0, 0},
    {"noted name", NAMED_ONLY, 88, 259, 0, 0},
    {"directory level", DECIMAL, 347, 1, 0, 0},
    {"cached extent", NAMED_ONLY, 348, 12, 0, 0},
    {NULL, NAMED_ONLY, 0, 0, 0, 0},
};

/* Where the addresses otherwise start, if the inode has extra attributes. */
static const struct field extra_fields[] = {
    {"extra size", QUANTITY, DISK_ADDRESSES, 2, 0, 0},
    {"attribute size", QUANTITY, 362, 2, 0, 0},
    {"project", DECIMAL, 364, 4, 0, 0},
    {"checksum", HEXADECIMAL, 368, 4, 0, 0},
    {"creation time", NAMED_ONLY, 372, 8, 380, 4},
    {"compression", NAMED_ONLY, 384, 12, 0, 0},
    {NULL, NAMED_ONLY, 0, 0, 0, 0},
};

static const struct field footer_fields[] = {
    {"node number", DECIMAL, DISK_FOOTER_NUMBER, 4, 0, 0},
    {"inode number", DECIMAL, DISK_FOOTER_INODE, 4, 0, 0},
    {"place and marks", HEXADECIMAL, DISK_FOOTER_FLAG, 4, 0, 0},
    {"checkpoint version", HEXADECIMAL, 4084, 8, 0, 0},
    {"next node's address", DECIMAL, 4092, 4, 0, 0},
    {NULL, NAMED_ONLY, 0, 0, 0, 0},
};

enum { SLOT = 4 };

/* Two versions of a block, and what of it was shown. */
struct versions {
    FILE *out;
    const uint8_t *before, *now;
    bool follows; /* something was shown: a comma is due */
};

static bool differs(const struct versions *v, size_t at, size_t len)
{
    return memcmp(v->before + at, v->now + at, len) != 0;
}

static void show_name(struct versions *v, const char *name)
{
    fprintf(v->out, "%s%s", v->follows ? ", " : "", name);
    v->follows = true;
}

static uint64_t value_at(const uint8_t *bytes, size_t len)
{
    uint64_t value = 0;
    while (len-- > 0)
        value = value << 8 | bytes[len];
    return value;
}

static void show_value(FILE *out, const struct field *field, const uint8_t *block)
{
    uint64_t value = value_at(block + field->at, field->len);
    if (field->style == QUANTITY)
        show_number(out, value);
    else if (field->style == DECIMAL)
        fprintf(out, "%" PRIu64, value);
    else if (field->style == OCTAL)
        fprintf(out, "%06" PRIo64, value);
    else
        fprintf(out, "0x%" PRIx64, value);
}

static void show_fields(struct versions *v, const struct field *field)
{
    for (; field->name != NULL; field++) {
        if (!differs(v, field->at, field->len) && !differs(v, field->more_at, field->more_len))
            continue;
        show_name(v, field->name);
        if (field->style == NAMED_ONLY)
            continue;
        fputs(" (", v->out);
        show_value(v->out, field, v->before);
        fputs(" before, ", v->out);
        show_value(v->out, field, v->now);
        fputs(" now)", v->out);
    }
}

/* Slots of four bytes from one place to another: the first that differs, and how many others do. */
static void show_slots(struct versions *v, size_t from, size_t to, const char *what)
{
    uint32_t count = 0;
    size_t first = 0;
    for (size_t at = to; at > from; at -= SLOT)
        if (differs(v, at - SLOT, SLOT)) {
            first = at - SLOT;
            count++;
        }
    if (count == 0)
        return;
    show_name(v, what);
    fprintf(v->out, " %zu (%" PRIu32 " before, %" PRIu32 " now)", (first - from) / SLOT, disk32(v->before + first),
            disk32(v->now + first));
    if (count > 1) {
        fputs(" and ", v->out);
        show_number(v->out, count - 1);
        fputs(" more", v->out);
    }
}

/* Where contents end that start at some place and have room up to another: a file's with the longer version of it. */
static size_t contents_end(const struct versions *v, uint8_t flags, size_t from, size_t to)
{
    struct disk_inode before = disk_inode_of(v->before), now = disk_inode_of(v->now);
    uint64_t len = before.size > now.size ? before.size : now.size;
    if ((flags & DISK_INLINE_DENTRY) != 0)
        len = disk_inline_room(&before);
    return len < to - from ? from + (size_t)len : to;
}

/* Contents that stand in an inode, behind a slot of no use. */
static void show_contents(struct versions *v, uint8_t flags, size_t from, size_t to)
{
    size_t first = from + SLOT < to ? from + SLOT : to, end = contents_end(v, flags, first, to);
    if (differs(v, from, first - from))
        show_name(v, "bytes before the inline contents");
    if (differs(v, first, end - first))
        show_name(v, "inline contents");
    if (differs(v, end, to - end))
        show_name(v, "bytes behind the inline contents");
}

/* The flags that say what stands where an inode has its addresses. */
enum { LAYOUT_FLAGS = DISK_INLINE_XATTR | DISK_INLINE_MARKS | DISK_EXTRA_ATTR };

/* What stands where an inode has its addresses; that is said only if it is of one kind in both. */
static void show_addresses(struct versions *v, uint8_t flags)
{
    size_t from = DISK_ADDRESSES, to = DISK_NODES;
    if ((flags & DISK_EXTRA_ATTR) != 0) {
        show_fields(v, extra_fields);
        from += disk16(v->before + DISK_ADDRESSES);
        from = from % SLOT == 0 && from < to ? from : to;
    }
    if ((flags & DISK_INLINE_XATTR) != 0) {
        to = from < to - DISK_XATTR_BYTES ? to - DISK_XATTR_BYTES : from;
        if (differs(v, to, DISK_NODES - to))
            show_name(v, "inline attributes");
    }
    if ((flags & DISK_INLINE_MARKS) == 0)
        show_slots(v, from, to, "address of block");
    else
        show_contents(v, flags, from, to);
}

/* Whether a node that is no inode holds node numbers; others hold addresses. */
static bool is_indirect(uint32_t place)
{
    return place == 3 || place == 1022 || place == 2041 || (place > 2041 && (place - 2042) % 1019 == 0);
}

void show_node_fields(FILE *out, const uint8_t *before, const uint8_t *now)
{
    struct versions v = {.out = out, .before = before, .now = now};
    uint8_t flags = disk_inode_of(before).inline_flags & LAYOUT_FLAGS;
    if (disk_place(before) != 0) {
        const char *what = is_indirect(disk_place(before)) ? "node number in slot" : "address in slot";
        show_slots(&v, 0, DISK_FOOTER_NUMBER, what);
    } else {
        show_fields(&v, inode_fields);
        if (flags == (disk_inode_of(now).inline_flags & LAYOUT_FLAGS))
            show_addresses(&v, flags);
        show_slots(&v, DISK_NODES, DISK_FOOTER_NUMBER, "node number in slot");
    }
    show_fields(&v, footer_fields);
    if (!v.follows)
        show_name(&v, "other bytes");
}

static void show_entry_name(FILE *out, const struct dentry *entry)
{
    if (entry->name == NULL)
        fprintf(out, "a malformed one in slot %" PRIu32, entry->slot);
    else
        show_bytes(out, (const char *)entry->name, entry->len);
}

/* An entry that is in both versions: where it leads, or its name. */
static void show_entry_change(FILE *out, const struct dentry *before, const struct dentry *now)
{
    show_entry_name(out, before);
    if (before->inode != now->inode) {
        fprintf(out, ": inode %" PRIu32 " before, %" PRIu32 " now", before->inode, now->inode);
    } else {
        fputs(" before, ", out);
        show_entry_name(out, now);
        fputs(" now", out);
    }
}

static bool are_alike(const struct dentry *one, const struct dentry *other)
{
    return one->hash == other->hash && one->inode == other->inode && one->len == other->len &&
           (one->name == NULL || memcmp(one->name, other->name, one->len) == 0);
}

/* What became of the first entry that differs. */
static void show_first_entry(FILE *out, const struct dentries *old, const struct dentries *new)
{
    struct dentry was, is;
    for (uint32_t slot = 0;; slot = was.slot + (was.name == NULL ? 1 : slots_of(was.len))) {
        bool any_was = dentry_from(old, slot, &was), any_is = dentry_from(new, slot, &is);
        bool both = any_was && any_is && was.slot == is.slot;
        if (!any_was && !any_is) {
            fputs("bytes of no entry changed", out);
            return;
        }
        if (both && are_alike(&was, &is))
            continue;
        bool gone = any_was && (!any_is || was.slot < is.slot);
        fprintf(out, "an entry %s (", both ? "changed" : gone ? "is gone" : "is new");
        if (both)
            show_entry_change(out, &was, &is);
        else
            show_entry_name(out, gone ? &was : &is);
        fputc(')', out);
        return;
    }
}

void show_directory_entry(FILE *out, const uint8_t *before, const uint8_t *now)
{
    struct dentries old = dentries_of_block(before), new = dentries_of_block(now);
    show_first_entry(out, &old, &new);
}

/* How many bytes of inline entries a node has, if it is such a directory's inode. */
static size_t entries_len(const uint8_t *block)
{
    struct disk_inode inode = disk_inode_of(block);
    uint8_t marks = inode.inline_flags & (DISK_INLINE_MARKS | DISK_EXTRA_ATTR);
    bool has = disk_place(block) == 0 && inode.mode >> 12 == DISK_DIRECTORY && marks == DISK_INLINE_DENTRY;
    return has ? disk_inline_room(&inode) : 0;
}

void show_inline_entry(FILE *out, const uint8_t *before, const uint8_t *now)
{
    struct dentries old = dentries_of_inode(before), new = dentries_of_inode(now);
    size_t len = entries_len(before);
    if (len != entries_len(now) || memcmp(old.bytes, new.bytes, len) == 0)
        return;
    fputs(": ", out);
    show_first_entry(out, &old, &new);
}
