/* Paths of one name to eight, and the small card with the directories that they lead through. */
#ifndef PATHS_H
#define PATHS_H

#include "small_card.h"

/* Directory i of a path, from the root on: its inode's number and block, and the block of its entries. */
static inline uint32_t number_of(size_t i)
{
    return i == 0 ? ROOT : (uint32_t)(20 - i); /* so that they fall, and lists have to rise */
}

static inline uint32_t inode_at(size_t i)
{
    return i == 0 ? ROOT_AT : (uint32_t)(MAIN + 100 + i);
}

static inline uint32_t entries_at(size_t i)
{
    return (uint32_t)(MAIN + 60 + i);
}

/* Every other directory is inline. */
static inline int is_inline(size_t i)
{
    return i % 2 == 1;
}

static inline struct entries entries_of(size_t i)
{
    return is_inline(i) ? entries_in_inode(inode_at(i)) : entries_in_block(entries_at(i));
}

/* A directory without entries. */
static inline void put_directory(size_t i)
{
    struct inode inode = {.mode = DIRECTORY, .inline_flags = is_inline(i) ? DENTRY : 0, .depth = 1, .size = 3488};
    put_inode(number_of(i), inode_at(i), &inode);
    put(block_at(inode_at(i)) + 360, entries_at(i), 8); /* the bucket's other block is a hole */
    struct entries entries = entries_of(i);
    clear_entries(&entries);
}

static inline void put_name(size_t directory, size_t slot, const char *name, uint32_t inode)
{
    struct entries entries = entries_of(directory);
    put_entry(&entries, slot, inode, name, strlen(name));
}

/* A path of so many names, each of so many bytes; every name differs from the others. */
struct path {
    char text[HARPTIMBER_PATH_BYTES_MOST + 300];
    size_t len;
};

static inline struct path path_of(size_t names, size_t bytes)
{
    struct path path = {.len = 0};
    for (size_t i = 0; i < names; i++) {
        memset(path.text + path.len, 'a' + (int)i, bytes);
        path.len += bytes;
        path.text[path.len++] = '/';
    }
    path.text[--path.len] = '\0';
    return path;
}

/* What is none. */
static const char *const bad_paths[] = {"", "/", "a/", "/a", "a//b", "a/b/", "/a/b", "//", "a///b", "a/b//"};

/* A card on which this path leads to the file, and each part of it to a directory. */
static inline void put_path(const struct path *path)
{
    char text[sizeof path->text], *rest = text;
    memcpy(text, path->text, sizeof text);
    put_card();
    put_file(DATA, SIZE);
    size_t i = 0;
    for (char *name = strtok_r(rest, "/", &rest); name != NULL; i++) {
        char *next = strtok_r(rest, "/", &rest);
        put_directory(i);
        put_name(i, 2, name, next == NULL ? (uint32_t)FILE_NUMBER : number_of(i + 1));
        name = next;
    }
}

#endif
