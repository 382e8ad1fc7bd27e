/*
 * Pulls of paths from C, of one name to eight: the answer, the other numbers and every lent byte, with rooms that are
 * just enough and one byte short; what is out of shape; what ends a path on the way; and compares by the lists.
 */
#include <stdlib.h>

#include "paths.h"
#include "pulling.h"

enum { MOST = HARPTIMBER_NAMES_MOST };

static int rises(const void *one, const void *other)
{
    const uint32_t *a = one, *b = other;
    return (*a > *b) - (*a < *b);
}

/* Whether the lists have these directories, with their entries, and the file if the walk came there. */
static int rests_on(size_t directories, int searched, int has_file)
{
    uint32_t numbers[MOST + 1], read[2 * MOST + 1], node_count = 0, block_count = 0;
    for (size_t i = 0; i < directories; i++) {
        numbers[node_count++] = number_of(i);
        read[block_count++] = inode_at(i);
        if (!is_inline(i) && (searched || i + 1 < directories))
            read[block_count++] = entries_at(i);
    }
    if (has_file) {
        numbers[node_count++] = FILE_NUMBER;
        read[block_count++] = FILE_AT;
    }
    qsort(numbers, node_count, sizeof *numbers, rises);
    qsort(read, block_count, sizeof *read, rises);
    return lists(nodes, sizeof nodes, got.node_count, numbers, node_count) &&
           lists(blocks, sizeof blocks, got.block_count, read, block_count);
}

static void expect(const char *what, size_t value, uint32_t answer, int listed)
{
    uint32_t count = answer == HARPTIMBER_DATA ? SIZE : 0;
    int numbers = got.answer == answer && got.byte_count == count;
    if (fails(numbers && listed && buffer_is(answer, count)))
        printf("FAILED %s %zu: answer %" PRIu32 " and %" PRIu32 " bytes, expected %" PRIu32 " and %" PRIu32
               "; lists of %" PRIu32 " and %" PRIu32 " %s; buffer %s\n",
               what, value, got.answer, got.byte_count, answer, count, got.node_count, got.block_count,
               listed ? "as expected" : "other", buffer_is(answer, count) ? "as expected" : "other");
}

static int nothing_listed(void)
{
    return lists(nodes, sizeof nodes, got.node_count, NULL, 0) &&
           lists(blocks, sizeof blocks, got.block_count, NULL, 0);
}

/* Every count of names, short and as long as they can be, with just enough room and a byte less of each list. */
static void test_rooms(void)
{
    static const size_t bytes[] = {1, 8, HARPTIMBER_NAME_BYTES_MOST};
    for (size_t k = 1; k <= MOST; k++) {
        size_t node_room = HARPTIMBER_NODES_BYTES_OF(k), block_room = HARPTIMBER_BLOCKS_BYTES_OF(k);
        for (size_t i = 0; i < COUNT_OF(bytes); i++) {
            struct path path = path_of(k, bytes[i]);
            put_path(&path);
            pull_with(path.text, path.len, 0, node_room, block_room);
            expect("rooms for names", k, HARPTIMBER_DATA, rests_on(k, 1, 1));
            pull_with(path.text, path.len, 1, node_room, block_room);
            expect("block 1 behind names", k, HARPTIMBER_PAST_END, rests_on(k, 1, 1));
            pull_with(path.text, path.len, 0, node_room - 1, block_room);
            expect("too little room for nodes of names", k, HARPTIMBER_OUT_OF_SHAPE, nothing_listed());
            pull_with(path.text, path.len, 0, node_room, block_room - 1);
            expect("too little room for blocks of names", k, HARPTIMBER_OUT_OF_SHAPE, nothing_listed());
        }
    }
}

/* What is no path, on a card on which its names would be found. */
static void test_shapes(void)
{
    struct path path = path_of(2, 1);
    put_path(&path);
    for (size_t i = 0; i < COUNT_OF(bad_paths); i++) {
        pull(bad_paths[i], 0);
        expect("bad path", i, HARPTIMBER_OUT_OF_SHAPE, nothing_listed());
    }
    pull_with("a/\0", 3, 0, sizeof nodes, sizeof blocks);
    expect("a zero byte in name", 2, HARPTIMBER_OUT_OF_SHAPE, nothing_listed());
    struct path ninth = path_of(MOST + 1, 1);
    pull(ninth.text, 0);
    expect("names", MOST + 1, HARPTIMBER_OUT_OF_SHAPE, nothing_listed());
    for (size_t i = 0; i < MOST; i++) { /* one name is too long */
        struct path longer = path_of(MOST, HARPTIMBER_NAME_BYTES_MOST);
        size_t at = i * (HARPTIMBER_NAME_BYTES_MOST + 1);
        memmove(longer.text + at + 1, longer.text + at, longer.len + 1 - at);
        pull(longer.text, 0);
        expect("256 bytes in name", i + 1, HARPTIMBER_OUT_OF_SHAPE, nothing_listed());
    }
    put(card + 1024, 0, 4); /* no superblock, in either copy: what is out of shape comes first */
    pull("a//b", 0);
    expect("bad path on a card that doesn't open", 0, HARPTIMBER_OUT_OF_SHAPE, nothing_listed());
    pull_with("a/b", 3, 0, HARPTIMBER_NODES_BYTES_OF(1), sizeof blocks);
    expect("room for one name on a card that doesn't open", 0, HARPTIMBER_OUT_OF_SHAPE, nothing_listed());
    pull("a/b", 0);
    expect("a path on a card that doesn't open", 0, HARPTIMBER_NO_SUPERBLOCK, nothing_listed());
}

/* A name on the way is missing, leads to a file, or to a directory of a kind that isn't read. */
static void test_ways(void)
{
    struct path path = path_of(MOST, 3);
    for (size_t i = 0; i < MOST; i++) {
        put_path(&path);
        struct entries entries = entries_of(i);
        clear_entries(&entries);
        pull(path.text, 0);
        expect("without name", i + 1, HARPTIMBER_NO_NAME, rests_on(i + 1, 1, 0));
    }
    for (size_t i = 0; i + 1 < MOST; i++) {
        char name[] = {(char)('a' + i), (char)('a' + i), (char)('a' + i), 0};
        put_path(&path);
        put_name(i, 2, name, FILE_NUMBER);
        pull(path.text, 0);
        expect("a file on the way under name", i + 1, HARPTIMBER_KIND_NOT_READ, rests_on(i + 1, 1, 1));
    }
    for (size_t i = 0; i < MOST; i++) {
        put_path(&path);
        block_at(inode_at(i))[347] = 31;
        pull(path.text, 0);
        expect("a level of 31 in directory", i, HARPTIMBER_KIND_NOT_READ, rests_on(i + 1, 0, 0));
    }
    put_path(&path);
    path.text[path.len - 4] = '\0';
    pull(path.text, 0);
    expect("a directory at the end of names", MOST - 1, HARPTIMBER_KIND_NOT_READ, rests_on(MOST, 0, 0));
}

/* "." and ".." are names like others: missing if there is no such entry, else they lead where it does. */
static void test_dots(void)
{
    struct path path = path_of(2, 3);
    put_path(&path);
    pull("aaa/./bbb", 0);
    expect("no entry of . in directory", 1, HARPTIMBER_NO_NAME, rests_on(2, 1, 0));
    put_name(1, 5, ".", number_of(1));
    put_name(1, 6, "..", number_of(0));
    static const char *const paths[] = {"aaa/./bbb", "aaa/../aaa/bbb", "aaa/./././././bbb",
                                        "aaa/../aaa/../aaa/../aaa/bbb"};
    for (size_t i = 0; i < COUNT_OF(paths); i++) {
        pull(paths[i], 0);
        expect("path with dots", i, HARPTIMBER_DATA, rests_on(2, 1, 1));
    }
}

/* A byte of each directory's inode and entries, and of the file; and of a directory that isn't on the path. */
static void test_compares(void)
{
    struct path path = path_of(MOST, 5);
    put_path(&path);
    memcpy(fresh, card, sizeof card);
    pull(path.text, 0);
    expect("the path to compare, names", MOST, HARPTIMBER_DATA, rests_on(MOST, 1, 1));
    for (size_t i = 0; i < MOST; i++) {
        expect_compared(inode_at(i), BLOCK - 1, HARPTIMBER_CHANGED);
        expect_compared(entries_at(i), 0, is_inline(i) ? HARPTIMBER_SAME : HARPTIMBER_CHANGED);
    }
    expect_compared(FILE_AT, CONTENTS, HARPTIMBER_CHANGED);
    pull("aaaaa/ccccc", 0);
    expect("the missing path to compare, names", 2, HARPTIMBER_NO_NAME, rests_on(2, 1, 0));
    expect_compared(inode_at(1), BLOCK - 1, HARPTIMBER_CHANGED);
    expect_compared(inode_at(2), BLOCK - 1, HARPTIMBER_SAME);
}

int main(void)
{
    test_rooms();
    test_shapes();
    test_ways();
    test_dots();
    test_compares();
    return finish();
}
