/*
 * Runs of pulls from C: the answer, the other numbers and every lent byte, beside single pulls that are put together here. Numbers
 * of blocks, lengths of the buffer and rooms of the lists on both sides of each bound; runs that end with the file or at damage
 * in its middle; what is refused, and in which order; and compares by the lists.
 */
#include "zeros.h"

#include "every_answer.h"
#include "paths.h"
#include "pulling.h"

enum { MOST = HARPTIMBER_RUN_MOST };

/* The file's inode: its addresses, and its first two direct nodes with so many each. */
enum { ADDRESSES = 923, IN_NODE = 1018, NODE_SLOTS = 4052 };
enum { DIRECT = 11, DIRECT_AT = MAIN + 450 };

/* Its data lies in these blocks, and again from the first on. */
enum { FIRST_AT = MAIN + 110, DATA_BLOCKS = 250 };

static uint8_t buffer[HARPTIMBER_RUN_BYTES + BLOCK], run_nodes[HARPTIMBER_RUN_NODES_BYTES + 3],
    run_blocks[HARPTIMBER_RUN_BLOCKS_BYTES + 3];
static struct harptimber_run ran;

/* Lengths of what a run writes to. */
struct lens {
    size_t buffer, nodes, blocks;
};

static struct lens lens_of(uint32_t wanted)
{
    return (struct lens){(size_t)wanted * BLOCK, HARPTIMBER_RUN_NODES_BYTES, HARPTIMBER_RUN_BLOCKS_BYTES};
}

static void fill(void)
{
    memset(buffer, PATTERN, sizeof buffer);
    memset(run_nodes, PATTERN, sizeof run_nodes);
    memset(run_blocks, PATTERN, sizeof run_blocks);
}

static void run_with(const char *path, size_t len, uint32_t index, uint32_t wanted, struct lens lens)
{
    fill();
    ran = harptimber_pull_run(card, sizeof card, (const uint8_t *)path, len, index, wanted, buffer, lens.buffer, run_nodes,
                              lens.nodes, run_blocks, lens.blocks);
}

/* What single pulls give, one behind the other. */
static struct {
    struct harptimber_run run;
    uint8_t bytes[HARPTIMBER_RUN_BYTES];
    uint32_t nodes[HARPTIMBER_RUN_NODES_MOST], blocks[HARPTIMBER_RUN_BLOCKS_MOST];
} together;

/* Puts the numbers of a pull's list among those of others, each once, rising. Returns how many they are. */
static uint32_t unite(uint32_t *numbers, uint32_t count, const uint8_t *list, uint32_t list_count)
{
    for (uint32_t i = 0; i < list_count; i++) {
        uint32_t number = harptimber_list_entry(list, i), at = 0;
        while (at < count && numbers[at] < number)
            at++;
        if (at < count && numbers[at] == number)
            continue;
        memmove(numbers + at + 1, numbers + at, (count - at) * sizeof *numbers);
        numbers[at] = number;
        count++;
    }
    return count;
}

static void pull_each(const char *path, size_t len, uint32_t index, uint32_t wanted)
{
    struct harptimber_run *run = &together.run;
    *run = (struct harptimber_run){.answer = HARPTIMBER_DATA};
    while (run->answer == HARPTIMBER_DATA && run->count < wanted) {
        pull_with(path, len, index + run->count, sizeof nodes, sizeof blocks);
        run->node_count = unite(together.nodes, run->node_count, nodes, got.node_count);
        run->block_count = unite(together.blocks, run->block_count, blocks, got.block_count);
        if (got.answer == HARPTIMBER_DATA || got.answer == HARPTIMBER_HOLE) {
            memcpy(together.bytes + (size_t)run->count++ * BLOCK, block, BLOCK);
            run->byte_count = got.byte_count;
        } else {
            run->answer = got.answer;
        }
    }
}

/* Whether the last run left what those pulls did, and all else as it was. */
static int is_together(void)
{
    size_t len = (size_t)together.run.count * BLOCK;
    return memcmp(&ran, &together.run, sizeof ran) == 0 && memcmp(buffer, together.bytes, len) == 0 &&
           all_are(buffer + len, sizeof buffer - len, PATTERN) &&
           lists(run_nodes, sizeof run_nodes, ran.node_count, together.nodes, together.run.node_count) &&
           lists(run_blocks, sizeof run_blocks, ran.block_count, together.blocks, together.run.block_count);
}

/* The last run, by these numbers too. */
static void expect(const char *what, size_t value, uint32_t answer, uint32_t count, uint32_t byte_count)
{
    int numbers = ran.answer == answer && ran.count == count && ran.byte_count == byte_count;
    if (fails(numbers && is_together()))
        printf("FAILED %s %zu: answer %" PRIu32 ", %" PRIu32 " blocks, %" PRIu32 " bytes in the last; expected %" PRIu32
               ", %" PRIu32 ", %" PRIu32 "; lists of %" PRIu32 " and %" PRIu32 "; memory %s\n",
               what, value, ran.answer, ran.count, ran.byte_count, answer, count, byte_count, ran.node_count,
               ran.block_count, is_together() ? "as by single pulls" : "other");
}

/* A run that was refused before its walk: every number but the answer is 0, and nothing was written. */
static void expect_refused(const char *what, size_t value, uint32_t answer)
{
    together.run = (struct harptimber_run){.answer = answer};
    expect(what, value, answer, 0, 0);
}

/* A run with rooms for any path. */
static void expect_run(const char *what, uint32_t index, uint32_t wanted, uint32_t answer, uint32_t count,
                       uint32_t byte_count)
{
    pull_each(road, strlen(road), index, wanted);
    run_with(road, strlen(road), index, wanted, lens_of(wanted));
    expect(what, index, answer, count, byte_count);
}

/* Every seventh block of the file is a hole. */
static uint32_t address_of(uint32_t index)
{
    return index % 7 == 3 ? 0 : FIRST_AT + index % DATA_BLOCKS;
}

/* One of the two direct nodes, with the addresses from `index` on. */
static void put_direct(uint32_t which, uint32_t index)
{
    struct inode any = {.mode = REGULAR};
    uint8_t *node = block_at(DIRECT_AT + which);
    put_inode(DIRECT + which, DIRECT_AT + which, &any); /* which a node isn't, but for its table entry and its footer */
    put(table_entry(DIRECT + which) + 1, FILE_NUMBER, 4);
    put(node + 4076, FILE_NUMBER, 4);
    put(node + 4080, (1 + which) * 8, 4);
    put(block_at(FILE_AT) + NODE_SLOTS + 4 * which, DIRECT + which, 4);
    for (uint32_t i = 0; i < IN_NODE; i++)
        put(node + 4 * i, address_of(index + i), 4);
}

/* The file with blocks in its inode and in both nodes; each data block differs from the others in all of its bytes. */
static void put_long_file(uint64_t size)
{
    put_file(0, size);
    for (uint32_t i = 0; i < ADDRESSES; i++)
        put(block_at(FILE_AT) + 360 + 4 * i, address_of(i), 4);
    put_direct(0, ADDRESSES);
    put_direct(1, ADDRESSES + IN_NODE);
    for (uint32_t i = 0; i < DATA_BLOCKS; i++)
        for (size_t at = 0; at < BLOCK; at++)
            block_at(FIRST_AT + i)[at] = (uint8_t)(i + at + at / 256 + 1);
}

static void put_long(uint64_t size)
{
    put_sound();
    put_long_file(size);
}

/* Where the addresses end that both nodes have. */
enum { BEHIND = ADDRESSES + 2 * IN_NODE };

/* How many blocks are wanted, with a buffer for just so many, and with a byte or a block less and more. */
static void test_lengths(void)
{
    static const uint32_t in_shape[] = {1, 2, 3, MOST - 1, MOST};
    static const uint32_t out_of_shape[] = {0, MOST + 1, 1 << 20, (1 << 20) + 1, UINT32_MAX};
    put_long((uint64_t)BEHIND * BLOCK);
    for (size_t i = 0; i < COUNT_OF(in_shape); i++) {
        uint32_t wanted = in_shape[i];
        size_t len = (size_t)wanted * BLOCK;
        const size_t others[] = {0, len - 1, len + 1, len - BLOCK, len + BLOCK};
        expect_run("a run from block", 0, wanted, HARPTIMBER_DATA, wanted, BLOCK);
        for (size_t j = 0; j < COUNT_OF(others); j++) {
            struct lens lens = lens_of(wanted);
            lens.buffer = others[j];
            run_with(road, strlen(road), 0, wanted, lens);
            expect_refused("a buffer for another number of blocks than", wanted, HARPTIMBER_OUT_OF_SHAPE);
        }
    }
    for (size_t i = 0; i < COUNT_OF(out_of_shape); i++) {
        /* In 32 bits the last but one would need a block, and the one before it none. */
        const size_t buffers[] = {0, BLOCK, sizeof buffer};
        for (size_t j = 0; j < COUNT_OF(buffers); j++) {
            struct lens lens = lens_of(MOST);
            lens.buffer = buffers[j];
            run_with(road, strlen(road), 0, out_of_shape[i], lens);
            expect_refused("blocks wanted:", out_of_shape[i], HARPTIMBER_OUT_OF_SHAPE);
        }
    }
}

/* Every count of names, with just enough room, a remainder that isn't used, and a byte less of each list. */
static void test_rooms(void)
{
    for (size_t k = 1; k <= HARPTIMBER_NAMES_MOST; k++) {
        struct path path = path_of(k, 8);
        struct lens least = {2 * BLOCK, HARPTIMBER_RUN_NODES_BYTES_OF(k), HARPTIMBER_RUN_BLOCKS_BYTES_OF(k)};
        put_path(&path);
        put_long_file(10 * BLOCK);
        pull_each(path.text, path.len, 5, 2);
        for (size_t more = 0; more < 4; more++) {
            run_with(path.text, path.len, 5, 2, (struct lens){least.buffer, least.nodes + more, least.blocks + 3 - more});
            expect("rooms for names", k, HARPTIMBER_DATA, 2, BLOCK);
        }
        run_with(path.text, path.len, 5, 2, (struct lens){least.buffer, least.nodes - 1, least.blocks});
        expect_refused("too little room for nodes of names", k, HARPTIMBER_OUT_OF_SHAPE);
        run_with(path.text, path.len, 5, 2, (struct lens){least.buffer, least.nodes, least.blocks - 1});
        expect_refused("too little room for blocks of names", k, HARPTIMBER_OUT_OF_SHAPE);
    }
}

/* Files that end inside a run, with it, and behind it, in the middle of a block or not. */
static void test_ends(void)
{
    static const uint64_t sizes[] = {0, 1, BLOCK - 1, BLOCK, BLOCK + 1, 5 * BLOCK, 5 * BLOCK + 7, MOST * BLOCK, MOST * BLOCK + 1};
    static const uint32_t indexes[] = {0, 1, 4, 5, 6, MOST, UINT32_MAX}, wanted[] = {1, 2, 3, MOST};
    for (size_t i = 0; i < COUNT_OF(sizes); i++) {
        put_long(sizes[i]);
        uint64_t there = (sizes[i] + BLOCK - 1) / BLOCK;
        for (size_t j = 0; j < COUNT_OF(indexes) * COUNT_OF(wanted); j++) {
            uint32_t index = indexes[j / COUNT_OF(wanted)], want = wanted[j % COUNT_OF(wanted)];
            uint64_t left = there > index ? there - index : 0, count = left < want ? left : want;
            uint64_t in_last = sizes[i] - (index + count - 1) * BLOCK;
            uint32_t byte_count = count == 0 ? 0 : in_last < BLOCK ? (uint32_t)in_last : BLOCK;
            expect_run("the end of the file behind block", index, want, count < want ? HARPTIMBER_PAST_END : HARPTIMBER_DATA,
                       (uint32_t)count, byte_count);
        }
    }
}

/* Runs that go from the inode's addresses to a node's, and from that node to the next; one of them is a hole as a whole. */
static void test_nodes(void)
{
    static const uint32_t bounds[] = {ADDRESSES, ADDRESSES + IN_NODE}, before[] = {0, 1, 200, MOST - 1, MOST};
    for (uint32_t holes = 0; holes < 3; holes++) {
        put_long((uint64_t)BEHIND * BLOCK);
        if (holes > 0)
            put(block_at(FILE_AT) + NODE_SLOTS + 4 * (holes - 1), 0, 4);
        for (size_t i = 0; i < COUNT_OF(bounds) * COUNT_OF(before); i++)
            expect_run("a run over nodes from block", bounds[i / COUNT_OF(before)] - before[i % COUNT_OF(before)], MOST,
                       HARPTIMBER_DATA, MOST, BLOCK);
    }
    put_long((uint64_t)BEHIND * BLOCK - 1);
    expect_run("a run to the last byte from block", BEHIND - 40, MOST, HARPTIMBER_PAST_END, 40, BLOCK - 1);
}

/* A byte of the long file's nodes, or of its first addresses, so that a run is refused in its middle. */
static void test_damage(void)
{
    put_long((uint64_t)BEHIND * BLOCK);
    put(block_at(FILE_AT) + 360 + 4 * 20, MAIN - 1, 4);
    expect_run("data outside, behind block", 0, MOST, HARPTIMBER_DATA_OUTSIDE, 20, BLOCK);
    expect_run("data outside, right behind block", 19, 2, HARPTIMBER_DATA_OUTSIDE, 1, BLOCK);
    expect_run("data outside, not yet behind block", 18, 2, HARPTIMBER_DATA, 2, BLOCK);
    expect_run("data outside, block", 20, 2, HARPTIMBER_DATA_OUTSIDE, 0, 0);
    expect_run("behind data outside, block", 21, 2, HARPTIMBER_DATA, 2, BLOCK);
    static const struct {
        uint32_t answer, address;
    } tables[] = {{HARPTIMBER_NO_NODE, 0}, {HARPTIMBER_NODE_OUTSIDE, MAIN - 1}, {HARPTIMBER_FOREIGN_NODE, FIRST_AT}};
    for (size_t i = 0; i < COUNT_OF(tables); i++) {
        put_long((uint64_t)BEHIND * BLOCK);
        put(table_entry(DIRECT) + 5, tables[i].address, 4);
        expect_run("a node's damage, behind block", ADDRESSES - 3, MOST, tables[i].answer, 3, BLOCK);
        expect_run("a node's damage, at block", ADDRESSES, MOST, tables[i].answer, 0, 0);
        expect_run("behind a damaged node, block", ADDRESSES + IN_NODE, MOST, HARPTIMBER_DATA, MOST, BLOCK);
    }
}

/* An inline file has one block. */
static void test_inline(void)
{
    put_sound();
    expect_run("an inline file, block", 0, 1, HARPTIMBER_DATA, 1, SIZE);
    expect_run("more than an inline file has, from block", 0, 2, HARPTIMBER_PAST_END, 1, SIZE);
    expect_run("many more than an inline file has, from block", 0, MOST, HARPTIMBER_PAST_END, 1, SIZE);
    expect_run("behind an inline file, block", 1, 2, HARPTIMBER_PAST_END, 0, 0);
    put_file(DATA, 0);
    expect_run("an empty inline file, block", 0, 2, HARPTIMBER_PAST_END, 0, 0);
}

/* Every answer behind opening at a run's first block: of one that stands, the next is past the end, or junk as an address. */
static void test_answers(void)
{
    for (size_t i = 0; i < COUNT_OF(pulls); i++) {
        const struct pull_case *pull = &pulls[i];
        int stands = pull->answer == HARPTIMBER_DATA || pull->answer == HARPTIMBER_HOLE;
        put_pull(pull);
        for (uint32_t wanted = 1; wanted <= 3; wanted++) {
            pull_each(pull->path, strlen(pull->path), pull->index, wanted);
            run_with(pull->path, strlen(pull->path), pull->index, wanted, lens_of(wanted));
            uint32_t next = pull->change == put_nothing ? HARPTIMBER_PAST_END : HARPTIMBER_DATA_OUTSIDE;
            uint32_t answer = !stands ? pull->answer : wanted == 1 ? (uint32_t)HARPTIMBER_DATA : next;
            uint32_t byte_count = !stands ? 0 : pull->change == put_nothing ? (uint32_t)SIZE : (uint32_t)BLOCK;
            expect(pull->what, wanted, answer, (uint32_t)stands, byte_count);
        }
    }
}

/* What is out of shape comes before a card that doesn't open. */
static void expect_shape_first(void)
{
    struct lens good = lens_of(2), short_nodes = good, short_blocks = good, long_buffer = good;
    size_t len = strlen(road);
    short_nodes.nodes = HARPTIMBER_RUN_NODES_BYTES_OF(1) - 1;
    short_blocks.blocks = HARPTIMBER_RUN_BLOCKS_BYTES_OF(1) - 1;
    long_buffer.buffer++;
    for (size_t i = 0; i < COUNT_OF(bad_paths); i++) {
        run_with(bad_paths[i], strlen(bad_paths[i]), 0, 2, good);
        expect_refused("a bad path,", i, HARPTIMBER_OUT_OF_SHAPE);
    }
    run_with("a\0b", 3, 0, 2, good);
    expect_refused("a zero byte in a name of bytes:", 3, HARPTIMBER_OUT_OF_SHAPE);
    struct path ninth = path_of(HARPTIMBER_NAMES_MOST + 1, 1);
    run_with(ninth.text, ninth.len, 0, 2, good);
    expect_refused("names:", HARPTIMBER_NAMES_MOST + 1, HARPTIMBER_OUT_OF_SHAPE);
    run_with(road, len, 0, 2, short_nodes);
    expect_refused("room for nodes:", short_nodes.nodes, HARPTIMBER_OUT_OF_SHAPE);
    run_with(road, len, 0, 2, short_blocks);
    expect_refused("room for blocks:", short_blocks.blocks, HARPTIMBER_OUT_OF_SHAPE);
    run_with(road, len, 0, 2, long_buffer);
    expect_refused("buffer:", long_buffer.buffer, HARPTIMBER_OUT_OF_SHAPE);
    run_with(road, len, 0, 0, good);
    expect_refused("blocks wanted:", 0, HARPTIMBER_OUT_OF_SHAPE);
    run_with(road, len, 0, MOST + 1, lens_of(MOST + 1));
    expect_refused("blocks wanted:", MOST + 1, HARPTIMBER_OUT_OF_SHAPE);
}

static void test_refusals(void)
{
    put_sound();
    expect_shape_first();
    for (size_t i = 0; i < COUNT_OF(unopened); i++) {
        put_sound();
        unopened[i].damage(card);
        expect_shape_first();
        run_with(road, strlen(road), 0, 2, lens_of(2));
        expect_refused("a card that doesn't open,", i, unopened[i].answer);
    }
}

/* No bytes at null, of each slice. */
static void test_nulls(void)
{
    const uint8_t *path = (const uint8_t *)road;
    size_t len = strlen(road), node_room = sizeof run_nodes, block_room = sizeof run_blocks;
    put_sound();
    fill();
    const struct harptimber_run runs[] = {
        harptimber_pull_run(NULL, 0, path, len, 0, 1, buffer, BLOCK, run_nodes, node_room, run_blocks, block_room),
        harptimber_pull_run(card, sizeof card, NULL, 0, 0, 1, buffer, BLOCK, run_nodes, node_room, run_blocks, block_room),
        harptimber_pull_run(card, sizeof card, path, len, 0, 1, NULL, 0, run_nodes, node_room, run_blocks, block_room),
        harptimber_pull_run(card, sizeof card, path, len, 0, 0, NULL, 0, run_nodes, node_room, run_blocks, block_room),
        harptimber_pull_run(card, sizeof card, path, len, 0, 1, buffer, BLOCK, NULL, 0, run_blocks, block_room),
        harptimber_pull_run(card, sizeof card, path, len, 0, 1, buffer, BLOCK, run_nodes, node_room, NULL, 0),
        harptimber_pull_run(NULL, 0, NULL, 0, 0, 0, NULL, 0, NULL, 0, NULL, 0),
    };
    for (size_t i = 0; i < COUNT_OF(runs); i++) {
        ran = runs[i];
        expect_refused("no bytes at null, call", i, HARPTIMBER_OUT_OF_SHAPE);
    }
}

/* By a run's lists: the path's blocks, the nodes, each block that stands, and the one that was refused. */
static void test_compares(void)
{
    enum { REFUSED = ADDRESSES + 2 };
    put_long((uint64_t)BEHIND * BLOCK);
    put(block_at(DIRECT_AT) + 4 * (REFUSED - ADDRESSES), MAIN - 1, 4);
    memcpy(fresh, card, sizeof card);
    expect_run("the run to compare, from block", REFUSED - 10, 20, HARPTIMBER_DATA_OUTSIDE, 10, BLOCK);
    struct left left = {run_nodes, run_blocks, sizeof run_nodes, sizeof run_blocks, ran.node_count, ran.block_count};
    expect_compared_by(&left, ROOT_AT, BLOCK - 1, HARPTIMBER_CHANGED);
    expect_compared_by(&left, ENTRIES_AT, 0, HARPTIMBER_CHANGED);
    expect_compared_by(&left, FILE_AT, 32, HARPTIMBER_CHANGED);
    expect_compared_by(&left, DIRECT_AT, BLOCK - 1, HARPTIMBER_CHANGED);
    expect_compared_by(&left, DIRECT_AT + 1, BLOCK - 1, HARPTIMBER_SAME);
    for (uint32_t index = REFUSED - 10; index < REFUSED; index++)
        if (address_of(index) != 0)
            expect_compared_by(&left, address_of(index), index % BLOCK, HARPTIMBER_CHANGED);
    expect_compared_by(&left, address_of(REFUSED - 11), 0, HARPTIMBER_SAME);
    expect_compared_by(&left, address_of(REFUSED + 1), 0, HARPTIMBER_SAME);
    /* A refused pull is listed as far as it came: here to the node, beside which nothing stands. */
    expect_run("a run that is refused at once, from block", REFUSED, 20, HARPTIMBER_DATA_OUTSIDE, 0, 0);
    left.node_count = ran.node_count;
    left.block_count = ran.block_count;
    expect_compared_by(&left, DIRECT_AT, 0, HARPTIMBER_CHANGED);
    expect_compared_by(&left, address_of(REFUSED - 1), 0, HARPTIMBER_SAME);
}

/* An image of zeros. */
static void expect_length(const uint8_t *zeros, size_t len, uint32_t answer)
{
    fill();
    ran = harptimber_pull_run(zeros, len, (const uint8_t *)road, strlen(road), 0, 2, buffer, 2 * BLOCK, run_nodes,
                              sizeof run_nodes, run_blocks, sizeof run_blocks);
    expect_refused("bytes of zeros:", len, answer);
}

int main(void)
{
    test_lengths();
    test_rooms();
    test_ends();
    test_nodes();
    test_damage();
    test_inline();
    test_answers();
    test_refusals();
    test_nulls();
    test_compares();
    return refuse_zeros(expect_length);
}
