/*
 * Readers from C, handed one block at a time: answer, numbers and every lent byte beside a pull on the whole card, and which blocks
 * are asked for. Wrong lengths at every step, steps behind the answer, card counts and lengths of lent memory on both sides of each
 * bound, a state that is gone on with twice, bytes that are no card's, and states that no call gave.
 */
#include "deep_card.h"
#include "reading.h"

_Static_assert(sizeof(struct harptimber_reader) == 23992, "a state's bytes");
_Static_assert(_Alignof(struct harptimber_reader) == 4, "and where it may lie");
_Static_assert(offsetof(struct harptimber_reader, block) == 4 && offsetof(struct harptimber_reader, numbers) == 8 &&
                   offsetof(struct harptimber_reader, bytes) == 140, "its fields, without gaps");

static struct harptimber_reader reader;

/* A reader beside a pull. */
static void expect_as_pulled(const char *what, const char *path, size_t len, uint32_t index, uint32_t answer)
{
    pull_with(path, len, index, sizeof nodes, sizeof blocks);
    start(&reader, path, len, index);
    feed_all(&reader);
    take_result(&reader, BLOCK, sizeof nodes, sizeof blocks);
    if (fails(got.answer == answer && is_over(&reader) && is_as_pulled()))
        printf("FAILED %s, block %" PRIu32 ": answer %" PRIu32 " after %" PRIu32 " blocks, pulled %" PRIu32
               ", expected %" PRIu32 "; memory %s\n",
               what, index, read_gave.answer, asked_count, got.answer, answer, is_as_pulled() ? "as by the pull" : "other");
}

/* The last reader asked for just these blocks, in their order. */
static void expect_asked(const char *what, const uint32_t *expected, size_t count)
{
    size_t same = 0;
    while (same < count && same < asked_count && asked[same] == expected[same])
        same++;
    if (fails(same == count && asked_count == count))
        printf("FAILED %s: %" PRIu32 " blocks were asked for, expected %zu; the first %zu are the same\n", what, asked_count,
               count, same);
}

/* Every answer behind opening, and before it. */
static void test_answers(void)
{
    for (size_t i = 0; i < COUNT_OF(pulls); i++) {
        put_pull(&pulls[i]);
        expect_as_pulled(pulls[i].what, pulls[i].path, strlen(pulls[i].path), pulls[i].index, pulls[i].answer);
    }
    for (size_t i = 0; i < COUNT_OF(unopened); i++) {
        put_sound();
        unopened[i].damage(card);
        expect_as_pulled("a card that doesn't open", road, strlen(road), 0, unopened[i].answer);
    }
}

/* Every count of names, and blocks behind every number of nodes. */
static void test_paths(void)
{
    for (size_t k = 1; k <= HARPTIMBER_NAMES_MOST; k++) {
        struct path path = path_of(k, 8 * k);
        put_path(&path);
        expect_as_pulled("a path", path.text, path.len, 0, HARPTIMBER_DATA);
        expect_as_pulled("a path, behind the file's end", path.text, path.len, 1, HARPTIMBER_PAST_END);
        expect_as_pulled("a part of a path", path.text, path.len - 1, 0, HARPTIMBER_NO_NAME);
    }
    struct path deep = put_deep_card();
    for (size_t i = 0; i < WAYS; i++)
        expect_as_pulled("the deep card", deep.text, deep.len, way_indexes[i], HARPTIMBER_DATA);
}

/* Opening asks for the second copy of the superblock only if it needs it, and for a pack's last block if the first passes. */
static void test_asked(void)
{
    static const uint32_t sound[] = {0,   CHECKPOINT, CHECKPOINT + 2, SECOND_PACK, CHECKPOINT + 1,
                                     NAT, ROOT_AT,    ENTRIES_AT,     NAT,         FILE_AT};
    put_sound();
    expect_as_pulled("the sound card", road, strlen(road), 0, HARPTIMBER_DATA);
    expect_asked("the sound card", sound, COUNT_OF(sound));
    const uint32_t deep[] = {
        /* opening, */
        0, 1, CHECKPOINT, CHECKPOINT + 2, SECOND_PACK, SECOND_PACK + 2, SECOND_PACK + 1,
        /* the root directory, which is in the journal, */
        ROOT_AT, DECOYS_AT, DECOYS_AT, DECOYS_AT, DECOYS_AT, DECOYS_AT, entries_at(0),
        /* the others, every second of them inline, */
        NAT, inode_at(1), NAT, inode_at(2), entries_at(2), NAT, inode_at(3), NAT, inode_at(4), entries_at(4),
        NAT, inode_at(5), NAT, inode_at(6), entries_at(6), NAT, inode_at(7),
        /* and the file: its inode, three nodes and the data */
        FILE_AT, NAT, NODE_AT + 13, NAT, NODE_AT + 14, NAT, NODE_AT + 15, WAY_DATA_AT + 3,
    };
    struct path path = put_deep_card();
    expect_as_pulled("the deep card", path.text, path.len, way_indexes[WAYS - 1], HARPTIMBER_DATA);
    expect_asked("the deep card", deep, COUNT_OF(deep));
}

/* A step with so many bytes repeats the state, which has its answer. */
static void expect_repeated(const char *what, const uint8_t *bytes, size_t len)
{
    struct harptimber_reader again = harptimber_reader_step(reader, bytes, len);
    if (fails(memcmp(&again, &reader, sizeof reader) == 0))
        printf("FAILED %s: a step with %zu bytes behind the answer changes the state\n", what, len);
}

static void expect_all_repeated(const char *what)
{
    static const uint8_t bytes[2 * BLOCK];
    static const size_t lens[] = {0, 1, BLOCK - 1, BLOCK, BLOCK + 1, 2 * BLOCK};
    for (size_t i = 0; i < COUNT_OF(lens); i++)
        expect_repeated(what, bytes, lens[i]);
    expect_repeated(what, block_at(FILE_AT), BLOCK);
    expect_repeated(what, NULL, 0);
}

static void test_behind_answer(void)
{
    for (size_t i = 0; i < COUNT_OF(pulls); i++) {
        put_pull(&pulls[i]);
        expect_as_pulled(pulls[i].what, pulls[i].path, strlen(pulls[i].path), pulls[i].index, pulls[i].answer);
        expect_all_repeated(pulls[i].what);
    }
    for (size_t i = 0; i < COUNT_OF(unopened); i++) {
        put_sound();
        unopened[i].damage(card);
        expect_as_pulled("a card that doesn't open", road, strlen(road), 0, unopened[i].answer);
        expect_all_repeated("a card that doesn't open");
    }
}

/* A reader that has answered 4, and stays so. */
static void expect_ended(const char *what, size_t value)
{
    take_result(&reader, BLOCK, sizeof nodes, sizeof blocks);
    if (fails(is_over(&reader) && is_refused(HARPTIMBER_OUT_OF_SHAPE)))
        printf("FAILED %s %zu: asks %" PRIu32 ", answer %" PRIu32 "; expected 0, 4 and untouched memory\n", what, value,
               reader.asks, read_gave.answer);
    expect_all_repeated(what);
}

/* Bytes of another length than a block, the right ones or none, in the place of each block. Before that no result is there. */
static void test_lengths(void)
{
    static const size_t lens[] = {0, 1, BLOCK - 1, BLOCK + 1, 2 * BLOCK};
    struct path path = put_deep_card();
    expect_as_pulled("the deep card", path.text, path.len, way_indexes[WAYS - 1], HARPTIMBER_DATA);
    uint32_t steps = asked_count;
    for (uint32_t step = 0; step < steps; step++) {
        start(&reader, path.text, path.len, way_indexes[WAYS - 1]);
        while (asked_count < step && feed(&reader))
            ;
        struct harptimber_reader before = reader;
        take_result(&reader, BLOCK, sizeof nodes, sizeof blocks);
        if (fails(before.asks == 1 && is_refused(HARPTIMBER_OUT_OF_SHAPE)))
            printf("FAILED a result before step %" PRIu32 ": answer %" PRIu32 "\n", step, read_gave.answer);
        for (size_t i = 0; i < COUNT_OF(lens); i++) {
            reader = harptimber_reader_step(before, lens[i] == 0 ? NULL : block_at(before.block), lens[i]);
            expect_ended("a wrong length at step", step);
        }
    }
}

/* How many blocks the card has, with zeros for each; and fewer than its superblock says. */
static void test_card_counts(void)
{
    static const struct {
        uint32_t blocks, answer;
    } counts[] = {
        {0, HARPTIMBER_OUT_OF_SHAPE},       {1, HARPTIMBER_OUT_OF_SHAPE},        {2, HARPTIMBER_NO_SUPERBLOCK},
        {4194303, HARPTIMBER_NO_SUPERBLOCK}, {4194304, HARPTIMBER_NO_SUPERBLOCK}, {4194305, HARPTIMBER_OUT_OF_SHAPE},
        {UINT32_MAX, HARPTIMBER_OUT_OF_SHAPE}, {CARD_BLOCKS - 1, HARPTIMBER_NO_SUPERBLOCK},
    };
    for (size_t i = 0; i < COUNT_OF(counts); i++) {
        put_sound();
        if (counts[i].blocks != CARD_BLOCKS - 1)
            memset(card, 0, 2 * (size_t)BLOCK);
        asked_count = 0;
        reader = harptimber_reader_start(counts[i].blocks, (const uint8_t *)road, strlen(road), 0);
        uint32_t asks = reader.asks, block_asked = reader.block;
        feed_all(&reader);
        take_result(&reader, BLOCK, sizeof nodes, sizeof blocks);
        uint32_t expected = counts[i].answer == HARPTIMBER_OUT_OF_SHAPE ? 0 : 1; /* then both copies are asked for */
        if (fails(asks == expected && block_asked == 0 && asked_count == 2 * expected && is_over(&reader) &&
                  is_refused(counts[i].answer)))
            printf("FAILED a card of %" PRIu32 " blocks: asks %" PRIu32 ", %" PRIu32 " in all, answer %" PRIu32
                   ", expected %" PRIu32 "\n",
                   counts[i].blocks, asks, asked_count, read_gave.answer, counts[i].answer);
    }
}

/* Paths that are none are answered at the start. */
static void test_bad_paths(void)
{
    put_sound();
    for (size_t i = 0; i < COUNT_OF(bad_paths); i++) {
        start(&reader, bad_paths[i], strlen(bad_paths[i]), 0);
        expect_ended("a bad path,", i);
    }
    start(&reader, "a\0b", 3, 0);
    expect_ended("a zero byte in a name of bytes:", 3);
    start(&reader, NULL, 0, 0);
    expect_ended("a path at null of bytes:", 0);
    static const struct {
        size_t names, bytes;
    } too_long[] = {{9, 1}, {1, 256}, {8, 256}, {9, 255}};
    for (size_t i = 0; i < COUNT_OF(too_long); i++) {
        struct path path = path_of(too_long[i].names, too_long[i].bytes);
        start(&reader, path.text, path.len, 0);
        expect_ended("a path of bytes:", path.len);
    }
}

/* Lengths of what a result writes to, on both sides of each bound, by the path's names. */
static void test_rooms(void)
{
    for (size_t k = 1; k <= HARPTIMBER_NAMES_MOST; k++) {
        struct path path = path_of(k, 8);
        size_t least_nodes = HARPTIMBER_NODES_BYTES_OF(k), least_blocks = HARPTIMBER_BLOCKS_BYTES_OF(k);
        put_path(&path);
        expect_as_pulled("a path", path.text, path.len, 0, HARPTIMBER_DATA);
        for (size_t more = 0; more < 4; more++) {
            take_result(&reader, BLOCK, least_nodes + more, least_blocks + 3 - more);
            if (fails(is_as_pulled()))
                printf("FAILED a result of %zu names with %zu bytes too many: answer %" PRIu32 "\n", k, more, read_gave.answer);
        }
        const size_t others[][3] = {
            {BLOCK - 1, least_nodes, least_blocks},     {BLOCK + 1, least_nodes, least_blocks},
            {0, least_nodes, least_blocks},             {BLOCK, least_nodes - 1, least_blocks},
            {BLOCK, least_nodes, least_blocks - 1},     {BLOCK, 0, least_blocks},
            {BLOCK, least_nodes, 0},                    {0, 0, 0},
        };
        for (size_t i = 0; i < COUNT_OF(others); i++) {
            take_result(&reader, others[i][0], others[i][1], others[i][2]);
            if (fails(is_refused(HARPTIMBER_OUT_OF_SHAPE)))
                printf("FAILED a result of %zu names in %zu, %zu and %zu bytes: answer %" PRIu32 "\n", k, others[i][0],
                       others[i][1], others[i][2], read_gave.answer);
        }
    }
}

/* A state is a value: from each of them the reader goes on to the same result, however often. */
static void test_twice(void)
{
    struct path path = put_deep_card();
    uint32_t index = way_indexes[WAYS - 1];
    expect_as_pulled("the deep card", path.text, path.len, index, HARPTIMBER_DATA);
    for (uint32_t step = 0, steps = asked_count; step <= steps; step++) {
        start(&reader, path.text, path.len, index);
        while (asked_count < step && feed(&reader))
            ;
        struct harptimber_reader twice = reader;
        feed_all(&reader);
        feed_all(&twice);
        take_result(&twice, BLOCK, sizeof nodes, sizeof blocks);
        if (fails(memcmp(&twice, &reader, sizeof reader) == 0 && is_as_pulled()))
            printf("FAILED to go on twice from step %" PRIu32 ": answer %" PRIu32 "\n", step, read_gave.answer);
    }
}

/* Numbers that look like any. */
static uint32_t random_number(void)
{
    static uint64_t state = 1;
    state = state * 6364136223846793005 + 1442695040888963407;
    return (uint32_t)(state >> 32);
}

/* The block that is asked for, with some of its bytes changed, or another one of the card, or bytes of one kind. */
static void put_other_bytes(uint8_t *bytes, uint32_t number)
{
    uint32_t kind = random_number() % 8, count = random_number() % 4;
    memcpy(bytes, block_at(kind == 0 ? random_number() % CARD_BLOCKS : number), BLOCK);
    if (kind == 1)
        memset(bytes, (int)random_number(), BLOCK);
    for (uint32_t i = 0; kind < 4 && i < count; i++)
        bytes[random_number() % BLOCK] ^= (uint8_t)random_number();
}

/* Whether the last result's counts are no more than there is room for, and memory is as it was behind them. */
static int is_inside(void)
{
    return read_gave.byte_count <= BLOCK && read_gave.node_count <= HARPTIMBER_NODES_MOST &&
           read_gave.block_count <= HARPTIMBER_BLOCKS_MOST &&
           all_are(read_block + BLOCK, sizeof read_block - BLOCK, PATTERN) &&
           all_are(read_nodes + 4 * read_gave.node_count, sizeof read_nodes - 4 * read_gave.node_count, PATTERN) &&
           all_are(read_blocks + 4 * read_gave.block_count, sizeof read_blocks - 4 * read_gave.block_count, PATTERN);
}

/* Bytes that are no card's, also others for the same block: it answers all the same, and asks for no block outside. */
static void test_other_bytes(void)
{
    struct path path = put_deep_card();
    static uint8_t bytes[BLOCK];
    for (uint32_t trial = 0; trial < 3000; trial++) {
        uint32_t opened = trial % 3 == 0 ? 0 : 7, steps = 0;
        start(&reader, path.text, path.len, way_indexes[trial % WAYS]);
        while (asked_count < opened && feed(&reader)) /* damage in opening's blocks is mostly the end */
            ;
        int inside = 1;
        for (; reader.asks == 1 && inside && steps < HARPTIMBER_READER_BLOCKS_MOST - opened; steps++) {
            inside = reader.block < CARD_BLOCKS;
            put_other_bytes(bytes, inside ? reader.block : 0);
            reader = harptimber_reader_step(reader, bytes, BLOCK);
        }
        take_result(&reader, BLOCK, sizeof nodes, sizeof blocks);
        if (fails(inside && is_over(&reader) && read_gave.answer <= HARPTIMBER_MALFORMED_SLOT && is_inside()))
            printf("FAILED other bytes, trial %" PRIu32 ": asks %" PRIu32 ", block %" PRIu32 ", answer %" PRIu32
                   " after %" PRIu32 " blocks\n",
                   trial, reader.asks, reader.block, read_gave.answer, steps);
    }
}

/* A state that no call gave: of one kind of bytes, of any, or one that was given with some of its numbers or bytes changed. */
static void put_any_state(uint32_t trial)
{
    uint8_t *bytes = (uint8_t *)&reader;
    if (trial < 512) {
        memset(bytes, (int)(trial / 2), sizeof reader);
        reader.asks = trial % 2;
        return;
    }
    for (size_t i = 0; trial % 4 == 0 && i < sizeof reader; i++)
        bytes[i] = (uint8_t)random_number();
    for (uint32_t i = 0; i <= trial % 3; i++) {
        reader.numbers[random_number() % COUNT_OF(reader.numbers)] = random_number() >> random_number() % 32;
        reader.bytes[random_number() % sizeof reader.bytes] = (uint8_t)random_number();
    }
    if (trial % 4 == 0)
        reader.asks = trial / 4 % 2;
}

/* They are answered too, with any number: a step asks or is over, and a result stays inside. */
static void test_any_states(void)
{
    struct path path = put_deep_card();
    for (uint32_t trial = 0; trial < 4000; trial++) {
        start(&reader, path.text, path.len, way_indexes[trial % WAYS]);
        for (uint32_t steps = trial % 40; steps > 0 && feed(&reader); steps--)
            ;
        put_any_state(trial);
        take_result(&reader, BLOCK, sizeof nodes, sizeof blocks);
        int inside = is_inside();
        reader = harptimber_reader_step(reader, block_at(random_number() % CARD_BLOCKS), BLOCK);
        if (fails(inside && reader.asks <= 1))
            printf("FAILED a state that no call gave, trial %" PRIu32 ": asks %" PRIu32 ", answer %" PRIu32 "\n", trial,
                   reader.asks, read_gave.answer);
    }
}

int main(void)
{
    test_answers();
    test_paths();
    test_asked();
    test_behind_answer();
    test_lengths();
    test_card_counts();
    test_bad_paths();
    test_rooms();
    test_twice();
    test_other_bytes();
    test_any_states();
    return finish();
}
