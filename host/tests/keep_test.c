/*
 * Keep files from C: every byte that is written, with a room that is just enough and one byte short; what is refused, and in
 * which order; each rule of reading from both sides; and compares, which are those of the card that a file was written from.
 */
#include "zeros.h"

#include "every_answer.h"
#include "pulling.h"

/* More than any keep file of the small card has. */
enum { PLENTY = 1 << 17 };

static uint8_t room[PLENTY], expected[PLENTY], file[PLENTY];
static size_t expected_len;

static uint8_t *add_number(uint8_t *at, size_t number)
{
    put(at, number, 4);
    return at + 4;
}

static uint8_t *add_bytes(uint8_t *at, const void *bytes, size_t len)
{
    memcpy(at, bytes, len);
    return at + len;
}

/* What a keep file has of a node. */
static uint8_t *add_node(uint8_t *at, uint32_t number)
{
    struct harptimber_entry entry = harptimber_node_lookup(card, sizeof card, number);
    at = add_number(at, number);
    at = add_number(at, entry.answer);
    at = add_number(at, entry.inode);
    return add_number(at, entry.address);
}

/* The keep file of the last pull, laid out here. */
static void lay_out(const char *path, size_t path_len, uint32_t index)
{
    static const uint8_t zeros[BLOCK];
    uint32_t n = got.node_count, b = got.block_count;
    uint8_t *at = add_number(add_number(add_number(expected, path_len), n), b);
    at = add_number(at, 4140 + path_len);
    at = add_number(at, 4140 + path_len + 16 * n);
    at = add_number(at, 4140 + path_len + 16 * n + 4100 * b);
    at = add_bytes(at, path, path_len);
    at = add_number(add_number(add_number(at, index), got.answer), got.byte_count);
    at = add_bytes(at, got.answer == HARPTIMBER_DATA ? block : zeros, BLOCK);
    at = add_number(add_number(at, MAIN), CARD_BLOCKS);
    for (uint32_t i = 0; i < n; i++)
        at = add_node(at, harptimber_list_entry(nodes, i));
    for (uint32_t i = 0; i < b; i++) {
        uint32_t number = harptimber_list_entry(blocks, i);
        at = add_bytes(add_number(at, number), block_at(number), BLOCK);
    }
    expected_len = (size_t)(at - expected);
}

static struct harptimber_kept keep(const char *path, size_t path_len, uint32_t index, size_t room_len)
{
    memset(room, PATTERN, sizeof room);
    return harptimber_keep(card, sizeof card, (const uint8_t *)path, path_len, index, room_len == 0 ? NULL : room, room_len);
}

/* A file that is written, or a room that stays as it was. */
static void expect_kept(const char *what, struct harptimber_kept kept, uint32_t answer)
{
    size_t len = answer == HARPTIMBER_DATA ? expected_len : 0;
    int numbers = kept.answer == answer && kept.length == len;
    int bytes = memcmp(room, expected, len) == 0 && all_are(room + len, sizeof room - len, PATTERN);
    if (fails(numbers && bytes))
        printf("FAILED keep, %s: answer %" PRIu32 " and %" PRIu32 " bytes, expected %" PRIu32 " and %zu; room %s\n", what,
               kept.answer, kept.length, answer, len, bytes ? "as expected" : "other");
}

/* What reading gives, by what was pulled and laid out. */
static struct harptimber_keep_fields fields_of(size_t path_len, uint32_t index)
{
    uint32_t nodes_at = (uint32_t)HARPTIMBER_KEEP_LENGTH_OF(path_len, 0, 0), length = (uint32_t)expected_len;
    return (struct harptimber_keep_fields){
        .path_len = (uint32_t)path_len,
        .index = index,
        .pull_answer = got.answer,
        .byte_count = got.byte_count,
        .main_start = MAIN,
        .main_end = CARD_BLOCKS,
        .node_count = got.node_count,
        .block_count = got.block_count,
        .path_at = 24,
        .block_at = nodes_at - 8 - BLOCK,
        .nodes_at = nodes_at,
        .blocks_at = nodes_at + 16 * got.node_count,
        .length = length,
    };
}

static void expect_read(const char *what, const uint8_t *bytes, size_t len, const struct harptimber_keep_fields *fields)
{
    struct harptimber_keep_fields read = harptimber_keep_read(bytes, len);
    if (fails(memcmp(&read, fields, sizeof read) == 0))
        printf("FAILED read, %s: answer %" PRIu32 ", length %" PRIu32 "; expected %" PRIu32 ", %" PRIu32 "\n", what, read.answer,
               read.length, fields->answer, fields->length);
}

/* A pull and its keep file: with all of the room, with just enough, with a byte less and with none; and read again. */
static void expect_pulled(const char *what, const char *path, size_t path_len, uint32_t index, uint32_t answer)
{
    pull_with(path, path_len, index, sizeof nodes, sizeof blocks);
    if (fails(got.answer == answer))
        printf("FAILED pull, %s: answer %" PRIu32 ", expected %" PRIu32 "\n", what, got.answer, answer);
    lay_out(path, path_len, index);
    if (fails(expected_len == HARPTIMBER_KEEP_LENGTH_OF(path_len, got.node_count, got.block_count)))
        printf("FAILED the length, %s: %zu\n", what, expected_len);
    static const size_t short_rooms[] = {0, 1, 23, 24, BLOCK};
    for (size_t i = 0; i < COUNT_OF(short_rooms); i++)
        expect_kept(what, keep(path, path_len, index, short_rooms[i]), HARPTIMBER_NO_ROOM);
    expect_kept(what, keep(path, path_len, index, expected_len - 1), HARPTIMBER_NO_ROOM);
    expect_kept(what, keep(path, path_len, index, expected_len), HARPTIMBER_DATA);
    expect_kept(what, keep(path, path_len, index, expected_len + 1), HARPTIMBER_DATA);
    expect_kept(what, keep(path, path_len, index, sizeof room), HARPTIMBER_DATA);
    struct harptimber_keep_fields fields = fields_of(path_len, index);
    expect_read(what, room, expected_len, &fields);
}

/* The layout by numbers that stand here: the root's inode and entries, and the file's inode. */
static void test_layout(void)
{
    static const struct {
        size_t at;
        uint32_t number;
    } numbers[] = {
        {0, 8},           {4, 2},           {8, 3},           {12, 4148},          {16, 4180},         {20, 16480},
        {32, 0},          {36, 0},          {40, SIZE},       {4140, MAIN},        {4144, CARD_BLOCKS}, {4148, ROOT},
        {4152, 0},        {4156, ROOT},     {4160, ROOT_AT},  {4164, FILE_NUMBER}, {4168, 0},          {4172, FILE_NUMBER},
        {4176, FILE_AT},  {4180, ROOT_AT},  {8280, ENTRIES_AT}, {12380, FILE_AT},
    };
    put_sound();
    struct harptimber_kept kept = keep(road, strlen(road), 0, sizeof room);
    int same = kept.answer == HARPTIMBER_DATA && kept.length == 16480 && memcmp(room + 24, road, 8) == 0;
    for (size_t i = 0; i < COUNT_OF(numbers); i++)
        same = same && harptimber_list_entry(room + numbers[i].at, 0) == numbers[i].number;
    same = same && memcmp(room + 44, block_at(FILE_AT) + CONTENTS, SIZE) == 0 && all_are(room + 44 + SIZE, BLOCK - SIZE, 0);
    same = same && memcmp(room + 4184, block_at(ROOT_AT), BLOCK) == 0 && memcmp(room + 8284, block_at(ENTRIES_AT), BLOCK) == 0;
    if (fails(same && memcmp(room + 12384, block_at(FILE_AT), BLOCK) == 0))
        printf("FAILED the layout: answer %" PRIu32 ", %" PRIu32 " bytes\n", kept.answer, kept.length);
}

static void test_answers(void)
{
    for (size_t i = 0; i < COUNT_OF(pulls); i++) {
        put_pull(&pulls[i]);
        expect_pulled(pulls[i].what, pulls[i].path, strlen(pulls[i].path), pulls[i].index, pulls[i].answer);
    }
}

/* Names of a path as long as they can be, of which the first is missing; and a room that is never too small. */
static void test_paths(void)
{
    static uint8_t most[HARPTIMBER_KEEP_BYTES];
    char path[HARPTIMBER_PATH_BYTES_MOST];
    memset(path, 'n', sizeof path);
    put_sound();
    for (size_t k = 1; k <= HARPTIMBER_NAMES_MOST; k++) {
        size_t len = k * (HARPTIMBER_NAME_BYTES_MOST + 1) - 1, enough = HARPTIMBER_KEEP_BYTES_OF(k);
        expect_pulled("long names", path, len, 3, HARPTIMBER_NO_NAME);
        struct harptimber_kept kept = harptimber_keep(card, sizeof card, (const uint8_t *)path, len, 3, most, enough);
        if (fails(kept.answer == HARPTIMBER_DATA && memcmp(most, expected, expected_len) == 0))
            printf("FAILED %zu long names with room for any keep file: answer %" PRIu32 "\n", k, kept.answer);
        if (len < sizeof path)
            path[len] = '/';
    }
}

/* A bad path comes before a card that doesn't open, and that before a room that is too small. */
static void test_refusals(void)
{
    static const char *const bad[] = {"", "/", "a/", "/a", "a//b", "a/b/c/d/e/f/g/h/i"};
    static const size_t rooms[] = {0, 24, sizeof room};
    for (size_t i = 0; i < COUNT_OF(unopened); i++) {
        put_sound();
        unopened[i].damage(card);
        for (size_t j = 0; j < COUNT_OF(rooms); j++)
            expect_kept("a card that doesn't open", keep(road, strlen(road), 0, rooms[j]), unopened[i].answer);
        for (size_t j = 0; j < COUNT_OF(bad); j++)
            expect_kept("a bad path", keep(bad[j], strlen(bad[j]), 0, rooms[j % COUNT_OF(rooms)]), HARPTIMBER_OUT_OF_SHAPE);
    }
    put_sound();
    for (size_t j = 0; j < COUNT_OF(bad); j++)
        expect_kept("a bad path", keep(bad[j], strlen(bad[j]), 0, sizeof room), HARPTIMBER_OUT_OF_SHAPE);
    expect_kept("a zero byte", keep("a\0b", 3, 0, sizeof room), HARPTIMBER_OUT_OF_SHAPE);
}

static const struct harptimber_keep_fields refused = {.answer = HARPTIMBER_BAD_KEEP_FILE};

/* The file of the last pull with one number changed, which is refused or isn't, but for the field that has it. */
static void expect_with(const char *what, size_t at, uint32_t number, const struct harptimber_keep_fields *fields)
{
    memcpy(file, expected, expected_len);
    put(file + at, number, 4);
    expect_read(what, file, expected_len, fields);
}

/* The header, and the file's length. */
static void test_header(void)
{
    for (size_t at = 0; at < 24; at += 4) {
        uint32_t number = harptimber_list_entry(expected + at, 0);
        expect_with("a number of the header and 1", at, number + 1, &refused);
        expect_with("a number of the header less 1", at, number - 1, &refused);
        expect_with("a number of the header and 2^31", at, number ^ 1U << 31, &refused);
    }
    /* These make the same offsets if sums wrap. */
    expect_with("2^28 nodes more", 4, got.node_count + (1U << 28), &refused);
    expect_with("2^30 blocks more", 8, got.block_count + (1U << 30), &refused);
    for (size_t len = 0; len < expected_len; len += len < 30 ? 1 : 509)
        expect_read("fewer bytes", expected, len, &refused);
    expect_read("a byte less", expected, expected_len - 1, &refused);
    memcpy(file, expected, expected_len);
    expect_read("a byte more", file, expected_len + 1, &refused);
    expect_read("no byte at null", NULL, 0, &refused);
}

/* What the table says of the nodes; there are two. */
static void test_nodes(const struct harptimber_keep_fields *fields)
{
    size_t first = fields->nodes_at, second = first + 16;
    uint32_t lower = harptimber_list_entry(expected + first, 0), upper = harptimber_list_entry(expected + second, 0);
    expect_with("the same node twice", second, lower, &refused);
    expect_with("a node that falls", first, upper + 1, &refused);
    expect_with("the next node", second, lower + 1, fields);
    expect_with("the highest node", second, UINT32_MAX, fields);
    static const uint32_t answers[] = {1, 2, 4, 8, 10, 256 + 9, 1U << 31, UINT32_MAX};
    for (size_t i = 0; i < COUNT_OF(answers); i++)
        expect_with("another table answer", second + 4, answers[i], &refused);
    expect_with("9 with numbers", second + 4, 9, &refused);
    expect_with("any inode", second + 8, UINT32_MAX, fields);
    expect_with("any address", second + 12, UINT32_MAX, fields);
    for (size_t with = 0; with < 3; with++) { /* 9, 0, 0; and each 0 of it as 1 */
        memcpy(file, expected, expected_len);
        put(file + second + 4, 9, 4);
        put(file + second + 8, with == 1, 4);
        put(file + second + 12, with == 2, 4);
        expect_read("9 and two numbers", file, expected_len, with == 0 ? fields : &refused);
    }
}

/* The blocks, and the bounds that they lie in; there are three. */
static void test_blocks(const struct harptimber_keep_fields *fields)
{
    size_t first = fields->blocks_at, second = first + 4100, bounds = fields->nodes_at - 8;
    uint32_t lowest = harptimber_list_entry(expected + first, 0), highest = harptimber_list_entry(expected + second + 4100, 0);
    struct harptimber_keep_fields other = *fields;
    expect_with("the same block twice", second, lowest, &refused);
    expect_with("a block that falls", first, harptimber_list_entry(expected + second, 0) + 1, &refused);
    expect_with("the next block", second, lowest + 1, fields);
    expect_with("the area's first block", first, MAIN, fields);
    expect_with("a block before the area", first, MAIN - 1, &refused);
    expect_with("a block behind the area", second + 4100, CARD_BLOCKS, &refused);
    other.main_start = lowest;
    expect_with("an area from the lowest block on", bounds, lowest, &other);
    expect_with("an area behind the lowest block", bounds, lowest + 1, &refused);
    other = *fields;
    other.main_end = highest + 1;
    expect_with("an area to the highest block", bounds + 4, highest + 1, &other);
    expect_with("an area before the highest block", bounds + 4, highest, &refused);
}

/* What isn't looked at. */
static void test_untested(const struct harptimber_keep_fields *fields)
{
    size_t index_at = fields->block_at - 12;
    static const uint32_t numbers[] = {0, 1, 4, 18, BLOCK + 1, UINT32_MAX};
    for (size_t i = 0; i < COUNT_OF(numbers); i++) {
        struct harptimber_keep_fields other = *fields;
        other.index = numbers[i];
        expect_with("any index", index_at, numbers[i], &other);
        other = *fields;
        other.pull_answer = numbers[i];
        expect_with("any answer", index_at + 4, numbers[i], &other);
        other = *fields;
        other.byte_count = numbers[i];
        expect_with("any byte count", index_at + 8, numbers[i], &other);
        expect_with("any bytes of the block", fields->block_at + BLOCK - 4, numbers[i], fields);
        expect_with("any path", fields->path_at, numbers[i], fields);
        expect_with("any bytes of a listed block", fields->blocks_at + 4, numbers[i], fields);
    }
}

/* Files with no node, no block and no path, which are whole otherwise. */
static void test_empty_lists(void)
{
    for (uint32_t n = 0; n < 2; n++)
        for (uint32_t b = 0; b < 2; b++) {
            got = (struct harptimber_pulled){.answer = HARPTIMBER_PAST_END, .node_count = n, .block_count = b};
            lay_out("", 0, 5);
            struct harptimber_keep_fields fields = fields_of(0, 5);
            expect_read("empty lists", expected, expected_len, n == 0 ? &refused : &fields);
        }
}

static void test_reading(void)
{
    put_sound();
    expect_pulled("the file to read", road, strlen(road), 0, HARPTIMBER_DATA);
    struct harptimber_keep_fields fields = fields_of(strlen(road), 0);
    test_header();
    test_nodes(&fields);
    test_blocks(&fields);
    test_untested(&fields);
    test_empty_lists();
}

static void expect_same(const char *what, struct harptimber_compared compared, struct harptimber_compared as)
{
    if (fails(memcmp(&compared, &as, sizeof as) == 0))
        printf("FAILED compare, %s: answer %" PRIu32 ", side %" PRIu32 ", kind %" PRIu32 ", number %" PRIu32 "; expected %" PRIu32
               ", %" PRIu32 ", %" PRIu32 ", %" PRIu32 "\n",
               what, compared.answer, compared.side, compared.kind, compared.number, as.answer, as.side, as.kind, as.number);
}

/* Compares the keep file of the last pull with the new card, as the card itself compares. Returns the answer. */
static uint32_t compare_kept(const char *what)
{
    struct harptimber_compared as =
        harptimber_compare(card, sizeof card, fresh, sizeof fresh, nodes, sizeof nodes, got.node_count, blocks,
                           sizeof blocks, got.block_count);
    expect_same(what, harptimber_keep_compare(expected, expected_len, fresh, sizeof fresh), as);
    return as.answer;
}

/* With some bytes of the new card changed. */
static void expect_changed(const char *what, size_t at, uint32_t answer)
{
    fresh[at] ^= 1;
    if (fails(compare_kept(what) == answer))
        printf("FAILED compare, %s, with byte %zu changed: expected %" PRIu32 "\n", what, at, answer);
    fresh[at] ^= 1;
}

/* Every listed node and block, others, and a main area that is shorter. */
static void test_changes(const char *what)
{
    memcpy(fresh, card, sizeof fresh);
    expect_changed(what, 0, HARPTIMBER_SAME);
    expect_changed(what, (size_t)(MAIN + 300) * BLOCK, HARPTIMBER_SAME);
    expect_changed(what, (size_t)NAT * BLOCK + 9 * 100 + 5, HARPTIMBER_SAME);
    expect_changed(what, 1024 + 68, HARPTIMBER_CHANGED); /* as many segments are in the main area */
    for (uint32_t i = 0; i < got.block_count; i++) {
        size_t at = (size_t)harptimber_list_entry(blocks, i) * BLOCK;
        expect_changed(what, at, HARPTIMBER_CHANGED);
        expect_changed(what, at + BLOCK - 1, HARPTIMBER_CHANGED);
    }
    for (uint32_t i = 0; i < got.node_count; i++) {
        uint32_t number = harptimber_list_entry(nodes, i);
        size_t at = (size_t)(table_entry(number) - card);
        if (number != OUT_OF_RANGE) {
            expect_changed(what, at, HARPTIMBER_SAME); /* the entry's version */
            expect_changed(what, at + 1, HARPTIMBER_CHANGED);
            expect_changed(what, at + 5, HARPTIMBER_CHANGED);
        }
    }
}

static void test_compares(void)
{
    for (size_t i = 0; i < COUNT_OF(pulls); i++) {
        put_pull(&pulls[i]);
        pull(pulls[i].path, pulls[i].index);
        lay_out(pulls[i].path, strlen(pulls[i].path), pulls[i].index);
        test_changes(pulls[i].what);
    }
}

/* A new card that doesn't open has a side, and one of a bad length none. What is no keep file comes before both. */
static void expect_unopened(const uint8_t *image, size_t len, uint32_t answer)
{
    struct harptimber_compared as = {.answer = answer};
    struct harptimber_compared bad_file = {.answer = HARPTIMBER_BAD_KEEP_FILE};
    as.side = answer == HARPTIMBER_OUT_OF_SHAPE ? 0 : HARPTIMBER_FRESH;
    expect_same("a new card that isn't read", harptimber_keep_compare(expected, expected_len, image, len), as);
    expect_same("half a keep file", harptimber_keep_compare(expected, expected_len / 2, image, len), bad_file);
    expect_same("no keep file", harptimber_keep_compare(NULL, 0, image, len), bad_file);
    struct harptimber_kept kept = harptimber_keep(image, len, (const uint8_t *)road, strlen(road), 0, room, sizeof room);
    if (fails(kept.answer == answer && kept.length == 0 && all_are(room, sizeof room, PATTERN)))
        printf("FAILED keep from %zu bytes: answer %" PRIu32 ", expected %" PRIu32 "\n", len, kept.answer, answer);
}

static void test_unopened(void)
{
    put_sound();
    pull(road, 0);
    lay_out(road, strlen(road), 0);
    memset(room, PATTERN, sizeof room);
    for (size_t i = 0; i < COUNT_OF(unopened); i++) {
        memcpy(fresh, card, sizeof fresh);
        unopened[i].damage(fresh);
        expect_unopened(fresh, sizeof fresh, unopened[i].answer);
    }
    expect_unopened(NULL, 0, HARPTIMBER_OUT_OF_SHAPE);
}

int main(void)
{
    test_layout();
    test_answers();
    test_paths();
    test_refusals();
    test_reading();
    test_compares();
    test_unopened();
    return refuse_zeros(expect_unopened);
}
