/*
 * Makes the library's calls with every lent slice right behind, and then right before, a page that
 * can't be touched, and what is only read on pages that can't be written (lending.h). An access outside
 * is a fault, and counts as failed. A script says on which cards, sound and damaged:
 *
 *     card PATH                              a sound image
 *     put OFFSET BYTES                       damages it
 *     undo                                   takes the damage back
 *     pull PATH INDEX ANSWER KEPT FRESH      a pull's answer, and those of compares with the sound image
 *                                            that have the damaged one as the kept and as the new one; also by
 *                                            its keep file, which is written and read again; runs from there on; and the
 *                                            same pull by a reader
 *     node NUMBER ANSWER
 *     segments COUNT ANSWER                  a segment report with room in its list for so many main segments,
 *                                            which is just enough, with a little more, and with less
 *     cut LEN PATH INDEX ANSWER              a pull, a reader's too, and a report from the first bytes of the image
 *     plant SLICE PATH INDEX                 a pull of data with that slice shorter than the call is told,
 *                                            which has to end in a fault; room and file are a keep file's
 *     plant_run SLICE PATH INDEX             the same for a run
 *     plant_reader SLICE PATH INDEX          the same for a reader; bytes are those of a step
 *     plant_report SLICE                     the same for a report that lists a segment
 *     unset                                  a compare with lists that were never written, for valgrind
 *
 * Bytes and paths are in hexadecimal behind an x. `guard_test heap SCRIPT` has each slice on the heap
 * instead, for valgrind. Without a script, images are empty, too short or too long.
 */
#define _GNU_SOURCE /* lending.h */
#include <fcntl.h>
#include <inttypes.h>
#include <string.h>

#include "check.h"
#include "harptimber.h"
#include "lending.h"

#define BLOCK_SIZE ((size_t)HARPTIMBER_BLOCK_BYTES)
#define MOST_BYTES ((size_t)HARPTIMBER_CARD_BYTES_MOST)
#define PATTERN 0xA5
#define COUNT_OF(array) (sizeof(array) / sizeof *(array))

/*
 * What a call is lent and told, and what it returned. Each call takes some of it; the name is a pull's path, the block may be
 * a run's buffer, and the bytes are what a reader is handed.
 */
struct call {
    struct slice image, fresh, name, bytes, block, nodes, blocks, list, room, file;
    uint32_t index, wanted, node_count, block_count;
    struct harptimber_reader *reader;
    struct harptimber_pulled pulled;
    struct harptimber_run run;
    struct harptimber_compared compared;
    struct harptimber_entry entry;
    struct harptimber_hashed hashed;
    struct harptimber_place place;
    struct harptimber_segments segments;
    struct harptimber_kept kept;
    struct harptimber_keep_fields fields;
};

static size_t line_number; /* of the script; 0 outside */

static void make_pull(void *with)
{
    struct call *c = with;
    c->pulled = harptimber_pull(c->image.bytes, c->image.len, c->name.bytes, c->name.len, c->index,
                                c->block.bytes, c->block.len, c->nodes.bytes, c->nodes.len,
                                c->blocks.bytes, c->blocks.len);
}

static void make_run(void *with)
{
    struct call *c = with;
    c->run = harptimber_pull_run(c->image.bytes, c->image.len, c->name.bytes, c->name.len, c->index, c->wanted,
                                 c->block.bytes, c->block.len, c->nodes.bytes, c->nodes.len, c->blocks.bytes,
                                 c->blocks.len);
}

/* How many blocks an image has; 0, which no card has, if it hasn't whole ones. */
static uint32_t blocks_in(const struct slice *image)
{
    return image->len % BLOCK_SIZE == 0 ? (uint32_t)(image->len / BLOCK_SIZE) : 0;
}

static void make_start(void *with)
{
    struct call *c = with;
    *c->reader = harptimber_reader_start(blocks_in(&c->image), c->name.bytes, c->name.len, c->index);
}

static void make_step(void *with)
{
    struct call *c = with;
    *c->reader = harptimber_reader_step(*c->reader, c->bytes.bytes, c->bytes.len);
}

static void make_result(void *with)
{
    struct call *c = with;
    c->pulled = harptimber_reader_result(*c->reader, c->block.bytes, c->block.len, c->nodes.bytes, c->nodes.len,
                                         c->blocks.bytes, c->blocks.len);
}

static void make_compare(void *with)
{
    struct call *c = with;
    c->compared = harptimber_compare(c->image.bytes, c->image.len, c->fresh.bytes, c->fresh.len,
                                     c->nodes.bytes, c->nodes.len, c->node_count, c->blocks.bytes,
                                     c->blocks.len, c->block_count);
}

static void make_lookup(void *with)
{
    struct call *c = with;
    c->entry = harptimber_node_lookup(c->image.bytes, c->image.len, c->index);
}

static void make_hash(void *with)
{
    struct call *c = with;
    c->hashed = harptimber_name_hash(c->name.bytes, c->name.len);
}

static void make_place(void *with)
{
    struct call *c = with;
    c->place = harptimber_file_place(c->name.len % 2 == 0 ? 873 : 923, c->index);
}

static void make_report(void *with)
{
    struct call *c = with;
    c->segments = harptimber_segment_report(c->image.bytes, c->image.len, c->list.bytes, c->list.len);
}

static void make_keep(void *with)
{
    struct call *c = with;
    c->kept = harptimber_keep(c->image.bytes, c->image.len, c->name.bytes, c->name.len, c->index, c->room.bytes, c->room.len);
}

static void make_keep_read(void *with)
{
    struct call *c = with;
    c->fields = harptimber_keep_read(c->file.bytes, c->file.len);
}

static void make_keep_compare(void *with)
{
    struct call *c = with;
    c->compared = harptimber_keep_compare(c->file.bytes, c->file.len, c->fresh.bytes, c->fresh.len);
}

/* Says where a call went wrong, and which slice was left if one was. */
static void say(const char *what, const struct call *c, int faulted)
{
    const struct slice *slices[] = {&c->image, &c->fresh, &c->name, &c->bytes, &c->block,
                                    &c->nodes, &c->blocks, &c->list, &c->room, &c->file};
    printf("FAILED %s, line %zu of the script, slices %s guard pages", what, line_number,
           placement == BEHIND_GUARD ? "behind" : "before");
    for (size_t i = 0; faulted && i < COUNT_OF(slices); i++) {
        const struct slice *s = slices[i];
        if (fault_at >= s->mapping && fault_at < s->mapping + s->mapping_len)
            printf(": byte %td of the %s, which has %zu", fault_at - s->bytes, s->name, s->len);
    }
    putchar('\n');
}

/* Makes a call, which may touch nothing outside. */
static int stays_inside(const char *what, void (*make)(void *), struct call *c)
{
    int faulted = faults(make, c);
    if (fails(!faulted))
        say(what, c, 1);
    return !faulted;
}

#define ANY UINT32_MAX /* for an answer that isn't foretold */

static void expect(const char *what, const struct call *c, uint32_t got, uint32_t answer)
{
    if (fails(got == answer || answer == ANY)) {
        say(what, c, 0);
        printf("    answer %" PRIu32 ", expected %" PRIu32 "\n", got, answer);
    }
}

/* Decides something by these bytes, so that valgrind sees if one was never written. */
static void use(const uint8_t *bytes, size_t len)
{
    static volatile unsigned used;
    for (size_t i = 0; i < len; i++)
        if (bytes[i] == PATTERN)
            used++;
}

static struct slice copied(const char *name, const uint8_t *from, size_t len)
{
    struct slice s = lend_copy(name, from, len);
    seal(&s);
    return s;
}

static int refused(uint32_t answer)
{
    return answer >= HARPTIMBER_OUT_OF_SHAPE && answer <= HARPTIMBER_UNREADABLE;
}

/* Lengths of what a pull writes to. */
struct lens {
    size_t block, nodes, blocks;
};

/* How many names a path has, as far as a path may have them. */
static size_t names_of(const struct slice *path)
{
    size_t names = 1;
    for (size_t i = 0; i < path->len && names < HARPTIMBER_NAMES_MOST; i++)
        names += path->bytes[i] == '/';
    return names;
}

/* The least that is enough for a path, by its names. */
static struct lens least_of(const struct slice *path)
{
    size_t names = names_of(path);
    return (struct lens){BLOCK_SIZE, HARPTIMBER_NODES_BYTES_OF(names), HARPTIMBER_BLOCKS_BYTES_OF(names)};
}

/* The same for a run of so many blocks. */
static struct lens least_of_run(const struct slice *path, uint32_t wanted)
{
    size_t names = names_of(path);
    return (struct lens){wanted * BLOCK_SIZE, HARPTIMBER_RUN_NODES_BYTES_OF(names), HARPTIMBER_RUN_BLOCKS_BYTES_OF(names)};
}

static int are_enough(const struct lens *lens, const struct lens *least)
{
    return lens->block == least->block && lens->nodes >= least->nodes && lens->blocks >= least->blocks;
}

static void lend_room(struct call *c, const struct lens *lens)
{
    c->block = lend("block buffer", lens->block);
    c->nodes = lend("node list", lens->nodes);
    c->blocks = lend("block list", lens->blocks);
}

static void give_room_back(struct call *c)
{
    give_back(&c->block);
    give_back(&c->nodes);
    give_back(&c->blocks);
}

static unsigned turn; /* so that pulls take turns in what else is tried with them */

/* A pull, or a reader's result. What its answer leaves untouched can't be written. */
static void expect_pulled(const char *what, void (*make)(void *), struct call *c, const struct lens *lens, uint32_t answer)
{
    struct lens least = least_of(&c->name);
    if (!are_enough(lens, &least))
        answer = HARPTIMBER_OUT_OF_SHAPE;
    lend_room(c, lens);
    if (answer > HARPTIMBER_HOLE && answer != ANY)
        seal(&c->block);
    if (refused(answer)) {
        seal(&c->nodes);
        seal(&c->blocks);
    }
    c->pulled = (struct harptimber_pulled){.answer = ANY}; /* if it ends in a fault */
    if (!stays_inside(what, make, c))
        return;
    expect(what, c, c->pulled.answer, answer);
    use(c->block.bytes, c->pulled.answer <= HARPTIMBER_HOLE ? c->block.len : 0);
    use(c->nodes.bytes, 4 * c->pulled.node_count);
    use(c->blocks.bytes, 4 * c->pulled.block_count);
}

static void expect_pull(struct call *c, const struct lens *lens, uint32_t answer)
{
    expect_pulled("pull", make_pull, c, lens, answer);
}

/* What a compare is lent and told beyond what a pull left. */
struct beyond {
    size_t bytes;
    uint32_t nodes, blocks;
    int wild; /* the last entries are FFFFFFFF */
};

static struct slice list(const char *name, const struct slice *pulled, uint32_t count,
                         const struct beyond *beyond)
{
    uint8_t bytes[HARPTIMBER_RUN_BLOCKS_BYTES + 3] = {0};
    size_t len = 4 * (size_t)count;
    if (len != 0)
        memcpy(bytes, pulled->bytes, len);
    if (beyond->wild && count > 0)
        memset(bytes + len - 4, 0xFF, 4);
    return copied(name, bytes, len + beyond->bytes);
}

/* A compare with the lists that a pull or a run left, in slices of just their length. */
static void expect_compare(const struct call *pull, struct slice fresh, const struct beyond *beyond,
                           uint32_t answer)
{
    struct call c = {.image = pull->image, .fresh = fresh};
    c.node_count = pull->pulled.node_count + beyond->nodes;
    c.block_count = pull->pulled.block_count + beyond->blocks;
    c.nodes = list("node list", &pull->nodes, pull->pulled.node_count, beyond);
    c.blocks = list("block list", &pull->blocks, pull->pulled.block_count, beyond);
    if (stays_inside("compare", make_compare, &c))
        expect("compare", &c, c.compared.answer, answer);
    give_back(&c.nodes);
    give_back(&c.blocks);
}

/* The numbers that a pull looked up, and some others. */
static void look_up_nodes(const struct call *pull)
{
    static const uint32_t others[] = {0, 1, 454, 455, 1 << 17, UINT32_MAX};
    for (uint32_t i = 0; i < pull->pulled.node_count + COUNT_OF(others); i++) {
        struct call c = {.image = pull->image};
        if (i < pull->pulled.node_count)
            c.index = harptimber_list_entry(pull->nodes.bytes, i);
        else
            c.index = others[i - pull->pulled.node_count];
        stays_inside("node lookup", make_lookup, &c);
    }
}

/* A slice that is filled; but not on the heap, where valgrind sees what was never written. */
static struct slice lend_filled(const char *name, size_t len)
{
    struct slice s = lend(name, len);
    if (placement != ON_HEAP && len != 0)
        memset(s.bytes, PATTERN, len);
    return s;
}

/* Whether such a slice is as it was from some byte on. */
static int rest_stays(const struct slice *s, size_t at)
{
    for (; placement != ON_HEAP && at < s->len; at++)
        if (s->bytes[at] != PATTERN)
            return 0;
    return 1;
}

/* A run of as many blocks as the call wants. What its answer leaves untouched can't be written, or is looked at. */
static void expect_run(struct call *c, const struct lens *lens, uint32_t answer)
{
    struct lens least = least_of_run(&c->name, c->wanted);
    if (c->wanted == 0 || c->wanted > HARPTIMBER_RUN_MOST || !are_enough(lens, &least))
        answer = HARPTIMBER_OUT_OF_SHAPE;
    c->block = lend_filled("buffer", lens->block);
    c->nodes = lend_filled("node list", lens->nodes);
    c->blocks = lend_filled("block list", lens->blocks);
    if (answer != HARPTIMBER_DATA && answer != ANY)
        seal(&c->block);
    if (refused(answer)) {
        seal(&c->nodes);
        seal(&c->blocks);
    }
    c->run = (struct harptimber_run){.answer = ANY}; /* if it ends in a fault */
    if (!stays_inside("run", make_run, c))
        return;
    size_t written = c->run.count * BLOCK_SIZE;
    expect("run", c, c->run.answer, answer);
    use(c->block.bytes, written);
    use(c->nodes.bytes, 4 * c->run.node_count);
    use(c->blocks.bytes, 4 * c->run.block_count);
    if (fails(rest_stays(&c->block, written) && rest_stays(&c->nodes, 4 * c->run.node_count) &&
              rest_stays(&c->blocks, 4 * c->run.block_count)))
        say("run, which writes behind its counts", c, 0);
}

static void expect_odd_run(struct call *c, uint32_t answer)
{
    struct lens least = least_of_run(&c->name, c->wanted);
    const struct lens odd[] = {
        {least.block, least.nodes + 1, least.blocks + 3},      {least.block, least.nodes + 3, least.blocks + 1},
        {least.block - 1, least.nodes, least.blocks},          {least.block + 1, least.nodes, least.blocks},
        {least.block + BLOCK_SIZE, least.nodes, least.blocks}, {least.block, least.nodes - 1, least.blocks},
        {least.block, least.nodes, least.blocks - 1},          {0, 0, 0},
    };
    expect_run(c, &odd[turn % COUNT_OF(odd)], answer);
    give_room_back(c);
}

/* A report with so many bytes lent for its list. What is refused can't write to them. */
static void expect_report(struct slice image, size_t list_len, uint32_t answer)
{
    struct call c = {.image = image, .list = lend_filled("segment list", list_len)};
    if (refused(answer))
        seal(&c.list);
    if (stays_inside("segment report", make_report, &c)) {
        expect("segment report", &c, c.segments.answer, answer);
        use(c.list.bytes, 4 * c.segments.count);
        if (fails(rest_stays(&c.list, 4 * c.segments.count)))
            say("segment report, which writes behind its count", &c, 0);
    }
    give_back(&c.list);
}

/* Lists around the least that is enough for so many main segments, and none at all. */
static void expect_reports(struct slice image, size_t count, uint32_t answer)
{
    size_t least_list = 4 * count;
    uint32_t if_short = refused(answer) || count == 0 ? answer : HARPTIMBER_OUT_OF_SHAPE;
    expect_report(image, least_list, answer);
    expect_report(image, least_list + 3, answer);
    expect_report(image, HARPTIMBER_SEGMENTS_BYTES, answer);
    expect_report(image, 0, if_short);
    expect_report(image, count == 0 ? 3 : least_list - 1, if_short);
}

static struct lens odd_room(const struct slice *path)
{
    struct lens least = least_of(path);
    const struct lens odd[] = {
        {BLOCK_SIZE, least.nodes + 1, least.blocks + 3}, {BLOCK_SIZE, least.nodes + 2, least.blocks + 2},
        {BLOCK_SIZE, least.nodes + 3, least.blocks + 1}, {BLOCK_SIZE, least.nodes + 40, least.blocks + 44},
        {BLOCK_SIZE - 1, least.nodes, least.blocks},     {BLOCK_SIZE + 1, least.nodes, least.blocks},
        {BLOCK_SIZE, least.nodes - 1, least.blocks},     {BLOCK_SIZE, least.nodes, least.blocks - 1},
        {BLOCK_SIZE, 3, least.blocks},                   {0, 0, 0},
    };
    return odd[turn % COUNT_OF(odd)];
}

static void expect_odd_room(struct call *c, uint32_t answer)
{
    struct lens odd = odd_room(&c->name);
    expect_pull(c, &odd, answer);
    give_room_back(c);
}

static void expect_odd_compare(const struct call *pull, struct slice fresh, uint32_t answer)
{
    static const struct beyond odd[] = {
        {0, 1, 0, 0}, {0, 0, 1, 0}, {3, 1, 1, 0}, {0, 1 << 30, 1 << 30, 0}, {2, 0, 0, 0}, {0, 0, 0, 1},
    };
    const struct beyond *beyond = &odd[turn % COUNT_OF(odd)];
    int too_many = beyond->nodes != 0 || beyond->blocks != 0;
    if (beyond->wild)
        answer = ANY;
    else if (too_many && !refused(answer))
        answer = HARPTIMBER_OUT_OF_SHAPE;
    expect_compare(pull, fresh, beyond, answer);
}

/* A keep with so many bytes lent for the file. Unless it is written, it can't be. Returns whether it was. */
static int expect_keep(struct call *c, size_t room_len, uint32_t answer)
{
    c->room = lend_filled("room", room_len);
    if (answer != HARPTIMBER_DATA)
        seal(&c->room);
    c->kept = (struct harptimber_kept){.answer = ANY}; /* if it ends in a fault */
    if (stays_inside("keep", make_keep, c)) {
        expect("keep", c, c->kept.answer, answer);
        use(c->room.bytes, c->kept.length);
        if (fails(rest_stays(&c->room, c->kept.length)))
            say("keep, which writes behind the file", c, 0);
    }
    return c->kept.answer == HARPTIMBER_DATA;
}

/* Reads a keep file of these bytes, and compares it with an image. */
static void expect_file(const uint8_t *bytes, size_t len, struct slice fresh, uint32_t read, uint32_t answer)
{
    struct call c = {.file = copied("keep file", bytes, len), .fresh = fresh};
    if (stays_inside("read of a keep file", make_keep_read, &c))
        expect("read of a keep file", &c, c.fields.answer, read);
    if (stays_inside("compare of a keep file", make_keep_compare, &c))
        expect("compare of a keep file", &c, c.compared.answer, answer);
    give_back(&c.file);
}

/* The same of a file that was cut, or in which a number is FFFFFFFF: of its header, its bounds or a list's last entry. */
static void expect_odd_file(uint8_t *bytes, const struct harptimber_pulled *pulled, size_t len, struct slice fresh)
{
    size_t bounds = len - 4100 * (size_t)pulled->block_count - 16 * (size_t)pulled->node_count - 8;
    const size_t cuts[] = {0, 1, 23, 24, 25, bounds, len - 1};
    size_t last_node = bounds + 8 + 16 * (size_t)(pulled->node_count - 1);
    const size_t wild[] = {0, 4, 8, 12, 16, 20, bounds, bounds + 4, last_node, len - 4100};
    size_t cut = cuts[turn % COUNT_OF(cuts)], at = wild[turn % COUNT_OF(wild)];
    uint32_t answer = at < 24 ? (uint32_t)HARPTIMBER_BAD_KEEP_FILE : ANY;
    expect_file(bytes, cut, fresh, HARPTIMBER_BAD_KEEP_FILE, HARPTIMBER_BAD_KEEP_FILE);
    memset(bytes + at, 0xFF, 4);
    expect_file(bytes, len, fresh, answer, answer);
}

/* The keep file of what a pull gave, in a room of just its length and in others, and how it compares with an image. */
static void expect_keeps(const struct call *pull, struct slice fresh, uint32_t answer)
{
    struct call c = {.image = pull->image, .name = pull->name, .index = pull->index};
    uint32_t pulled = pull->pulled.answer, if_short = refused(pulled) ? pulled : (uint32_t)HARPTIMBER_NO_ROOM;
    size_t len = HARPTIMBER_KEEP_LENGTH_OF(c.name.len, pull->pulled.node_count, pull->pulled.block_count);
    const size_t less[] = {0, 1, 24, BLOCK_SIZE, len - 1};
    if (pulled == ANY) /* it ended in a fault */
        return;
    expect_keep(&c, less[turn % COUNT_OF(less)], if_short);
    give_back(&c.room);
    expect_keep(&c, len + turn % 4 + 1, refused(pulled) ? pulled : (uint32_t)HARPTIMBER_DATA);
    give_back(&c.room);
    if (expect_keep(&c, len, refused(pulled) ? pulled : (uint32_t)HARPTIMBER_DATA)) {
        expect_file(c.room.bytes, len, fresh, HARPTIMBER_DATA, answer);
        expect_file(c.room.bytes, len, c.image, HARPTIMBER_DATA, HARPTIMBER_SAME);
        expect_odd_file(c.room.bytes, &pull->pulled, len, fresh);
    }
    give_back(&c.room);
}

static const struct beyond nothing;
static struct slice sound, damaged;
static int card = -1; /* their file */

#define MOST_PATCHES 64

/* The damage. */
static struct patch {
    size_t at, len;
} patches[MOST_PATCHES];
static size_t patch_count;

/* A slice with the damaged image's first bytes. */
static struct slice first_bytes(size_t len)
{
    struct slice s = lend_file("image", card, len);
    for (size_t i = 0; i < patch_count; i++)
        for (size_t at = patches[i].at; at < patches[i].at + patches[i].len && at < len; at++)
            s.bytes[at] = damaged.bytes[at];
    return s;
}

/* How an image compares with itself, by a pull's answer: slices that are only read may be the same one. */
static uint32_t with_itself(uint32_t answer)
{
    if (answer == HARPTIMBER_OUT_OF_SHAPE) /* by its length, or for no list */
        return ANY;
    return refused(answer) ? answer : HARPTIMBER_SAME;
}

/*
 * Runs that start as a pull did: of that block alone, of more, and with odd lengths. Where the pull gave no block they answer as
 * it did, whatever follows; else what comes behind it decides. By what one left, an image is the same as itself.
 */
static void expect_runs(const struct call *pull, uint32_t answer)
{
    static const uint32_t wanted[] = {2, 3, 9, 40}, out_of_shape[] = {0, HARPTIMBER_RUN_MOST + 1, UINT32_MAX};
    struct call c = {.image = pull->image, .name = pull->name, .index = pull->index, .wanted = 1};
    uint32_t first = answer <= HARPTIMBER_HOLE ? (uint32_t)HARPTIMBER_DATA : answer;
    struct lens least = least_of_run(&c.name, c.wanted);
    expect_run(&c, &least, first);
    give_room_back(&c);
    expect_odd_run(&c, first);
    c.wanted = turn % 16 == 7 ? (uint32_t)HARPTIMBER_RUN_MOST : wanted[turn % COUNT_OF(wanted)];
    least = least_of_run(&c.name, c.wanted);
    expect_run(&c, &least, first == HARPTIMBER_DATA ? ANY : first);
    c.pulled.node_count = c.run.node_count;
    c.pulled.block_count = c.run.block_count;
    expect_compare(&c, c.image, &nothing, with_itself(c.run.answer));
    give_room_back(&c);
    expect_odd_run(&c, first == HARPTIMBER_DATA ? ANY : first);
    c.wanted = out_of_shape[turn % COUNT_OF(out_of_shape)]; /* with a buffer for one, or of no bytes for none */
    least.block = c.wanted == 0 ? 0 : BLOCK_SIZE;
    expect_run(&c, &least, first);
    give_room_back(&c);
}

/* The state that readers of this test have. */
static struct harptimber_reader state;

/* Makes the block ready that a reader asks for, which then can't be written. Returns whether it is one of the card's. */
static int fetch(struct call *c)
{
    if (fails(c->reader->asks == 1 && c->reader->block < blocks_in(&c->image))) {
        say("reader, which asks for a block outside", c, 0);
        return 0;
    }
    put(&c->bytes, 0, c->image.bytes + c->reader->block * BLOCK_SIZE, BLOCK_SIZE);
    return 1;
}

/* Starts a reader and hands it up to so many blocks. Returns how many it was handed; ANY where that goes wrong. */
static uint32_t read_blocks(struct call *c, uint32_t most)
{
    uint32_t steps = 0;
    if (!stays_inside("reader's start", make_start, c))
        return ANY;
    for (; c->reader->asks != 0 && steps < most; steps++)
        if (!fetch(c) || !stays_inside("reader's step", make_step, c))
            return ANY;
    return steps;
}

static int same_bytes(const struct slice *one, const struct slice *other, size_t len)
{
    return len == 0 || memcmp(one->bytes, other->bytes, len) == 0;
}

/* Whether a reader's result is what a pull gave. */
static int is_as_pulled(const struct call *c, const struct call *pull)
{
    return memcmp(&c->pulled, &pull->pulled, sizeof c->pulled) == 0 &&
           same_bytes(&c->block, &pull->block, c->pulled.answer <= HARPTIMBER_HOLE ? BLOCK_SIZE : 0) &&
           same_bytes(&c->nodes, &pull->nodes, 4 * c->pulled.node_count) &&
           same_bytes(&c->blocks, &pull->blocks, 4 * c->pulled.block_count);
}

/* A result in memory of these lengths. */
static void expect_result(struct call *c, const struct lens *lens, uint32_t answer)
{
    expect_pulled("reader's result", make_result, c, lens, answer);
    give_room_back(c);
}

/* After some of its steps a reader is handed too much or too little, which ends it. */
static void expect_odd_step(struct call *c, uint32_t steps)
{
    static const size_t lens[] = {0, 1, BLOCK_SIZE - 1, BLOCK_SIZE + 1, 2 * BLOCK_SIZE};
    struct slice block = c->bytes;
    struct lens least = least_of(&c->name);
    if (steps == 0 || read_blocks(c, turn % steps) == ANY)
        return;
    expect_result(c, &least, HARPTIMBER_OUT_OF_SHAPE); /* it isn't there yet */
    c->bytes = lend_zeros("reader's bytes", lens[turn % COUNT_OF(lens)]);
    seal(&c->bytes);
    if (stays_inside("reader's step", make_step, c))
        expect_result(c, &least, HARPTIMBER_OUT_OF_SHAPE);
    give_back(&c->bytes);
    c->bytes = block;
}

/* A state that no call gave: one of its numbers is any. A step and a result stay inside all the same. */
static void expect_odd_state(struct call *c)
{
    static const uint32_t any[] = {0, 1, 2, 7, 255, 4095, 4096, 23852, 1 << 22, 1U << 31, UINT32_MAX};
    struct lens least = least_of(&c->name);
    if (read_blocks(c, turn % 16) == ANY)
        return;
    c->reader->numbers[turn % COUNT_OF(c->reader->numbers)] = any[turn / 3 % COUNT_OF(any)];
    expect_result(c, &least, ANY);
    if (stays_inside("reader's step", make_step, c))
        expect_result(c, &least, ANY);
}

/* The pull by a reader, with odd lengths, and once it has its answer a step that changes nothing. */
static void expect_reader(const struct call *pull, uint32_t answer)
{
    struct call c = {.image = pull->image, .name = pull->name, .index = pull->index, .reader = &state};
    struct lens least = least_of(&c.name), odd = odd_room(&c.name);
    c.bytes = lend_zeros("reader's bytes", BLOCK_SIZE);
    seal(&c.bytes);
    uint32_t steps = read_blocks(&c, HARPTIMBER_READER_BLOCKS_MOST_OF((uint32_t)names_of(&c.name)));
    use((const uint8_t *)&state, sizeof state);
    if (steps != ANY && stays_inside("reader's step", make_step, &c)) {
        expect_pulled("reader's result", make_result, &c, &least, answer);
        if (fails(pull->pulled.answer == ANY || is_as_pulled(&c, pull)))
            say("reader's result, which isn't the pull's", &c, 0);
        give_room_back(&c);
        expect_result(&c, &odd, answer);
        expect_odd_step(&c, steps);
        expect_odd_state(&c);
    }
    give_back(&c.bytes);
}

/* The pull of one line, on the damaged image and on the sound one. */
static void run_pull(struct slice name, uint32_t index, uint32_t answer, uint32_t as_kept, uint32_t as_fresh)
{
    struct call c = {.image = damaged, .name = name, .index = index};
    struct lens least = least_of(&name);
    stays_inside("name hash", make_hash, &c);
    stays_inside("file place", make_place, &c);
    expect_pull(&c, &least, answer);
    expect_compare(&c, sound, &nothing, as_kept);
    expect_compare(&c, damaged, &nothing, with_itself(answer));
    expect_odd_compare(&c, sound, as_kept);
    expect_keeps(&c, sound, as_kept);
    expect_runs(&c, answer);
    expect_reader(&c, answer);
    look_up_nodes(&c);
    give_room_back(&c);
    expect_odd_room(&c, answer);
    c.image = sound;
    expect_pull(&c, &least, ANY);
    expect_compare(&c, damaged, &nothing, as_fresh);
    expect_keeps(&c, damaged, as_fresh);
    give_room_back(&c);
    turn++;
}

/* All that takes an image, with one that has only some first bytes of the damaged one. */
static void run_cut(size_t len, struct slice name, uint32_t index, uint32_t answer)
{
    struct slice cut = first_bytes(len);
    seal(&cut);
    struct call c = {.image = cut, .name = name, .index = index};
    struct lens least = least_of(&name);
    expect_report(cut, HARPTIMBER_SEGMENTS_BYTES, refused(answer) ? answer : ANY);
    expect_pull(&c, &least, answer);
    look_up_nodes(&c);
    expect_compare(&c, damaged, &nothing, ANY);
    expect_keeps(&c, damaged, ANY);
    expect_runs(&c, answer);
    expect_reader(&c, answer);
    give_room_back(&c);
    c.image = damaged;
    expect_pull(&c, &least, ANY);
    expect_compare(&c, cut, &nothing, ANY);
    expect_keeps(&c, cut, ANY);
    give_room_back(&c);
    give_back(&cut);
}

/* A slice for `told` bytes that has fewer, or that starts a byte early, as the placement can notice. */
static struct slice shorter(const struct slice *whole, size_t len)
{
    int is_image = whole->bytes == damaged.bytes;
    struct slice s = is_image ? first_bytes(len) : lend_copy(whole->name, whole->bytes, len);
    s.len = whole->len;
    if (placement == BEHIND_GUARD)
        s.bytes--;
    return s;
}

/* The last block that a pull or a run listed: the image is needed up to there. */
static size_t last_block(const struct call *c, uint32_t count)
{
    return harptimber_list_entry(c->blocks.bytes, count - 1);
}

/* A call that leaves one slice has to end in a fault. */
static void expect_noticed(const char *which, void (*make)(void *), struct call *c)
{
    int faulted = faults(make, c);
    /* On the heap valgrind notices it. The first bytes of an image decide nothing. */
    int noticed = placement == BEFORE_GUARD || (placement == BEHIND_GUARD && strcmp(which, "image") != 0);
    if (noticed && fails(faulted))
        printf("FAILED to notice a call that leaves the %s\n", which);
}

/* A keep file that is told to be longer, or to have more room, than there is. By its own image it is compared to its last byte. */
static void run_plant_keep(const char *which, struct call *c)
{
    size_t len = HARPTIMBER_KEEP_LENGTH_OF(c->name.len, c->pulled.node_count, c->pulled.block_count);
    if (!expect_keep(c, len, HARPTIMBER_DATA))
        return;
    c->fresh = c->image;
    if (strcmp(which, "file") == 0) {
        c->file = shorter(&c->room, len - 1);
        expect_noticed(which, make_keep_compare, c);
    } else {
        c->room = shorter(&c->room, len - 1);
        expect_noticed(which, make_keep, c);
    }
}

/* Makes one slice of a pull or a run shorter than it was, by how many numbers it listed. */
static void plant(struct call *c, const char *which, uint32_t node_count, uint32_t block_count)
{
    struct {
        struct slice *slice;
        const char *name;
        size_t len;
    } plants[] = {
        {&c->name, "name", c->name.len - 1},
        {&c->bytes, "bytes", BLOCK_SIZE - 1},
        {&c->block, "block", c->block.len - 1},
        {&c->nodes, "nodes", 4 * node_count - 1},
        {&c->blocks, "blocks", 4 * block_count - 1},
        {&c->image, "image", BLOCK_SIZE * last_block(c, block_count)},
    };
    for (size_t i = 0; i < COUNT_OF(plants); i++)
        if (strcmp(which, plants[i].name) == 0)
            *plants[i].slice = shorter(plants[i].slice, plants[i].len);
}

/* A run of one block that is told more than there is of one slice. */
static void run_plant_run(const char *which, struct slice name, uint32_t index)
{
    struct call c = {.image = damaged, .name = name, .index = index, .wanted = 1};
    struct lens least = least_of_run(&name, c.wanted);
    expect_run(&c, &least, HARPTIMBER_DATA);
    if (c.run.answer != HARPTIMBER_DATA)
        return;
    plant(&c, which, c.run.node_count, c.run.block_count);
    expect_noticed(which, make_run, &c);
}

/*
 * A reader that is told more than there is of one slice: in its start of the path, in its last step of the data's block, of which every
 * byte is handed out, or in its result.
 */
static void run_plant_reader(const char *which, struct slice name, uint32_t index)
{
    struct call c = {.image = damaged, .name = name, .index = index, .reader = &state};
    struct lens least = least_of(&name);
    c.bytes = lend_zeros("reader's bytes", BLOCK_SIZE);
    seal(&c.bytes);
    uint32_t steps = read_blocks(&c, HARPTIMBER_READER_BLOCKS_MOST);
    expect_pulled("reader's result", make_result, &c, &least, HARPTIMBER_DATA);
    if (steps == ANY || c.pulled.answer != HARPTIMBER_DATA)
        return;
    int in_start = strcmp(which, "name") == 0, in_step = strcmp(which, "bytes") == 0;
    if (in_step && (read_blocks(&c, steps - 1) == ANY || !fetch(&c)))
        return;
    plant(&c, which, c.pulled.node_count, c.pulled.block_count);
    expect_noticed(which, in_start ? make_start : in_step ? make_step : make_result, &c);
}

/* A pull that is told more than there is of one slice. */
static void run_plant(const char *which, struct slice name, uint32_t index)
{
    struct call c = {.image = damaged, .name = name, .index = index};
    struct lens least = least_of(&name);
    expect_pull(&c, &least, HARPTIMBER_DATA);
    if (c.pulled.answer != HARPTIMBER_DATA)
        return;
    if (strcmp(which, "room") == 0 || strcmp(which, "file") == 0) {
        run_plant_keep(which, &c);
        return;
    }
    plant(&c, which, c.pulled.node_count, c.pulled.block_count);
    expect_noticed(which, make_pull, &c);
}

/* Where the superblock has the first block of the SIT area. */
#define SIT_ADDRESS_AT (1024 + 80)

/* The same for a report. Its image ends where the SIT table starts, its list inside the last number that is written. */
static void run_plant_report(const char *which)
{
    struct call c = {.image = damaged, .list = lend("segment list", HARPTIMBER_SEGMENTS_BYTES)};
    make_report(&c);
    if (fails(c.segments.count != 0)) {
        printf("FAILED: no segment is listed\n");
        return;
    }
    if (strcmp(which, "image") == 0)
        c.image = shorter(&c.image, BLOCK_SIZE * harptimber_list_entry(c.image.bytes + SIT_ADDRESS_AT, 0));
    else
        c.list = shorter(&c.list, 4 * c.segments.count - 1);
    expect_noticed(which, make_report, &c);
}

/* A compare with lists that were never written, for valgrind to notice. */
static void run_unset(void)
{
    struct call c = {.image = damaged, .fresh = sound, .node_count = 1};
    struct lens least = least_of(&c.name);
    lend_room(&c, &least);
    make_compare(&c);
    use((uint8_t *)&c.compared.answer, sizeof c.compared.answer);
    give_room_back(&c);
}

static void run_put(size_t at, const struct slice *bytes)
{
    if (patch_count == MOST_PATCHES || at + bytes->len > damaged.len)
        give_up("a patch is out of place, or one too many");
    put(&damaged, at, bytes->bytes, bytes->len);
    patches[patch_count++] = (struct patch){at, bytes->len};
}

static void run_undo(void)
{
    while (patch_count > 0) {
        struct patch *p = &patches[--patch_count];
        put(&damaged, p->at, sound.bytes + p->at, p->len);
    }
}

static void run_card(const char *path)
{
    patch_count = 0;
    give_back(&sound);
    give_back(&damaged);
    if (card >= 0)
        close(card);
    card = open(path, O_RDONLY);
    off_t len = card < 0 ? -1 : lseek(card, 0, SEEK_END);
    if (len < 0)
        give_up("a card can't be read");
    sound = lend_file("image", card, (size_t)len);
    damaged = lend_file("image", card, (size_t)len);
    seal(&sound);
    seal(&damaged);
}

#define MOST_WORDS 6

/* A line of the script. */
struct line {
    char *words[MOST_WORDS + 1]; /* the last is NULL */
};

/* A place in an image, or its length. */
static size_t place(const struct line *line, size_t word)
{
    if (line->words[word] == NULL)
        give_up("a line of the script is too short");
    return strtoull(line->words[word], NULL, 10);
}

static uint32_t number(const struct line *line, size_t word)
{
    return (uint32_t)place(line, word);
}

/* The bytes of a word in hexadecimal. */
static struct slice bytes(const struct line *line, size_t word)
{
    const char *hex = line->words[word];
    if (hex == NULL || hex[0] != 'x')
        give_up("a line of the script has no bytes");
    struct slice s = lend("name", strlen(hex + 1) / 2);
    for (size_t i = 0; i < s.len; i++) {
        char digits[3] = {hex[1 + 2 * i], hex[2 + 2 * i], 0};
        s.bytes[i] = (uint8_t)strtoul(digits, NULL, 16);
    }
    seal(&s);
    return s;
}

static void run_with_bytes(const struct line *line, const char *command)
{
    size_t word = strcmp(command, "pull") == 0 ? 1 : 2;
    struct slice s = bytes(line, word);
    if (strcmp(command, "pull") == 0)
        run_pull(s, number(line, 2), number(line, 3), number(line, 4), number(line, 5));
    else if (strcmp(command, "put") == 0)
        run_put(place(line, 1), &s);
    else if (strcmp(command, "cut") == 0)
        run_cut(place(line, 1), s, number(line, 3), number(line, 4));
    else if (strcmp(command, "plant") == 0)
        run_plant(line->words[1], s, number(line, 3));
    else if (strcmp(command, "plant_run") == 0)
        run_plant_run(line->words[1], s, number(line, 3));
    else if (strcmp(command, "plant_reader") == 0)
        run_plant_reader(line->words[1], s, number(line, 3));
    else
        give_up("a line of the script has an unknown command");
    give_back(&s);
}

static void run_line(char *text)
{
    struct line line = {{NULL}};
    char *rest = text;
    for (size_t i = 0; i < MOST_WORDS; i++)
        line.words[i] = strtok_r(rest, " \n", &rest);
    const char *command = line.words[0] == NULL ? "" : line.words[0];
    if (strcmp(command, "card") == 0 && line.words[1] != NULL) {
        run_card(line.words[1]);
    } else if (strcmp(command, "undo") == 0) {
        run_undo();
    } else if (strcmp(command, "unset") == 0) {
        run_unset();
    } else if (strcmp(command, "plant_report") == 0 && line.words[1] != NULL) {
        run_plant_report(line.words[1]);
    } else if (strcmp(command, "segments") == 0) {
        expect_reports(damaged, number(&line, 1), number(&line, 2));
    } else if (strcmp(command, "node") == 0) {
        struct call c = {.image = damaged, .index = number(&line, 1)};
        if (stays_inside("node lookup", make_lookup, &c))
            expect("node lookup", &c, c.entry.answer, number(&line, 2));
    } else {
        run_with_bytes(&line, command);
    }
}

static void run_script(const char *path)
{
    FILE *script = fopen(path, "r");
    char *text = NULL;
    size_t room = 0;
    if (script == NULL)
        give_up("the script can't be read");
    for (line_number = 1; getline(&text, &room, script) >= 0; line_number++)
        run_line(text);
    line_number = 0;
    free(text);
    fclose(script);
}

static void read_byte(void *at)
{
    (void)*(volatile uint8_t *)at;
}

static void write_byte(void *at)
{
    *(volatile uint8_t *)at = 1;
}

static void expect_fault(const char *what, void (*touch)(void *), uint8_t *at, size_t len, int expected)
{
    if (fails(faults(touch, at) == expected))
        printf("FAILED: %s of %zu bytes %s\n", what, len, expected ? "isn't noticed" : "ends in a fault");
}

/* What this test notices: it would pass on anything otherwise. */
static void test_guards(void)
{
    static const size_t lens[] = {1,
                                  255,
                                  HARPTIMBER_NODES_BYTES_OF(1) - 1,
                                  HARPTIMBER_NODES_BYTES,
                                  HARPTIMBER_BLOCKS_BYTES,
                                  HARPTIMBER_BLOCKS_BYTES_OF(2) + 3,
                                  HARPTIMBER_PATH_BYTES_MOST,
                                  BLOCK_SIZE - 1,
                                  BLOCK_SIZE,
                                  BLOCK_SIZE + 1,
                                  2 * BLOCK_SIZE};
    for (size_t i = 0; i < COUNT_OF(lens); i++) {
        size_t len = lens[i];
        struct slice s = lend("slice", len);
        uint8_t *last = s.bytes + len - 1;
        expect_fault("writing the first byte", write_byte, s.bytes, len, 0);
        expect_fault("writing the last byte", write_byte, last, len, 0);
        if (placement == BEFORE_GUARD)
            expect_fault("reading behind a slice", read_byte, last + 1, len, 1);
        else
            expect_fault("reading before a slice", read_byte, s.bytes - 1, len, 1);
        seal(&s);
        expect_fault("reading a sealed slice", read_byte, last, len, 0);
        expect_fault("writing the first byte of a sealed slice", write_byte, s.bytes, len, 1);
        expect_fault("writing the last byte of a sealed slice", write_byte, last, len, 1);
        give_back(&s);
    }
    struct slice none = lend("slice", 0);
    expect_fault("reading a slice", read_byte, none.bytes, 0, 1);
    give_back(&none);
}

/* Names of any length, also told to be a byte longer than they are. */
static void test_names(void)
{
    uint8_t letters[256];
    memset(letters, 'x', sizeof letters);
    for (size_t len = 0; len <= sizeof letters; len++) {
        struct call c = {.name = copied("name", letters, len)};
        uint32_t answer = len == 0 || len == 256 ? HARPTIMBER_OUT_OF_SHAPE : HARPTIMBER_DATA;
        if (stays_inside("name hash", make_hash, &c))
            expect("name hash", &c, c.hashed.answer, answer);
        c.name.len++;
        if (placement == BEFORE_GUARD && len < 255 && fails(faults(make_hash, &c)))
            printf("FAILED to notice a name hash that leaves a name of %zu bytes\n", len);
        give_back(&c.name);
    }
}

/* An image without a superblock, or that is too short for one or too long. */
static void expect_no_image(struct slice name, size_t len)
{
    int shaped = len % BLOCK_SIZE == 0 && len >= 2 * BLOCK_SIZE && len <= MOST_BYTES;
    uint32_t answer = shaped ? HARPTIMBER_NO_SUPERBLOCK : HARPTIMBER_OUT_OF_SHAPE;
    sound = lend_zeros("image", len);
    damaged = lend_zeros("image", len);
    seal(&sound);
    seal(&damaged);
    run_pull(name, 0, answer, answer, answer);
    expect_reports(damaged, 1, answer);
    give_back(&sound);
    give_back(&damaged);
}

/* A path of so many names, each of so many bytes. */
static struct slice path_of(size_t names, size_t bytes)
{
    uint8_t text[(HARPTIMBER_NAMES_MOST + 1) * (HARPTIMBER_NAME_BYTES_MOST + 1)];
    size_t len = names * (bytes + 1) - 1;
    for (size_t i = 0; i < len; i++)
        text[i] = (i + 1) % (bytes + 1) == 0 ? '/' : 'x';
    return copied("path", text, len);
}

/* Paths of any number of names, short and as long as they can be, also told to be a byte longer than they are. */
static void test_paths(void)
{
    static const size_t lens[] = {1, 100, HARPTIMBER_NAME_BYTES_MOST};
    for (size_t i = 0; i < COUNT_OF(lens) * (HARPTIMBER_NAMES_MOST + 1); i++) {
        size_t names = i / COUNT_OF(lens) + 1, bytes = lens[i % COUNT_OF(lens)];
        int in_shape = names <= HARPTIMBER_NAMES_MOST;
        struct call c = {.image = lend_zeros("image", 2 * BLOCK_SIZE), .name = path_of(names, bytes), .reader = &state};
        struct lens least = least_of(&c.name);
        expect_pull(&c, &least, in_shape ? HARPTIMBER_NO_SUPERBLOCK : HARPTIMBER_OUT_OF_SHAPE);
        expect_reader(&c, c.pulled.answer);
        give_room_back(&c);
        expect_odd_room(&c, in_shape ? HARPTIMBER_NO_SUPERBLOCK : HARPTIMBER_OUT_OF_SHAPE);
        turn++;
        lend_room(&c, &least);
        c.name.len++;
        int is_read = in_shape && bytes < HARPTIMBER_NAME_BYTES_MOST; /* up to the byte that isn't there */
        if (placement == BEFORE_GUARD && is_read && fails(faults(make_pull, &c) && faults(make_start, &c)))
            printf("FAILED to notice a pull or a reader that leaves a path of %zu bytes\n", c.name.len - 1);
        give_room_back(&c);
        give_back(&c.name);
        give_back(&c.image);
    }
}

static void test_zeros(void)
{
    static const size_t lens[] = {0, 1, 4095, 4096, 4097, 8191, 8192, 8193, 12288};
    static const size_t most[] = {MOST_BYTES - BLOCK_SIZE, MOST_BYTES - 1, MOST_BYTES, MOST_BYTES + 1,
                                  MOST_BYTES + BLOCK_SIZE};
    struct slice name = copied("name", (const uint8_t *)"road.bin", 8);
    for (size_t i = 0; i < COUNT_OF(lens); i++)
        expect_no_image(name, lens[i]);
    for (size_t i = 0; placement != ON_HEAP && i < COUNT_OF(most); i++)
        expect_no_image(name, most[i]);
    give_back(&name);
}

/* One slice of a call is no bytes at null. */
static void expect_null(const char *what, void (*make)(void *), struct call *c, struct slice *slice,
                        const uint32_t *got, uint32_t answer)
{
    struct slice lent = *slice;
    *slice = (struct slice){.name = lent.name};
    if (stays_inside(what, make, c))
        expect(what, c, *got, answer);
    *slice = lent;
}

/* The same for keep files. A room at null is tried with cards that open, too, in a script's pulls. */
static void test_keep_nulls(struct call *c)
{
    /* As short as a keep file can be: one node, that is out of range. */
    enum { NODES_AT = 4140, END = NODES_AT + 16 };
    static const uint8_t least_file[END] = {
        [4] = 1,          [12] = NODES_AT & 255, [13] = NODES_AT >> 8,    [16] = END & 255, [17] = END >> 8,
        [20] = END & 255, [21] = END >> 8,       [NODES_AT + 4] = HARPTIMBER_NO_NODE,
    };
    c->room = lend("room", HARPTIMBER_KEEP_BYTES_OF(1));
    c->file = copied("keep file", least_file, sizeof least_file);
    expect_null("keep", make_keep, c, &c->image, &c->kept.answer, HARPTIMBER_OUT_OF_SHAPE);
    expect_null("keep", make_keep, c, &c->name, &c->kept.answer, HARPTIMBER_OUT_OF_SHAPE);
    expect_null("keep", make_keep, c, &c->room, &c->kept.answer, HARPTIMBER_NO_SUPERBLOCK);
    expect_null("read of a keep file", make_keep_read, c, &c->file, &c->fields.answer, HARPTIMBER_BAD_KEEP_FILE);
    expect_null("compare of a keep file", make_keep_compare, c, &c->file, &c->compared.answer, HARPTIMBER_BAD_KEEP_FILE);
    expect_null("compare of a keep file", make_keep_compare, c, &c->fresh, &c->compared.answer, HARPTIMBER_OUT_OF_SHAPE);
    give_back(&c->room);
    give_back(&c->file);
}

/* The same for a run. */
static void test_run_nulls(const struct call *pull)
{
    struct call c = {.image = pull->image, .name = pull->name, .wanted = 1};
    struct lens least = least_of_run(&c.name, c.wanted);
    lend_room(&c, &least);
    struct slice *slices[] = {&c.image, &c.name, &c.block, &c.nodes, &c.blocks};
    for (size_t i = 0; i < COUNT_OF(slices); i++)
        expect_null("run", make_run, &c, slices[i], &c.run.answer, HARPTIMBER_OUT_OF_SHAPE);
    c.wanted = 0;
    expect_null("run", make_run, &c, &c.block, &c.run.answer, HARPTIMBER_OUT_OF_SHAPE);
    give_room_back(&c);
}

/* The same for a reader. A path that is none, and a block of no bytes, leave it with 4. */
static void test_reader_nulls(const struct call *pull)
{
    struct call c = {.image = pull->image, .name = pull->name, .reader = &state};
    struct lens least = least_of(&c.name);
    struct slice *lent[] = {&c.block, &c.nodes, &c.blocks};
    c.bytes = lend_zeros("reader's bytes", BLOCK_SIZE);
    seal(&c.bytes);
    expect_null("reader's start", make_start, &c, &c.name, &state.asks, 0);
    read_blocks(&c, 1);
    expect_null("reader's step", make_step, &c, &c.bytes, &state.asks, 0);
    read_blocks(&c, 2);
    lend_room(&c, &least);
    make_result(&c);
    expect("reader's result", &c, c.pulled.answer, HARPTIMBER_NO_SUPERBLOCK);
    for (size_t i = 0; i < COUNT_OF(lent); i++)
        expect_null("reader's result", make_result, &c, lent[i], &c.pulled.answer, HARPTIMBER_OUT_OF_SHAPE);
    give_room_back(&c);
    give_back(&c.bytes);
}

/* No bytes at null, for each slice of each call. Cards that open have such lists too, in a script's pulls. */
static void test_nulls(void)
{
    static const uint8_t zeros[2 * HARPTIMBER_BLOCK_BYTES];
    struct call c = {.image = copied("image", zeros, sizeof zeros), .name = copied("name", (const uint8_t *)"x", 1)};
    c.fresh = c.image;
    struct lens least = least_of(&c.name);
    lend_room(&c, &least);
    c.list = lend("segment list", HARPTIMBER_SEGMENTS_BYTES);
    struct slice *pulled[] = {&c.image, &c.name, &c.block, &c.nodes, &c.blocks};
    for (size_t i = 0; i < COUNT_OF(pulled); i++)
        expect_null("pull", make_pull, &c, pulled[i], &c.pulled.answer, HARPTIMBER_OUT_OF_SHAPE);
    test_run_nulls(&c);
    test_reader_nulls(&c);
    struct slice *images[] = {&c.image, &c.fresh}, *lists[] = {&c.nodes, &c.blocks};
    for (size_t i = 0; i < 2; i++) {
        expect_null("compare", make_compare, &c, images[i], &c.compared.answer, HARPTIMBER_OUT_OF_SHAPE);
        expect_null("compare", make_compare, &c, lists[i], &c.compared.answer, HARPTIMBER_NO_SUPERBLOCK);
    }
    expect_null("node lookup", make_lookup, &c, &c.image, &c.entry.answer, HARPTIMBER_OUT_OF_SHAPE);
    expect_null("segment report", make_report, &c, &c.image, &c.segments.answer, HARPTIMBER_OUT_OF_SHAPE);
    expect_null("segment report", make_report, &c, &c.list, &c.segments.answer, HARPTIMBER_NO_SUPERBLOCK);
    expect_null("name hash", make_hash, &c, &c.name, &c.hashed.answer, HARPTIMBER_OUT_OF_SHAPE);
    test_keep_nulls(&c);
    give_room_back(&c);
    give_back(&c.list);
    give_back(&c.name);
    give_back(&c.image);
}

static void run(int count, char **scripts)
{
    if (placement != ON_HEAP)
        test_guards();
    test_names();
    test_paths();
    test_zeros();
    test_nulls();
    for (int i = 0; i < count; i++)
        run_script(scripts[i]);
}

int main(int argc, char **argv)
{
    int heap = argc > 1 && strcmp(argv[1], "heap") == 0;
    catch_faults();
    placement = heap ? ON_HEAP : BEHIND_GUARD;
    run(argc - 1 - heap, argv + 1 + heap);
    if (!heap) {
        placement = BEFORE_GUARD;
        run(argc - 1, argv + 1);
    }
    return finish();
}
