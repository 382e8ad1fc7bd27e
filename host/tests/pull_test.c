/* Pulls and compares from C, in calls that are refused: the answer, the other numbers, and every lent byte. */
#include <inttypes.h>
#include <string.h>

#include "zeros.h"

#define PATTERN 0xA5

/* The rooms of a path with one name: what hosts lent before there were others is still enough for it. */
enum { BLOCK = HARPTIMBER_BLOCK_BYTES, NODES = 716, BLOCKS = 952 };

static const uint8_t two_blocks[2 * BLOCK];
static uint8_t block[BLOCK + 1], nodes[HARPTIMBER_NODES_BYTES_OF(2)], blocks[HARPTIMBER_BLOCKS_BYTES_OF(2)];

static int untouched(const uint8_t *bytes, size_t len)
{
    for (size_t i = 0; i < len; i++)
        if (bytes[i] != PATTERN)
            return 0;
    return 1;
}

/* Lengths of what a pull writes to. */
struct lens {
    size_t block, nodes, blocks;
};
static const struct lens least = {BLOCK, NODES, BLOCKS};

/* A pull of `len` zeros. */
static void expect_pulled(const uint8_t *zeros, size_t len, const char *name, struct lens lens, uint32_t answer)
{
    memset(block, PATTERN, sizeof block);
    memset(nodes, PATTERN, sizeof nodes);
    memset(blocks, PATTERN, sizeof blocks);
    struct harptimber_pulled got =
        harptimber_pull(zeros, len, (const uint8_t *)name, strlen(name), 0, block, lens.block, nodes, lens.nodes,
                        blocks, lens.blocks);
    int numbers = got.answer == answer && got.byte_count == 0 && got.node_count == 0 && got.block_count == 0;
    int memory = untouched(block, sizeof block) && untouched(nodes, sizeof nodes) && untouched(blocks, sizeof blocks);
    if (fails(numbers && memory))
        printf("FAILED pull of '%s' in %zu zeros with %zu, %zu and %zu bytes lent: answer %" PRIu32
               ", expected %" PRIu32 "; memory %s\n",
               name, len, lens.block, lens.nodes, lens.blocks, got.answer, answer, memory ? "untouched" : "touched");
}

/* A pull of two empty blocks, with lent memory of these lengths. */
static void expect_refused(const char *name, size_t block_len, size_t nodes_len, size_t blocks_len,
                           uint32_t answer)
{
    expect_pulled(two_blocks, sizeof two_blocks, name, (struct lens){block_len, nodes_len, blocks_len}, answer);
}

static void expect_compared(const uint8_t *kept, size_t kept_len, const uint8_t *fresh, size_t fresh_len,
                            uint32_t answer, uint32_t side)
{
    struct harptimber_compared got =
        harptimber_compare(kept, kept_len, fresh, fresh_len, nodes, 4, 1, blocks, 0, 0);
    if (fails(got.answer == answer && got.side == side && got.kind == 0 && got.number == 0))
        printf("FAILED compare of %zu and %zu zeros: answer %" PRIu32 ", side %" PRIu32
               "; expected %" PRIu32 ", %" PRIu32 "\n",
               kept_len, fresh_len, got.answer, got.side, answer, side);
}

/* A pull, and compares with `len` zeros on either side and on both: without a superblock it is the kept one's fault. */
static void expect_length(const uint8_t *zeros, size_t len, uint32_t answer)
{
    uint32_t side = answer == HARPTIMBER_OUT_OF_SHAPE ? 0 : 1;
    expect_pulled(zeros, len, "road.bin", least, answer);
    expect_compared(zeros, len, two_blocks, sizeof two_blocks, answer, side);
    expect_compared(two_blocks, sizeof two_blocks, zeros, len, answer, side);
    expect_compared(zeros, len, zeros, len, answer, side);
}

int main(void)
{
    expect_refused("road.bin", BLOCK, NODES, BLOCKS, HARPTIMBER_NO_SUPERBLOCK);
    expect_refused("road.bin", BLOCK, NODES + 3, BLOCKS + 3, HARPTIMBER_NO_SUPERBLOCK);
    expect_refused("road.bin", BLOCK - 1, NODES, BLOCKS, HARPTIMBER_OUT_OF_SHAPE);
    expect_refused("road.bin", BLOCK + 1, NODES, BLOCKS, HARPTIMBER_OUT_OF_SHAPE);
    expect_refused("road.bin", BLOCK, NODES - 1, BLOCKS, HARPTIMBER_OUT_OF_SHAPE);
    expect_refused("road.bin", BLOCK, NODES, BLOCKS - 1, HARPTIMBER_OUT_OF_SHAPE);
    expect_refused("", BLOCK, NODES, BLOCKS, HARPTIMBER_OUT_OF_SHAPE);
    expect_refused("a/b", BLOCK, NODES, BLOCKS, HARPTIMBER_OUT_OF_SHAPE); /* room for one name */
    expect_refused("a/b", BLOCK, sizeof nodes, sizeof blocks, HARPTIMBER_NO_SUPERBLOCK);
    return refuse_zeros(expect_length);
}
