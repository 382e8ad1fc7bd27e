#include "card.h"

#include "disk.h"
#include "part.h"
#include "text.h"

/* No part of an empty file could be a card. */
static enum status take_part(struct card *card, const struct part *part)
{
    if (card->len == 0) {
        complain(card->path, "is empty");
        return REFUSED;
    }
    return part_take(card, part) ? DONE : MISUSED;
}

enum status card_open(struct card *card, const struct request *request, const char *path)
{
    struct part part;
    *card = (struct card){.path = path};
    if (!part_read(&part, request))
        return MISUSED;
    if (!(request->blockwise ? mapping_open_unmapped : mapping_open)(&card->file, path, "is the card image itself"))
        return REFUSED;
    card->bytes = card->file.bytes;
    card->len = card->file.len;
    enum status status = take_part(card, &part);
    if (status != DONE)
        card_close(card);
    return status;
}

void card_close(struct card *card)
{
    mapping_close(&card->file);
}

bool card_is_blockwise(const struct card *card)
{
    return card->file.pieces != NULL;
}

bool card_is_settled(const struct card *card)
{
    return mapping_is_settled(&card->file);
}

/* A length that isn't one of whole blocks is no card's, nor is one of more of them than the number has room for. */
static uint32_t blocks_of(const struct card *card)
{
    size_t blocks = card->len / BLOCK_SIZE;
    return card->len % BLOCK_SIZE == 0 && blocks <= UINT32_MAX ? (uint32_t)blocks : 0;
}

/* Of the card one block at a time is in memory, the one that the reader asks for. */
static struct harptimber_pulled pull_blockwise(const struct card *card, const char *path, size_t path_len, uint32_t index,
                                               uint8_t *block, struct lists *lists)
{
    uint8_t bytes[BLOCK_SIZE];
    struct harptimber_reader reader = harptimber_reader_start(blocks_of(card), (const uint8_t *)path, path_len, index);
    while (reader.asks != 0) {
        mapping_read(&card->file, card->offset + (uint64_t)reader.block * BLOCK_SIZE, bytes, sizeof bytes);
        reader = harptimber_reader_step(reader, bytes, sizeof bytes);
    }
    return harptimber_reader_result(reader, block, BLOCK_SIZE, lists->nodes, sizeof lists->nodes, lists->blocks,
                                    sizeof lists->blocks);
}

struct harptimber_pulled card_pull(const struct card *card, const char *path, size_t path_len, uint32_t index,
                                   uint8_t *block, struct lists *lists)
{
    if (card_is_blockwise(card))
        return pull_blockwise(card, path, path_len, index, block, lists);
    return harptimber_pull(card->bytes, card->len, (const uint8_t *)path, path_len, index, block, BLOCK_SIZE,
                           lists->nodes, sizeof lists->nodes, lists->blocks, sizeof lists->blocks);
}

struct harptimber_run card_pull_run(const struct card *card, const char *path, size_t path_len, uint32_t index,
                                    struct run_room *room)
{
    return harptimber_pull_run(card->bytes, card->len, (const uint8_t *)path, path_len, index, HARPTIMBER_RUN_MOST,
                               room->bytes, sizeof room->bytes, room->nodes, sizeof room->nodes, room->blocks,
                               sizeof room->blocks);
}

/* A reader has no call of its own for that, but any of its pulls says it. */
uint32_t card_opens(const struct card *card)
{
    uint8_t block[BLOCK_SIZE];
    struct lists lists;
    if (!card_is_blockwise(card))
        return harptimber_node_lookup(card->bytes, card->len, DISK_ROOT).answer;
    uint32_t answer = pull_blockwise(card, ".", 1, 0, block, &lists).answer;
    return is_before_walk(answer) ? answer : HARPTIMBER_DATA;
}

bool is_block(uint32_t answer)
{
    return answer == HARPTIMBER_DATA || answer == HARPTIMBER_HOLE;
}

bool is_before_walk(uint32_t answer)
{
    return answer >= HARPTIMBER_OUT_OF_SHAPE && answer <= HARPTIMBER_UNREADABLE;
}
