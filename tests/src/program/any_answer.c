/*
 * Linked into a build of the program in place of the library: every call answers ANY_ANSWER, whatever it is given. A segment
 * report lists the numbers in ANY_LIST, and has ANY_VALID valid blocks, if they are there. If ANY_VERDICT is there, a compare
 * answers that, with ANY_KIND and ANY_NUMBER. A keep writes nothing, and a reader asks for nothing.
 */
#include <stdlib.h>

#include "harptimber.h"

static uint32_t number_in(const char *variable)
{
    const char *number = getenv(variable);
    return number == NULL ? 0 : (uint32_t)strtoul(number, NULL, 10);
}

static uint32_t answer(void)
{
    return number_in("ANY_ANSWER");
}

struct harptimber_hashed harptimber_name_hash(const uint8_t *name, size_t name_len)
{
    (void)name, (void)name_len;
    return (struct harptimber_hashed){.answer = answer()};
}

struct harptimber_place harptimber_file_place(uint32_t addresses, uint32_t index)
{
    (void)addresses, (void)index;
    return (struct harptimber_place){.answer = answer()};
}

struct harptimber_entry harptimber_node_lookup(const uint8_t *image, size_t image_len, uint32_t number)
{
    (void)image, (void)image_len, (void)number;
    return (struct harptimber_entry){.answer = answer()};
}

struct harptimber_pulled harptimber_pull(const uint8_t *image, size_t image_len, const uint8_t *path, size_t path_len,
                                         uint32_t index, uint8_t *block, size_t block_len, uint8_t *nodes, size_t nodes_len,
                                         uint8_t *blocks, size_t blocks_len)
{
    (void)image, (void)image_len, (void)path, (void)path_len, (void)index, (void)block, (void)block_len;
    (void)nodes, (void)nodes_len, (void)blocks, (void)blocks_len;
    return (struct harptimber_pulled){.answer = answer()};
}

struct harptimber_run harptimber_pull_run(const uint8_t *image, size_t image_len, const uint8_t *path, size_t path_len,
                                          uint32_t index, uint32_t blocks_wanted, uint8_t *buffer, size_t buffer_len,
                                          uint8_t *nodes, size_t nodes_len, uint8_t *blocks, size_t blocks_len)
{
    (void)image, (void)image_len, (void)path, (void)path_len, (void)index, (void)blocks_wanted, (void)buffer;
    (void)buffer_len, (void)nodes, (void)nodes_len, (void)blocks, (void)blocks_len;
    return (struct harptimber_run){.answer = answer()};
}

struct harptimber_reader harptimber_reader_start(uint32_t card_blocks, const uint8_t *path, size_t path_len, uint32_t index)
{
    (void)card_blocks, (void)path, (void)path_len, (void)index;
    return (struct harptimber_reader){.asks = 0};
}

struct harptimber_reader harptimber_reader_step(struct harptimber_reader reader, const uint8_t *bytes, size_t bytes_len)
{
    (void)bytes, (void)bytes_len;
    return reader;
}

struct harptimber_pulled harptimber_reader_result(struct harptimber_reader reader, uint8_t *block, size_t block_len,
                                                  uint8_t *nodes, size_t nodes_len, uint8_t *blocks, size_t blocks_len)
{
    (void)reader, (void)block, (void)block_len, (void)nodes, (void)nodes_len, (void)blocks, (void)blocks_len;
    return (struct harptimber_pulled){.answer = answer()};
}

static struct harptimber_compared verdict(void)
{
    return (struct harptimber_compared){.answer = getenv("ANY_VERDICT") == NULL ? answer() : number_in("ANY_VERDICT"),
                                        .kind = number_in("ANY_KIND"),
                                        .number = number_in("ANY_NUMBER")};
}

struct harptimber_compared harptimber_compare(const uint8_t *kept, size_t kept_len, const uint8_t *fresh, size_t fresh_len,
                                              const uint8_t *nodes, size_t nodes_len, uint32_t node_count,
                                              const uint8_t *blocks, size_t blocks_len, uint32_t block_count)
{
    (void)kept, (void)kept_len, (void)fresh, (void)fresh_len, (void)nodes, (void)nodes_len, (void)node_count;
    (void)blocks, (void)blocks_len, (void)block_count;
    return verdict();
}

struct harptimber_kept harptimber_keep(const uint8_t *image, size_t image_len, const uint8_t *path, size_t path_len, uint32_t index,
                                       uint8_t *room, size_t room_len)
{
    (void)image, (void)image_len, (void)path, (void)path_len, (void)index, (void)room, (void)room_len;
    return (struct harptimber_kept){.answer = answer()};
}

struct harptimber_keep_fields harptimber_keep_read(const uint8_t *file, size_t file_len)
{
    (void)file, (void)file_len;
    return (struct harptimber_keep_fields){.answer = answer()};
}

struct harptimber_compared harptimber_keep_compare(const uint8_t *file, size_t file_len, const uint8_t *fresh, size_t fresh_len)
{
    (void)file, (void)file_len, (void)fresh, (void)fresh_len;
    return verdict();
}

struct harptimber_segments harptimber_segment_report(const uint8_t *image, size_t image_len, uint8_t *list, size_t list_len)
{
    (void)image, (void)image_len, (void)list_len;
    struct harptimber_segments segments = {.answer = answer()};
    segments.valid_blocks = number_in("ANY_VALID");
    const char *rest = getenv("ANY_LIST");
    while (rest != NULL && *rest != '\0') {
        char *behind;
        unsigned long number = strtoul(rest, &behind, 10);
        for (int byte = 0; byte < 4; byte++)
            list[4 * segments.count + (unsigned)byte] = (uint8_t)(number >> 8 * byte);
        segments.count++;
        rest = behind;
    }
    return segments;
}
