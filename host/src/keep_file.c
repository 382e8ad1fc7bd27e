#include "keep_file.h"

#include "disk.h"

struct keep_file keep_file_of(const uint8_t *bytes, size_t len)
{
    return (struct keep_file){bytes, len, harptimber_keep_read(bytes, len)};
}

const char *keep_file_path(const struct keep_file *file)
{
    return (const char *)file->bytes + file->fields.path_at;
}

struct harptimber_pulled keep_file_pulled(const struct keep_file *file)
{
    const struct harptimber_keep_fields *fields = &file->fields;
    return (struct harptimber_pulled){fields->pull_answer, fields->byte_count, fields->node_count, fields->block_count};
}

const uint8_t *keep_file_block(const struct keep_file *file)
{
    return file->bytes + file->fields.block_at;
}

struct list keep_file_nodes(const struct keep_file *file)
{
    return (struct list){file->bytes + file->fields.nodes_at, KEEP_NODE_BYTES, file->fields.node_count};
}

struct list keep_file_blocks(const struct keep_file *file)
{
    return (struct list){file->bytes + file->fields.blocks_at, KEEP_BLOCK_BYTES, file->fields.block_count};
}

/* What a list, which rises, has with a number; null if it hasn't that. */
static const uint8_t *find(const struct list *list, uint32_t number)
{
    uint32_t first = 0, end = list->count;
    while (first < end) {
        uint32_t middle = first + (end - first) / 2, there = list_number(list, middle);
        if (there == number)
            return list_item(list, middle);
        if (there < number)
            first = middle + 1;
        else
            end = middle;
    }
    return NULL;
}

bool keep_file_entry(const struct keep_file *file, uint32_t number, struct harptimber_entry *entry)
{
    struct list nodes = keep_file_nodes(file);
    const uint8_t *node = find(&nodes, number);
    if (node == NULL)
        return false;
    *entry = (struct harptimber_entry){disk32(node + 4), disk32(node + 8), disk32(node + 12)};
    return true;
}

const uint8_t *keep_file_bytes(const struct keep_file *file, uint32_t number)
{
    struct list blocks = keep_file_blocks(file);
    const uint8_t *block = find(&blocks, number);
    return block == NULL ? NULL : block + 4;
}
