/* A keep file: what the library reads in it, and its parts. */
#ifndef KEEP_FILE_H
#define KEEP_FILE_H

#include <stdbool.h>

#include "list.h"

/* It starts with six numbers. Of a node it has four, and of a block its number and its bytes. */
enum { KEEP_HEADER_BYTES = 6 * 4, KEEP_NODE_BYTES = 4 * 4, KEEP_BLOCK_BYTES = 4 + HARPTIMBER_BLOCK_BYTES };

struct keep_file {
    const uint8_t *bytes;
    size_t len;
    struct harptimber_keep_fields fields;
};

/* Asks the library what is in some bytes. The other functions are for those in which it finds a keep file. */
struct keep_file keep_file_of(const uint8_t *bytes, size_t len);

/* The pull's path, as many bytes as its length; any may be among them, and no zero byte is behind. */
const char *keep_file_path(const struct keep_file *file);

/* What the pull gave. */
struct harptimber_pulled keep_file_pulled(const struct keep_file *file);

/* The block that it gave, 4,096 bytes. */
const uint8_t *keep_file_block(const struct keep_file *file);

/* The numbers of the nodes that it looked up, and of the blocks that it read. */
struct list keep_file_nodes(const struct keep_file *file);
struct list keep_file_blocks(const struct keep_file *file);

/* What the table said of a node, and the bytes of a block. Returns false, or null, if it isn't listed. */
bool keep_file_entry(const struct keep_file *file, uint32_t number, struct harptimber_entry *entry);
const uint8_t *keep_file_bytes(const struct keep_file *file, uint32_t number);

#endif
