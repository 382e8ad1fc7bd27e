/* What differs between two versions of a block, by the fields of the Linux header f2fs_fs.h. Any bytes will do. */
#ifndef DIFFERENCE_H
#define DIFFERENCE_H

#include <stdint.h>
#include <stdio.h>

/* Prints the fields of a node block that differ: 'size (5 before, 6 now), access time'. */
void show_node_fields(FILE *out, const uint8_t *before, const uint8_t *now);

/* Prints what became of the first entry of a directory block that differs: 'an entry is new (NAME)'. */
void show_directory_entry(FILE *out, const uint8_t *before, const uint8_t *now);

/* The same behind ': ' of entries that stand in a directory's inode; nothing if there are none, or if they are alike. */
void show_inline_entry(FILE *out, const uint8_t *before, const uint8_t *now);

#endif
