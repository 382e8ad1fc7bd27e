/* The partitions of a disk, by its MBR or GPT. Every function takes any bytes. */
#ifndef PARTITIONS_H
#define PARTITIONS_H

#include <stdbool.h>
#include <stddef.h>
#include <stdint.h>
#include <stdio.h>

#include "mapping.h"

/* Of more than these, the later ones aren't listed. */
enum { MOST_PARTITIONS = 128 };

struct partition {
    uint32_t number;     /* as Linux numbers them */
    uint64_t first, len; /* in bytes, as the table has them: they may lie outside the file */
    bool marked;         /* its superblock has an F2FS mark */
};

struct partitions {
    const char *table; /* which kind it is; null if there is none */
    bool damaged;      /* a GPT of which neither copy is sound */
    uint32_t count;
    struct partition list[MOST_PARTITIONS];
};

/* Reads the table of a disk, which is all of a file. */
void partitions_read(struct partitions *partitions, const struct mapping *disk);

/* The partition of that number, or null. */
const struct partition *partitions_find(const struct partitions *partitions, uint32_t number);

/* The partition with an F2FS mark, if there is just one; else null. */
const struct partition *partitions_only_marked(const struct partitions *partitions);

/* Prints which partitions a file has, in plain text on one line. */
void show_partitions(FILE *out, const struct partitions *partitions);

#endif
