/* Which part of a file is the card: all of it, what --offset says, or the partition that --partition names. */
#ifndef PART_H
#define PART_H

#include "card.h"
#include "request.h"

struct part {
    bool by_offset, by_partition;
    uint64_t offset;
    uint32_t partition;
};

/* Reads the options. If they can't be meant, says so and returns false. */
bool part_read(struct part *part, const struct request *request);

/* Makes the part the card, of a file that is open. If the file hasn't it, says so and returns false. */
bool part_take(struct card *card, const struct part *part);

#endif
