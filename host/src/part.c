#include "part.h"

#include <inttypes.h>
#include <stdio.h>

#include "partitions.h"
#include "text.h"
#include "words.h"

bool part_read(struct part *part, const struct request *request)
{
    *part = (struct part){.by_offset = request->offset != NULL, .by_partition = request->partition != NULL};
    if (part->by_offset && part->by_partition) {
        complain(request->command, "takes --offset or --partition, not both");
        misused();
        return false;
    }
    return (!part->by_offset || read_wide_number(request->offset, "BYTES", &part->offset)) &&
           (!part->by_partition || read_number(request->partition, "N", &part->partition));
}

/* A volume has whole blocks: what is left behind the last one is no part of it. */
static bool take(struct card *card, uint64_t first, uint64_t len)
{
    uint64_t rest = card->file.len - first;
    len = len < rest ? len : rest;
    card->offset = first;
    card->bytes = card->file.bytes == NULL ? NULL : card->file.bytes + first;
    card->len = (size_t)(len - len % BLOCK_SIZE);
    return true;
}

static bool take_partition(struct card *card, uint32_t number)
{
    struct partitions partitions;
    partitions_read(&partitions, &card->file);
    const struct partition *partition = partitions_find(&partitions, number);
    if (partition != NULL && partition->first < card->file.len)
        return take(card, partition->first, partition->len);
    show_subject(stderr, card->path);
    if (partition != NULL) {
        fprintf(stderr, "partition %" PRIu32 " starts at byte %" PRIu64 ", behind the end of the file\n", number, partition->first);
    } else {
        fprintf(stderr, "no partition %" PRIu32 "; ", number);
        show_partitions(stderr, &partitions);
        fputc('\n', stderr);
    }
    return false;
}

bool part_take(struct card *card, const struct part *part)
{
    if (part->by_partition)
        return take_partition(card, part->partition);
    if (!part->by_offset)
        return true;
    if (part->offset < card->file.len)
        return take(card, part->offset, HARPTIMBER_CARD_BYTES_MOST);
    char there[NUMBER_ROOM];
    complain(card->path, "has no byte %" PRIu64 ": it has %s bytes", part->offset, number_text(there, card->file.len));
    return false;
}
