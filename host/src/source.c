#include "source.h"

#include "disk.h"
#include "nat.h"
#include "opening.h"

struct source source_of_card(const struct card *card)
{
    return (struct source){.card = card};
}

struct source source_of_keep(const struct keep_file *keep)
{
    return (struct source){.keep = keep};
}

struct harptimber_entry source_entry(const struct source *source, uint32_t number)
{
    struct harptimber_entry entry = {.answer = NO_ANSWER};
    if (source->card == NULL)
        keep_file_entry(source->keep, number, &entry);
    else if (card_is_blockwise(source->card))
        entry = nat_lookup(source->card, number);
    else
        entry = harptimber_node_lookup(source->card->bytes, source->card->len, number);
    return entry;
}

const uint8_t *source_block(const struct source *source, uint32_t number)
{
    return source->card != NULL ? disk_block(source->card, number) : keep_file_bytes(source->keep, number);
}

void source_bounds(const struct source *source, uint64_t *first, uint64_t *end)
{
    const uint8_t *superblock = source->card == NULL ? NULL : opening_superblock(source->card);
    *first = *end = 0;
    if (source->keep != NULL) {
        *first = source->keep->fields.main_start;
        *end = source->keep->fields.main_end;
    } else if (superblock != NULL) {
        *first = disk_area_first(superblock, DISK_MAIN);
        *end = disk_area_end(superblock, DISK_MAIN);
    }
}
