#include "keep_fault.h"

#include <inttypes.h>
#include <stdbool.h>

#include "disk.h"
#include "keep_file.h"
#include "text.h"

/* The header: its counts; where it has the nodes, the blocks and the end; and where these are by the counts. */
struct header {
    uint32_t path_len, node_count, block_count, stored[3];
    uint64_t places[3];
};

static struct header header_of(const uint8_t *bytes)
{
    struct header h = {.path_len = disk32(bytes), .node_count = disk32(bytes + 4), .block_count = disk32(bytes + 8)};
    for (int i = 0; i < 3; i++)
        h.stored[i] = disk32(bytes + 12 + 4 * i);
    h.places[0] = HARPTIMBER_KEEP_LENGTH_OF((uint64_t)h.path_len, 0, 0);
    h.places[1] = h.places[0] + (uint64_t)KEEP_NODE_BYTES * h.node_count;
    h.places[2] = h.places[1] + (uint64_t)KEEP_BLOCK_BYTES * h.block_count;
    return h;
}

/* Returns whether the header, or the file's length, was told to be wrong. */
static bool show_header_fault(FILE *out, const struct header *h, size_t len)
{
    static const char *const parts[] = {"nodes", "blocks", "end"};
    for (int i = 0; i < 3; i++)
        if (h->stored[i] != h->places[i]) {
            fprintf(out, "its header has the %s at byte %" PRIu32 ", but by its counts that is byte %" PRIu64, parts[i],
                    h->stored[i], h->places[i]);
            return true;
        }
    if (h->places[2] == len)
        return false;
    fputs("it has ", out);
    show_count(out, len, "byte");
    fputs(", but by its header ", out);
    show_number(out, h->places[2]);
    return true;
}

/* Whoever gives the card first has it taken for a keep file. */
static void show_card(FILE *out, const uint8_t *bytes, size_t len)
{
    if (len >= DISK_SUPERBLOCK_AT + 4 && disk32(bytes + DISK_SUPERBLOCK_AT) == DISK_MARK)
        fputs("; it has the F2FS mark of a card image", out);
}

/* Returns whether a list was told not to rise. */
static bool show_list_fault(FILE *out, const char *what, const struct list *list)
{
    for (uint32_t i = 1; i < list->count; i++)
        if (list_number(list, i - 1) >= list_number(list, i)) {
            fprintf(out, "%s %" PRIu32 " comes behind %" PRIu32 ", and they should rise", what, list_number(list, i),
                    list_number(list, i - 1));
            return true;
        }
    return false;
}

/* Returns whether a table answer was told to be none. */
static bool show_entry_fault(FILE *out, const struct list *nodes)
{
    for (uint32_t i = 0; i < nodes->count; i++) {
        const uint8_t *node = list_item(nodes, i);
        uint32_t answer = disk32(node + 4), inode = disk32(node + 8), address = disk32(node + 12);
        if (answer == HARPTIMBER_DATA || (answer == HARPTIMBER_NO_NODE && inode == 0 && address == 0))
            continue;
        fprintf(out, "of node %" PRIu32 " it has the numbers %" PRIu32 ", %" PRIu32 " and %" PRIu32 ", which no table says",
                list_number(nodes, i), answer, inode, address);
        return true;
    }
    return false;
}

/* The bounds of the main area lie right before the nodes. */
static void show_block_fault(FILE *out, const struct list *blocks, const uint8_t *bounds)
{
    uint32_t first = disk32(bounds), end = disk32(bounds + 4);
    for (uint32_t i = 0; i < blocks->count; i++) {
        uint32_t number = list_number(blocks, i);
        if (number < first || number >= end) {
            fprintf(out, "block %" PRIu32 " lies outside its main area, which is from block %" PRIu32 " to before %" PRIu32,
                    number, first, end);
            return;
        }
    }
}

void show_keep_fault(FILE *out, const uint8_t *bytes, size_t len)
{
    if (len < KEEP_HEADER_BYTES) {
        fputs("it has ", out);
        show_count(out, len, "byte");
        fprintf(out, ", and a keep file's header alone has %d", KEEP_HEADER_BYTES);
        return;
    }
    struct header h = header_of(bytes);
    if (show_header_fault(out, &h, len)) {
        show_card(out, bytes, len);
        return;
    }
    struct list nodes = {bytes + h.places[0], KEEP_NODE_BYTES, h.node_count};
    struct list blocks = {bytes + h.places[1], KEEP_BLOCK_BYTES, h.block_count};
    if (h.node_count == 0)
        fputs("it lists no node", out);
    else if (!show_list_fault(out, "node", &nodes) && !show_entry_fault(out, &nodes) &&
             !show_list_fault(out, "block", &blocks))
        show_block_fault(out, &blocks, bytes + h.places[0] - 8);
}
