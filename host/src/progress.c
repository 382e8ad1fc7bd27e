#include "progress.h"

#include <stdio.h>
#include <string.h>
#include <unistd.h>

#include "text.h"

enum { BLOCKS_A_MIB = 256, MOST_SHOWN = 100 };

/* A file with no more blocks than these isn't large. */
enum { FEW_BLOCKS = 1024 };

/* A longer path is left out, so that the line fits. */
enum { MOST_PATH_BYTES = 40 };

/* Whether the file has a block `index`, sound or not: past the end is judged by index and size alone. */
static bool has_block(const struct card *card, const char *path, uint32_t index)
{
    uint8_t block[BLOCK_SIZE];
    struct lists lists;
    return card_pull(card, path, strlen(path), index, block, &lists).answer != HARPTIMBER_PAST_END;
}

/* How many blocks a large file has; 0 for others. By bisection, since no call says it. */
static uint32_t count_blocks(const struct card *card, const char *path)
{
    uint32_t there = FEW_BLOCKS, past = UINT32_MAX;
    if (!has_block(card, path, there) || has_block(card, path, past))
        return 0;
    while (past - there > 1) {
        uint32_t middle = there + (past - there) / 2;
        if (has_block(card, path, middle))
            there = middle;
        else
            past = middle;
    }
    return past;
}

struct progress progress_begin(const struct card *card, const char *path)
{
    return (struct progress){.path = path, .total = isatty(STDERR_FILENO) ? count_blocks(card, path) : 0};
}

/* The cursor goes back to the line's start each time: a message that comes meanwhile begins there. */
void progress_show(struct progress *progress, uint32_t blocks)
{
    if (progress->total == 0 || blocks < progress->next)
        return;
    uint32_t total = (progress->total + BLOCKS_A_MIB - 1) / BLOCKS_A_MIB;
    progress->width = 0;
    if (strlen(progress->path) <= MOST_PATH_BYTES) {
        progress->width += (int)show(stderr, progress->path);
        progress->width += fprintf(stderr, ": ");
    }
    progress->width += show_number(stderr, blocks / BLOCKS_A_MIB);
    progress->width += fprintf(stderr, " of ");
    progress->width += show_number(stderr, total);
    progress->width += fprintf(stderr, " MiB");
    fputc('\r', stderr);
    uint32_t step = progress->total / MOST_SHOWN + 1;
    progress->next = blocks + (step < BLOCKS_A_MIB ? BLOCKS_A_MIB : step);
}

void progress_end(struct progress *progress)
{
    if (progress->width > 0)
        fprintf(stderr, "%*s\r", progress->width, "");
    progress->width = 0;
}
