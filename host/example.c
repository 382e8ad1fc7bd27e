/* What README.md and docs/C-API.md show of the library, as a whole program. example OLD NEW keeps block 0 of
 * roads/road.bin from the first card, lets go of that card, prints the block, and says whether it is still good on the
 * second: status 0 if it is, 1 if not, 2 if something failed. example CARD prints the block of a card that it can't map:
 * it asks another process for each block that it needs, by a pipe. It is C and C++. */
#include <errno.h>
#include <fcntl.h>
#include <stdio.h>
#include <string.h>
#include <sys/mman.h>
#include <sys/stat.h>
#include <sys/wait.h>
#include <unistd.h>

#include "harptimber.h"

/* A keep file of one block: what was asked, the answer, and all that it rested on. It may go to a disk and come back. */
struct kept {
    struct harptimber_kept file;
    uint8_t bytes[HARPTIMBER_KEEP_BYTES_OF(2)]; /* always enough for two names: 1.9 MB, too many for a small stack */
};

/* Keeps block 0 of roads/road.bin. The card isn't needed any more then. */
static int keep_road(struct kept *k, const uint8_t *card, size_t card_len)
{
    static const char path[] = "roads/road.bin";
    k->file = harptimber_keep(card, card_len, (const uint8_t *)path, sizeof path - 1, 0, k->bytes, sizeof k->bytes);
    return k->file.answer == HARPTIMBER_DATA;
}

/* The kept bytes and how many they are, or NULL. Of a file that comes from elsewhere every number is looked at first. */
static const uint8_t *kept_bytes(const struct kept *k, uint32_t *byte_count)
{
    struct harptimber_keep_fields f = harptimber_keep_read(k->bytes, k->file.length);
    *byte_count = f.byte_count;
    return f.answer == HARPTIMBER_DATA && f.pull_answer <= HARPTIMBER_HOLE && f.byte_count <= HARPTIMBER_BLOCK_BYTES
               ? k->bytes + f.block_at
               : NULL;
}

/* Later, with a new card. Returns HARPTIMBER_SAME if what is kept is still good. */
static uint32_t ask_again(const struct kept *k, const uint8_t *fresh, size_t fresh_len)
{
    return harptimber_keep_compare(k->bytes, k->file.length, fresh, fresh_len).answer;
}

/* A card at the other end of two pipes: a block's number goes there, and its bytes come back. */
struct remote {
    int to, from;
};

/* Gets a block, and returns how many of its bytes came: with fewer than all of them, a step ends the reader. */
static size_t get_block(const struct remote *card, uint32_t number, uint8_t *bytes)
{
    size_t got = 0;
    ssize_t more = write(card->to, &number, sizeof number) == sizeof number ? 1 : 0;
    while (more > 0 && got < HARPTIMBER_BLOCK_BYTES) {
        more = read(card->from, bytes + got, HARPTIMBER_BLOCK_BYTES - got);
        got += more > 0 ? (size_t)more : 0;
    }
    return got;
}

/* Pulls block 0 of roads/road.bin into 4,096 bytes. In memory are one block of the card, and the reader's 24 KB. */
static struct harptimber_pulled read_road(const struct remote *card, uint32_t card_blocks, uint8_t *block)
{
    static const char path[] = "roads/road.bin";
    uint8_t bytes[HARPTIMBER_BLOCK_BYTES];
    uint8_t nodes[HARPTIMBER_NODES_BYTES_OF(2)], blocks[HARPTIMBER_BLOCKS_BYTES_OF(2)];
    struct harptimber_reader r = harptimber_reader_start(card_blocks, (const uint8_t *)path, sizeof path - 1, 0);
    while (r.asks)
        r = harptimber_reader_step(r, bytes, get_block(card, r.block, bytes));
    return harptimber_reader_result(r, block, HARPTIMBER_BLOCK_BYTES, nodes, sizeof nodes, blocks, sizeof blocks);
}

struct image {
    const uint8_t *bytes;
    size_t len;
};

static int failed(const char *path, const char *why)
{
    fprintf(stderr, "example: %s: %s\n", path, why);
    return 0;
}

/* Maps an open file; the mapping stays when it is closed. Nobody may cut the file short meanwhile: a call would
 * end in SIGBUS (docs/C-API.md). */
static int map_file(int file, const char *path, struct image *image)
{
    struct stat info;
    if (fstat(file, &info) != 0)
        return failed(path, strerror(errno));
    if (info.st_size == 0)
        return failed(path, "is empty, or no file");
    void *bytes = mmap(NULL, (size_t)info.st_size, PROT_READ, MAP_PRIVATE, file, 0);
    if (bytes == MAP_FAILED)
        return failed(path, strerror(errno));
    image->bytes = (const uint8_t *)bytes;
    image->len = (size_t)info.st_size;
    return 1;
}

static int open_image(const char *path, struct image *image)
{
    int file = open(path, O_RDONLY);
    if (file < 0)
        return failed(path, strerror(errno));
    int mapped = map_file(file, path, image);
    close(file);
    return mapped;
}

static void close_image(struct image *image)
{
    munmap((void *)(uintptr_t)image->bytes, image->len);
}

/* Keeps the road's block, and ends with the card closed. */
static int keep_from(const char *path, struct kept *kept)
{
    struct image card;
    if (!open_image(path, &card))
        return 0;
    int done = keep_road(kept, card.bytes, card.len);
    close_image(&card);
    return done || failed(path, harptimber_answer_words(kept->file.answer));
}

static int print(const uint8_t *bytes, uint32_t byte_count)
{
    if (fwrite(bytes, 1, byte_count, stdout) != byte_count || fflush(stdout) != 0)
        return failed("standard output", strerror(errno));
    return 1;
}

/* Prints the kept block's bytes; of the old card only the keep file is left. */
static int print_kept(const char *path, const struct kept *kept)
{
    uint32_t byte_count;
    const uint8_t *bytes = kept_bytes(kept, &byte_count);
    if (bytes == NULL)
        return failed(path, "has no such block");
    return print(bytes, byte_count);
}

/* The status to end with. */
static int check(const char *path, const struct kept *kept, const struct image *fresh)
{
    uint32_t answer = ask_again(kept, fresh->bytes, fresh->len);
    if (answer != HARPTIMBER_SAME)
        failed(path, harptimber_answer_words(answer));
    return answer == HARPTIMBER_SAME ? 0 : answer == HARPTIMBER_CHANGED ? 1 : 2;
}

/* What the other process does: it answers each number with that block, until the pipe ends or a block can't be read. */
static void serve(int file, int from, int to)
{
    uint32_t number;
    uint8_t bytes[HARPTIMBER_BLOCK_BYTES];
    while (read(from, &number, sizeof number) == sizeof number &&
           pread(file, bytes, sizeof bytes, (off_t)number * HARPTIMBER_BLOCK_BYTES) == sizeof bytes &&
           write(to, bytes, sizeof bytes) == sizeof bytes)
        ;
}

/* Starts it. The ends of the pipes that aren't one's own are closed, so that each side sees the other's end. */
static int start_serving(int file, struct remote *card)
{
    int numbers[2], blocks[2];
    if (pipe(numbers) != 0 || pipe(blocks) != 0)
        return 0;
    pid_t child = fork();
    if (child == 0) {
        close(numbers[1]);
        serve(file, numbers[0], blocks[1]);
        _exit(0);
    }
    close(numbers[0]);
    close(blocks[1]);
    card->to = numbers[1];
    card->from = blocks[0];
    return child > 0;
}

/* The status to end with. */
static int read_and_print(const char *path)
{
    uint8_t block[HARPTIMBER_BLOCK_BYTES];
    struct remote card;
    int file = open(path, O_RDONLY);
    off_t len = file < 0 ? -1 : lseek(file, 0, SEEK_END);
    if (len < 0 || !start_serving(file, &card)) {
        failed(path, strerror(errno));
        return 2;
    }
    struct harptimber_pulled pulled = read_road(&card, (uint32_t)(len / HARPTIMBER_BLOCK_BYTES), block);
    close(card.to);
    wait(NULL);
    int done = pulled.answer <= HARPTIMBER_HOLE ? print(block, pulled.byte_count)
                                                : failed(path, harptimber_answer_words(pulled.answer));
    return done ? 0 : 2;
}

int main(int argc, char **argv)
{
    static struct kept kept;
    struct image fresh;
    if (argc == 2)
        return read_and_print(argv[1]);
    if (argc != 3) {
        fprintf(stderr, "usage: example OLD NEW, or example CARD\n");
        return 3;
    }
    if (!keep_from(argv[1], &kept) || !open_image(argv[2], &fresh))
        return 2;
    int status = print_kept(argv[1], &kept) ? check(argv[2], &kept, &fresh) : 2;
    close_image(&fresh);
    return status;
}
