/*
 * Harptimber: a proved library for reading F2FS cards. It pulls one block of a file, or a run of them, by its
 * path, from a card image, lists what the answer rested on, and says from those lists whether another image
 * gives the same answer. It writes the answer and what it rested on as a keep file, by which that is said without the
 * old image. It also says which segments' valid counts are off. A host that can't have a whole card in its memory, nor
 * map one, pulls from it one block at a time.
 *
 * Link with -lharptimber, as `pkg-config --libs harptimber` says. A call keeps nothing for the next one
 * and touches only the memory that it is lent.
 *
 * Every call answers, whatever bytes it is given; nothing has to be checked beforehand. Results come
 * back by value in a struct whose first field is `answer`, one of the numbers of harptimber_answer; only a
 * reader's state has `asks` there. A field that the answer doesn't name is 0.
 *
 * Bytes are lent as a pointer, then a length. What the caller still has to see to:
 *   - that many bytes can be read there, and written if the pointer isn't to const; with length 0
 *     nothing is touched, and the pointer may be anything, null too;
 *   - a slice that isn't const shares no byte with another slice of the call; const ones may overlap
 *     as they like, so that an image can be compared with itself;
 *   - nobody writes lent bytes during the call, but the call itself.
 *
 * Where an image is a mapped file that is cut short, or whose medium fails, the system raises SIGBUS in
 * the middle of a call. A host that can't rule that out handles the signal, or lends a copy.
 *
 *     uint8_t block[HARPTIMBER_BLOCK_BYTES];
 *     uint8_t nodes[HARPTIMBER_NODES_BYTES], blocks[HARPTIMBER_BLOCKS_BYTES];
 *     struct harptimber_pulled p = harptimber_pull(
 *         image, image_len, (const uint8_t *)"roads/road.bin", 14, 0,
 *         block, sizeof block, nodes, sizeof nodes, blocks, sizeof blocks);
 *     if (p.answer == HARPTIMBER_DATA)
 *         use(block, p.byte_count);
 *     else
 *         puts(harptimber_answer_words(p.answer));
 */
#ifndef HARPTIMBER_H
#define HARPTIMBER_H

#include <stddef.h>
#include <stdint.h>

#ifdef __cplusplus
extern "C" {
#endif

/* The version of this header, and of the library that is installed with it. */
#define HARPTIMBER_VERSION_MAJOR 0
#define HARPTIMBER_VERSION_MINOR 11
#define HARPTIMBER_VERSION_PATCH 0
#define HARPTIMBER_VERSION "0.11.0"

/* The most that a pull of a path with k names, 1 to 8, rests on, and the bytes to lend for a list of that. */
#define HARPTIMBER_NODES_MOST_OF(k) (175 * (k) + 4)
#define HARPTIMBER_BLOCKS_MOST_OF(k) (233 * (k) + 5)
#define HARPTIMBER_NODES_BYTES_OF(k) (4 * HARPTIMBER_NODES_MOST_OF(k))
#define HARPTIMBER_BLOCKS_BYTES_OF(k) (4 * HARPTIMBER_BLOCKS_MOST_OF(k))

/* The same for a run of pulls, however many blocks it has. */
#define HARPTIMBER_RUN_NODES_MOST_OF(k) (175 * (k) + 6)
#define HARPTIMBER_RUN_BLOCKS_MOST_OF(k) (233 * (k) + 518)
#define HARPTIMBER_RUN_NODES_BYTES_OF(k) (4 * HARPTIMBER_RUN_NODES_MOST_OF(k))
#define HARPTIMBER_RUN_BLOCKS_BYTES_OF(k) (4 * HARPTIMBER_RUN_BLOCKS_MOST_OF(k))

/* The most blocks that a reader of a path with k names asks for. */
#define HARPTIMBER_READER_BLOCKS_MOST_OF(k) (408 * (k) + 16)

/* The bytes of a keep file whose path has so many bytes, and whose pull listed so many nodes and blocks. */
#define HARPTIMBER_KEEP_LENGTH_OF(path_len, node_count, block_count) \
    (4140 + (path_len) + 16 * (node_count) + 4100 * (block_count))

/*
 * The most bytes of one for a path with k names, each of 255 bytes: 958,356k + 24,703. A room of that is never too
 * small; for one name it is 983,059 bytes, too many for a small stack.
 */
#define HARPTIMBER_KEEP_BYTES_OF(k) \
    HARPTIMBER_KEEP_LENGTH_OF(256 * (k) - 1, HARPTIMBER_NODES_MOST_OF(k), HARPTIMBER_BLOCKS_MOST_OF(k))

enum {
    /* Of what is asked: a card's blocks, and a path's names and bytes. */
    HARPTIMBER_BLOCK_BYTES = 4096,
    HARPTIMBER_CARD_BLOCKS_LEAST = 2,
    HARPTIMBER_CARD_BLOCKS_MOST = 4194304,
    HARPTIMBER_NAME_BYTES_MOST = 255,
    HARPTIMBER_NAMES_MOST = 8,
    HARPTIMBER_PATH_BYTES_MOST = HARPTIMBER_NAMES_MOST * (HARPTIMBER_NAME_BYTES_MOST + 1) - 1,
    /* The most that a pull of any path rests on, 1,404 nodes and 1,869 blocks, and the bytes that are always enough. */
    HARPTIMBER_NODES_MOST = HARPTIMBER_NODES_MOST_OF(HARPTIMBER_NAMES_MOST),
    HARPTIMBER_BLOCKS_MOST = HARPTIMBER_BLOCKS_MOST_OF(HARPTIMBER_NAMES_MOST),
    HARPTIMBER_NODES_BYTES = HARPTIMBER_NODES_BYTES_OF(HARPTIMBER_NAMES_MOST),
    HARPTIMBER_BLOCKS_BYTES = HARPTIMBER_BLOCKS_BYTES_OF(HARPTIMBER_NAMES_MOST),
    /* The most blocks of a run, and the bytes of a buffer for so many, 2 MiB: too many for a small stack. */
    HARPTIMBER_RUN_MOST = 512,
    HARPTIMBER_RUN_BYTES = HARPTIMBER_RUN_MOST * HARPTIMBER_BLOCK_BYTES,
    /* The most that a run of any path rests on, 1,406 nodes and 2,382 blocks, and the bytes that are always enough. */
    HARPTIMBER_RUN_NODES_MOST = HARPTIMBER_RUN_NODES_MOST_OF(HARPTIMBER_NAMES_MOST),
    HARPTIMBER_RUN_BLOCKS_MOST = HARPTIMBER_RUN_BLOCKS_MOST_OF(HARPTIMBER_NAMES_MOST),
    HARPTIMBER_RUN_NODES_BYTES = HARPTIMBER_RUN_NODES_BYTES_OF(HARPTIMBER_NAMES_MOST),
    HARPTIMBER_RUN_BLOCKS_BYTES = HARPTIMBER_RUN_BLOCKS_BYTES_OF(HARPTIMBER_NAMES_MOST),
    /* The most blocks that a reader of any path asks for, 3,280. */
    HARPTIMBER_READER_BLOCKS_MOST = HARPTIMBER_READER_BLOCKS_MOST_OF(HARPTIMBER_NAMES_MOST),
    /* The bytes that are always enough for a keep file, 7,691,551: too many for a stack. */
    HARPTIMBER_KEEP_BYTES = HARPTIMBER_KEEP_BYTES_OF(HARPTIMBER_NAMES_MOST),
    HARPTIMBER_SEGMENT_BLOCKS = 512,
    /*
     * The most main segments that a card has, 8,185, and the bytes to lend for a list of all of them, 32,740:
     * on a small stack that is much. Before the main area lie at least the two copies of the superblock, a
     * block each, and two segments each of checkpoint, SIT and NAT.
     */
    HARPTIMBER_SEGMENTS_MOST = (HARPTIMBER_CARD_BLOCKS_MOST - 2) / HARPTIMBER_SEGMENT_BLOCKS - 6,
    HARPTIMBER_SEGMENTS_BYTES = 4 * HARPTIMBER_SEGMENTS_MOST
};

/* The bytes of the largest card, 16 GiB. As a product of the enumerators they would pass an int. */
#define HARPTIMBER_CARD_BYTES_MOST ((uint64_t)HARPTIMBER_CARD_BLOCKS_MOST * HARPTIMBER_BLOCK_BYTES)

/* What an answer number means, harptimber_answer_words says. */
enum harptimber_answer {
    HARPTIMBER_DATA = 0, /* also of the calls that hand out no block: done */
    HARPTIMBER_HOLE = 1,
    HARPTIMBER_NO_NAME = 2, /* of any name on the path: the directory that the ones before it lead to hasn't it */
    HARPTIMBER_PAST_END = 3,
    HARPTIMBER_OUT_OF_SHAPE = 4,
    HARPTIMBER_NO_SUPERBLOCK = 5,
    HARPTIMBER_FEATURES = 6,
    HARPTIMBER_NO_CHECKPOINT = 7,
    /*
     * The chosen checkpoint pack passes, but isn't read; the other pack isn't read in its place. Behind it is
     * at least one of these:
     *   - the pack's first block has the flag error (8 hex), needs check (10 hex, fsck to the tools) or
     *     large_nat_bitmap (400 hex);
     *   - its SIT or its NAT map hasn't 32 bytes a segment of its area, or together they are too long for that block;
     *   - the NAT journal's block doesn't lie in the pack; or the journal counts more than 38 entries, or has
     *     two for one number, be they equal or not;
     *   - for harptimber_segment_report also: the SIT journal counts more than 6 entries.
     */
    HARPTIMBER_UNREADABLE = 8,
    HARPTIMBER_NO_NODE = 9,
    HARPTIMBER_NODE_OUTSIDE = 10,
    HARPTIMBER_FOREIGN_NODE = 11,
    /*
     * An inode on the path isn't read: the root directory's, or one that a name leads to. Behind it is at least one
     * of these:
     *   - the root, or what a name before the last leads to, isn't a directory; or what the last one leads to isn't a
     *     regular file;
     *   - the inode's inline flags have 20 hex, extra attributes;
     *   - a directory's inline flags have 2, inline data, or the file's have 4, inline dentry: the mark of the other
     *     kind, alone or with its own;
     *   - a directory's have 4, and its size is over 3,488 bytes;
     *   - the file's have 2, and its size is over 3,488 bytes if they have 1 too, inline attributes, and over 3,688 if not;
     *   - a directory's depth is over 63;
     *   - its directory level (i_dir_level) is over 30. Up to 30, names are sought where that level puts them. A file's
     *     own level isn't asked for.
     * Otherwise a file with inline data is read, and a directory with inline dentries is searched: within these bounds
     * its depth and level decide nothing. No other inline flag is asked for.
     */
    HARPTIMBER_KIND_NOT_READ = 12,
    HARPTIMBER_DATA_OUTSIDE = 13,
    HARPTIMBER_MALFORMED_SLOT = 14,
    HARPTIMBER_SAME = 15,
    HARPTIMBER_CHANGED = 16,
    HARPTIMBER_NO_ROOM = 17,      /* of harptimber_keep alone */
    HARPTIMBER_BAD_KEEP_FILE = 18 /* of the calls that read one; harptimber_keep_read says when */
};

/* An answer in words. */
static inline const char *harptimber_answer_words(uint32_t answer)
{
    static const char *const words[] = {
        /*  0 */ "data",
        /*  1 */ "hole: zeros",
        /*  2 */ "no such name in its directory",
        /*  3 */ "past the end of the file",
        /*  4 */ "out of shape: the image's length, the path or name, A or a list",
        /*  5 */ "neither copy of the superblock passes",
        /*  6 */ "the card has features or a payload, which aren't read",
        /*  7 */ "neither checkpoint pack passes",
        /*  8 */ "the checkpoint pack in use isn't read: flags, maps or a journal",
        /*  9 */ "a node number out of range or not in use",
        /* 10 */ "a node's address lies outside the main area",
        /* 11 */ "a node block belongs elsewhere",
        /* 12 */ "an inode of a kind that isn't read",
        /* 13 */ "a data address lies outside the main area",
        /* 14 */ "a directory entry is malformed",
        /* 15 */ "same",
        /* 16 */ "changed",
        /* 17 */ "the room is too small for the keep file",
        /* 18 */ "not a keep file, or a damaged one"};
    return answer < sizeof words / sizeof *words ? words[answer] : "unknown";
}

/* Entry `i` of a list, counted from 0: as many as the list's count are there. */
static inline uint32_t harptimber_list_entry(const uint8_t *list, uint32_t i)
{
    const uint8_t *bytes = list + 4 * (size_t)i;
    return (uint32_t)bytes[0] | (uint32_t)bytes[1] << 8 | (uint32_t)bytes[2] << 16 | (uint32_t)bytes[3] << 24;
}

/* The result of harptimber_name_hash. */
struct harptimber_hashed {
    uint32_t answer; /* HARPTIMBER_DATA or HARPTIMBER_OUT_OF_SHAPE */
    uint32_t hash;   /* the name's hash as directory entries store it; 0 for "." and ".." */
};

/*
 * The hash of a file name. A name has 1 to 255 bytes, none of them 0 or 47 (the slash), and no
 * terminating 0; any other is HARPTIMBER_OUT_OF_SHAPE.
 */
struct harptimber_hashed harptimber_name_hash(const uint8_t *name, size_t name_len);

/*
 * The result of harptimber_file_place: the nodes on the way from the inode to a block's address.
 * A node's place number counts the nodes of a file: 0 the inode, 1 and 2 the direct nodes, 3 and 1022
 * the indirect ones (children from 4 and 1023), 2041 the double indirect one. Its slot is the entry
 * to take in it. In the inode that is the address slot if the way ends there (steps is 1), else 0 to
 * 4 for its five node numbers; in the way's last node it is the slot of the block's address.
 */
struct harptimber_place {
    uint32_t answer; /* HARPTIMBER_DATA, HARPTIMBER_PAST_END or HARPTIMBER_OUT_OF_SHAPE */
    uint32_t steps;  /* how many nodes the way has, 1 to 4; later places and slots are 0 */
    uint32_t place0; /* place number of the first node: the inode, so always 0 */
    uint32_t slot0;  /* slot in the inode: an address slot, or 0 to 4 for a node number */
    uint32_t place1; /* place number of the second node */
    uint32_t slot1;  /* slot in the second node, 0 to 1017 */
    uint32_t place2; /* place number of the third node */
    uint32_t slot2;  /* slot in the third node, 0 to 1017 */
    uint32_t place3; /* place number of the fourth node */
    uint32_t slot3;  /* slot in the fourth node, 0 to 1017 */
};

/*
 * Where a file keeps the address of block `index`. `addresses` is how many addresses its inode holds,
 * 873 or 923; any other number is HARPTIMBER_OUT_OF_SHAPE. The last index is `addresses` +
 * 1,057,052,515; a greater one is HARPTIMBER_PAST_END.
 */
struct harptimber_place harptimber_file_place(uint32_t addresses, uint32_t index);

/* The result of harptimber_node_lookup: a number's entry in the node table. */
struct harptimber_entry {
    uint32_t answer;  /* HARPTIMBER_DATA, or HARPTIMBER_OUT_OF_SHAPE to HARPTIMBER_NO_NODE (4 to 9) */
    uint32_t inode;   /* number of the inode that the node belongs to, as stored */
    uint32_t address; /* block that the node is in, as stored: 0 if the number isn't in use */
};

/*
 * What a card's node table, with its journal, says of node `number`. `image` is the whole card: 2 to
 * 4,194,304 blocks of 4,096 bytes; any other length is HARPTIMBER_OUT_OF_SHAPE. Numbers run from 1 to
 * 116,480 times the card's NAT segments, less 1; any other is HARPTIMBER_NO_NODE.
 */
struct harptimber_entry harptimber_node_lookup(const uint8_t *image, size_t image_len, uint32_t number);

/* The result of harptimber_pull. */
struct harptimber_pulled {
    uint32_t answer;      /* one of 0 to 14 of harptimber_answer */
    uint32_t byte_count;  /* with 0 and 1: how many bytes of the block are the file's, 1 to 4,096 */
    uint32_t node_count;  /* how many numbers of the node list were written, at most 175k + 4 for k names */
    uint32_t block_count; /* how many numbers of the block list were written, at most 233k + 5 */
};

/*
 * Block `index` of the file that a path leads to, and what the answer rested on. A path is one to eight names,
 * parted by single slashes, from the root directory on: "road.bin", "roads/wet/road.bin". It has no slash at
 * either end and no terminating 0. Each name is one that harptimber_name_hash takes; "." and ".." are sought like
 * others. `block` has exactly HARPTIMBER_BLOCK_BYTES, and for k names `nodes` has at least
 * HARPTIMBER_NODES_BYTES_OF(k) and `blocks` at least HARPTIMBER_BLOCKS_BYTES_OF(k); HARPTIMBER_NODES_BYTES and
 * HARPTIMBER_BLOCKS_BYTES are enough for every path. Otherwise the answer is 4, before any of 5 to 8. A list has
 * four bytes a number, the lowest first (harptimber_list_entry reads one); a remainder isn't used.
 *
 * Each name but the last must lead to a directory, else the answer is 12; each directory is searched, and refused,
 * as the root directory is.
 *
 * The block buffer is written with 0 (the file's bytes up to the count, then zeros) and with 1 (zeros),
 * and left untouched by every other answer. With 4 to 8 the lists are untouched and their counts are 0;
 * otherwise the node list holds the node numbers that were looked up, and the block list the main-area
 * blocks that were read, those of the directories on the path and of the file, each once, rising, and entries
 * behind the counts are untouched.
 *
 * An inline file has its bytes in its inode: they are block 0, which is data and never a hole, and of the
 * file only the inode is listed, its number and its block. Of an inline directory, too, only the inode is listed.
 */
struct harptimber_pulled harptimber_pull(const uint8_t *image, size_t image_len, const uint8_t *path,
                                         size_t path_len, uint32_t index, uint8_t *block,
                                         size_t block_len, uint8_t *nodes, size_t nodes_len,
                                         uint8_t *blocks, size_t blocks_len);

/* The result of harptimber_pull_run. */
struct harptimber_run {
    uint32_t answer;      /* HARPTIMBER_DATA if all blocks stand, holes too; else the first other answer, 2 to 14 */
    uint32_t count;       /* how many blocks stand in the buffer, with a refusal too */
    uint32_t byte_count;  /* how many bytes of the last of them are the file's, 1 to 4,096; 0 if none stands */
    uint32_t node_count;  /* how many numbers of the node list were written, at most 175k + 6 for k names */
    uint32_t block_count; /* how many numbers of the block list were written, at most 233k + 518 */
};

/*
 * A run of pulls: blocks `index`, `index` + 1 and so on of the file that a path leads to, as many as `blocks_wanted`,
 * and what all of them rested on. The directories on the path are walked once. Paths and lists are as
 * harptimber_pull has them. `blocks_wanted` is 1 to HARPTIMBER_RUN_MOST, `buffer` has exactly
 * HARPTIMBER_BLOCK_BYTES for each, and for k names `nodes` has at least HARPTIMBER_RUN_NODES_BYTES_OF(k) and
 * `blocks` at least HARPTIMBER_RUN_BLOCKS_BYTES_OF(k); HARPTIMBER_RUN_NODES_BYTES and HARPTIMBER_RUN_BLOCKS_BYTES are
 * enough for every path. Otherwise the answer is 4, before any of 5 to 8.
 *
 * The run stops at the first pull that gives no block, and has that pull's answer: HARPTIMBER_PAST_END at the file's
 * end. The blocks before it stand, each with the bytes that its pull writes, and the buffer behind them is untouched.
 * Data and holes aren't told apart. All bytes of a block that stands are the file's, but for the last one's behind the
 * byte count, which are zeros.
 *
 * With 4 to 8 the buffer and the lists are untouched and all counts are 0; otherwise the lists hold what all these
 * pulls looked up and read, the one that gave no block too, each number once, rising, and entries behind the counts are
 * untouched.
 */
struct harptimber_run harptimber_pull_run(const uint8_t *image, size_t image_len, const uint8_t *path, size_t path_len,
                                          uint32_t index, uint32_t blocks_wanted, uint8_t *buffer, size_t buffer_len,
                                          uint8_t *nodes, size_t nodes_len, uint8_t *blocks, size_t blocks_len);

/*
 * A reader: a pull that is handed one block at a time. This is its state, 23,992 bytes. It goes into each call by value
 * and comes back by value, so that it can be kept, copied and gone on with more than once.
 */
struct harptimber_reader {
    uint32_t asks;        /* 1 as long as it wants a block; 0 once the answer is there */
    uint32_t block;       /* with 1: which block of the card; with 0: 0 */
    uint32_t numbers[33]; /* the reader's own, */
    uint8_t bytes[23852]; /* and these too: the path, two blocks, the journal, the lists */
};

/*
 * Starts a pull of block `index` of the file that a path leads to, from a card of `card_blocks` blocks. Paths are as
 * harptimber_pull has them. For one that is none, and for a card of fewer than 2 or more than 4,194,304 blocks, the answer
 * is there at once: 4.
 *
 *     struct harptimber_reader r = harptimber_reader_start(card_blocks, path, path_len, index);
 *     while (r.asks)
 *         r = harptimber_reader_step(r, bytes, read_block(r.block, bytes));
 */
struct harptimber_reader harptimber_reader_start(uint32_t card_blocks, const uint8_t *path, size_t path_len,
                                                 uint32_t index);

/*
 * Goes on with the block that was asked for: it wants another one then, or has the answer. Bytes of another length than
 * HARPTIMBER_BLOCK_BYTES, as where a block can't be read, end it with answer 4. Once the answer is there, a step repeats
 * the state, whatever it is handed.
 *
 * No block outside the card is asked for, and for k names at most HARPTIMBER_READER_BLOCKS_MOST_OF(k) are, whatever bytes
 * come. Some may be asked for more than once; if the bytes differ then, the answer is of no one card. This is said of
 * states that a start or a step gave. With any other the calls still answer, and touch only what they are lent.
 */
struct harptimber_reader harptimber_reader_step(struct harptimber_reader reader, const uint8_t *bytes, size_t bytes_len);

/*
 * What the pull gave: with the card's own blocks, the answer, the counts, the block and the lists that harptimber_pull gives
 * on the whole card. `block`, `nodes` and `blocks` have the lengths that it takes, and are written, or left untouched, as
 * by it. 4 is answered, with nothing written, for other lengths, as long as a block is wanted, and where the answer is 4.
 */
struct harptimber_pulled harptimber_reader_result(struct harptimber_reader reader, uint8_t *block, size_t block_len,
                                                  uint8_t *nodes, size_t nodes_len, uint8_t *blocks,
                                                  size_t blocks_len);

/* Which image a compare refuses. */
enum harptimber_side { HARPTIMBER_KEPT = 1, HARPTIMBER_FRESH = 2 };

/* What a compare found to differ first. */
enum harptimber_kind {
    HARPTIMBER_BOUNDS_DIFFER = 1, /* the bounds of the main area */
    HARPTIMBER_NODE_DIFFERS = 2,  /* what the node table says of a number */
    HARPTIMBER_BLOCK_DIFFERS = 3  /* the bytes of a block */
};

/* The result of harptimber_compare and of harptimber_keep_compare. */
struct harptimber_compared {
    uint32_t answer; /* HARPTIMBER_SAME, HARPTIMBER_CHANGED, or 4 to 8; of a keep file also HARPTIMBER_BAD_KEEP_FILE */
    uint32_t side;   /* with 5 to 8: one of harptimber_side */
    uint32_t kind;   /* with 16: one of harptimber_kind */
    uint32_t number; /* with 16: the lowest node number or block that differs; 0 for the bounds */
};

/*
 * Whether a pull, or a run of them, gives the same on a new image: `kept` is the image it was made on, the lists
 * and counts are those it left. It writes nowhere.
 *
 * HARPTIMBER_SAME is answered exactly if both images have the same main area bounds, each listed node
 * number has the same table answer in both, and each listed block the same bytes; then that pull, or that run,
 * on the new image gives the same answer, counts, block bytes and lists. Whether there is a block at all,
 * the pull's answer says, or the run's count: a name that was missing and still is compares as the same too.
 *
 * HARPTIMBER_CHANGED means that something differs which the answer rested on, if only a date in an inode
 * or another entry of a directory on the path; of a run, which any of its blocks rested on. The bytes may be the same
 * then; a pull on the new image tells, or for each block of a run a compare by its own pull's lists.
 *
 * Lists that a version before 0.3.0 left may be of another checkpoint than the one that is read now,
 * where versions have wrapped. `harptimber info` tells of which images: pull from those again.
 *
 * Before 0.6.0 a root directory with any directory level was answered with 12, before 0.7.0 an inline root
 * directory and an inline file. By the lists of such a pull HARPTIMBER_SAME says nothing of what a pull
 * answers now: where 12 was kept, pull again. Before 0.8.0 a path of several names was answered with 4, which
 * leaves no lists.
 *
 * 4 is answered, first, for an image's length; and, once both images are opened, where the node list is
 * empty, a list isn't strictly rising, a count exceeds its slice, or a listed block lies outside the
 * kept image's main area.
 */
struct harptimber_compared harptimber_compare(const uint8_t *kept, size_t kept_len, const uint8_t *fresh,
                                              size_t fresh_len, const uint8_t *nodes, size_t nodes_len,
                                              uint32_t node_count, const uint8_t *blocks,
                                              size_t blocks_len, uint32_t block_count);

/* The result of harptimber_keep. */
struct harptimber_kept {
    uint32_t answer; /* HARPTIMBER_DATA, 4 to 8, or HARPTIMBER_NO_ROOM */
    uint32_t length; /* with 0: how many bytes the keep file has */
};

/*
 * Pulls block `index` of the file that a path leads to, as harptimber_pull does, and writes what that gave, and all that it
 * rested on, as a keep file: from the room's first byte on, without gaps, HARPTIMBER_KEEP_LENGTH_OF bytes. Every pull
 * is kept that comes past opening, those with 2, 3 and 9 to 14 too: with 0 this call says only that the file was written.
 *
 * 4 is answered for the image's length and for the path, then 5 to 8 as by a pull; then HARPTIMBER_NO_ROOM exactly if
 * the file has more bytes than `room`. By all of these the room is untouched, and otherwise its bytes behind the file are.
 * HARPTIMBER_KEEP_BYTES_OF(k) are always enough for k names.
 *
 * Numbers in a keep file have four bytes, the lowest first:
 *   - the path's bytes p, the nodes n and the blocks b that are listed; where the nodes start, 4140 + p, where the
 *     blocks do, 16n further on, and where the file ends, 4100b behind that;
 *   - the path;
 *   - the index, the pull's answer, and its byte count;
 *   - 4,096 bytes: the pull's block with answer 0, else zeros;
 *   - the main area's first block, and the first one behind it;
 *   - of each node that the pull looked up its number, rising, and what the table says of it: 9, 0, 0 out of range, else
 *     0, its inode and its address;
 *   - of each block that it read its number, rising, and all of its 4,096 bytes.
 */
struct harptimber_kept harptimber_keep(const uint8_t *image, size_t image_len, const uint8_t *path, size_t path_len,
                                       uint32_t index, uint8_t *room, size_t room_len);

/* The result of harptimber_keep_read. */
struct harptimber_keep_fields {
    uint32_t answer;      /* HARPTIMBER_DATA or HARPTIMBER_BAD_KEEP_FILE */
    uint32_t path_len;    /* how many bytes the path has */
    uint32_t index;       /* which block of the file was pulled */
    uint32_t pull_answer; /* what the pull answered, */
    uint32_t byte_count;  /* and how many bytes of the block are the file's */
    uint32_t main_start;  /* the main area's first block, */
    uint32_t main_end;    /* and the first one behind it */
    uint32_t node_count;  /* how many nodes are listed, at least 1 */
    uint32_t block_count; /* how many blocks are */
    uint32_t path_at;     /* where in the file the path starts, */
    uint32_t block_at;    /* the pull's block of 4,096 bytes, */
    uint32_t nodes_at;    /* the nodes, 16 bytes each, */
    uint32_t blocks_at;   /* and the blocks, 4,100 bytes each */
    uint32_t length;      /* how many bytes the file has: all that were lent */
};

/*
 * What is in a keep file, and where. HARPTIMBER_BAD_KEEP_FILE is answered exactly if the file has fewer than 24 bytes; its
 * length or one of the three places in its header isn't what the first three numbers give; it lists no node; its nodes or its
 * blocks aren't strictly rising; what it has of a node's table entry is neither 9, 0, 0 nor 0 with two numbers; or a block
 * lies outside the bounds of the main area. Nothing else is looked at: of a file that harptimber_keep didn't write,
 * the path may be none, and index, answer, byte count and bounds any numbers.
 */
struct harptimber_keep_fields harptimber_keep_read(const uint8_t *file, size_t file_len);

/*
 * Whether the pull of a keep file gives the same on a new image: what harptimber_compare answers for the image that
 * harptimber_keep wrote the file from, with the pull's lists. Of a file that it didn't write nothing is claimed, but that
 * this call answers and stays inside what it is lent.
 *
 * HARPTIMBER_BAD_KEEP_FILE is answered first, as by harptimber_keep_read; then 4 for the new image's length, without a
 * side; then 5 to 8 for the new image, with HARPTIMBER_FRESH; then HARPTIMBER_CHANGED with kind and number, or
 * HARPTIMBER_SAME.
 */
struct harptimber_compared harptimber_keep_compare(const uint8_t *file, size_t file_len, const uint8_t *fresh,
                                                   size_t fresh_len);

/* The result of harptimber_segment_report. */
struct harptimber_segments {
    uint32_t answer;       /* HARPTIMBER_DATA, or 4 to 8 */
    uint32_t count;        /* how many segments were listed */
    uint32_t valid_blocks; /* the ones in the maps of all main segments */
};

/*
 * Which main segments' valid counts are off. A count is off that isn't the number of ones in its segment's
 * map. Count and map are those of its SIT entry, from the SIT journal if that has one for the segment, else from
 * the table copy in use.
 *
 * `list` has at least four bytes a main segment; HARPTIMBER_SEGMENTS_BYTES are always enough. With
 * HARPTIMBER_DATA it holds the numbers of the segments that are off, rising, as many as `count`, the
 * first main segment being 0; entries behind them, and with 4 to 8 the whole list, are untouched.
 *
 * 4 is answered, first, for the image's length; then 5 to 8 as by a pull, and 8 also for a SIT journal
 * that counts more than 6 entries; then 4 for a list that is too short.
 */
struct harptimber_segments harptimber_segment_report(const uint8_t *image, size_t image_len, uint8_t *list,
                                                     size_t list_len);

#ifdef __cplusplus
}
#endif

#endif
