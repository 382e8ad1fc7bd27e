#include "commands.h"

#include <limits.h>
#include <stdio.h>
#include <string.h>

#define FIELD(name) offsetof(struct request, name)

const struct program_option options[OPTION_COUNT] = {
    [OUTPUT] = {'o', "output", "FILE", "write the bytes to FILE; - is standard output", FIELD(output)},
    [LISTS] = {0, "lists", NULL, "print the nodes and blocks that the answer rested on", FIELD(lists)},
    [INDEX] = {0, "index", "N", "compare only block N of each file", FIELD(index)},
    [QUIET] = {'q', "quiet", NULL, "print nothing: the exit status says it", FIELD(quiet)},
    [VERBOSE] = {'v', "verbose", NULL, "with several paths too, say which blocks, and what changed", FIELD(verbose)},
    [OFFSET] = {0, "offset", "BYTES", "the card starts so many bytes into the image", FIELD(offset)},
    [PARTITION] = {0, "partition", "N", "the card is partition N of the image, by its MBR or GPT", FIELD(partition)},
    [BLOCKWISE] = {0, "blockwise", NULL, "read the image one block at a time, and don't map it", FIELD(blockwise)},
    [JSON] = {0, "json", NULL, "print one JSON object", FIELD(json)},
};

#define TAKES(option) (1U << (option))

/* What chooses the card in an image; every command that reads one takes it. */
#define A_PART (TAKES(OFFSET) | TAKES(PARTITION))

const struct command commands[] = {
    {"info", "IMAGE", 1, 1, A_PART | TAKES(JSON), 0,
     "what card it is, and whether it can be read",
     "Say of the card IMAGE whether it can be read, and if not, why; its label, its size and how its\n"
     "areas lie; and its checkpoint packs. Of a disk it says which partitions there are.\n",
     "  0  the card can be read\n"
     "  2  it can't\n",
     run_info},
    {"ls", "IMAGE [PATH]", 1, 2, A_PART | TAKES(JSON), 0,
     "a directory's names, and what a pull of block 0 answers",
     "List the names in the directory PATH of the card IMAGE, without PATH in the root directory: each\n"
     "file's size in bytes, its name, and what a pull of its block 0 answers. That is 3 for an empty file,\n"
     "and 12 for a directory or a link. '.' is left out where it leads to the directory itself, and '..'\n"
     "where it leads to the one before it on the path, or in the root directory to itself. A PATH that is\n"
     "no directory is listed alone.\n",
     "  0  all names\n"
     "  2  names may be missing, since the directory is damaged, or there is no such PATH, or the card\n"
     "     can't be read\n",
     run_ls},
    {"pull", "IMAGE PATH INDEX", 3, 3, TAKES(OUTPUT) | TAKES(LISTS) | A_PART | TAKES(BLOCKWISE) | TAKES(JSON), 0,
     "one block of a file",
     "Pull block INDEX of the file PATH from the card IMAGE. Blocks have 4,096 bytes, and a file's\n"
     "first is block 0. The answer is told in words; on a terminal the block's bytes follow.\n",
     "  0  data or a hole\n"
     "  2  there is no such block, or the card can't be read\n",
     run_pull},
    {"cat", "IMAGE PATH", 2, 2, TAKES(OUTPUT) | A_PART | TAKES(JSON), 0,
     "a whole file, to standard output",
     "Write the file PATH of the card IMAGE to standard output. Holes are zeros. With --json, -o is\n"
     "needed too.\n",
     "  0  the whole file was written\n"
     "  2  a block was refused; the message says how much was written\n",
     run_cat},
    {"compare", "KEPT NEW PATH..", 3, INT_MAX, TAKES(INDEX) | TAKES(QUIET) | TAKES(VERBOSE) | A_PART | TAKES(JSON), 0,
     "whether files read from the card KEPT are still good on NEW",
     "Say for each file PATH whether what was read from the card KEPT is still good on the card NEW: how\n"
     "many blocks differ, have the same bytes but rest on something that changed, or are the same for\n"
     "certain. A single path is followed by which blocks, and what changed.\n",
     "  0  each block is the same, for certain\n"
     "  1  something that it rests on has changed, its bytes or not\n"
     "  2  KEPT has no such block, or a card can't be read\n"
     "  4  neither card has the path\n"
     "     With several paths it is the highest of theirs.\n",
     run_compare},
    {"keep", "IMAGE PATH [INDEX]", 2, 3, TAKES(OUTPUT) | A_PART | TAKES(JSON), TAKES(OUTPUT),
     "a block and all that it rests on, as a keep file",
     "Pull block INDEX of the file PATH from the card IMAGE, without INDEX block 0, and write what that gave\n"
     "and all that it rests on to the keep file FILE. By that, check says without the card IMAGE whether the\n"
     "block is still good on another. That there is no such name or block is kept too.\n",
     "  0  data or a hole was kept\n"
     "  2  it was kept that there is no such block; or nothing was, since the card can't be read\n",
     run_keep},
    {"show", "FILE", 1, 1, TAKES(OUTPUT) | TAKES(LISTS) | TAKES(JSON), 0,
     "what is in a keep file",
     "Say what is in the keep file FILE: the path, the block's index, the answer and how many bytes of the\n"
     "block are the file's, how much it rests on, and where the card's main area lies. On a terminal the\n"
     "block's bytes follow; -o writes them to another file.\n",
     "  0  it is a keep file\n"
     "  2  it isn't, or with -o, there is no block in it\n",
     run_show},
    {"check", "FILE.. IMAGE", 2, INT_MAX, TAKES(QUIET) | A_PART | TAKES(JSON), 0,
     "whether keep files still hold on the card IMAGE",
     "Say for each keep file FILE whether what was kept is still good on the card IMAGE, as compare does for\n"
     "the card that it was kept from: that it differs, has the same bytes but rests on something that\n"
     "changed, or is the same for certain. What changed follows.\n",
     "  0  each block is the same, for certain\n"
     "  1  something that it rests on has changed, its bytes or not\n"
     "  2  FILE is no keep file or a damaged one, or has no block and that hasn't changed; or the card\n"
     "     can't be read\n"
     "  4  the path was missing when it was kept, and still is\n"
     "     With several files it is the highest of theirs.\n",
     run_check},
    {"segments", "IMAGE", 1, 1, A_PART | TAKES(JSON), 0,
     "which segments' valid counts are off, and how full the card is",
     "Say which main segments of the card IMAGE are off: the valid count in the segment's SIT entry isn't\n"
     "the number of blocks that the entry's map marks. Such a card may seem full and have room, or the\n"
     "other way round; fsck.f2fs -f counts anew, and writes to the card. Then say how many of all blocks\n"
     "are valid; on a terminal a line of bars shows how they lie.\n",
     "  0  no segment is off\n"
     "  1  some are\n"
     "  2  the card can't be read\n",
     run_segments},
    {"node", "IMAGE NUMBER", 2, 2, A_PART | TAKES(JSON), 0,
     "a node's entry in the node address table",
     "Say what the node address table of the card IMAGE, with its journal, has for node NUMBER.\n",
     "  0  an entry, in use or not\n"
     "  2  the number is out of range, or the card can't be read\n",
     run_node},
    {"place", "A INDEX", 2, 2, TAKES(JSON), 0,
     "the way from an inode with A addresses to the address of a block",
     "Say which nodes lead from an inode that holds A addresses, 873 or 923, to the address of block\n"
     "INDEX, and which slot is taken in each.\n",
     "  0  a way\n"
     "  2  no file has such a block, or A is neither\n",
     run_place},
    {"hash", "NAME", 1, 1, TAKES(JSON), 0,
     "the hash of a name in directory entries",
     "Print the hash of a name, as directory entries store it.\n",
     "  0  a hash\n"
     "  2  no file can have that name\n",
     run_hash},
};

const size_t command_count = sizeof commands / sizeof *commands;

const struct command *find_command(const char *name)
{
    for (size_t i = 0; i < command_count; i++)
        if (strcmp(commands[i].name, name) == 0)
            return &commands[i];
    return NULL;
}

const char *option_word(const struct program_option *option, char *room, size_t len)
{
    if (option->letter != 0)
        snprintf(room, len, "-%c", option->letter);
    else
        snprintf(room, len, "--%s", option->name);
    return room;
}

const char *option_words(const struct program_option *option, char *room, size_t len)
{
    option_word(option, room, len);
    if (option->value != NULL) {
        size_t at = strlen(room);
        snprintf(room + at, len - at, " %s", option->value);
    }
    return room;
}
