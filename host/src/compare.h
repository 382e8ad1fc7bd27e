/*
 * What a comparison found, for words and JSON to be made from. compare.c fills it in for two cards, check.c for a card and a
 * keep file, which has one block.
 */
#ifndef COMPARE_H
#define COMPARE_H

#include <stdio.h>

#include "json.h"
#include "request.h"
#include "walk.h"

/* What became of a block: by the library, and where that says "changed", by a pull on the new card. */
enum fate {
    SAME,       /* certain */
    SAME_BYTES, /* something that it rested on changed, but the pull gives the same bytes */
    DIFFERENT,  /* other bytes, or no block */
    FATES
};

/* Something that changed, which blocks rest on: the first difference of each, as the library names it. */
struct ground {
    uint32_t kind, number; /* the number is 0 where it is the block's own data */
    struct role role;      /* of the node or the block that differs, on the kept card, if the walk meets it */
};

/* In a byte's place: the file ends before it. */
enum { NO_BYTE = -1 };

/* Blocks that follow each other and are alike in fate, ground and answer; the rest is the first one's. */
struct run {
    uint32_t first, last;
    enum fate fate;
    struct harptimber_compared verdict;
    size_t ground;   /* where changed: which of the comparison's */
    uint32_t answer; /* a pull's on the new card; data for a hole too */
    uint32_t at;     /* where both cards have a block that differs: its first byte that does, */
    int before, now; /* and what it is */
};

/* What a card has, or had, under the path. */
struct holding {
    uint32_t answer;      /* of a pull past the end: 3 if the file can be read so far */
    const uint8_t *inode; /* its block; null if the pull doesn't come to it */
};

struct comparison {
    const char *command; /* that compares, for messages */
    const char *path;
    size_t path_len;
    bool whole; /* every block was asked for */
    struct source kept;
    const struct card *new;
    struct holding had, has; /* on these */
    bool refused;            /* a card doesn't open, or the path is bad: */
    uint32_t refusal, side;  /* the answer, 4 to 8, and whose it is */
    struct run *runs;
    size_t run_count;
    struct ground *grounds;
    size_t ground_count;
    uint32_t counts[FATES]; /* how many blocks */
    uint32_t last_answer;   /* of the last pull: if it is no block, `end` says whether that still holds */
    struct run end;
};

/* Beside the sides of harptimber_side: the path is at fault. */
enum { NO_SIDE = 0 };

/* What the library says of a block: what a pull on the kept card gave, and whether that still holds on the new one. */
struct finding {
    struct harptimber_pulled pulled;
    const uint8_t *block; /* 4,096 bytes, if there is one and it may differ */
    struct harptimber_compared verdict;
};

/* Adds the block behind those that were added before. */
void comparison_add(struct comparison *c, uint32_t index, const struct finding *found);

/* Notes that a card doesn't open, or that the path is bad. */
void comparison_refuse(struct comparison *c, uint32_t answer, uint32_t side);

/* Says that there is no memory, and ends the program. */
_Noreturn void comparison_fail(const struct comparison *c);

void comparison_free(struct comparison *c);

/* What a card has under a path. */
struct holding held_by(const struct card *card, const char *path, size_t path_len);

bool is_changed(const struct run *run);

/* The file's size; 0 without an inode. */
uint64_t held_bytes(const struct holding *holding);

/* How many blocks were compared. */
uint32_t compared_blocks(const struct comparison *c);

/* Whether neither card has all names on the path. */
bool is_on_neither(const struct comparison *c);

/* The answer to the whole question, and what the program ends with for it. */
uint32_t compare_answer(const struct comparison *c);
enum status compare_status(const struct comparison *c);

/* One line, and with details more, which are indented. */
void compare_words(const struct comparison *c, bool details);

/* One object: of a single path, or with a list of several. */
void compare_json(const struct comparison *all, size_t count, bool several);

/* What the object has for each path. */
void json_comparison(struct json *json, const struct comparison *c);

/* Prints what changed under a run. */
void show_ground(FILE *out, const struct comparison *c, const struct run *run);

#endif
