/*
 * Why a card opens or doesn't, read in C for what is said to people. The library judges: words that don't lead to its answer
 * aren't said. The rules are those of the superblock and of the checkpoint, in their order.
 */
#ifndef OPENING_H
#define OPENING_H

#include "card.h"

/* Room for a reason in words. */
enum { WHY_ROOM = 640 };

/* A copy of the superblock: empty words if it passes. */
struct opening_copy {
    bool marked, passes;
    char why[WHY_ROOM];
};

/* A checkpoint pack. The version and the flags are there if its first block passes. */
struct opening_pack {
    bool passes, has_first;
    uint64_t version;
    uint32_t flags, total;
    char why[WHY_ROOM];
};

/* Where a journal starts: its block on the card, and its first byte there. */
struct journal_place {
    uint32_t block;
    size_t at;
};

enum { NONE_IN_USE = -1 };

/* What can be behind answer 8, in the order in which it is told. The last is the segment report's: opening doesn't look at it. */
enum cause {
    CAUSE_ERROR_FLAG,
    CAUSE_NEEDS_CHECK_FLAG,
    CAUSE_LARGE_NAT_BITMAP,
    CAUSE_MAPS,
    CAUSE_JOURNAL_PLACE,
    CAUSE_JOURNAL_COUNT,
    CAUSE_NUMBER_TWICE,
    CAUSE_SIT_JOURNAL_COUNT,
    CAUSES
};

/* Their names, for machines. */
extern const char *const cause_names[CAUSES];

/* A cause as one of several: each is a bit. */
static inline uint32_t cause_bit(enum cause cause)
{
    return UINT32_C(1) << cause;
}

struct opening {
    uint32_t answer; /* the library's: 0, or 4 to 8 */
    bool agrees;     /* what was read here leads to that answer; else it isn't worth saying */
    struct opening_copy copies[2];
    int copy_in_use;
    struct opening_pack packs[2]; /* read if a copy is in use */
    int pack_in_use;
    uint32_t pack_first;                           /* the first block of the pack in use, */
    struct journal_place nat_journal, sit_journal; /* and its journals, if the card opens */
    uint32_t causes;    /* of answer 8: all of them that were found, as bits */
    char why[WHY_ROOM]; /* of answers 5 to 8: the reason, in plain text; empty if there are no words for it */
};

/* Asks the library, and finds the words. */
void opening_read(struct opening *opening, const struct card *card);

/* Finds them without the library, and returns what it should answer by the rules as they are read here. */
uint32_t opening_judge(struct opening *opening, const struct card *card);

/*
 * Whether version a is newer than b, by Linux's rule and under its name: a minus b, wrapped to 64 bits, is above zero as a
 * signed number. So 0 is newer than the greatest number, and of two that are 2^63 apart neither is.
 */
bool ver_after(uint64_t a, uint64_t b);

/* The copy of the superblock that is in use, by the same rules; null if neither passes. */
const uint8_t *opening_superblock(const struct card *card);

#endif
