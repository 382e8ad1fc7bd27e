/*
 * The SIT entries of a card's main segments, read in C for what is said to people: how many valid blocks each counts, and how
 * many its map marks. Which counts are off, the library judges.
 */
#ifndef SIT_H
#define SIT_H

#include "opening.h"

/* A SIT entry, and where it was read. */
struct sit_entry {
    uint32_t count, ones; /* its valid count, and the ones in its map */
    bool in_journal;      /* else it is the table's, of the copy in use */
    uint32_t block;       /* that has the entry */
};

/* The entries of all main segments. */
struct sit {
    uint32_t segments;
    struct sit_entry entries[HARPTIMBER_SEGMENTS_MOST];
};

/* So many entries the journal has at most. */
enum { SIT_JOURNAL_MOST = 6 };

/* How many entries the journal counts; 0 unless the library and the program both find that the card opens. */
uint32_t sit_journal_count(const struct opening *opening, const struct card *card);

/* Reads the entries. Returns false if the card doesn't open, or the journal counts too many. */
bool sit_read(struct sit *sit, const struct opening *opening, const struct card *card);

/* Whether a segment's valid count isn't what its map says. */
bool sit_is_off(const struct sit_entry *entry);

#endif
