/* How far a large file has been written or compared, on one line of a terminal. */
#ifndef PROGRESS_H
#define PROGRESS_H

#include <stdint.h>

#include "card.h"

struct progress {
    const char *path;
    uint32_t total; /* blocks of the file; 0 if nothing is to be shown */
    uint32_t next;  /* how many have to be done before the line is shown again */
    int width;      /* of the line */
};

/* Makes ready for a file, if standard error is a terminal and the file is large. */
struct progress progress_begin(const struct card *card, const char *path);

/* Shows that so many blocks have been done, if that is news. */
void progress_show(struct progress *progress, uint32_t blocks);

/* Wipes the line. */
void progress_end(struct progress *progress);

#endif
