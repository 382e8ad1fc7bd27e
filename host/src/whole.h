/*
 * A file that is there under its name only once it is whole, also if the power fails. Until then what the name had before
 * stays.
 */
#ifndef WHOLE_H
#define WHOLE_H

#include <limits.h>
#include <sys/stat.h>

struct whole {
    int file;   /* to write to */
    int folder; /* where it is to be */
    char name[NAME_MAX + 1];
};

/*
 * Makes ready to write the file that a path leads to; links stay, and what they lead to is replaced. `old` is the
 * file that is there, or null: its mode is kept, and its owner where that is allowed. Returns why not, or null.
 */
const char *whole_begin(struct whole *whole, const char *path, const struct stat *old);

/*
 * Ends it: gives the file its name, or returns why not and leaves nothing. Where the name is given but may not outlast a
 * power failure, it returns that, and the file stays.
 */
const char *whole_end(struct whole *whole);

/* Ends it with nothing left. */
void whole_drop(struct whole *whole);

/* For a signal handler that ends the program: leaves nothing of what isn't whole. */
void whole_drop_at_once(void);

#endif
