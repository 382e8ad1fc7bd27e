/* Where bytes go: to -o's FILE or to standard output. */
#ifndef OUTPUT_H
#define OUTPUT_H

#include <stdbool.h>
#include <stddef.h>
#include <stdint.h>
#include <stdio.h>

#include "mapping.h"
#include "whole.h"

struct output {
    const char *path;
    int file;
    bool waits; /* nobody sees the bytes before all are there: so it is with files, but no others */
    struct whole whole;
};

/* Whether -o's word, null without one, means standard output. */
bool output_is_standard(const char *word);

/*
 * Where words go: to standard error, if -o's word leads to what standard output is, by '-' or by any path. Among the
 * bytes they would spoil them.
 */
FILE *output_beside(const char *word);

/* These three say what went wrong, and return false. The file that is read isn't opened to be written. */
bool output_open(struct output *output, const char *word, const struct mapping *read);
bool output_write(const struct output *output, const uint8_t *bytes, size_t len);
bool output_close(struct output *output);

/* Closes it where not all was written: of what waits, nothing is left. */
void output_drop(struct output *output);

/* All of it at once: opens it, writes these bytes and closes it. */
bool output_all(const char *word, const struct mapping *read, const uint8_t *bytes, size_t len);

#endif
