/* What the command line asks for. */
#ifndef REQUEST_H
#define REQUEST_H

#include <stdbool.h>
#include <stdint.h>

/* What the program ends with; the man page promises these. */
enum status { DONE = 0, CHANGED = 1, OFF = 1, REFUSED = 2, MISUSED = 3, NOT_FOUND = 4 };

struct request {
    const char *command;
    char *const *words; /* behind the command, options left out */
    int word_count;
    const char *output;             /* -o's FILE, or null */
    const char *index;              /* --index's N, or null */
    const char *offset, *partition; /* what chooses a part of the image, or null */
    bool lists, json, quiet, verbose, blockwise;
};

/* Each runs a command and says what to end with. */
enum status run_ls(const struct request *request);
enum status run_pull(const struct request *request);
enum status run_cat(const struct request *request);
enum status run_compare(const struct request *request);
enum status run_keep(const struct request *request);
enum status run_show(const struct request *request);
enum status run_check(const struct request *request);
enum status run_segments(const struct request *request);
enum status run_node(const struct request *request);
enum status run_place(const struct request *request);
enum status run_hash(const struct request *request);
enum status run_info(const struct request *request);

/* Reads a word as a number: decimal digits, at most 32 bits. If it isn't one, says so and returns false. */
bool read_number(const char *word, const char *what, uint32_t *number);

/* The same with at most 63 bits, as many as a file's length has. */
bool read_wide_number(const char *word, const char *what, uint64_t *number);

/* Ends a message about usage with a hint. */
enum status misused(void);

#endif
