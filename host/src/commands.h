/* The program's commands and options: what the command line may say, and what the help pages are made from. */
#ifndef COMMANDS_H
#define COMMANDS_H

#include <stddef.h>

#include "request.h"

/* The options that commands take, by their place in `options`, which is also the order on a page. */
enum { OUTPUT, LISTS, INDEX, QUIET, VERBOSE, OFFSET, PARTITION, BLOCKWISE, JSON, OPTION_COUNT };

struct program_option {
    char letter;       /* 0 if it has none */
    const char *name;  /* the long one */
    const char *value; /* what follows it; null if nothing does */
    const char *text;  /* a line for help pages */
    size_t field;      /* its place in a request: a bool, or a const char * if a value follows */
};

extern const struct program_option options[OPTION_COUNT];

struct command {
    const char *name;
    const char *words;    /* what follows the command, */
    int fewest, most;     /* and how many words that is */
    unsigned takes;       /* options: bits of 1 << OUTPUT and so on, */
    unsigned needs;       /* and those that it can't do without */
    const char *summary;  /* a line for the overview */
    const char *text;     /* its own page's words on what it does, in whole lines */
    const char *statuses; /* what it ends with, in whole lines; 3 is added */
    enum status (*run)(const struct request *request);
};

extern const struct command commands[];
extern const size_t command_count;

/* The command of that name, or null. */
const struct command *find_command(const char *name);

/* How people write an option: its letter if it has one, else its name. */
const char *option_word(const struct program_option *option, char *room, size_t len);

/* The same with what follows it. */
const char *option_words(const struct program_option *option, char *room, size_t len);

#endif
