/* The help pages. */
#ifndef HELP_H
#define HELP_H

#include <stdio.h>

#include "commands.h"

/* The overview: every command and option, a line each. */
void show_overview(FILE *out);

/* A command's own page. */
void show_page(FILE *out, const struct command *command);

#endif
