#include "help.h"

#include <string.h>

enum { COMMAND_WIDTH = 31, OPTION_WIDTH = 20, ROOM = 64 };

/* A line on an option: '  -o, --output=FILE  TEXT'. */
static void show_option(FILE *out, char letter, const char *name, const char *value, const char *text)
{
    char letters[ROOM] = "", names[ROOM];
    if (letter != 0)
        snprintf(letters, sizeof letters, "-%c, ", letter);
    snprintf(names, sizeof names, "--%s%s%s", name, value == NULL ? "" : "=", value == NULL ? "" : value);
    fprintf(out, "  %4s%-*s  %s\n", letters, OPTION_WIDTH, names, text);
}

/* Those of these bits, and what every command takes. */
static void show_options(FILE *out, unsigned taken)
{
    for (unsigned i = 0; i < OPTION_COUNT; i++)
        if ((taken >> i & 1) != 0)
            show_option(out, options[i].letter, options[i].name, options[i].value, options[i].text);
    show_option(out, 'h', "help", NULL, "print this page");
}

/* A command with the options of these bits, in brackets those that it can do without. Returns how many bytes were printed. */
static int show_call(FILE *out, const struct command *command, unsigned shown)
{
    int len = fprintf(out, "%s", command->name);
    for (unsigned i = 0; i < OPTION_COUNT; i++) {
        if ((shown >> i & 1) == 0)
            continue;
        char words[ROOM];
        bool needed = (command->needs >> i & 1) != 0;
        len += fprintf(out, needed ? " %s" : " [%s]", option_words(&options[i], words, sizeof words));
    }
    return len + fprintf(out, " %s", command->words);
}

void show_overview(FILE *out)
{
    fputs("Usage: harptimber COMMAND [OPTION].. WORD..\n"
          "Read or keep blocks of an F2FS card image, and say whether another still gives the same.\n\n", out);
    for (size_t i = 0; i < command_count; i++) {
        fputs("  ", out);
        int len = show_call(out, &commands[i], commands[i].needs);
        fprintf(out, "%*s  %s\n", COMMAND_WIDTH - len, "", commands[i].summary);
    }
    fputs("\nOptions, of which each command takes some:\n", out);
    show_options(out, ~0U);
    show_option(out, 0, "version", NULL, "print the version");
    fputs("Options may stand anywhere; behind -- every word is a path, a name or a number.\n\n"
          "PATH is one to eight names with single slashes between them, from the root directory on.\n\n"
          "'harptimber COMMAND --help' is that command's own page.\n\n"
          "Exit status: 0 read or still good, 1 changed or off, 2 refused, 3 usage, 4 no such path on either card.\n", out);
}

void show_page(FILE *out, const struct command *command)
{
    fputs("Usage: harptimber ", out);
    show_call(out, command, command->takes);
    fprintf(out, "\n%s\n", command->text);
    show_options(out, command->takes);
    const char *behind = strstr(command->statuses, "  4  "); /* 3 is every command's, and its place before 4 */
    int before = (int)(behind == NULL ? strlen(command->statuses) : (size_t)(behind - command->statuses));
    fprintf(out, "\nExit status:\n%.*s  3  usage\n%s", before, command->statuses, behind == NULL ? "" : behind);
}
