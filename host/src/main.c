/* harptimber: what the proved library says of F2FS card images. Options, commands, and how it all ends. */
#include <errno.h>
#include <fcntl.h>
#include <getopt.h>
#include <limits.h>
#include <stdio.h>
#include <string.h>
#include <unistd.h>

#include "commands.h"
#include "harptimber.h"
#include "help.h"
#include "text.h"

/* What was given on the command line. */
struct given {
    struct request request;
    unsigned options; /* bits of 1 << OUTPUT and so on */
    bool help, version;
};

/* Says which option the command doesn't take, or lacks, if there is one. */
static bool takes_all(const struct command *command, unsigned given)
{
    char words[32];
    for (unsigned i = 0; i < OPTION_COUNT; i++) {
        if (((given & ~command->takes) >> i & 1) != 0) {
            complain(command->name, "takes no %s", option_word(&options[i], words, sizeof words));
            return false;
        }
        if (((command->needs & ~given) >> i & 1) != 0) {
            complain(command->name, "needs %s", option_words(&options[i], words, sizeof words));
            return false;
        }
    }
    return true;
}

static enum status run(const struct given *given)
{
    const struct request *request = &given->request;
    const struct command *command = request->command == NULL ? NULL : find_command(request->command);
    if (request->command == NULL)
        fputs("harptimber: a command is missing\n", stderr);
    else if (command == NULL)
        complain(request->command, "no such command");
    else if (request->word_count < command->fewest || request->word_count > command->most)
        complain(command->name, "takes %s", command->words);
    else if (takes_all(command, given->options))
        return command->run(request);
    return misused();
}

/* A page, or the version; a command that there isn't is misuse all the same. */
static enum status inform(const struct given *given)
{
    const char *name = given->request.command;
    const struct command *command = name == NULL ? NULL : find_command(name);
    if (name != NULL && command == NULL)
        return run(given);
    if (given->version)
        puts("harptimber " HARPTIMBER_VERSION);
    else if (command != NULL)
        show_page(stdout, command);
    else
        show_overview(stdout);
    return DONE;
}

/* What getopt_long returns: long options are numbered past all letters. */
enum { WORD = 1, HELP = UCHAR_MAX + 1, VERSION, FIRST_OPTION };

/* What getopt_long is told, from the table of options. The '-' makes it find them wherever they stand. */
static void describe(struct option *longs, char *letters)
{
    letters += sprintf(letters, "-:h");
    *longs++ = (struct option){"help", no_argument, NULL, HELP};
    *longs++ = (struct option){"version", no_argument, NULL, VERSION};
    for (int i = 0; i < OPTION_COUNT; i++) {
        bool valued = options[i].value != NULL;
        *longs++ = (struct option){options[i].name, valued ? required_argument : no_argument, NULL, FIRST_OPTION + i};
        if (options[i].letter != 0)
            letters += sprintf(letters, "%c%s", options[i].letter, valued ? ":" : "");
    }
    *longs = (struct option){NULL, 0, NULL, 0};
}

/* Which option of the table it is that getopt_long returned, or complains of; OPTION_COUNT if none. */
static int option_of(int got)
{
    if (got >= FIRST_OPTION)
        return got - FIRST_OPTION;
    int i = 0;
    while (i < OPTION_COUNT && (options[i].letter == 0 || options[i].letter != got))
        i++;
    return i;
}

static void take_option(struct given *given, int i)
{
    char *field = (char *)&given->request + options[i].field;
    given->options |= 1U << i;
    if (options[i].value == NULL)
        *(bool *)field = true;
    else
        *(const char **)field = optarg;
}

/* What getopt_long didn't take, and where it stands. */
static enum status misused_option(int got, const char *argument)
{
    if (got == ':')
        complain(argument, "needs a %s", options[option_of(optopt)].value);
    else if (optopt > UCHAR_MAX)
        complain(argument, "takes no value");
    else
        complain(argument, "no such option; before a name or number that starts with a dash, put --");
    return misused();
}

/* The command is the first word. The others take places of words that were read already. */
static void add_word(struct request *request, char **words, char *word)
{
    if (request->command == NULL)
        request->command = word;
    else
        words[request->word_count++] = word;
}

/* Reads the command line and runs it. */
static enum status run_arguments(int argc, char **argv)
{
    struct given given = {.request.words = argv};
    struct option longs[OPTION_COUNT + 3];
    char letters[2 * OPTION_COUNT + 4];
    describe(longs, letters);
    for (;;) {
        int at = optind; /* within letters behind one dash it stays */
        int got = getopt_long(argc, argv, letters, longs, NULL);
        if (got == -1)
            break;
        if (got == WORD)
            add_word(&given.request, argv, optarg);
        else if (got == HELP || (got == 'h' && strcmp(argv[at], "-h") == 0))
            given.help = true;
        else if (got == VERSION)
            given.version = true;
        else if (got != '?' && got != ':' && option_of(got) != OPTION_COUNT)
            take_option(&given, option_of(got));
        else
            return misused_option(got, argv[at]);
    }
    for (; optind < argc; optind++)
        add_word(&given.request, argv, argv[optind]);
    return given.help || given.version ? inform(&given) : run(&given);
}

/*
 * A standard file that the caller has closed would be the next one opened: words would go to the card
 * or to -o's FILE. So it is taken, for the other direction, in which every use still fails.
 */
static void take_standard_files(void)
{
    for (int file = STDIN_FILENO; file <= STDERR_FILENO; file++)
        if (fcntl(file, F_GETFD) < 0 && open("/dev/null", file == STDIN_FILENO ? O_WRONLY : O_RDONLY) != file)
            _exit(REFUSED);
}

int main(int argc, char **argv)
{
    take_standard_files();
    if (argc < 2) {
        show_overview(stderr);
        return MISUSED;
    }
    enum status status = run_arguments(argc, argv);
    /* Words that couldn't be written are no answer. */
    bool failed = ferror(stdout) != 0;
    if (fclose(stdout) != 0 || failed) {
        complain("standard output", "%s", failed ? "can't be written" : strerror(errno));
        return REFUSED;
    }
    return (int)(status == DONE && ferror(stderr) ? REFUSED : status);
}
