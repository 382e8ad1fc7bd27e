/*
 * Runs a program, ends as it does, and writes to the file MEASURED_TO how many KiB of memory it had at most. This is a program of
 * its own because a process's most memory includes what it had before it became another program: a test has a lot.
 */
#define _GNU_SOURCE
#include <stdio.h>
#include <stdlib.h>
#include <sys/resource.h>
#include <sys/wait.h>
#include <unistd.h>

enum { NOT_RUN = 126, NOT_FOUND = 127 };

int main(int argc, char **argv)
{
    struct rusage usage;
    int status;
    if (argc < 2)
        return NOT_RUN;
    pid_t child = fork();
    if (child == 0) {
        execvp(argv[1], argv + 1);
        _exit(NOT_FOUND);
    }
    if (child < 0 || wait4(child, &status, 0, &usage) != child || !WIFEXITED(status))
        return NOT_RUN;
    FILE *out = fopen(getenv("MEASURED_TO"), "w");
    if (out == NULL || fprintf(out, "%ld", usage.ru_maxrss) < 0 || fclose(out) != 0)
        return NOT_RUN;
    return WEXITSTATUS(status);
}
