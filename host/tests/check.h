/* What the tests share: they count what passed and failed, and print 'N passed, M failed'. */
#ifndef CHECK_H
#define CHECK_H

#include <stdio.h>

static int passed, failed;

/* Counts a test and says whether it failed, so that the caller can print the input. */
static inline int fails(int holds)
{
    if (holds)
        passed++;
    else
        failed++;
    return !holds;
}

/* The status to end with. */
static inline int finish(void)
{
    printf("%d passed, %d failed\n", passed, failed);
    return failed != 0;
}

#endif
