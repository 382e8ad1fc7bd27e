#include "request.h"

#include <inttypes.h>
#include <stdio.h>

#include "text.h"

/* Decimal digits, as long as they make no more than `most`. */
static bool read_digits(const char *word, const char *what, uint64_t most, uint64_t *number)
{
    uint64_t value = 0;
    const char *at = word;
    for (; *at >= '0' && *at <= '9' && value <= (most - (uint64_t)(*at - '0')) / 10; at++)
        value = 10 * value + (uint64_t)(*at - '0');
    if (at == word || *at != '\0') {
        complain(word, "%s has to be a decimal number, at most %" PRIu64, what, most);
        misused();
        return false;
    }
    *number = value;
    return true;
}

bool read_number(const char *word, const char *what, uint32_t *number)
{
    uint64_t value;
    bool read = read_digits(word, what, UINT32_MAX, &value);
    if (read)
        *number = (uint32_t)value;
    return read;
}

bool read_wide_number(const char *word, const char *what, uint64_t *number)
{
    return read_digits(word, what, INT64_MAX, number);
}

enum status misused(void)
{
    fputs("Try 'harptimber --help'.\n", stderr);
    return MISUSED;
}
