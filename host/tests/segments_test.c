/* Asks for segment reports from C, in calls that are refused: the answer, the other numbers, and every lent byte. */
#include <inttypes.h>
#include <string.h>

#include "zeros.h"

#define PATTERN 0xA5

enum { LIST = HARPTIMBER_SEGMENTS_BYTES };

static uint8_t list[LIST + 3];

static int untouched(void)
{
    for (size_t i = 0; i < sizeof list; i++)
        if (list[i] != PATTERN)
            return 0;
    return 1;
}

/* A report on `len` zeros, with so many bytes lent for the list. */
static void expect_refused(const uint8_t *zeros, size_t len, size_t list_len, uint32_t answer)
{
    memset(list, PATTERN, sizeof list);
    struct harptimber_segments got = harptimber_segment_report(zeros, len, list, list_len);
    int numbers = got.answer == answer && got.count == 0 && got.valid_blocks == 0;
    if (fails(numbers && untouched()))
        printf("FAILED segment report of %zu zeros with %zu bytes lent: answer %" PRIu32 ", count %" PRIu32
               ", valid blocks %" PRIu32 "; expected %" PRIu32 ", 0, 0; list %s\n",
               len, list_len, got.answer, got.count, got.valid_blocks, answer, untouched() ? "untouched" : "touched");
}

/* With a list that is long enough for any card, and with some that are not: the image comes first. */
static void expect_refusals(const uint8_t *zeros, size_t len, uint32_t answer)
{
    static const size_t lens[] = {0, 1, 3, 4, LIST - 1, LIST, LIST + 3};
    for (size_t i = 0; i < sizeof lens / sizeof *lens; i++)
        expect_refused(zeros, len, lens[i], answer);
}

int main(void)
{
    return refuse_zeros(expect_refusals);
}
