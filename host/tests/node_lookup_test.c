/* Looks up nodes from C, in images that are too short or empty: each is refused whatever the number. */
#include <inttypes.h>

#include "zeros.h"

static void expect_refusal(const uint8_t *image, size_t len, uint32_t number, uint32_t answer)
{
    struct harptimber_entry got = harptimber_node_lookup(image, len, number);
    if (fails(got.answer == answer && got.inode == 0 && got.address == 0))
        printf("FAILED node lookup of %" PRIu32 " in %zu zeros: answer %" PRIu32 ", inode %" PRIu32
               ", address %" PRIu32 "; expected %" PRIu32 ", 0, 0\n",
               number, len, got.answer, got.inode, got.address, answer);
}

/* Some numbers in `len` zeros. */
static void expect_refusals(const uint8_t *zeros, size_t len, uint32_t answer)
{
    static const uint32_t numbers[] = {0, 1, 3, UINT32_MAX};
    for (size_t i = 0; i < sizeof numbers / sizeof *numbers; i++)
        expect_refusal(zeros, len, numbers[i], answer);
}

int main(void)
{
    return refuse_zeros(expect_refusals);
}
