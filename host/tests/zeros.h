/* Images of zeros, for calls that take one: out of shape, or without a superblock. */
#ifndef ZEROS_H
#define ZEROS_H

#include <stdint.h>
#include <sys/mman.h>

#include "check.h"
#include "harptimber.h"

/* Expects the first `len` zeros to be answered so. */
typedef void expect_zeros(const uint8_t *zeros, size_t len, uint32_t answer);

/* Lengths around each bound, in blocks. 262,144 were the most that were read before; 1,048,576 are 2^32 bytes. */
static const struct length {
    size_t blocks;
    uint32_t answer;
} lengths[] = {
    {0, HARPTIMBER_OUT_OF_SHAPE},         {1, HARPTIMBER_OUT_OF_SHAPE},
    {2, HARPTIMBER_NO_SUPERBLOCK},        {262144, HARPTIMBER_NO_SUPERBLOCK},
    {262145, HARPTIMBER_NO_SUPERBLOCK},   {1048575, HARPTIMBER_NO_SUPERBLOCK},
    {1048576, HARPTIMBER_NO_SUPERBLOCK},  {1048577, HARPTIMBER_NO_SUPERBLOCK},
    {4194303, HARPTIMBER_NO_SUPERBLOCK},  {4194304, HARPTIMBER_NO_SUPERBLOCK},
    {4194305, HARPTIMBER_OUT_OF_SHAPE},   {4194306, HARPTIMBER_OUT_OF_SHAPE},
};

/* Tries whole lengths on both sides of each bound, and a byte less and more. Returns the status to end with. */
static inline int refuse_zeros(expect_zeros *expect)
{
    const size_t count = sizeof lengths / sizeof *lengths, unit = HARPTIMBER_BLOCK_BYTES;
    const size_t longest = (lengths[count - 1].blocks + 1) * unit;
    /* Only addresses: pages that are read and never written take no memory. */
    uint8_t *zeros = mmap(NULL, longest, PROT_READ, MAP_PRIVATE | MAP_ANONYMOUS | MAP_NORESERVE, -1, 0);
    if (zeros == MAP_FAILED) {
        fails(0);
        printf("FAILED to get addresses for an image\n");
        return finish();
    }
    for (size_t i = 0; i < count; i++) {
        size_t len = lengths[i].blocks * unit;
        expect(zeros, len, lengths[i].answer);
        expect(zeros, len + 1, HARPTIMBER_OUT_OF_SHAPE);
        if (len > 0)
            expect(zeros, len - 1, HARPTIMBER_OUT_OF_SHAPE);
    }
    munmap(zeros, longest);
    return finish();
}

#endif
