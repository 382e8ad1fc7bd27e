/*
 * Calls the library's leaf functions from C. The places are those of the bench sheet; the hashes are
 * what f2fs-tools 1.15 (sload.f2fs) wrote into a directory for these names.
 */
#include <inttypes.h>
#include <stdio.h>
#include <string.h>

#include "check.h"
#include "harptimber.h"

static void expect_hash(const char *label, const char *name, size_t len, uint32_t answer, uint32_t hash)
{
    struct harptimber_hashed got = harptimber_name_hash((const uint8_t *)name, len);
    if (fails(got.answer == answer && got.hash == hash))
        printf("FAILED name hash of %s (%zu bytes): answer %" PRIu32 ", hash %08" PRIX32
               "; expected %" PRIu32 ", %08" PRIX32 "\n",
               label, len, got.answer, got.hash, answer, hash);
}

static void expect_name(const char *name, uint32_t hash)
{
    expect_hash(name, name, strlen(name), HARPTIMBER_DATA, hash);
}

static void expect_bad_name(const char *label, const char *name, size_t len)
{
    expect_hash(label, name, len, HARPTIMBER_OUT_OF_SHAPE, 0);
}

static void print_place(const char *label, struct harptimber_place p)
{
    printf("  %s: answer %" PRIu32 ", steps %" PRIu32 ", places and slots %" PRIu32 " %" PRIu32
           ", %" PRIu32 " %" PRIu32 ", %" PRIu32 " %" PRIu32 ", %" PRIu32 " %" PRIu32 "\n",
           label, p.answer, p.steps, p.place0, p.slot0, p.place1, p.slot1, p.place2, p.slot2,
           p.place3, p.slot3);
}

static int same_place(struct harptimber_place a, struct harptimber_place b)
{
    return a.answer == b.answer && a.steps == b.steps && a.place0 == b.place0 && a.slot0 == b.slot0 &&
           a.place1 == b.place1 && a.slot1 == b.slot1 && a.place2 == b.place2 && a.slot2 == b.slot2 &&
           a.place3 == b.place3 && a.slot3 == b.slot3;
}

/* Fields that a test leaves out of `expected` are 0, as unused numbers have to be. */
static void expect_place(uint32_t addresses, uint32_t index, struct harptimber_place expected)
{
    struct harptimber_place got = harptimber_file_place(addresses, index);
    if (fails(same_place(got, expected))) {
        printf("FAILED file place of A = %" PRIu32 ", index %" PRIu32 "\n", addresses, index);
        print_place("got", got);
        print_place("expected", expected);
    }
}

static void test_dots(void)
{
    expect_name(".", 0);
    expect_name("..", 0);
    expect_name("...", 0xD96DC3E1);
}

static void test_names(void)
{
    expect_name("a", 0x6D0EA4C1);
    expect_name("abc", 0xB1435EC5);
    expect_name("abcd", 0x5A24112E);
    expect_name("road.bin", 0x0C30A072);
    expect_name("friction.tbl", 0xDCED9C9F);
    expect_name("sixteen-bytes-ab", 0xC7EF72D0);
    expect_name("seventeen-bytes-a", 0xDC8E1CA3);
    expect_name("stra\xC3\x9F" "e.bin", 0x81ADA4A0);
}

static void test_name_lengths(void)
{
    char name[256];
    memset(name, 'y', sizeof name);
    expect_hash("33 times y", name, 33, HARPTIMBER_DATA, 0x62024D77);
    memset(name, 'x', sizeof name);
    expect_hash("255 times x", name, 255, HARPTIMBER_DATA, 0x6C4C00EE);
    expect_bad_name("256 times x", name, 256);
    expect_bad_name("no bytes", name, 0);
}

static void test_bad_bytes(void)
{
    expect_bad_name("a 0 byte", "\0", 1);
    expect_bad_name("a 0 byte at the end", "road\0", 5);
    expect_bad_name("a 0 byte inside", "road\0bin", 8);
    expect_bad_name("a slash", "/", 1);
    expect_bad_name("a slash first", "/road", 5);
    expect_bad_name("a slash inside", "road/bin", 8);
}

static void test_places_of_923(void)
{
    expect_place(923, 0, (struct harptimber_place){.steps = 1});
    expect_place(923, 922, (struct harptimber_place){.steps = 1, .slot0 = 922});
    expect_place(923, 923, (struct harptimber_place){.steps = 2, .place1 = 1});
    expect_place(923, 2958, (struct harptimber_place){.steps = 2, .slot0 = 1, .place1 = 2, .slot1 = 1017});
    expect_place(923, 2959, (struct harptimber_place){.steps = 3, .slot0 = 2, .place1 = 3, .place2 = 4});
    expect_place(923, 1039283,
                 (struct harptimber_place){.steps = 3, .slot0 = 3, .place1 = 1022, .place2 = 1023});
    expect_place(923, 2075607,
                 (struct harptimber_place){
                     .steps = 4, .slot0 = 4, .place1 = 2041, .place2 = 2042, .place3 = 2043});
    expect_place(923, 1057053438,
                 (struct harptimber_place){.steps = 4, .slot0 = 4,
                                           .place1 = 2041, .slot1 = 1017,
                                           .place2 = 2042 + 1019 * 1017, .slot2 = 1017,
                                           .place3 = 2043 + 1019 * 1017 + 1017, .slot3 = 1017});
}

static void test_places_of_873(void)
{
    expect_place(873, 872, (struct harptimber_place){.steps = 1, .slot0 = 872});
    expect_place(873, 873, (struct harptimber_place){.steps = 2, .place1 = 1});
}

static void test_place_refusals(void)
{
    struct harptimber_place past_end = {.answer = HARPTIMBER_PAST_END};
    struct harptimber_place out_of_shape = {.answer = HARPTIMBER_OUT_OF_SHAPE};
    expect_place(923, 1057053439, past_end);
    expect_place(873, 873 + 1057052515 + 1, past_end);
    expect_place(923, UINT32_MAX, past_end);
    expect_place(874, 0, out_of_shape);
    expect_place(874, UINT32_MAX, out_of_shape);
    expect_place(0, 0, out_of_shape);
}

int main(void)
{
    test_dots();
    test_names();
    test_name_lengths();
    test_bad_bytes();
    test_places_of_923();
    test_places_of_873();
    test_place_refusals();
    return finish();
}
