// Is compiled, never run: the header has to stand by itself in C++, also if included twice.
#include "harptimber.h"
#include "harptimber.h"

static_assert(HARPTIMBER_CARD_BYTES_MOST == 17179869184, "16 GiB, which no int holds");
static_assert(HARPTIMBER_NODES_MOST_OF(1) == 179 && HARPTIMBER_BLOCKS_MOST_OF(1) == 238, "one name");
static_assert(HARPTIMBER_NODES_BYTES_OF(1 + 1) == 1416 && HARPTIMBER_BLOCKS_BYTES_OF(1 + 1) == 1884, "a sum of names");
static_assert(HARPTIMBER_NODES_MOST == 1404 && HARPTIMBER_BLOCKS_MOST == 1869, "eight names");
static_assert(HARPTIMBER_NODES_BYTES == 5616 && HARPTIMBER_BLOCKS_BYTES == 7476, "bytes for eight names");
static_assert(HARPTIMBER_RUN_MOST == 512 && HARPTIMBER_RUN_BYTES == 2097152, "the longest run");
static_assert(HARPTIMBER_RUN_NODES_MOST_OF(1) == 181 && HARPTIMBER_RUN_BLOCKS_MOST_OF(1) == 751, "a run of one name");
static_assert(HARPTIMBER_RUN_NODES_BYTES_OF(1 + 1) == 1424 && HARPTIMBER_RUN_BLOCKS_BYTES_OF(1 + 1) == 3936, "of a sum of names");
static_assert(HARPTIMBER_RUN_NODES_MOST == 1406 && HARPTIMBER_RUN_BLOCKS_MOST == 2382, "of eight names");
static_assert(HARPTIMBER_RUN_NODES_BYTES == 5624 && HARPTIMBER_RUN_BLOCKS_BYTES == 9528, "bytes for a run of eight names");
static_assert(HARPTIMBER_READER_BLOCKS_MOST_OF(1 + 1) == 832 && HARPTIMBER_READER_BLOCKS_MOST == 3280, "what a reader asks for");
static_assert(sizeof(harptimber_reader) == 23992 && alignof(harptimber_reader) == 4, "its state");
static_assert(HARPTIMBER_KEEP_LENGTH_OF(8, 2, 3) == 16480 && HARPTIMBER_KEEP_LENGTH_OF(0, 1 + 1, 0) == 4172, "a keep file");
static_assert(HARPTIMBER_KEEP_BYTES_OF(1) == 983059 && HARPTIMBER_KEEP_BYTES_OF(1 + 1) == 1941415, "its room, by names");
static_assert(HARPTIMBER_KEEP_BYTES == 7691551, "its room for eight names");
static_assert(HARPTIMBER_NAMES_MOST == 8 && HARPTIMBER_PATH_BYTES_MOST == 2047, "the longest path");

uint32_t every_call_with_nothing()
{
    uint8_t list[HARPTIMBER_NODES_BYTES] = {0}, segments[HARPTIMBER_SEGMENTS_BYTES] = {0};
    return harptimber_name_hash(nullptr, 0).hash + harptimber_file_place(923, 0).slot0 +
           harptimber_pull(nullptr, 0, nullptr, 0, 0, nullptr, 0, nullptr, 0, nullptr, 0).byte_count +
           harptimber_pull_run(nullptr, 0, nullptr, 0, 0, 1, nullptr, 0, nullptr, 0, nullptr, 0).count +
           harptimber_reader_start(2, nullptr, 0, 0).asks + harptimber_reader_step(harptimber_reader(), nullptr, 0).block +
           harptimber_reader_result(harptimber_reader(), nullptr, 0, nullptr, 0, nullptr, 0).answer +
           harptimber_compare(nullptr, 0, nullptr, 0, nullptr, 0, 0, nullptr, 0, 0).side +
           harptimber_node_lookup(nullptr, 0, 3).address + harptimber_list_entry(list, HARPTIMBER_NODES_MOST - 1) +
           harptimber_segment_report(nullptr, 0, segments, sizeof segments).valid_blocks +
           harptimber_keep(nullptr, 0, nullptr, 0, 0, list, sizeof list).length + harptimber_keep_read(list, 0).length +
           harptimber_keep_compare(list, 0, nullptr, 0).side +
           static_cast<uint32_t>(harptimber_answer_words(HARPTIMBER_CHANGED)[0]);
}
