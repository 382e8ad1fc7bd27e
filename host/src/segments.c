/* segments: which segments' valid counts are off, and how full the main area is. */
#define _GNU_SOURCE /* asprintf */
#include <inttypes.h>
#include <stdlib.h>
#include <unistd.h>

#include "bars.h"
#include "disk.h"
#include "json.h"
#include "request.h"
#include "sit.h"
#include "text.h"
#include "words.h"

/* All that is said, read before any of it is. */
struct report {
    struct card card;
    struct harptimber_segments told; /* by the library, with its list */
    uint8_t list[HARPTIMBER_SEGMENTS_BYTES];
    char *reason;    /* why it was refused, or null */
    uint32_t causes; /* with answer 8 */
    bool has_sit;    /* the entries lead to what the library told; else they aren't worth saying */
    struct sit sit;
};

/* Whether the entries lead to the library's list, and to its number of valid blocks. */
static bool sit_agrees(const struct report *report)
{
    uint32_t off = 0, valid = 0;
    for (uint32_t i = 0; i < report->sit.segments; i++) {
        const struct sit_entry *entry = &report->sit.entries[i];
        valid += entry->ones;
        if (!sit_is_off(entry))
            continue;
        if (off == report->told.count || harptimber_list_entry(report->list, off) != i)
            return false;
        off++;
    }
    return off == report->told.count && valid == report->told.valid_blocks;
}

/* Finds why a report is refused. A card that opens is refused for its SIT journal alone. */
static void find_reason(struct report *report, const struct opening *opening)
{
    uint32_t answer = report->told.answer, entries = sit_journal_count(opening, &report->card);
    report->reason = reason_of(answer, &report->card, NULL);
    report->causes = opening->causes;
    if (report->reason != NULL || answer != HARPTIMBER_UNREADABLE || entries <= SIT_JOURNAL_MOST)
        return;
    report->causes = cause_bit(CAUSE_SIT_JOURNAL_COUNT);
    if (asprintf(&report->reason, "the SIT journal counts %" PRIu32 " entries, at most %d fit", entries,
                 SIT_JOURNAL_MOST) < 0)
        report->reason = NULL;
}

static void read_report(struct report *report)
{
    const struct card *card = &report->card;
    struct opening opening;
    report->told = harptimber_segment_report(card->bytes, card->len, report->list, sizeof report->list);
    opening_read(&opening, card);
    if (report->told.answer == HARPTIMBER_DATA)
        report->has_sit = sit_read(&report->sit, &opening, card) && sit_agrees(report);
    else
        find_reason(report, &opening);
}

/* So much of a list is shown. */
enum { MOST_SHOWN = 10 };

static void words_entry(const struct sit_entry *entry)
{
    printf(" counts ");
    show_count(stdout, entry->count, "valid block");
    printf(", its map marks ");
    show_number(stdout, entry->ones);
    printf(" (SIT %s, block %" PRIu32 ")", entry->in_journal ? "journal" : "table", entry->block);
}

/* What "off" means, which way the counts are off, and what helps. Where that way isn't known, either is possible. */
static void words_hint(const struct report *report)
{
    bool high = !report->has_sit, low = !report->has_sit;
    for (uint32_t i = 0; report->has_sit && i < report->sit.segments; i++) {
        const struct sit_entry *entry = &report->sit.entries[i];
        high |= entry->count > entry->ones;
        low |= entry->count < entry->ones;
    }
    printf("off: by its valid count F2FS knows how full a segment is, by its map which blocks are in use; they disagree\n");
    if (high)
        printf("a count that is too high makes the card seem fuller than it is\n");
    if (low)
        printf("a count that is too low can make blocks in use seem free: nothing should be written before it is put right\n");
    printf("fsck.f2fs -f counts anew; it writes to the card, so keep a copy\n");
}

static void words_off(const struct report *report)
{
    uint32_t count = report->told.count;
    for (uint32_t i = 0; i < count && i < MOST_SHOWN; i++) {
        uint32_t segment = harptimber_list_entry(report->list, i);
        printf("  segment %" PRIu32, segment);
        if (report->has_sit)
            words_entry(&report->sit.entries[segment]);
        printf("\n");
    }
    if (count > MOST_SHOWN) {
        printf("  ");
        show_count(stdout, count - MOST_SHOWN, "more segment");
        printf("; --json has all\n");
    }
    if (count != 0)
        words_hint(report);
}

/* The segments without a block in use. */
static uint32_t count_empty(const struct sit *sit)
{
    uint32_t empty = 0;
    for (uint32_t i = 0; i < sit->segments; i++)
        empty += sit->entries[i].ones == 0;
    return empty;
}

/* '10,240 of 24,576 blocks valid in 48 segments (41.7 %), 20 of them empty'. */
static void words_valid(const struct report *report)
{
    uint32_t valid = report->told.valid_blocks;
    if (!report->has_sit) {
        show_count(stdout, valid, "valid block");
        printf("\n");
        return;
    }
    uint64_t all = (uint64_t)DISK_SEGMENT_BLOCKS * report->sit.segments;
    uint64_t tenths = all == 0 ? 0 : (UINT64_C(1000) * valid + all / 2) / all;
    show_number(stdout, valid);
    printf(" of ");
    show_count(stdout, all, "block");
    printf(" valid in ");
    show_count(stdout, report->sit.segments, "segment");
    printf(" (%" PRIu64 ".%" PRIu64 " %%), ", tenths / 10, tenths % 10);
    show_number(stdout, count_empty(&report->sit));
    printf(" of them empty\n");
}

static void show_words(const struct report *report)
{
    uint32_t answer = report->told.answer, count = report->told.count;
    show(stdout, report->card.path);
    printf(": ");
    show_with_reason(stdout, answer, whole_meaning_of(answer), report->reason);
    if (answer != HARPTIMBER_DATA) {
        printf("\n");
        return;
    }
    printf(": ");
    if (count == 0)
        printf("no segment");
    else
        show_count(stdout, count, "segment");
    printf(" %s off\n", count <= 1 ? "is" : "are");
    words_off(report);
    words_valid(report);
    if (report->has_sit && report->sit.segments != 0 && isatty(STDOUT_FILENO))
        show_bars(stdout, &report->sit, terminal_width(STDOUT_FILENO));
}

static void json_off(struct json *json, const struct report *report)
{
    json_open(json, "off", '[');
    for (uint32_t i = 0; i < report->told.count; i++) {
        uint32_t segment = harptimber_list_entry(report->list, i);
        json_open(json, NULL, '{');
        json_number(json, "segment", segment);
        if (report->has_sit) {
            const struct sit_entry *entry = &report->sit.entries[segment];
            json_number(json, "valid_count", entry->count);
            json_number(json, "ones", entry->ones);
            json_flag(json, "journal", entry->in_journal);
            json_number(json, "block", entry->block);
        }
        json_close(json, '}');
    }
    json_close(json, ']');
}

static void show_json(const struct report *report)
{
    uint32_t answer = report->told.answer;
    struct json json = json_begin(stdout, "segments", answer, whole_meaning_of(answer));
    if (report->reason != NULL)
        json_string(&json, "reason", report->reason);
    json_causes(&json, report->causes);
    json_string(&json, "image", report->card.path);
    json_number(&json, "count", report->told.count);
    json_number(&json, "valid_blocks", report->told.valid_blocks);
    if (report->has_sit) {
        json_number(&json, "segments", report->sit.segments);
        json_number(&json, "empty", count_empty(&report->sit));
    }
    json_off(&json, report);
    json_end(&json);
}

static enum status status_of(const struct harptimber_segments *told)
{
    if (told->answer != HARPTIMBER_DATA)
        return REFUSED;
    return told->count == 0 ? DONE : OFF;
}

enum status run_segments(const struct request *request)
{
    static struct report report; /* large, so not on the stack */
    enum status status = card_open(&report.card, request, request->words[0]);
    if (status != DONE)
        return status;
    read_report(&report);
    status = REFUSED;
    if (card_is_settled(&report.card)) {
        (request->json ? show_json : show_words)(&report);
        status = status_of(&report.told);
    }
    free(report.reason);
    card_close(&report.card);
    return status;
}
