#include "words.h"

#include <inttypes.h>
#include <stdlib.h>
#include <string.h>

#include "keep_fault.h"
#include "opening.h"
#include "partitions.h"
#include "path.h"
#include "reason.h"
#include "text.h"

enum { GIB = 1 << 30 };

const char *lookup_meaning_of(uint32_t answer)
{
    switch (answer) {
    case HARPTIMBER_DATA:
        return "found";
    case HARPTIMBER_PAST_END:
        return "past the last index";
    case HARPTIMBER_NO_NODE:
        return "out of range";
    default:
        return harptimber_answer_words(answer);
    }
}

const char *whole_meaning_of(uint32_t answer)
{
    return answer == HARPTIMBER_DATA ? "can be read" : harptimber_answer_words(answer);
}

bool length_is_in_shape(const struct card *card)
{
    size_t blocks = card->len / BLOCK_SIZE;
    return card->len % BLOCK_SIZE == 0 && blocks >= HARPTIMBER_CARD_BLOCKS_LEAST &&
           blocks <= HARPTIMBER_CARD_BLOCKS_MOST;
}

/* A volume may be shorter than what it is in, and short enough; --offset leaves out what lies behind. */
static void show_shorter(FILE *out, const struct card *card)
{
    const uint8_t *superblock = opening_superblock(card);
    if (superblock != NULL && disk64(superblock + DISK_BLOCK_COUNT_AT) <= HARPTIMBER_CARD_BLOCKS_MOST)
        fprintf(out, "; --offset %" PRIu64 " takes the volume, which is shorter", card->offset);
}

/* Says how long it is: the whole file, or what options chose of it. */
static void show_bad_length(FILE *out, const struct card *card)
{
    fputs(card->len == card->file.len ? "the image has " : "the chosen part has ", out);
    if (card->len % BLOCK_SIZE != 0) {
        show_count(out, card->len, "byte");
        fputs(", which isn't a whole number of 4,096-byte blocks", out);
    } else if (card->len / BLOCK_SIZE < HARPTIMBER_CARD_BLOCKS_LEAST) {
        show_count(out, card->len / BLOCK_SIZE, "block");
        fputs(" of 4,096 bytes; a card has at least 2", out);
    } else {
        show_size(out, card->len);
        if (card->len % GIB != 0) {
            fputs(" (", out);
            show_count(out, card->len, "byte");
            fputs(")", out);
        }
        fputs("; at most ", out);
        show_size(out, HARPTIMBER_CARD_BYTES_MOST);
        fputs(" is read", out);
        show_shorter(out, card);
    }
}

/* Whether the card is a partition with an F2FS mark already: then there is no other to take. */
static bool is_taken(const struct partitions *partitions, const struct card *card)
{
    for (uint32_t i = 0; i < partitions->count; i++)
        if (partitions->list[i].marked && partitions->list[i].first == card->offset)
            return true;
    return false;
}

/* What the file is if it is a disk, and what to do then. Returns whether that was said. */
static bool show_disk(FILE *out, const struct card *card)
{
    struct partitions partitions;
    partitions_read(&partitions, &card->file);
    if (partitions.table == NULL || is_taken(&partitions, card))
        return false;
    fputs("; ", out);
    show_partitions(out, &partitions);
    const struct partition *marked = partitions_only_marked(&partitions);
    if (marked != NULL)
        fprintf(out, "; --partition %" PRIu32 " takes that one", marked->number);
    else if (partitions.count != 0)
        fputs("; --partition N takes one", out);
    return true;
}

/* Why a call is out of shape. With neither card nor path it is place's, which has nothing else to refuse. */
static void show_out_of_shape(FILE *out, const struct asked *asked)
{
    const struct card *card = asked->source.card;
    if (card != NULL && !length_is_in_shape(card)) {
        show_bad_length(out, card);
        show_disk(out, card);
    } else if (asked->path == NULL) {
        fputs(card == NULL ? "A has to be 873 or 923" : "", out);
    } else {
        (card == NULL ? show_name_fault : show_path_fault)(out, asked->path, asked->len);
    }
}

/*
 * What fsck.f2fs -f does about the two flags. Asked by its own flag for a check, it makes one and clears both. Else it writes nothing
 * where it finds nothing wrong, as with an error flag alone. Of a number that is there twice nothing is said: of entries that
 * differ it may take the one that loses the file.
 */
static void show_fsck(FILE *out, uint32_t causes)
{
    uint32_t error = cause_bit(CAUSE_ERROR_FLAG), check = cause_bit(CAUSE_NEEDS_CHECK_FLAG);
    if (causes == check || causes == (check | error))
        fprintf(out, "; fsck.f2fs -f checks it and clears %s; it writes to the card, so keep a copy",
                causes == check ? "the flag" : "both flags");
    else if (causes == error)
        fputs("; fsck.f2fs -f clears it only if it finds something to mend; it writes to the card then, so keep a copy", out);
}

/* Why a card doesn't open. */
static void show_unopened(FILE *out, const struct card *card, uint32_t answer)
{
    struct opening opening;
    opening_read(&opening, card);
    if (opening.answer == answer) {
        fputs(opening.why, out);
        show_fsck(out, opening.causes);
    }
    bool marked = opening.copies[0].marked || opening.copies[1].marked;
    if (answer == HARPTIMBER_NO_SUPERBLOCK && !show_disk(out, card) && !marked)
        fputs("; perhaps it is another file system", out);
}

/* A walk that stops elsewhere than the library found no reason. */
static void show_pull_reason(FILE *out, uint32_t answer, const struct asked *asked)
{
    struct stop stop = walk_pull(asked->source, asked->path, asked->len, asked->index);
    if (stop.answer == answer)
        show_stop(out, &stop, &asked->source);
}

/* No pull is kept that was refused before its walk. If a keep file says so all the same, nothing is known of why. */
static void show_reason(FILE *out, uint32_t answer, const struct asked *asked)
{
    const struct keep_file *keep = asked->source.keep;
    if (keep != NULL && answer == HARPTIMBER_BAD_KEEP_FILE)
        show_keep_fault(out, keep->bytes, keep->len);
    else if (keep != NULL && is_before_walk(answer))
        return;
    else if (answer == HARPTIMBER_OUT_OF_SHAPE)
        show_out_of_shape(out, asked);
    else if (is_before_walk(answer))
        show_unopened(out, asked->source.card, answer);
    else if (asked->is_pull && !is_block(answer))
        show_pull_reason(out, answer, asked);
}

struct asked pull_of(struct source source, const char *path, size_t len, uint32_t index)
{
    return (struct asked){.source = source, .path = path, .len = len, .is_pull = true, .index = index};
}

struct asked reading_of(const struct keep_file *keep)
{
    return (struct asked){.source = source_of_keep(keep)};
}

/* A call on a card, or with a name, that is no pull. */
static struct asked call_of(const struct card *card, const char *name)
{
    return (struct asked){.source = source_of_card(card), .path = name, .len = name == NULL ? 0 : strlen(name)};
}

static char *reason_of_asked(uint32_t answer, const struct asked *asked)
{
    char *reason = NULL;
    size_t len = 0;
    FILE *out = open_memstream(&reason, &len);
    if (out == NULL)
        return NULL;
    show_reason(out, answer, asked);
    if (fclose(out) == 0 && len != 0)
        return reason;
    free(reason);
    return NULL;
}

bool same_reason(uint32_t answer, const struct asked *one, const struct asked *other)
{
    char *reason = reason_of_asked(answer, one), *other_reason = reason_of_asked(answer, other);
    bool same = reason == NULL || other_reason == NULL ? reason == other_reason : strcmp(reason, other_reason) == 0;
    free(reason);
    free(other_reason);
    return same;
}

char *reason_of(uint32_t answer, const struct card *card, const char *name)
{
    struct asked asked = call_of(card, name);
    return reason_of_asked(answer, &asked);
}

/* What is out of shape, or keeps the pack in use from being read, is told by the reason, instead of all that could be. */
void show_with_reason(FILE *out, uint32_t answer, const char *meaning, const char *reason)
{
    bool told = answer == HARPTIMBER_OUT_OF_SHAPE || (answer == HARPTIMBER_UNREADABLE && reason != NULL);
    size_t len = told ? strcspn(meaning, ":") : strlen(meaning);
    fprintf(out, "%.*s (answer %" PRIu32 ")", (int)len, meaning, answer);
    if (reason != NULL)
        fprintf(out, ": %s", reason);
}

void show_asked(FILE *out, uint32_t answer, const char *meaning, const struct asked *asked)
{
    char *reason = reason_of_asked(answer, asked);
    show_with_reason(out, answer, meaning, reason);
    free(reason);
}

void show_answer(FILE *out, uint32_t answer, const char *meaning, const struct card *card, const char *name)
{
    struct asked asked = call_of(card, name);
    show_asked(out, answer, meaning, &asked);
}

void json_asked_as(struct json *json, const char *key, uint32_t answer, const struct asked *asked)
{
    char *reason = reason_of_asked(answer, asked);
    if (reason != NULL)
        json_string(json, key, reason);
    free(reason);
}

void json_causes(struct json *json, uint32_t causes)
{
    if (causes == 0)
        return;
    json_open(json, "causes", '[');
    for (enum cause cause = 0; cause < CAUSES; cause++)
        if ((causes & cause_bit(cause)) != 0)
            json_string(json, NULL, cause_names[cause]);
    json_close(json, ']');
}

void json_asked(struct json *json, uint32_t answer, const struct asked *asked)
{
    struct opening opening;
    json_asked_as(json, "reason", answer, asked);
    if (answer != HARPTIMBER_UNREADABLE || asked->source.card == NULL)
        return;
    opening_read(&opening, asked->source.card);
    json_causes(json, opening.causes);
}

void json_reason(struct json *json, uint32_t answer, const struct card *card, const char *name)
{
    struct asked asked = call_of(card, name);
    json_asked(json, answer, &asked);
}

void show_entry(FILE *out, struct harptimber_entry entry)
{
    if (entry.answer != HARPTIMBER_DATA)
        fputs("out of range", out);
    else if (entry.address != 0)
        fprintf(out, "inode %" PRIu32 ", block %" PRIu32, entry.inode, entry.address);
    else if (entry.inode != 0)
        fprintf(out, "inode %" PRIu32 ", not in use", entry.inode);
    else
        fputs("not in use", out);
}
