/* info: what card it is, and whether it can be read. */
#include <inttypes.h>
#include <stdlib.h>
#include <string.h>

#include "disk.h"
#include "json.h"
#include "opening.h"
#include "partitions.h"
#include "request.h"
#include "text.h"
#include "words.h"

/* All that is said, read before any of it is. */
struct info {
    const struct card *card;
    struct opening opening;
    char *reason;              /* why it can't be read, or null */
    const uint8_t *superblock; /* the copy in use, as it was read; null if none is */
    uint8_t copy[BLOCK_SIZE - DISK_SUPERBLOCK_AT];
    char label[DISK_LABEL_ROOM];
    struct partitions partitions;
};

static void read_info(struct info *info, const struct card *card)
{
    info->card = card;
    opening_read(&info->opening, card);
    const struct opening *opening = &info->opening;
    info->reason = reason_of(opening->answer, card, NULL);
    if (opening->agrees && opening->copy_in_use != NONE_IN_USE) {
        memcpy(info->copy, disk_superblock(card, (uint32_t)opening->copy_in_use), sizeof info->copy);
        info->superblock = info->copy;
        disk_label(info->superblock, info->label);
    }
    if (opening->answer != HARPTIMBER_DATA)
        partitions_read(&info->partitions, &card->file);
}

/* Packs are looked at once a copy of the superblock says where they are. */
static bool has_packs(const struct info *info)
{
    return info->superblock != NULL && info->opening.answer != HARPTIMBER_OUT_OF_SHAPE;
}

static void words_area(const uint8_t *superblock, int area)
{
    uint32_t first = disk_area_first(superblock, area), segments = disk_area_segments(superblock, area);
    printf("%s area: ", disk_areas[area].name);
    if (segments == 0) {
        printf("none\n");
        return;
    }
    printf("blocks %" PRIu32 " to %" PRIu64 " (", first, disk_area_end(superblock, area) - 1);
    show_count(stdout, segments, "segment");
    printf(")\n");
}

static void words_volume(const struct info *info)
{
    const uint8_t *superblock = info->superblock;
    char features[WHY_ROOM] = "";
    disk_bit_names(features, sizeof features, disk_features, disk32(superblock + DISK_FEATURES_AT));
    printf("label: ");
    show(stdout, *info->label == '\0' ? "none" : info->label);
    uint64_t blocks = disk64(superblock + DISK_BLOCK_COUNT_AT);
    printf("\nsize: ");
    show_size(stdout, blocks * BLOCK_SIZE);
    printf(", ");
    show_count(stdout, blocks, "block");
    printf(" of 4,096 bytes\nfeatures: %s\n", *features == '\0' ? "none" : features);
    for (int area = 0; area < DISK_AREAS; area++)
        words_area(superblock, area);
}

/* A card that is out of shape isn't read by any copy. */
static bool copy_is_used(const struct opening *opening, int i)
{
    return i == opening->copy_in_use && opening->answer != HARPTIMBER_OUT_OF_SHAPE;
}

static void words_copies(const struct opening *opening)
{
    for (int i = 0; i < 2; i++) {
        const struct opening_copy *copy = &opening->copies[i];
        const char *good = copy_is_used(opening, i) ? "in use" : "passes";
        printf("superblock copy %d: %s%s\n", i + 1, copy->passes ? good : "doesn't pass: ", copy->why);
    }
}

static bool is_clean(const struct opening_pack *pack)
{
    return (pack->flags & DISK_UNMOUNT) != 0;
}

/* Why it isn't the other pack, where that passes too and its version is the greater number. */
static void words_choice(const struct opening_pack *used, const struct opening_pack *other)
{
    if (!other->passes || used->version >= other->version)
        return;
    if (ver_after(used->version, other->version))
        printf(", newer than the other's by %" PRIu64 ": versions go on from 0x%" PRIx64 " to 0",
               used->version - other->version, UINT64_MAX);
    else
        printf(", exactly 2^63 from the other's: neither is newer, so the first pack is used");
}

static void words_packs(const struct opening *opening)
{
    for (int i = 0; i < 2; i++) {
        const struct opening_pack *pack = &opening->packs[i];
        char flags[WHY_ROOM] = "";
        disk_bit_names(flags, sizeof flags, disk_flags, pack->flags);
        bool used = i == opening->pack_in_use;
        const char *good = used ? "in use" : "passes";
        printf("checkpoint pack %d: %s%s", i + 1, pack->passes ? good : "doesn't pass: ", pack->why);
        if (pack->has_first) {
            printf("; version %" PRIu64 " (0x%" PRIx64 ")", pack->version, pack->version);
            if (used)
                words_choice(pack, &opening->packs[1 - i]);
            printf("; flags: %s", *flags == '\0' ? "none" : flags);
        }
        printf("%s\n", used && !is_clean(pack) ? "; not unmounted cleanly" : "");
    }
}

static void words_partitions(const struct partitions *partitions)
{
    for (uint32_t i = 0; i < partitions->count; i++) {
        const struct partition *partition = &partitions->list[i];
        printf("partition %" PRIu32 ": from byte %" PRIu64 ", ", partition->number, partition->first);
        show_size(stdout, partition->len);
        printf("%s\n", partition->marked ? ", with an F2FS mark" : "");
    }
}

static void info_words(const struct info *info)
{
    const struct opening *opening = &info->opening;
    show(stdout, info->card->path);
    printf(opening->answer == HARPTIMBER_DATA ? ": " : ": can't be read: ");
    show_with_reason(stdout, opening->answer, whole_meaning_of(opening->answer), info->reason);
    printf("\n");
    if (info->superblock != NULL)
        words_volume(info);
    if (opening->agrees)
        words_copies(opening);
    if (has_packs(info))
        words_packs(opening);
    words_partitions(&info->partitions);
}

static void json_bits(struct json *json, const char *key, const char *const names[], uint32_t word)
{
    json_open(json, key, '[');
    for (int bit = 0; bit < DISK_BITS; bit++) {
        char number[DISK_BIT_ROOM];
        if ((word >> bit & 1) != 0)
            json_string(json, NULL, disk_bit_name(names, bit, number));
    }
    json_close(json, ']');
}

static void json_volume(struct json *json, const struct info *info)
{
    const uint8_t *superblock = info->superblock;
    json_string(json, "label", info->label);
    json_number(json, "blocks", disk64(superblock + DISK_BLOCK_COUNT_AT));
    json_bits(json, "features", disk_features, disk32(superblock + DISK_FEATURES_AT));
    json_open(json, "areas", '[');
    for (int area = 0; area < DISK_AREAS; area++) {
        json_open(json, NULL, '{');
        json_string(json, "area", disk_areas[area].name);
        json_number(json, "first", disk_area_first(superblock, area));
        json_number(json, "segments", disk_area_segments(superblock, area));
        json_close(json, '}');
    }
    json_close(json, ']');
}

/* What a copy and a pack have alike. */
static void json_judged(struct json *json, bool passes, bool in_use, const char *why)
{
    json_open(json, NULL, '{');
    json_flag(json, "passes", passes);
    json_flag(json, "in_use", in_use);
    if (!passes)
        json_string(json, "reason", why);
}

static void json_copies(struct json *json, const struct opening *opening)
{
    json_open(json, "copies", '[');
    for (int i = 0; i < 2; i++) {
        json_judged(json, opening->copies[i].passes, copy_is_used(opening, i), opening->copies[i].why);
        json_close(json, '}');
    }
    json_close(json, ']');
}

static void json_packs(struct json *json, const struct opening *opening)
{
    json_open(json, "packs", '[');
    for (int i = 0; i < 2; i++) {
        const struct opening_pack *pack = &opening->packs[i];
        json_judged(json, pack->passes, i == opening->pack_in_use, pack->why);
        if (pack->has_first) {
            char hex[17];
            snprintf(hex, sizeof hex, "%016" PRIx64, pack->version);
            json_number(json, "version", pack->version);
            json_string(json, "version_hex", hex);
            json_bits(json, "flags", disk_flags, pack->flags);
            json_flag(json, "clean", is_clean(pack));
        }
        json_close(json, '}');
    }
    json_close(json, ']');
}

static void json_partitions(struct json *json, const struct partitions *partitions)
{
    json_string(json, "table", partitions->table);
    json_open(json, "partitions", '[');
    for (uint32_t i = 0; i < partitions->count; i++) {
        const struct partition *partition = &partitions->list[i];
        json_open(json, NULL, '{');
        json_number(json, "number", partition->number);
        json_number(json, "first", partition->first);
        json_number(json, "bytes", partition->len);
        json_flag(json, "marked", partition->marked);
        json_close(json, '}');
    }
    json_close(json, ']');
}

static void info_json(const struct info *info)
{
    const struct opening *opening = &info->opening;
    struct json json = json_begin(stdout, "info", opening->answer, whole_meaning_of(opening->answer));
    if (info->reason != NULL)
        json_string(&json, "reason", info->reason);
    json_causes(&json, opening->causes);
    json_string(&json, "image", info->card->path);
    json_number(&json, "offset", info->card->offset);
    json_number(&json, "bytes", info->card->len);
    if (info->superblock != NULL)
        json_volume(&json, info);
    if (opening->agrees)
        json_copies(&json, opening);
    if (has_packs(info))
        json_packs(&json, opening);
    if (info->partitions.table != NULL)
        json_partitions(&json, &info->partitions);
    json_end(&json);
}

enum status run_info(const struct request *request)
{
    struct card card;
    struct info info = {.card = &card};
    enum status status = card_open(&card, request, request->words[0]);
    if (status != DONE)
        return status;
    read_info(&info, &card);
    status = REFUSED;
    if (card_is_settled(&card)) {
        (request->json ? info_json : info_words)(&info);
        status = info.opening.answer == HARPTIMBER_DATA ? DONE : REFUSED;
    }
    free(info.reason);
    card_close(&card);
    return status;
}
