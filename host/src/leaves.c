/* node, place and hash: the library's small lookups. */
#include <inttypes.h>
#include <string.h>

#include "json.h"
#include "request.h"
#include "text.h"
#include "walk.h"
#include "words.h"

/* Begins an object for a call with this card and this name, which are null if it takes none. */
static struct json begin(const char *command, uint32_t answer, const struct card *card, const char *name)
{
    bool has_hash = name != NULL && answer == HARPTIMBER_DATA;
    struct json json = json_begin(stdout, command, answer, has_hash ? "hash" : lookup_meaning_of(answer));
    json_reason(&json, answer, card, name);
    return json;
}

static enum status status_of(uint32_t answer)
{
    return answer == HARPTIMBER_DATA ? DONE : REFUSED;
}

static void node_words(const struct card *card, uint32_t number, struct harptimber_entry entry)
{
    bool unused = entry.answer == HARPTIMBER_DATA && entry.address == 0;
    const char *meaning = unused ? "not in use" : lookup_meaning_of(entry.answer);
    printf("node %" PRIu32 ": ", number);
    show_answer(stdout, entry.answer, meaning, card, NULL);
    if (entry.answer == HARPTIMBER_DATA && !unused) {
        printf(": ");
        show_entry(stdout, entry);
    }
    printf("\n");
}

static void node_json(const struct card *card, uint32_t number, struct harptimber_entry entry)
{
    struct json json = begin("node", entry.answer, card, NULL);
    json_string(&json, "image", card->path);
    json_number(&json, "number", number);
    json_number(&json, "inode", entry.inode);
    json_number(&json, "address", entry.address);
    json_end(&json);
}

enum status run_node(const struct request *request)
{
    struct card card;
    uint32_t number;
    if (!read_number(request->words[1], "NUMBER", &number))
        return MISUSED;
    enum status status = card_open(&card, request, request->words[0]);
    if (status != DONE)
        return status;
    struct harptimber_entry entry = harptimber_node_lookup(card.bytes, card.len, number);
    status = REFUSED;
    if (card_is_settled(&card)) {
        (request->json ? node_json : node_words)(&card, number, entry);
        status = status_of(entry.answer);
    }
    card_close(&card);
    return status;
}

static void place_words(uint32_t addresses, uint32_t index, const struct harptimber_place *place)
{
    static const char *const kinds[] = {"direct node", "indirect node", "double indirect node"};
    printf("A %" PRIu32 ", block %" PRIu32 ": ", addresses, index);
    show_answer(stdout, place->answer, lookup_meaning_of(place->answer), NULL, NULL);
    printf("\n");
    for (uint32_t i = 0; i < place->steps; i++) {
        struct step step = step_of(place, i);
        const char *kind = i == 0 ? "inode" : kinds[place->steps - 1 - i];
        printf("place %" PRIu32 ", slot %" PRIu32 " (%s)\n", step.place, step.slot, kind);
    }
}

static void place_json(uint32_t addresses, uint32_t index, const struct harptimber_place *place)
{
    struct json json = begin("place", place->answer, NULL, NULL);
    json_number(&json, "addresses", addresses);
    json_number(&json, "index", index);
    json_open(&json, "way", '[');
    for (uint32_t i = 0; i < place->steps; i++) {
        struct step step = step_of(place, i);
        json_open(&json, NULL, '{');
        json_number(&json, "place", step.place);
        json_number(&json, "slot", step.slot);
        json_close(&json, '}');
    }
    json_close(&json, ']');
    json_end(&json);
}

enum status run_place(const struct request *request)
{
    uint32_t addresses, index;
    if (!read_number(request->words[0], "A", &addresses) || !read_number(request->words[1], "INDEX", &index))
        return MISUSED;
    struct harptimber_place place = harptimber_file_place(addresses, index);
    (request->json ? place_json : place_words)(addresses, index, &place);
    return status_of(place.answer);
}

static void hash_words(const char *name, struct harptimber_hashed hashed)
{
    show(stdout, name);
    printf(": ");
    if (hashed.answer == HARPTIMBER_DATA)
        printf("hash %08" PRIx32 " (answer %d)", hashed.hash, HARPTIMBER_DATA);
    else
        show_answer(stdout, hashed.answer, lookup_meaning_of(hashed.answer), NULL, name);
    printf("\n");
}

static void hash_json(const char *name, struct harptimber_hashed hashed)
{
    char hex[9];
    snprintf(hex, sizeof hex, "%08" PRIx32, hashed.hash);
    struct json json = begin("hash", hashed.answer, NULL, name);
    json_name(&json, name);
    json_number(&json, "hash", hashed.hash);
    json_string(&json, "hash_hex", hex);
    json_end(&json);
}

enum status run_hash(const struct request *request)
{
    const char *name = request->words[0];
    struct harptimber_hashed hashed = harptimber_name_hash((const uint8_t *)name, strlen(name));
    (request->json ? hash_json : hash_words)(name, hashed);
    return status_of(hashed.answer);
}
