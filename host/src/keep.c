/* keep: one block of a file, and all that it rests on, as a keep file. */
#include <errno.h>
#include <stdlib.h>
#include <string.h>

#include "kept.h"
#include "output.h"
#include "text.h"

/* Begins the object with what was asked for. */
static struct json begin_json(FILE *out, const struct request *request, uint32_t answer, const struct asked *asked)
{
    const char *meaning = answer == HARPTIMBER_DATA ? "kept" : harptimber_answer_words(answer);
    struct json json = json_begin(out, "keep", answer, meaning);
    json_asked(&json, answer, asked);
    json_string(&json, "image", request->words[0]);
    json_string(&json, "output", request->output);
    return json;
}

/* A card that doesn't open, or a bad path: there is nothing to keep. */
static enum status tell_refusal(const struct request *request, uint32_t answer, const struct asked *asked)
{
    FILE *out = output_beside(request->output);
    struct pulled pulled = {.source = asked->source,
                            .path = asked->path,
                            .path_len = asked->len,
                            .index = asked->index,
                            .gave = {.answer = answer}};
    if (request->json) {
        struct json json = begin_json(out, request, answer, asked);
        pulled_json(&json, &pulled);
        json_end(&json);
    } else {
        pulled_words(out, &pulled);
        fputs("nothing was kept\n", out);
    }
    return REFUSED;
}

/* A missing name or block is kept too, but whoever relies on the status has no block then. */
static enum status tell_kept(const struct request *request, const struct keep_file *keep, const struct asked *asked)
{
    FILE *out = output_beside(request->output);
    if (request->json) {
        struct json json = begin_json(out, request, HARPTIMBER_DATA, asked);
        kept_json(&json, keep);
        json_end(&json);
    } else {
        kept_words(out, keep);
    }
    return is_block(keep->fields.pull_answer) ? DONE : REFUSED;
}

/* The words come last: nothing is said of a file that couldn't be written. */
static enum status keep_and_tell(const struct request *request, const struct card *card, uint32_t index, uint8_t *room)
{
    const char *path = request->words[1];
    struct asked asked = pull_of(source_of_card(card), path, strlen(path), index);
    struct harptimber_kept kept = harptimber_keep(card->bytes, card->len, (const uint8_t *)path, asked.len, index, room,
                                                  HARPTIMBER_KEEP_BYTES);
    if (!card_is_settled(card))
        return REFUSED;
    if (kept.answer != HARPTIMBER_DATA)
        return tell_refusal(request, kept.answer, &asked);
    if (!output_all(request->output, &card->file, room, kept.length))
        return REFUSED;
    struct keep_file keep = keep_file_of(room, kept.length);
    return tell_kept(request, &keep, &asked);
}

enum status run_keep(const struct request *request)
{
    struct card card;
    uint32_t index = 0;
    if (request->word_count > 2 && !read_number(request->words[2], "INDEX", &index))
        return MISUSED;
    enum status status = card_open(&card, request, request->words[0]);
    if (status != DONE)
        return status;
    uint8_t *room = malloc(HARPTIMBER_KEEP_BYTES);
    if (room != NULL) {
        status = keep_and_tell(request, &card, index, room);
    } else {
        complain("keep", "%s", strerror(ENOMEM));
        status = REFUSED;
    }
    free(room);
    card_close(&card);
    return status;
}
