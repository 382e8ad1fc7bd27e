/* pull: one block of a file. */
#include <string.h>

#include "output.h"
#include "pulled.h"
#include "request.h"

static void show_json(FILE *out, const struct pulled *pulled)
{
    uint32_t answer = pulled->gave.answer;
    struct asked asked = pulled_asked(pulled);
    struct json json = json_begin(out, "pull", answer, harptimber_answer_words(answer));
    json_asked(&json, answer, &asked);
    json_string(&json, "image", pulled->source.card->path);
    pulled_json(&json, pulled);
    json_end(&json);
}

/* The words come last: nothing is said of bytes that couldn't be written. */
static enum status tell(const struct request *request, const struct pulled *pulled, const struct card *card)
{
    if (!card_is_settled(card) || !pulled_write(pulled, request, &card->file))
        return REFUSED;
    FILE *out = output_beside(request->output);
    if (request->json)
        show_json(out, pulled);
    else
        pulled_words(out, pulled);
    if (!request->json && request->lists)
        pulled_lists(out, pulled);
    pulled_show(pulled, request);
    return is_block(pulled->gave.answer) ? DONE : REFUSED;
}

static enum status pull_and_tell(const struct request *request, const struct card *card, uint32_t index)
{
    uint8_t block[BLOCK_SIZE];
    struct lists lists;
    const char *path = request->words[1];
    struct pulled pulled = pulled_from(card, path, strlen(path), index, block, &lists);
    return tell(request, &pulled, card);
}

enum status run_pull(const struct request *request)
{
    struct card card;
    uint32_t index;
    if (!read_number(request->words[2], "INDEX", &index))
        return MISUSED;
    enum status status = card_open(&card, request, request->words[0]);
    if (status != DONE)
        return status;
    status = pull_and_tell(request, &card, index);
    card_close(&card);
    return status;
}
