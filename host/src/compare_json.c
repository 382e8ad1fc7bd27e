/* What a comparison found, as JSON. */
#include <stdlib.h>

#include "compare.h"
#include "json.h"
#include "words.h"

/* What became of a file, in a word or two. */
static const char *verdict_of(const struct comparison *c)
{
    enum status status = compare_status(c);
    bool was = c->had.answer == HARPTIMBER_PAST_END, is = c->has.answer == HARPTIMBER_PAST_END;
    if (status != CHANGED)
        return status == DONE ? "same" : status == NOT_FOUND ? "on neither card" : "refused";
    if (was && !is)
        return c->has.answer == HARPTIMBER_NO_NAME ? "gone" : "no longer readable";
    if (!was && is)
        return c->had.answer == HARPTIMBER_NO_NAME ? "new" : "readable now";
    bool resized = c->whole && was && held_bytes(&c->had) != held_bytes(&c->has);
    if (resized || c->counts[DIFFERENT] != 0)
        return "differs";
    bool to_the_end = is_block(c->last_answer) || (c->whole && c->last_answer == HARPTIMBER_PAST_END);
    return to_the_end ? "same bytes" : "changed";
}

/* Names of entries may stand in it, so that it is put together first. */
static void json_difference(struct json *json, const struct comparison *c, const struct run *run)
{
    char *text = NULL;
    size_t len;
    FILE *out = open_memstream(&text, &len);
    if (out != NULL)
        show_ground(out, c, run);
    if (out == NULL || fclose(out) != 0)
        comparison_fail(c);
    json_string(json, "difference", text);
    free(text);
}

/* Why a card answers a pull so, if that gives no block. Of the file's end the sizes tell. */
static void json_why(struct json *json, const char *key, const struct comparison *c, struct source source,
                     const struct run *run, uint32_t answer)
{
    struct asked asked = pull_of(source, c->path, c->path_len, run->first);
    if (!is_block(answer) && answer != HARPTIMBER_PAST_END)
        json_asked_as(json, key, answer, &asked);
}

static void json_verdict(struct json *json, const struct comparison *c, const struct run *run)
{
    json_answer(json, run->verdict.answer, harptimber_answer_words(run->verdict.answer));
    if (!is_changed(run))
        return;
    json_number(json, "kind", run->verdict.kind);
    json_number(json, "number", run->verdict.number);
    json_difference(json, c, run);
    json_number(json, "new_answer", run->answer);
    json_why(json, "new_reason", c, source_of_card(c->new), run, run->answer);
}

/* A byte that differs; null behind the file's end. */
static void json_byte(struct json *json, const char *key, int byte)
{
    if (byte == NO_BYTE)
        json_null(json, key);
    else
        json_number(json, key, (uint64_t)byte);
}

static void json_run(struct json *json, const struct comparison *c, const struct run *run)
{
    json_open(json, NULL, '{');
    json_number(json, "first", run->first);
    json_number(json, "last", run->last);
    json_verdict(json, c, run);
    if (is_changed(run))
        json_flag(json, "same_bytes", run->fate == SAME_BYTES);
    if (run->fate == DIFFERENT && is_block(run->answer)) {
        json_number(json, "byte", (uint64_t)run->first * BLOCK_SIZE + run->at);
        json_byte(json, "before", run->before);
        json_byte(json, "now", run->now);
    }
    json_close(json, '}');
}

static void json_size(struct json *json, const char *key, const struct holding *holding)
{
    if (holding->inode != NULL)
        json_number(json, key, held_bytes(holding));
}

void json_comparison(struct json *json, const struct comparison *c)
{
    struct source source = c->side == HARPTIMBER_FRESH ? source_of_card(c->new) : c->kept;
    struct asked asked = pull_of(source, c->path, c->path_len, c->end.first);
    if (compare_status(c) == REFUSED)
        json_asked(json, compare_answer(c), &asked);
    json_name_bytes(json, c->path, c->path_len);
    json_number(json, "status", compare_status(c));
    json_string(json, "verdict", verdict_of(c));
    json_size(json, "kept_size", &c->had);
    json_size(json, "new_size", &c->has);
    json_number(json, "same", c->counts[SAME]);
    json_number(json, "changed", compared_blocks(c) - c->counts[SAME]);
    json_number(json, "same_bytes", c->counts[SAME_BYTES]);
    json_number(json, "differ", c->counts[DIFFERENT]);
    json_open(json, "runs", '[');
    for (size_t i = 0; i < c->run_count; i++)
        json_run(json, c, &c->runs[i]);
    json_close(json, ']');
    if (c->refused) {
        json_number(json, "side", c->side);
    } else if (!is_block(c->last_answer)) {
        json_open(json, "end", '{');
        json_number(json, "index", c->end.first);
        json_number(json, "kept", c->last_answer);
        json_why(json, "kept_reason", c, c->kept, &c->end, c->last_answer);
        json_verdict(json, c, &c->end);
        json_close(json, '}');
    }
}

/* The answer of several paths is that of the first one with the highest status. */
void compare_json(const struct comparison *all, size_t count, bool several)
{
    const struct comparison *worst = all;
    for (size_t i = 1; i < count; i++)
        worst = compare_status(&all[i]) > compare_status(worst) ? &all[i] : worst;
    uint32_t answer = compare_answer(worst);
    struct json json = json_begin(stdout, "compare", answer, harptimber_answer_words(answer));
    json_string(&json, "kept", all->kept.card->path);
    json_string(&json, "new", all->new->path);
    if (several)
        json_open(&json, "files", '[');
    for (size_t i = 0; i < count; i++) {
        if (several) {
            json_open(&json, NULL, '{');
            json_answer(&json, compare_answer(&all[i]), harptimber_answer_words(compare_answer(&all[i])));
        }
        json_comparison(&json, &all[i]);
        if (several)
            json_close(&json, '}');
    }
    if (several)
        json_close(&json, ']');
    json_end(&json);
}
