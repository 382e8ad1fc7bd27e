/* cat: a whole file. */
#include <inttypes.h>
#include <string.h>
#include <unistd.h>

#include "json.h"
#include "output.h"
#include "progress.h"
#include "request.h"
#include "text.h"
#include "words.h"

/* How many blocks are written at once: progress is shown behind each piece. */
enum { PIECE = 64 };

struct cat {
    const struct request *request;
    const char *path;
    size_t path_len;
    struct card card;
    struct output output;
    bool output_is_open;
    struct progress progress;
    uint64_t bytes;         /* written ones */
    uint32_t blocks, holes; /* and in how many blocks; holes are counted for JSON alone */
    uint32_t answer;        /* of the last run: data if the file goes on behind it */
    struct run_room room;
};

/* Opens the output, once it is known that there is something to write. */
static bool open_output(struct cat *cat)
{
    if (!output_open(&cat->output, cat->request->output, &cat->card.file))
        return false;
    cat->output_is_open = true;
    if (!isatty(cat->output.file))
        cat->progress = progress_begin(&cat->card, cat->path);
    return true;
}

/* Whether a block of the last run is a hole. A run doesn't tell, but a hole is zeros. */
static bool is_hole(const struct cat *cat, uint32_t i)
{
    static const uint8_t zeros[BLOCK_SIZE];
    uint8_t block[BLOCK_SIZE];
    struct lists lists;
    if (memcmp(cat->room.bytes + (size_t)i * BLOCK_SIZE, zeros, BLOCK_SIZE) != 0)
        return false;
    return card_pull(&cat->card, cat->path, cat->path_len, cat->blocks + i, block, &lists).answer == HARPTIMBER_HOLE;
}

/* Writes the blocks of a run, a piece at a time. */
static bool write_run(struct cat *cat, const struct harptimber_run *run)
{
    for (uint32_t i = 0; cat->request->json && i < run->count; i++)
        cat->holes += is_hole(cat, i);
    for (uint32_t done = 0, count; done < run->count; done += count) {
        count = run->count - done < PIECE ? run->count - done : PIECE;
        size_t len = (size_t)count * BLOCK_SIZE;
        if (done + count == run->count)
            len -= BLOCK_SIZE - run->byte_count;
        if (!output_write(&cat->output, cat->room.bytes + (size_t)done * BLOCK_SIZE, len))
            return false;
        cat->blocks += count;
        cat->bytes += len;
        if (count == PIECE)
            progress_show(&cat->progress, cat->blocks);
    }
    return true;
}

/* Pulls run after run until the end or a refusal. Returns false if something couldn't be written. */
static bool copy(struct cat *cat)
{
    do {
        struct harptimber_run run = card_pull_run(&cat->card, cat->path, cat->path_len, cat->blocks, &cat->room);
        cat->answer = run.answer;
        /* An empty file that was read is written too: it empties the output. */
        bool nothing = run.count == 0 && run.answer != HARPTIMBER_PAST_END;
        if (!nothing && !cat->output_is_open && !open_output(cat))
            return false;
        if (!write_run(cat, &run))
            return false;
    } while (cat->answer == HARPTIMBER_DATA);
    return true;
}

/* Whether there is something for whoever reads the output: of a file, all or nothing. */
static bool has_written(const struct cat *cat)
{
    return cat->output_is_open && (cat->answer == HARPTIMBER_PAST_END || !cat->output.waits);
}

/* The last pull. */
static struct asked asked_by(const struct cat *cat)
{
    return pull_of(source_of_card(&cat->card), cat->path, cat->path_len, cat->blocks);
}

static void show_words(const struct cat *cat)
{
    if (cat->answer == HARPTIMBER_PAST_END)
        return;
    show_subject(stderr, cat->card.path);
    show(stderr, cat->path);
    fprintf(stderr, ", block %" PRIu32 ": ", cat->blocks);
    struct asked asked = asked_by(cat);
    show_asked(stderr, cat->answer, harptimber_answer_words(cat->answer), &asked);
    fputs("; ", stderr);
    if (!has_written(cat)) {
        fputs("nothing was written\n", stderr);
        return;
    }
    show_count(stderr, cat->bytes, "byte");
    fprintf(stderr, " %s written\n", cat->bytes == 1 ? "was" : "were");
}

static void show_json(const struct cat *cat)
{
    bool whole = cat->answer == HARPTIMBER_PAST_END;
    uint32_t answer = whole ? HARPTIMBER_DATA : cat->answer;
    FILE *out = output_beside(cat->request->output);
    struct asked asked = asked_by(cat);
    struct json json = json_begin(out, "cat", answer, harptimber_answer_words(answer));
    json_asked(&json, answer, &asked);
    json_string(&json, "image", cat->card.path);
    json_name(&json, cat->path);
    json_string(&json, "output", cat->request->output);
    bool written = has_written(cat);
    json_number(&json, "bytes", written ? cat->bytes : 0);
    json_number(&json, "blocks", written ? cat->blocks : 0);
    json_number(&json, "holes", written ? cat->holes : 0);
    if (!whole)
        json_number(&json, "index", cat->blocks);
    json_end(&json);
}

/* Ends the output, which is whole if the file was read to its end. Returns false if there is no more to say. */
static bool end_output(struct cat *cat, bool written)
{
    bool settled = written && card_is_settled(&cat->card);
    if (settled && cat->output_is_open && cat->answer == HARPTIMBER_PAST_END)
        return output_close(&cat->output);
    if (cat->output_is_open)
        output_drop(&cat->output);
    return settled;
}

static enum status cat_and_tell(struct cat *cat)
{
    bool written = copy(cat);
    progress_end(&cat->progress);
    if (!end_output(cat, written))
        return REFUSED;
    (cat->request->json ? show_json : show_words)(cat);
    return cat->answer == HARPTIMBER_PAST_END ? DONE : REFUSED;
}

enum status run_cat(const struct request *request)
{
    if (request->json && request->output == NULL) {
        complain("cat", "--json needs -o FILE");
        return misused();
    }
    static struct cat cat; /* large, so not on the stack */
    cat.request = request;
    cat.path = request->words[1];
    cat.path_len = strlen(cat.path);
    enum status status = card_open(&cat.card, request, request->words[0]);
    if (status != DONE)
        return status;
    status = cat_and_tell(&cat);
    card_close(&cat.card);
    return status;
}
