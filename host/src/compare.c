/* compare: whether what was read from a kept card is still good on a new one. */
#include "compare.h"

#include <stdlib.h>
#include <string.h>

#include "progress.h"
#include "pulled.h"
#include "text.h"
#include "words.h"

/*
 * Asks the library whether what a pull or a run on the kept card left still holds on the new one. Returns false, with the reason in
 * the comparison, if a card doesn't open or the path is bad.
 */
static bool judge(struct comparison *c, uint32_t answer, struct list nodes, struct list blocks,
                  struct harptimber_compared *verdict)
{
    const struct card *kept = c->kept.card;
    if (is_before_walk(answer)) {
        bool bad_path = answer == HARPTIMBER_OUT_OF_SHAPE && length_is_in_shape(kept);
        comparison_refuse(c, answer, bad_path ? (uint32_t)NO_SIDE : HARPTIMBER_KEPT);
        return false;
    }
    *verdict = harptimber_compare(kept->bytes, kept->len, c->new->bytes, c->new->len, nodes.bytes, 4 * (size_t)nodes.count,
                                  nodes.count, blocks.bytes, 4 * (size_t)blocks.count, blocks.count);
    if (verdict->answer == HARPTIMBER_SAME || verdict->answer == HARPTIMBER_CHANGED)
        return true;
    comparison_refuse(c, verdict->answer, HARPTIMBER_FRESH); /* the kept card has just been read */
    return false;
}

/* How far a path has been compared. */
struct comparing {
    struct comparison *c;
    uint32_t index; /* of the next block */
    bool quiet;
    struct progress progress;
};

/*
 * Compares a block. Returns whether to go on behind it: for the exit status alone, what comes behind a change says nothing
 * more.
 */
static bool compare_block(struct comparing *comparing)
{
    struct comparison *c = comparing->c;
    uint8_t block[BLOCK_SIZE];
    struct lists lists;
    struct pulled pulled = pulled_from(c->kept.card, c->path, c->path_len, comparing->index, block, &lists);
    struct finding found = {.pulled = pulled.gave, .block = block};
    if (!judge(c, pulled.gave.answer, pulled.nodes, pulled.blocks, &found.verdict))
        return false;
    comparison_add(c, comparing->index, &found);
    if (!is_block(c->last_answer) || (comparing->quiet && compare_status(c) == CHANGED))
        return false;
    progress_show(&comparing->progress, ++comparing->index);
    return true;
}

/* Adds the blocks of a run that is the same, and what ended it. Returns whether to go on behind it. */
static bool add_same(struct comparing *comparing, const struct harptimber_run *run)
{
    struct finding found = {.pulled = {.answer = HARPTIMBER_DATA}, .verdict = {.answer = HARPTIMBER_SAME}};
    for (uint32_t i = 0; i < run->count; i++) {
        comparison_add(comparing->c, comparing->index, &found);
        progress_show(&comparing->progress, ++comparing->index);
    }
    found.pulled.answer = run->answer;
    if (run->answer != HARPTIMBER_DATA)
        comparison_add(comparing->c, comparing->index, &found);
    return run->answer == HARPTIMBER_DATA;
}

/* The same for a run of blocks. Where something changed, each block's own lists tell for which of them, and what. */
static bool compare_run(struct comparing *comparing)
{
    static struct run_room room; /* large, so not on the stack */
    struct comparison *c = comparing->c;
    struct harptimber_run run = card_pull_run(c->kept.card, c->path, c->path_len, comparing->index, &room);
    struct list nodes = {room.nodes, 4, run.node_count}, blocks = {room.blocks, 4, run.block_count};
    struct harptimber_compared verdict;
    if (!judge(c, run.answer, nodes, blocks, &verdict))
        return false;
    if (verdict.answer == HARPTIMBER_SAME)
        return add_same(comparing, &run);
    uint32_t i = 0;
    while (i < HARPTIMBER_RUN_MOST && compare_block(comparing))
        i++;
    return i == HARPTIMBER_RUN_MOST;
}

static void compare_path(struct comparison *c, uint32_t index, bool quiet)
{
    struct comparing comparing = {.c = c, .index = index, .quiet = quiet};
    c->had = held_by(c->kept.card, c->path, c->path_len);
    c->has = held_by(c->new, c->path, c->path_len);
    if (!c->whole) {
        compare_block(&comparing);
        return;
    }
    if (!quiet)
        comparing.progress = progress_begin(c->kept.card, c->path);
    while (compare_run(&comparing))
        ;
    progress_end(&comparing.progress);
}

/* With several paths, the highest of their statuses. Once a card is refused, other paths are no news. */
static enum status compare_paths(const struct request *request, struct comparison *all, size_t count, uint32_t index)
{
    enum status status = DONE;
    size_t done = 0;
    for (bool opened = true; done < count && opened; done++) {
        struct comparison *c = &all[done];
        compare_path(c, index, request->quiet);
        opened = !c->refused || c->side == NO_SIDE;
        status = compare_status(c) > status ? compare_status(c) : status;
    }
    if (!card_is_settled(all->kept.card) || !card_is_settled(all->new))
        return REFUSED;
    if (request->json)
        compare_json(all, done, count > 1);
    else if (!request->quiet)
        for (size_t i = 0; i < done; i++)
            compare_words(&all[i], count == 1 || request->verbose);
    return status;
}

static enum status compare_cards(const struct request *request, const struct card *kept, const struct card *new,
                                 uint32_t index)
{
    size_t count = (size_t)request->word_count - 2;
    struct comparison *all = calloc(count, sizeof *all);
    if (all == NULL) {
        complain("compare", "out of memory");
        return REFUSED;
    }
    for (size_t i = 0; i < count; i++) {
        const char *path = request->words[2 + i];
        all[i] = (struct comparison){.command = request->command,
                                     .path = path,
                                     .path_len = strlen(path),
                                     .whole = request->index == NULL,
                                     .kept = source_of_card(kept),
                                     .new = new};
    }
    enum status status = compare_paths(request, all, count, index);
    for (size_t i = 0; i < count; i++)
        comparison_free(&all[i]);
    free(all);
    return status;
}

/* A card is always the same as itself: a script that gives it twice has a wrong variable. */
static bool are_two(const struct card *kept, const struct card *new)
{
    if (!mapping_is_same(&kept->file, &new->file))
        return true;
    show_subject(stderr, "compare");
    fputs("KEPT and NEW are one and the same card, which is always the same as itself: ", stderr);
    show(stderr, kept->path);
    fputs(" and ", stderr);
    show(stderr, new->path);
    fputc('\n', stderr);
    misused();
    return false;
}

enum status run_compare(const struct request *request)
{
    struct card kept, new;
    uint32_t index = 0;
    if (request->index != NULL && !read_number(request->index, "--index", &index))
        return MISUSED;
    if (request->quiet && (request->json || request->verbose)) {
        complain("compare", "-q takes neither --json nor -v with it");
        return misused();
    }
    enum status status = card_open(&kept, request, request->words[0]);
    if (status != DONE)
        return status;
    status = card_open(&new, request, request->words[1]);
    if (status == DONE) {
        status = are_two(&kept, &new) ? compare_cards(request, &kept, &new, index) : MISUSED;
        card_close(&new);
    }
    card_close(&kept);
    return status;
}
