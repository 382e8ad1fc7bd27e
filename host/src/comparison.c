#include "compare.h"

#include <stdlib.h>

#include "text.h"

bool is_changed(const struct run *run)
{
    return run->verdict.answer == HARPTIMBER_CHANGED;
}

uint64_t held_bytes(const struct holding *holding)
{
    return holding->inode == NULL ? 0 : disk_inode_of(holding->inode).size;
}

uint32_t compared_blocks(const struct comparison *c)
{
    return c->counts[SAME] + c->counts[SAME_BYTES] + c->counts[DIFFERENT];
}

bool is_on_neither(const struct comparison *c)
{
    return c->had.answer == HARPTIMBER_NO_NAME && c->has.answer == HARPTIMBER_NO_NAME;
}

void comparison_refuse(struct comparison *c, uint32_t answer, uint32_t side)
{
    c->refused = true;
    c->refusal = answer;
    c->side = side;
}

void comparison_fail(const struct comparison *c)
{
    complain(c->command, "out of memory");
    exit(REFUSED);
}

void comparison_free(struct comparison *c)
{
    free(c->runs);
    free(c->grounds);
}

struct holding held_by(const struct card *card, const char *path, size_t path_len)
{
    uint8_t block[BLOCK_SIZE];
    struct lists lists;
    uint32_t answer = card_pull(card, path, path_len, UINT32_MAX, block, &lists).answer;
    return (struct holding){answer, walk_inode(source_of_card(card), path, path_len, answer)};
}

/* Room for one thing more behind so many. */
static void *grow(const struct comparison *c, void *things, size_t count, size_t size)
{
    if ((count & (count - 1)) != 0) /* there is room up to the next power of two */
        return things;
    things = reallocarray(things, count == 0 ? 1 : 2 * count, size);
    if (things == NULL)
        comparison_fail(c);
    return things;
}

/* Which ground has this kind and number; as many as there are if none has. */
static size_t ground_with(const struct comparison *c, uint32_t kind, uint32_t number)
{
    size_t i = c->ground_count;
    while (i-- > 0)
        if (c->grounds[i].kind == kind && c->grounds[i].number == number)
            return i;
    return c->ground_count;
}

/* Which ground it is that changed under a block; a new one is added. All data of the file is one ground. */
static size_t find_ground(struct comparison *c, uint32_t index, const struct harptimber_compared *verdict)
{
    struct ground ground = {.kind = verdict->kind, .number = verdict->number};
    size_t i = ground_with(c, ground.kind, ground.number);
    if (i == c->ground_count) {
        struct role role = walk_role(c->kept, c->path, c->path_len, index, verdict);
        bool is_contents = role.is_met && role.owner.is_file && role.node == 0;
        ground.role = role;
        ground.number = ground.kind == HARPTIMBER_BLOCK_DIFFERS && is_contents ? 0 : ground.number;
        i = ground_with(c, ground.kind, ground.number);
    }
    if (i != c->ground_count)
        return i;
    c->grounds = grow(c, c->grounds, c->ground_count, sizeof *c->grounds);
    c->grounds[c->ground_count] = ground;
    return c->ground_count++;
}

/* Where blocks that were pulled differ. Bytes behind a block's count are zeros, and not the file's. */
static void find_byte(struct run *run, const struct finding *found, const uint8_t *now, uint32_t now_count)
{
    uint32_t count = found->pulled.byte_count, at = 0;
    while (at < count && at < now_count && found->block[at] == now[at])
        at++;
    run->fate = at == count && at == now_count ? SAME_BYTES : DIFFERENT;
    run->at = at;
    run->before = at < count ? found->block[at] : NO_BYTE;
    run->now = at < now_count ? now[at] : NO_BYTE;
}

/* What the new card has in the place of what changed. */
static void pull_again(struct comparison *c, const struct finding *found, struct run *run)
{
    uint8_t block[BLOCK_SIZE];
    struct lists lists;
    struct harptimber_pulled pulled = card_pull(c->new, c->path, c->path_len, run->first, block, &lists);
    bool there = is_block(pulled.answer);
    run->answer = there ? (uint32_t)HARPTIMBER_DATA : pulled.answer;
    run->fate = DIFFERENT;
    if (there && is_block(found->pulled.answer))
        find_byte(run, found, block, pulled.byte_count);
    run->ground = find_ground(c, run->first, &found->verdict);
}

static void add_run(struct comparison *c, const struct run *run)
{
    struct run *last = c->run_count == 0 ? NULL : &c->runs[c->run_count - 1];
    c->counts[run->fate]++;
    if (last != NULL && last->fate == run->fate && last->answer == run->answer && last->ground == run->ground) {
        last->last = run->last;
        return;
    }
    c->runs = grow(c, c->runs, c->run_count, sizeof *c->runs);
    c->runs[c->run_count++] = *run;
}

void comparison_add(struct comparison *c, uint32_t index, const struct finding *found)
{
    struct run run = {.first = index, .last = index, .fate = SAME, .verdict = found->verdict};
    c->last_answer = found->pulled.answer;
    if (is_changed(&run))
        pull_again(c, found, &run);
    if (is_block(c->last_answer))
        add_run(c, &run);
    else
        c->end = run;
}

uint32_t compare_answer(const struct comparison *c)
{
    bool behind_last = c->whole && c->last_answer == HARPTIMBER_PAST_END;
    if (c->refused)
        return c->refusal;
    if (is_on_neither(c))
        return HARPTIMBER_NO_NAME;
    if (c->counts[SAME] != compared_blocks(c) || is_changed(&c->end))
        return HARPTIMBER_CHANGED;
    return is_block(c->last_answer) || behind_last ? HARPTIMBER_SAME : c->last_answer;
}

enum status compare_status(const struct comparison *c)
{
    uint32_t answer = compare_answer(c);
    if (!c->refused && is_on_neither(c))
        return NOT_FOUND;
    if (answer == HARPTIMBER_SAME)
        return DONE;
    return answer == HARPTIMBER_CHANGED ? CHANGED : REFUSED;
}
