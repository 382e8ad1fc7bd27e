/* What a comparison found, in words. */
#include <inttypes.h>

#include "compare.h"
#include "difference.h"
#include "reason.h"
#include "text.h"
#include "words.h"

/* What a node is to the pull: 'the file's inode', 'the inode of roads', 'a node of the root directory'. */
static void show_node_role(FILE *out, const struct role *role)
{
    if (role->place == 0) {
        show_owners_inode(out, &role->owner);
    } else {
        fputs("a node of ", out);
        show_owner(out, &role->owner);
    }
}

static void show_table_difference(FILE *out, const struct comparison *c, const struct ground *ground)
{
    fprintf(out, "node %" PRIu32, ground->number);
    if (ground->role.is_met) {
        fputs(" (", out);
        show_node_role(out, &ground->role);
        fputc(')', out);
    }
    fputs(" has another table entry: ", out);
    show_entry(out, source_entry(&c->kept, ground->number));
    fputs(" before; ", out);
    show_entry(out, harptimber_node_lookup(c->new->bytes, c->new->len, ground->number));
    fputs(" now", out);
}

/* The main areas are alike where a block differs, so that it is in both images. What it is, is known if the walk came to it. */
static void show_block_difference(FILE *out, const struct comparison *c, const struct ground *ground)
{
    const uint8_t *before = source_block(&c->kept, ground->number), *now = disk_block(c->new, ground->number);
    const struct role *role = &ground->role;
    if (!role->is_met || before == NULL || now == NULL) {
        fprintf(out, "the card's block %" PRIu32 " changed", ground->number);
        return;
    }
    if (role->node == 0) {
        show_directory_entry(out, before, now);
        fputs(" in ", out);
        show_owner(out, &role->owner);
        fputs(" (", out);
    } else {
        show_node_fields(out, before, now);
        fputs(" changed in ", out);
        show_node_role(out, role);
        fprintf(out, " (node %" PRIu32 ", ", role->node);
    }
    fprintf(out, "the card's block %" PRIu32 ")", ground->number);
    if (role->node != 0)
        show_inline_entry(out, before, now);
}

void show_ground(FILE *out, const struct comparison *c, const struct run *run)
{
    const struct ground *ground = &c->grounds[run->ground];
    if (ground->kind == HARPTIMBER_NODE_DIFFERS)
        show_table_difference(out, c, ground);
    else if (ground->kind == HARPTIMBER_BOUNDS_DIFFER)
        fputs("the main area lies elsewhere", out);
    else if (ground->number == 0)
        fprintf(out, "the file's data changed%s", run->fate == DIFFERENT ? "" : ", but only behind its end");
    else
        show_block_difference(out, c, ground);
}

/* A pull of the path, on the kept card or on the new one. */
static struct asked pull_by(const struct comparison *c, struct source source, uint32_t index)
{
    return pull_of(source, c->path, c->path_len, index);
}

/* What a pull answers that gives no block; `where` are the cards that answer so. */
static void words_answer(const struct comparison *c, struct source source, const char *where, uint32_t index,
                         uint32_t answer)
{
    struct asked asked = pull_by(c, source, index);
    printf("on %s: ", where);
    show_asked(stdout, answer, harptimber_answer_words(answer), &asked);
}

static void words_kept(const struct comparison *c, uint32_t index, uint32_t answer)
{
    words_answer(c, c->kept, "the kept card", index, answer);
}

static void words_new(const struct comparison *c, uint32_t index, uint32_t answer)
{
    words_answer(c, source_of_card(c->new), "the new card", index, answer);
}

/* So much of a list is shown. */
enum { MOST_SHOWN = 10 };

/* Whether a line is about a run; `which` is the line's ground or answer. */
typedef bool is_told(const struct run *run, uint64_t which);

static bool has_other_bytes(const struct run *run, uint64_t which)
{
    (void)which;
    return run->fate == DIFFERENT && is_block(run->answer);
}

static bool has_no_block(const struct run *run, uint64_t answer)
{
    return run->fate == DIFFERENT && run->answer == answer;
}

static bool rests_on(const struct run *run, uint64_t ground)
{
    return is_changed(run) && run->ground == ground;
}

static bool has_same_bytes_on(const struct run *run, uint64_t ground)
{
    return run->fate == SAME_BYTES && run->ground == ground;
}

/* The next blocks in a row that a line is about, from run `i` on. Returns false behind the last. */
static bool next_blocks(const struct comparison *c, is_told *told, uint64_t which, size_t *i, uint32_t range[2])
{
    while (*i < c->run_count && !told(&c->runs[*i], which))
        ++*i;
    if (*i == c->run_count)
        return false;
    range[0] = c->runs[*i].first;
    do
        range[1] = c->runs[(*i)++].last;
    while (*i < c->run_count && told(&c->runs[*i], which));
    return true;
}

/* Begins a line with the blocks that it is about: '  blocks 3, 7 to 9: '. Returns the first run; null if there is none. */
static const struct run *words_blocks(const struct comparison *c, is_told *told, uint64_t which)
{
    const struct run *first = NULL;
    uint64_t blocks = 0, shown = 0;
    uint32_t range[2];
    for (size_t i = c->run_count; i-- > 0;)
        if (told(&c->runs[i], which)) {
            first = &c->runs[i];
            blocks += (uint64_t)first->last - first->first + 1;
        }
    if (first == NULL)
        return NULL;
    printf("  block%s", blocks == 1 ? "" : "s");
    size_t i = (size_t)(first - c->runs);
    for (int ranges = 0; ranges < MOST_SHOWN && next_blocks(c, told, which, &i, range); ranges++) {
        printf("%s %" PRIu32, ranges == 0 ? "" : ",", range[0]);
        if (range[0] != range[1])
            printf(" to %" PRIu32, range[1]);
        shown += (uint64_t)range[1] - range[0] + 1;
    }
    if (shown < blocks) {
        printf(" and ");
        show_number(stdout, blocks - shown);
        printf(" more");
    }
    printf(": ");
    return first;
}

/* A line for each thing that changed. Data is told with the bytes, but for what lies behind the file's end. */
static void words_grounds(const struct comparison *c)
{
    for (size_t i = 0; i < c->ground_count && i < MOST_SHOWN; i++) {
        bool own_data = c->grounds[i].kind == HARPTIMBER_BLOCK_DIFFERS && c->grounds[i].number == 0;
        const struct run *run = words_blocks(c, own_data ? has_same_bytes_on : rests_on, i);
        if (run != NULL) {
            show_ground(stdout, c, run);
            printf("\n");
        }
    }
    if (c->ground_count > MOST_SHOWN) {
        printf("  ");
        show_count(stdout, c->ground_count - MOST_SHOWN, "more change");
        printf("; --json has all\n");
    }
}

static void words_details(const struct comparison *c)
{
    if (is_on_neither(c))
        return;
    if (words_blocks(c, has_other_bytes, 0) != NULL)
        printf("other bytes\n");
    bool is_there = c->has.answer == HARPTIMBER_PAST_END; /* otherwise that was told */
    for (uint32_t answer = HARPTIMBER_PAST_END; answer <= HARPTIMBER_MALFORMED_SLOT && is_there; answer++) {
        const struct run *run = words_blocks(c, has_no_block, answer);
        if (run != NULL) {
            words_new(c, run->first, answer);
            printf("\n");
        }
    }
    words_grounds(c);
    bool told = c->run_count != 0 && c->last_answer == HARPTIMBER_PAST_END;
    if (!is_changed(&c->end) || told)
        return;
    printf("  ");
    if (c->run_count != 0)
        printf("block %" PRIu32 ": ", c->end.first);
    show_ground(stdout, c, &c->end);
    printf("\n");
}

/* How many of the blocks: 'all 6 blocks', 'both blocks', '1 of 6 blocks', 'the first block'. */
static void words_part(const struct comparison *c, uint32_t part)
{
    uint32_t total = compared_blocks(c);
    bool all = c->last_answer == HARPTIMBER_PAST_END;
    if (part == total && total == 1) {
        printf("the %s block ", all ? "only" : "first");
        return;
    }
    if (part == total && total == 2 && all) {
        printf("both blocks ");
        return;
    }
    if (part < total) {
        show_number(stdout, part);
        printf(" of ");
    }
    printf(!all ? "the first " : part == total ? "all " : "");
    show_count(stdout, total, "block");
    printf(" ");
}

static void words_byte(int byte, const char *when)
{
    if (byte == NO_BYTE)
        printf("the end of the file %s", when);
    else
        printf("0x%02x %s", (unsigned)byte, when);
}

/* Where the first bytes differ, if both cards have any there. */
static void words_first_byte(const struct comparison *c)
{
    size_t i = 0;
    bool missing = false; /* a block before that isn't on the new card */
    for (; i < c->run_count && !has_other_bytes(&c->runs[i], 0); i++)
        missing = missing || c->runs[i].fate == DIFFERENT;
    if (i == c->run_count)
        return;
    printf(", %sfirst at byte %" PRIu64 " of the file (", missing ? "among those on both cards " : "",
           (uint64_t)c->runs[i].first * BLOCK_SIZE + c->runs[i].at);
    words_byte(c->runs[i].before, "before, ");
    words_byte(c->runs[i].now, "now)");
}

/* How many blocks there are of each fate, what is worse first. */
static void words_counts(const struct comparison *c)
{
    static const char *const verbs[FATES][2] = {
        [DIFFERENT] = {"differ", "differs"},
        [SAME_BYTES] = {"have the same bytes but rest on something that changed",
                        "has the same bytes but rests on something that changed"},
        [SAME] = {"are the same", "is the same"},
    };
    bool follows = false;
    for (int fate = FATES; fate-- > 0;) {
        uint32_t count = c->counts[fate];
        if (count == 0)
            continue;
        if (follows) {
            printf("; ");
            show_number(stdout, count);
            printf(" ");
        } else if (c->whole) {
            words_part(c, count);
        }
        printf("%s", verbs[fate][count == 1]);
        if (fate == DIFFERENT)
            words_first_byte(c);
        follows = true;
    }
}

/* What the kept card has no block for, and whether the new one has. Of a like answer the reason may be another. */
static void words_end(const struct comparison *c)
{
    if (!is_changed(&c->end)) {
        words_answer(c, c->kept, "both cards", c->end.first, c->last_answer);
        return;
    }
    words_kept(c, c->end.first, c->last_answer);
    printf("; ");
    if (c->end.answer == c->last_answer)
        printf("on the new card: answer %" PRIu32 " too, but that rests on something that changed", c->end.answer);
    else
        words_new(c, c->end.first, c->end.answer);
}

/* Of a file that is on both cards. */
static void words_both(const struct comparison *c)
{
    uint64_t before = held_bytes(&c->had), now = held_bytes(&c->has);
    bool resized = before != now && c->had.inode != NULL && c->has.inode != NULL;
    bool empty = c->whole && compared_blocks(c) == 0 && c->last_answer == HARPTIMBER_PAST_END;
    if (resized) {
        printf("%s%s from ", c->whole ? "" : "the file has ", now > before ? "grown" : "shrunk");
        show_number(stdout, before);
        printf(" to ");
        show_count(stdout, now, "byte");
        printf(empty ? "" : c->whole ? ": " : c->run_count == 0 ? "; " : "; the block ");
    } else if (empty) {
        printf("an empty file on both cards%s", is_changed(&c->end) ? ", but that rests on something that changed" : "");
    }
    words_counts(c);
    if (is_block(c->last_answer) || (c->whole && c->last_answer == HARPTIMBER_PAST_END))
        return;
    if (c->whole)
        printf("%sblock %" PRIu32 ": ", c->run_count == 0 ? "" : "; ", c->end.first);
    words_end(c);
    if (c->whole)
        printf("; blocks behind it aren't compared");
}

/* Of a file that can be read on one card alone. */
static void words_one(const struct comparison *c, const char *what, const struct holding *there, uint32_t answer)
{
    bool kept = there == &c->had;
    printf("%s%s", c->whole ? "" : "the file is ", what);
    if (there->inode != NULL) {
        printf(": ");
        show_count(stdout, held_bytes(there), "byte");
        printf(" on the %s card", kept ? "kept" : "new");
    }
    printf("; ");
    (kept ? words_new : words_kept)(c, UINT32_MAX, answer);
}

/* Of a path that neither card has. On each another name may be the missing one. */
static void words_neither(const struct comparison *c)
{
    struct asked kept = pull_by(c, c->kept, 0), new = pull_by(c, source_of_card(c->new), 0);
    printf("on neither card");
    if (same_reason(HARPTIMBER_NO_NAME, &kept, &new)) {
        printf(": ");
        show_asked(stdout, HARPTIMBER_NO_NAME, harptimber_answer_words(HARPTIMBER_NO_NAME), &kept);
    } else {
        printf("; ");
        words_kept(c, 0, HARPTIMBER_NO_NAME);
        printf("; ");
        words_new(c, 0, HARPTIMBER_NO_NAME);
    }
}

static void words_not_both(const struct comparison *c)
{
    uint32_t had = c->had.answer, has = c->has.answer;
    if (is_on_neither(c)) {
        words_neither(c);
    } else if (had == HARPTIMBER_PAST_END) {
        words_one(c, has == HARPTIMBER_NO_NAME ? "gone" : "no longer readable", &c->had, has);
    } else if (has == HARPTIMBER_PAST_END) {
        words_one(c, had == HARPTIMBER_NO_NAME ? "new" : "readable now", &c->has, had);
    } else {
        words_end(c);
    }
}

/* A card that doesn't open, or a bad path. */
static void words_refusal(const struct comparison *c)
{
    const struct card *card = c->side == HARPTIMBER_FRESH ? c->new : c->kept.card;
    struct asked asked = pull_by(c, source_of_card(card), 0);
    show(stdout, c->side == NO_SIDE ? c->path : card->path);
    printf(": ");
    show_asked(stdout, c->refusal, harptimber_answer_words(c->refusal), &asked);
    printf("\n");
}

void compare_words(const struct comparison *c, bool details)
{
    if (c->refused) {
        words_refusal(c);
        return;
    }
    show_bytes(stdout, c->path, c->path_len);
    if (!c->whole)
        printf(", block %" PRIu32, c->run_count == 0 ? c->end.first : c->runs[0].first);
    printf(": ");
    bool both = c->had.answer == HARPTIMBER_PAST_END && c->has.answer == HARPTIMBER_PAST_END;
    (both ? words_both : words_not_both)(c);
    printf("\n");
    if (details)
        words_details(c);
}
