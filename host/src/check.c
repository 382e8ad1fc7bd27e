/* check: which keep files still hold on a new card. */
#include <errno.h>
#include <stdlib.h>
#include <string.h>

#include "compare.h"
#include "pulled.h"
#include "text.h"
#include "words.h"

/* A keep file that was compared with the card. */
struct checked {
    const char *path;
    struct keep_file keep;
    const char *fault;            /* if it is one, but not as `keep` wrote it: how the card shows that; else null */
    struct comparison comparison; /* if it is one without fault */
};

/* All of them. One is open at a time, so that there may be any number. */
struct check {
    const struct request *request;
    struct card card;
    uint32_t told;      /* so many were, */
    enum status status; /* with this as their highest status, */
    uint32_t answer;    /* and this as the answer of the first one that has it */
    bool failed;        /* another couldn't be read */
    struct json json;   /* of each; it waits until the answer is known, which stands before it */
};

static bool is_keep_file(const struct checked *checked)
{
    return checked->keep.fields.answer == HARPTIMBER_DATA;
}

static bool is_compared(const struct checked *checked)
{
    return is_keep_file(checked) && checked->fault == NULL;
}

static uint32_t answer_of(const struct checked *checked)
{
    if (checked->fault != NULL)
        return HARPTIMBER_BAD_KEEP_FILE;
    return is_keep_file(checked) ? compare_answer(&checked->comparison) : checked->keep.fields.answer;
}

static enum status status_of(const struct checked *checked)
{
    return is_compared(checked) ? compare_status(&checked->comparison) : REFUSED;
}

/* What the kept card had under the path: a walk past the end needs no more than any pull that comes to the inode. */
static struct holding held_then(const struct pulled *kept)
{
    struct stop stop = walk_pull(kept->source, kept->path, kept->path_len, UINT32_MAX);
    bool was_there = stop.answer == HARPTIMBER_PAST_END || is_block(kept->gave.answer);
    uint32_t answer = was_there ? (uint32_t)HARPTIMBER_PAST_END : kept->gave.answer;
    return (struct holding){answer, walk_inode(kept->source, kept->path, kept->path_len, answer)};
}

/* Whether a pull on the card gives all that the file keeps. */
static bool gives_again(const struct card *card, const struct pulled *kept)
{
    uint8_t block[BLOCK_SIZE] = {0}; /* a pull without data leaves zeros, which the file has then too */
    struct lists lists;
    struct pulled now = pulled_from(card, kept->path, kept->path_len, kept->index, block, &lists);
    return now.gave.answer == kept->gave.answer && now.gave.byte_count == kept->gave.byte_count &&
           memcmp(block, kept->block, BLOCK_SIZE) == 0 && lists_agree(&now.nodes, &kept->nodes) &&
           lists_agree(&now.blocks, &kept->blocks);
}

/* Whether `keep` writes a file with this answer: it does for each that comes behind opening. */
static bool is_kept(uint32_t answer)
{
    return answer <= HARPTIMBER_MALFORMED_SLOT && !is_before_walk(answer);
}

/*
 * Why a file can't be as `keep` wrote it; null if it can. The library compares only what is listed. If that is the same, so is
 * the pull, by proof, and any difference is the file's. If it changed, the pull may differ, and what can be told are an answer
 * and a path that are never kept: the card opens, so that an answer before the walk is about the path.
 */
static const char *find_fault(const struct comparison *c, const struct pulled *kept, uint32_t verdict)
{
    if (verdict == HARPTIMBER_SAME && !gives_again(c->new, kept))
        return "what it keeps isn't what the card gives: the keep file was changed after it was written";
    if (!is_kept(kept->gave.answer) || is_before_walk(c->has.answer))
        return "no pull is kept with such a path or answer: the keep file was changed after it was written";
    return NULL;
}

/* Asks the library whether a keep file still holds. The comparison needs the file's bytes as long as it is there. */
static void compare_kept(struct checked *checked, const struct card *card)
{
    const struct keep_file *keep = &checked->keep;
    struct pulled kept = pulled_kept(keep);
    struct comparison *c = &checked->comparison;
    *c = (struct comparison){
        .command = "check", .path = kept.path, .path_len = kept.path_len, .kept = kept.source, .new = card};
    struct finding found = {.pulled = kept.gave, .block = kept.block};
    found.pulled.byte_count = pulled_len(&kept);
    found.verdict = harptimber_keep_compare(keep->bytes, keep->len, card->bytes, card->len);
    uint32_t answer = found.verdict.answer;
    if (answer != HARPTIMBER_SAME && answer != HARPTIMBER_CHANGED) {
        comparison_refuse(c, answer, HARPTIMBER_FRESH);
        return;
    }
    c->had = held_then(&kept);
    c->has = held_by(card, c->path, c->path_len);
    checked->fault = find_fault(c, &kept, answer);
    if (checked->fault == NULL)
        comparison_add(c, kept.index, &found);
}

/* A card that doesn't open is told by its own name, and not by that of a file that was to be checked. */
static void show_words(const struct checked *checked)
{
    struct asked asked = reading_of(&checked->keep);
    uint32_t answer = answer_of(checked);
    if (!checked->comparison.refused) {
        show(stdout, checked->path);
        printf(": ");
    }
    if (is_compared(checked)) {
        compare_words(&checked->comparison, true);
        return;
    }
    if (checked->fault != NULL)
        show_with_reason(stdout, answer, harptimber_answer_words(answer), checked->fault);
    else
        show_asked(stdout, answer, harptimber_answer_words(answer), &asked);
    printf("\n");
}

static void json_refusal(struct json *json, const struct checked *checked)
{
    struct asked asked = reading_of(&checked->keep);
    if (checked->fault != NULL)
        json_string(json, "reason", checked->fault);
    else
        json_asked(json, answer_of(checked), &asked);
    json_number(json, "status", status_of(checked));
    json_string(json, "verdict", "refused");
}

/* The members of a single file's object, or an object in the list of several. */
static void add_json(struct json *json, const struct checked *checked, bool several)
{
    if (several) {
        json_open(json, NULL, '{');
        json_answer(json, answer_of(checked), harptimber_answer_words(answer_of(checked)));
    }
    json_string(json, "file", checked->path);
    if (is_compared(checked))
        json_comparison(json, &checked->comparison);
    else
        json_refusal(json, checked);
    if (several)
        json_close(json, '}');
}

static bool has_several(const struct check *check)
{
    return check->request->word_count > 2;
}

static void tell(struct check *check, const struct checked *checked)
{
    if (check->told++ == 0 || status_of(checked) > check->status) {
        check->status = status_of(checked);
        check->answer = answer_of(checked);
    }
    if (check->request->json)
        add_json(&check->json, checked, has_several(check));
    else if (!check->request->quiet)
        show_words(checked);
}

/* Looks at a keep file that is mapped. Returns whether the card can be asked of others. */
static bool check_mapped(struct check *check, const struct mapping *file)
{
    struct checked checked = {.path = file->path, .keep = keep_file_of(file->bytes, file->len)};
    if (is_keep_file(&checked))
        compare_kept(&checked, &check->card);
    bool file_stands = mapping_is_settled(file), card_stands = card_is_settled(&check->card);
    if (file_stands && card_stands)
        tell(check, &checked);
    else
        check->failed = true;
    comparison_free(&checked.comparison);
    return card_stands && !checked.comparison.refused;
}

/* A file that can't be read keeps none of the others from being checked. */
static void check_files(struct check *check)
{
    bool opens = true;
    for (int i = 0; i + 1 < check->request->word_count && opens; i++) {
        struct mapping file;
        if (!mapping_open(&file, check->request->words[i], "is the keep file itself")) {
            check->failed = true;
            continue;
        }
        opens = check_mapped(check, &file);
        mapping_close(&file);
    }
}

/* The answer to several is that of the first one with the highest status. */
static void print_json(const struct check *check, const char *members)
{
    struct json json = json_begin(stdout, "check", check->answer, harptimber_answer_words(check->answer));
    json_string(&json, "new", check->card.path);
    json_part(&json, members);
    json_end(&json);
}

/* There is no object if a file couldn't be read. Returns false if there is no memory for it. */
static bool check_for_json(struct check *check)
{
    char *members = NULL;
    size_t len;
    check->json.out = open_memstream(&members, &len);
    if (check->json.out == NULL)
        return false;
    if (has_several(check))
        json_open(&check->json, "files", '[');
    check_files(check);
    if (has_several(check))
        json_close(&check->json, ']');
    bool written = fclose(check->json.out) == 0;
    if (written && !check->failed)
        print_json(check, members);
    free(members);
    return written;
}

static enum status check_and_tell(struct check *check)
{
    if (!check->request->json) {
        check_files(check);
    } else if (!check_for_json(check)) {
        complain("check", "%s", strerror(ENOMEM));
        return REFUSED;
    }
    return check->failed && check->status < REFUSED ? REFUSED : check->status;
}

enum status run_check(const struct request *request)
{
    struct check check = {.request = request};
    if (request->quiet && request->json) {
        complain("check", "-q takes no --json with it");
        return misused();
    }
    enum status status = card_open(&check.card, request, request->words[request->word_count - 1]);
    if (status != DONE)
        return status;
    status = check_and_tell(&check);
    card_close(&check.card);
    return status;
}
