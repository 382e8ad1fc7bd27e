/* ls: the names in a directory, or a single file, and what a pull of each answers. */
#include <inttypes.h>
#include <string.h>

#include "json.h"
#include "listing.h"
#include "path.h"
#include "reason.h"
#include "request.h"
#include "text.h"
#include "words.h"

/* What lies below the deepest directory is named too, though no pull takes its path. */
enum { PATH_ROOM = HARPTIMBER_PATH_BYTES_MOST + 1 + HARPTIMBER_NAME_BYTES_MOST + 1 };

/* What was asked for, and what it is. */
struct ls {
    const struct card *card;
    const char *path;  /* null for the root directory */
    uint32_t answer;   /* the library's, */
    bool is_found;     /* which says why there is nothing to list, if there isn't */
    bool is_directory; /* else a file: the listing has the walk to it, and no names */
    struct listing listing;
    char below[PATH_ROOM]; /* the path of a name in the directory */
};

/* What a line is about: a name as it is shown, the inode that it leads to, and the path to pull. */
struct row {
    const char *name;
    size_t len;
    uint32_t inode;
    const char *path;
    size_t path_len;
};

/* What is said of it: the library's answer to a pull of block 0. The inode's block is null if it can't be read. */
struct told {
    uint32_t answer;
    struct asked asked;
    const uint8_t *inode;
};

static size_t row_count(const struct ls *ls)
{
    return ls->is_directory ? ls->listing.count : 1;
}

/* A row stands until the next one is made. */
static struct row row_at(struct ls *ls, size_t i)
{
    size_t len = ls->path == NULL ? 0 : strlen(ls->path), at = path_next(len);
    if (!ls->is_directory)
        return (struct row){ls->path, len, walk_number(&ls->listing.walk), ls->path, len};
    const struct listed *listed = &ls->listing.names[i];
    if (len != 0) {
        memcpy(ls->below, ls->path, len);
        ls->below[len] = '/';
    }
    memcpy(ls->below + at, listed->name, listed->len);
    ls->below[at + listed->len] = '\0';
    return (struct row){listed->name, listed->len, listed->inode, ls->below, at + listed->len};
}

/* A damaged directory may have names with a slash, by which a pull would take another way. */
static bool is_no_name(const struct ls *ls, const struct row *row)
{
    return ls->is_directory && !is_name(row->name, row->len);
}

static struct told tell_of(struct ls *ls, const struct row *row)
{
    uint8_t block[BLOCK_SIZE];
    struct lists lists;
    struct told told = {.asked = pull_of(source_of_card(ls->card), row->path, row->path_len, 0)};
    told.inode = walk_node(&ls->listing.walk, row->inode, row->inode, 0);
    if (is_no_name(ls, row)) {
        told.answer = HARPTIMBER_OUT_OF_SHAPE;
        told.asked = (struct asked){.path = row->name, .len = row->len};
        return told;
    }
    told.answer = card_pull(ls->card, row->path, row->path_len, 0, block, &lists).answer;
    return told;
}

/* A line: the size, the name and the answer. */
static void words_row(struct ls *ls, size_t i)
{
    struct row row = row_at(ls, i);
    struct told told = tell_of(ls, &row);
    if (told.inode == NULL)
        printf("%14s", "?");
    else
        show_padded(stdout, disk_inode_of(told.inode).size, 14);
    printf("  ");
    show_bytes(stdout, row.name, row.len);
    printf(": ");
    show_asked(stdout, told.answer, harptimber_answer_words(told.answer), &told.asked);
    printf("\n");
}

/* The line before the names of a directory. */
static void words_head(const struct ls *ls)
{
    const struct listing *listing = &ls->listing;
    show(stdout, ls->card->path);
    printf(": ");
    show_count(stdout, listing->count, "name");
    printf(" in ");
    show_owner(stdout, &listing->walk.owner);
    printf("%s", listing_is_complete(listing) ? "" : ", perhaps not all");
    printf("%s\n", listing->count == 0 ? "" : "; size, name, and what a pull of block 0 answers");
}

static void show_words(struct ls *ls)
{
    const struct listing *listing = &ls->listing;
    if (ls->is_directory)
        words_head(ls);
    for (size_t i = 0; i < row_count(ls); i++)
        words_row(ls, i);
    for (size_t i = 0; i < listing->problem_count; i++)
        printf("names may be missing: %s\n", listing->problems[i]);
    if (listing->stopped)
        printf("names may be missing: the directory wasn't read further\n");
}

static void json_row(struct json *json, struct ls *ls, size_t i)
{
    struct row row = row_at(ls, i);
    struct told told = tell_of(ls, &row);
    json_open(json, NULL, '{');
    json_name_bytes(json, row.name, row.len);
    json_number(json, "inode", row.inode);
    if (told.inode != NULL) {
        json_string(json, "kind", kind_of(disk_inode_of(told.inode).mode));
        json_number(json, "size", disk_inode_of(told.inode).size);
    }
    json_answer(json, told.answer, harptimber_answer_words(told.answer));
    json_asked(json, told.answer, &told.asked);
    json_close(json, '}');
}

static void json_subject(struct json *json, const struct ls *ls)
{
    json_string(json, "image", ls->card->path);
    if (ls->path != NULL)
        json_name(json, ls->path);
}

static void show_json(struct ls *ls)
{
    const struct listing *listing = &ls->listing;
    struct json json = json_begin(stdout, "ls", HARPTIMBER_DATA, "can be read");
    json_subject(&json, ls);
    json_flag(&json, "complete", listing_is_complete(listing));
    json_open(&json, "names", '[');
    for (size_t i = 0; i < row_count(ls); i++)
        json_row(&json, ls, i);
    json_close(&json, ']');
    json_open(&json, "problems", '[');
    for (size_t i = 0; i < listing->problem_count; i++)
        json_string(&json, NULL, listing->problems[i]);
    json_close(&json, ']');
    json_end(&json);
}

/* What the answer is about, for its reason: a pull past the end, or without a path the card. */
static struct asked asked_by(const struct ls *ls)
{
    struct source source = source_of_card(ls->card);
    if (ls->path == NULL)
        return (struct asked){.source = source};
    return pull_of(source, ls->path, strlen(ls->path), UINT32_MAX);
}

static void json_refusal(struct ls *ls)
{
    struct asked asked = asked_by(ls);
    struct json json = json_begin(stdout, "ls", ls->answer, harptimber_answer_words(ls->answer));
    json_asked(&json, ls->answer, &asked);
    json_subject(&json, ls);
    json_end(&json);
}

/* A card that doesn't open, or a path that leads nowhere. */
static void words_refusal(struct ls *ls)
{
    struct asked asked = asked_by(ls);
    bool is_card = ls->path == NULL || !length_is_in_shape(ls->card) ||
                   (is_before_walk(ls->answer) && ls->answer != HARPTIMBER_OUT_OF_SHAPE);
    show(stdout, is_card ? ls->card->path : ls->path);
    printf(": ");
    show_asked(stdout, ls->answer, harptimber_answer_words(ls->answer), &asked);
    printf("\n");
}

/* The library's answer, to a pull past the end or without a path to a lookup. */
static uint32_t ask(const struct ls *ls)
{
    uint8_t block[BLOCK_SIZE];
    struct lists lists;
    if (ls->path == NULL)
        return card_opens(ls->card);
    return card_pull(ls->card, ls->path, strlen(ls->path), UINT32_MAX, block, &lists).answer;
}

/* Finds what there is to list. Returns false, with a message, if there is no memory for it. */
static bool find(struct ls *ls)
{
    struct walk walk = walk_begin(source_of_card(ls->card));
    ls->answer = ask(ls);
    ls->is_found = !is_before_walk(ls->answer) &&
                   (ls->path == NULL || walk_path(&walk, ls->path, strlen(ls->path)));
    if (!ls->is_found)
        return true;
    ls->listing.walk = walk;
    const uint8_t *inode = walk_node(&ls->listing.walk, walk_number(&walk), walk_number(&walk), 0);
    ls->is_directory = ls->path == NULL || (inode != NULL && disk_inode_of(inode).mode >> 12 == DISK_DIRECTORY);
    return !ls->is_directory || listing_read(&ls->listing, &walk);
}

static enum status list_and_tell(const struct request *request, struct ls *ls)
{
    if (!find(ls))
        return REFUSED;
    bool settled = card_is_settled(ls->card);
    if (settled && ls->is_found)
        (request->json ? show_json : show_words)(ls);
    else if (settled)
        (request->json ? json_refusal : words_refusal)(ls);
    bool complete = ls->is_found && listing_is_complete(&ls->listing);
    listing_free(&ls->listing);
    return settled && complete && card_is_settled(ls->card) ? DONE : REFUSED;
}

enum status run_ls(const struct request *request)
{
    struct card card;
    struct ls ls = {.card = &card, .path = request->word_count > 1 ? request->words[1] : NULL};
    enum status status = card_open(&card, request, request->words[0]);
    if (status != DONE)
        return status;
    status = list_and_tell(request, &ls);
    card_close(&card);
    return status;
}
