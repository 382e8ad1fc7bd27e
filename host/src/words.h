/* Answers in words. */
#ifndef WORDS_H
#define WORDS_H

#include <stdint.h>
#include <stdio.h>

#include "json.h"
#include "source.h"

/* What an answer number means for node and place, which read no file. */
const char *lookup_meaning_of(uint32_t answer);

/* What it means for info and segments, which are about a card as a whole, and for show, which is about a keep file. */
const char *whole_meaning_of(uint32_t answer);

/* A call of the library, as far as its words need it. */
struct asked {
    struct source source; /* the card; or the keep file that is read, or has what the pull gave; neither if there is none */
    const char *path;     /* a pull's, or the one name to hash; null if the call takes neither */
    size_t len;           /* its bytes */
    bool is_pull;
    uint32_t index;
};

/* A pull of a file's block. */
struct asked pull_of(struct source source, const char *path, size_t len, uint32_t index);

/* The reading of a keep file. */
struct asked reading_of(const struct keep_file *keep);

/* Whether two calls with this answer have one and the same reason. */
bool same_reason(uint32_t answer, const struct asked *one, const struct asked *other);

/* Prints 'MEANING (answer N)' and, unless it is null, ': ' and the reason. */
void show_with_reason(FILE *out, uint32_t answer, const char *meaning, const char *reason);

/* The same with the reason that a call has. */
void show_asked(FILE *out, uint32_t answer, const char *meaning, const struct asked *asked);

/* The same for a call with this card and this name, which are null if it takes none, that is no pull. */
void show_answer(FILE *out, uint32_t answer, const char *meaning, const struct card *card, const char *name);

/* Why such a call was answered so, in plain text; null if there is nothing to add. The caller frees it. */
char *reason_of(uint32_t answer, const struct card *card, const char *name);

/* The reason as a member of a JSON object: under some key; or as `reason`, and with answer 8 its `causes`. */
void json_asked_as(struct json *json, const char *key, uint32_t answer, const struct asked *asked);
void json_asked(struct json *json, uint32_t answer, const struct asked *asked);
void json_reason(struct json *json, uint32_t answer, const struct card *card, const char *name);

/* The causes by their names; no member if there is none. */
void json_causes(struct json *json, uint32_t causes);

/* Prints what the node address table says of a number. */
void show_entry(FILE *out, struct harptimber_entry entry);

/* Whether an image has as many bytes as a card may have. */
bool length_is_in_shape(const struct card *card);

#endif
