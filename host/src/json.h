/* One JSON object, on one line. A key is null inside a list. */
#ifndef JSON_H
#define JSON_H

#include <stdbool.h>
#include <stdint.h>
#include <stdio.h>

struct json {
    FILE *out;
    bool follows; /* something stands before, in the same object or list: a comma is due */
};

/* Begins the object with what every command has. */
struct json json_begin(FILE *out, const char *command, uint32_t answer, const char *meaning);

/* Ends the object and the line. */
void json_end(struct json *json);

/* Opens and closes an object, a list, or a string that is plain text, by its bracket or quote. */
void json_open(struct json *json, const char *key, char bracket);
void json_close(struct json *json, char bracket);

void json_number(struct json *json, const char *key, uint64_t number);
void json_null(struct json *json, const char *key);
void json_flag(struct json *json, const char *key, bool flag);
void json_string(struct json *json, const char *key, const char *text);

/* An answer and its meaning. */
void json_answer(struct json *json, uint32_t answer, const char *meaning);

/* A name, or a path, which has the same key: as text, and its exact bytes in hexadecimal. */
void json_name(struct json *json, const char *name);

/* The same for a name that may have zero bytes. */
void json_name_bytes(struct json *json, const char *name, size_t len);

/* Members that were put together before, at least one. */
void json_part(struct json *json, const char *members);

#endif
