#include "json.h"

#include <inttypes.h>
#include <string.h>

#include "text.h"

/* The comma that is due, and the key. */
static void lead(struct json *json, const char *key)
{
    if (json->follows)
        fputc(',', json->out);
    if (key != NULL)
        fprintf(json->out, "\"%s\":", key);
    json->follows = true;
}

struct json json_begin(FILE *out, const char *command, uint32_t answer, const char *meaning)
{
    struct json json = {.out = out};
    json_open(&json, NULL, '{');
    json_string(&json, "command", command);
    json_answer(&json, answer, meaning);
    return json;
}

void json_end(struct json *json)
{
    json_close(json, '}');
    fputc('\n', json->out);
}

void json_open(struct json *json, const char *key, char bracket)
{
    lead(json, key);
    fputc(bracket, json->out);
    json->follows = false;
}

void json_close(struct json *json, char bracket)
{
    fputc(bracket, json->out);
    json->follows = true;
}

void json_number(struct json *json, const char *key, uint64_t number)
{
    lead(json, key);
    fprintf(json->out, "%" PRIu64, number);
}

void json_null(struct json *json, const char *key)
{
    lead(json, key);
    fputs("null", json->out);
}

void json_flag(struct json *json, const char *key, bool flag)
{
    lead(json, key);
    fputs(flag ? "true" : "false", json->out);
}

/* Prints a text's first character, in UTF-8 whatever its bytes are, and returns how many it has. */
static size_t put_character(FILE *out, const char *text, size_t text_len)
{
    uint32_t character;
    size_t len = utf8_read(text, text_len, &character);
    if (len == 0) {
        fputs("\xEF\xBF\xBD", out);
        return 1;
    }
    if (is_control(character))
        fprintf(out, "\\u%04" PRIx32, character);
    else if (character == '"' || character == '\\')
        fprintf(out, "\\%c", *text);
    else
        fwrite(text, 1, len, out);
    return len;
}

static void put_string(struct json *json, const char *key, const char *text, size_t len)
{
    json_open(json, key, '"');
    for (size_t at = 0; at < len;)
        at += put_character(json->out, text + at, len - at);
    json_close(json, '"');
}

void json_string(struct json *json, const char *key, const char *text)
{
    put_string(json, key, text, strlen(text));
}

void json_answer(struct json *json, uint32_t answer, const char *meaning)
{
    json_number(json, "answer", answer);
    json_string(json, "meaning", meaning);
}

void json_name_bytes(struct json *json, const char *name, size_t len)
{
    put_string(json, "name", name, len);
    json_open(json, "name_hex", '"');
    for (size_t i = 0; i < len; i++)
        fprintf(json->out, "%02x", (unsigned)(uint8_t)name[i]);
    json_close(json, '"');
}

void json_name(struct json *json, const char *name)
{
    json_name_bytes(json, name, strlen(name));
}

void json_part(struct json *json, const char *members)
{
    lead(json, NULL);
    fputs(members, json->out);
}
