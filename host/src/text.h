/* Text for people: names and paths that may hold any byte, and messages. */
#ifndef TEXT_H
#define TEXT_H

#include <stdbool.h>
#include <stddef.h>
#include <stdint.h>
#include <stdio.h>

/* Reads the first character of a text that has at least one byte. Returns how many bytes it has, 0 if they aren't UTF-8. */
size_t utf8_read(const char *text, size_t text_len, uint32_t *character);

/* Whether a terminal would act on a character instead of showing it. */
bool is_control(uint32_t character);

/*
 * Prints a name or path: control characters, and bytes that aren't UTF-8, as \xNN, a backslash as two;
 * no bytes as ''. Returns how many bytes were printed.
 */
size_t show(FILE *out, const char *text);

/*
 * The same for a name or path on a card, which may have zero bytes. In a keep file that nobody kept it may have 4 GiB: behind
 * as many bytes as a path can have, only the number of the others is printed.
 */
void show_bytes(FILE *out, const char *text, size_t len);

/*
 * Prints a quantity as people write it: 4,096. Numbers that name something, a block, a node or an answer,
 * are printed as the commands take them. Returns how many bytes were printed.
 */
int show_number(FILE *out, uint64_t number);

/* The same as a text, for which there is room. */
enum { NUMBER_ROOM = 27 };
const char *number_text(char room[NUMBER_ROOM], uint64_t number);

/* The same with spaces before it, if it has fewer characters than `width`. */
void show_padded(FILE *out, uint64_t number, int width);

/* Prints a number of things: '1 block', '4,096 blocks'. */
void show_count(FILE *out, uint64_t count, const char *thing);

/* Prints a number of bytes in the greatest unit of which there is one: '64 MiB', '1.4 GiB', '1 byte'. */
void show_size(FILE *out, uint64_t bytes);

/* Prints 'harptimber: SUBJECT: ', with which each message begins. */
void show_subject(FILE *out, const char *subject);

/* Prints a message of one line on standard error. */
void complain(const char *subject, const char *format, ...) __attribute__((format(printf, 2, 3)));

#endif
