/* A path on a card: names parted by single slashes, from the root directory on. */
#ifndef PATH_H
#define PATH_H

#include <stdbool.h>
#include <stddef.h>
#include <stdio.h>

/* Where the next name starts behind a part of a path that has `len` bytes. */
size_t path_next(size_t len);

/* Where the name ends that starts at `at`. */
size_t path_name_end(const char *path, size_t len, size_t at);

/* Whether the library takes it for a single name. */
bool is_name(const char *name, size_t len);

/* Prints why a path is out of shape; nothing if it is in shape. */
void show_path_fault(FILE *out, const char *path, size_t len);

/* The same for a single name, as directory entries have it. */
void show_name_fault(FILE *out, const char *name, size_t len);

#endif
