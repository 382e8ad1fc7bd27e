/* Bytes in hexadecimal, for a terminal. */
#ifndef HEX_H
#define HEX_H

#include <stddef.h>
#include <stdint.h>
#include <stdio.h>

/* Prints bytes as `hexdump -C` does: 16 a line, lines that repeat the one before as a '*'. */
void show_hex(FILE *out, const uint8_t *bytes, size_t len);

#endif
