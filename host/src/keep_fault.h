/* Why some bytes are no keep file, by the library's rules in their order. */
#ifndef KEEP_FAULT_H
#define KEEP_FAULT_H

#include <stddef.h>
#include <stdint.h>
#include <stdio.h>

/* Prints the first thing that is wrong; nothing if there is none. */
void show_keep_fault(FILE *out, const uint8_t *bytes, size_t len);

#endif
