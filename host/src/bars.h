/* A line of bars for a terminal: how full the segments of the main area are. */
#ifndef BARS_H
#define BARS_H

#include <stdio.h>

#include "sit.h"

/* Prints what the bars mean and, on a line of at most `width` columns, one bar for each segment or for so many in a row. */
void show_bars(FILE *out, const struct sit *sit, uint32_t width);

/* The columns of the terminal that a file is. */
uint32_t terminal_width(int file);

#endif
