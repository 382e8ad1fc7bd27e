/* Why a walk through a card stopped, in plain words. */
#ifndef REASON_H
#define REASON_H

#include <stdio.h>

#include "walk.h"

/* Prints why, where the walk went by this; nothing if there is nothing to add to the answer. */
void show_stop(FILE *out, const struct stop *stop, const struct source *source);

/* Prints whose a block or a further node is: 'the root directory', 'the directory roads/wet', 'the file'. */
void show_owner(FILE *out, const struct owner *owner);

/*
 * Prints whose inode one is: 'the root directory's inode', 'the inode of roads/wet', 'the file's inode'. Before it is read,
 * nobody knows what a name on the way leads to.
 */
void show_owners_inode(FILE *out, const struct owner *owner);

/* Prints where it lies: 'the main area is blocks 3074 to 3585'. */
void show_main_area(FILE *out, const struct source *source);

/* What a file's mode says that it is: 'directory', 'symbolic link'. */
const char *kind_of(uint16_t mode);

#endif
