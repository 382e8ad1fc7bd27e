/* What is in a keep file, in words and as JSON. */
#ifndef KEPT_H
#define KEPT_H

#include <stdio.h>

#include "json.h"
#include "pulled.h"

/* What its pull gave, how long it is, and where the main area lies. */
void kept_words(FILE *out, const struct keep_file *keep);

/* The same, with the lists. */
void kept_json(struct json *json, const struct keep_file *keep);

#endif
