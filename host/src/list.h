/* A list of numbers that a pull left: alone, or each before what a keep file has of it. */
#ifndef LIST_H
#define LIST_H

#include <stdbool.h>

#include "harptimber.h"

struct list {
    const uint8_t *bytes;
    size_t stride; /* from one number to the next */
    uint32_t count;
};

/* What starts with number `i`, counted from 0. */
static inline const uint8_t *list_item(const struct list *list, uint32_t i)
{
    return list->bytes + list->stride * i;
}

static inline uint32_t list_number(const struct list *list, uint32_t i)
{
    return harptimber_list_entry(list_item(list, i), 0);
}

/* Whether two lists have the same numbers, whatever else stands between them. */
static inline bool lists_agree(const struct list *one, const struct list *other)
{
    uint32_t i = 0;
    while (i < one->count && i < other->count && list_number(one, i) == list_number(other, i))
        i++;
    return i == one->count && i == other->count;
}

#endif
