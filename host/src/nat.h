/*
 * The node address table with its journal, read in C for what is said to people. The library looks numbers up, but only in a card
 * that is mapped.
 */
#ifndef NAT_H
#define NAT_H

#include "card.h"

/* An entry of the journal: a node's number, then what the table would have for it. */
enum { NAT_JOURNAL_BYTES = 13, NAT_JOURNAL_MOST = 38 };

const uint8_t *nat_journal_entry(const uint8_t *journal, uint32_t i);

/* What harptimber_node_lookup should answer, by the rules as they are read here. */
struct harptimber_entry nat_lookup(const struct card *card, uint32_t number);

#endif
