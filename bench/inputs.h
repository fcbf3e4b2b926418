// What the calls are timed on: chart images by size and kind, and large hand-made books.
#ifndef INPUTS_H
#define INPUTS_H

#include <stddef.h>
#include <stdint.h>

enum { CHART_BYTES = 100360, BOOK_BYTES = 2637856, ORDER_NUMBERS = 131840, INDEX_BYTES = 135006216 };

// A chart of n events below n groups, nested in two chains, with n times n relations, 16,384 at most: every event is a condition, a response
// and a milestone of every event, and includes or excludes it, which the groups' relations say alone. Every node names a role, event 1 role 1.
// Gives its length.
size_t full_chart(uint8_t *image, uint32_t n);

// The same without milestones, so that some events stay open however many are completed. Gives its length.
size_t list_chart(uint8_t *image, uint32_t n);

// A chart of n events, four to a group, with two or three relations to an event. Every node names a role, event 1 role 1. Gives its length.
size_t sparse_chart(uint8_t *image, uint32_t n);

// Damaged charts of 512 nodes, each with all flags below 256; each gives its length. The nodes lie on one loop of parents, and there are no
// relations;
size_t one_loop(uint8_t *image);

// on 256 loops of two;
size_t loops_of_two(uint8_t *image);

// or 256 events lie in a group each, and 16,384 relations name no node.
size_t bad_relations(uint8_t *image);

// Books of some rules, up to 131,840, that have the largest size in all else: 256 stages, 1,024 marks, 1,024 conditions and 655,616 words. Each
// gives its length.

// Every mark is set and cleared under a condition that names the 320 marks above it, and the rules of the lower marks come first, so that
// each has to wait.
size_t layered_book(uint8_t *book, uint32_t rules);

// All rules set and clear one mark, each on a completion and under the condition that all rules of its stage share: of no two opposed rules
// it shows but by comparing that they are apart, here by their stages, there by their senses.
size_t one_mark_book(uint8_t *book, uint32_t rules);

// All rules set and clear one mark, under one condition that all of them share.
size_t one_condition_book(uint8_t *book, uint32_t rules);

// As layered_book, and every rule on the completion of stage 1.
size_t one_stage_book(uint8_t *book, uint32_t rules);

// The same with conditions that name the next mark alone, so that the marks are settled one after another in one chain.
size_t one_chain_book(uint8_t *book, uint32_t rules);

// The worst book for the search for loops: every rule on a completion and with a condition, as many for each of the 256 stages. A stage's
// rules come in an order in which each has to wait for the next ones.
size_t staged_book(uint8_t *book, uint32_t rules);

#endif
