// The calls of plain C on books, which the library's shortcuts shorten: a second baseline. The calls on charts have none, and are plain.h's.
#ifndef LEAN_H
#define LEAN_H

#include "plain.h"

struct answer lean_check(const uint8_t *image, size_t length, uint32_t stage, uint32_t *room, size_t count);
struct settled lean_complete(const uint8_t *image, size_t length, const uint32_t *order, size_t count, struct snapshot snapshot,
                             uint32_t stage);
struct answer lean_build_index(const uint8_t *image, size_t length, uint8_t *room, size_t bytes);
struct indexed lean_complete_indexed(const uint8_t *image, size_t length, const uint8_t *index, size_t bytes, struct snapshot snapshot,
                                     uint32_t stage);
struct listed lean_complete_list(const uint8_t *image, size_t length, const uint8_t *index, size_t bytes, struct snapshot snapshot,
                                const uint32_t *stages, size_t count);

#endif
