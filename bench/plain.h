/*
 * plain.h - the four questions of document 01, with request [1]'s second place and request [3]'s open-drain cells, in plain C, with the
 * signatures and the 64 bits of include/rigcandle.h: what the library is measured against. Not part of the product.
 */
#ifndef PLAIN_H
#define PLAIN_H

#include <stddef.h>
#include <stdint.h>

uint64_t plain_groups(const uint8_t *file, size_t file_len, uint8_t *out, size_t out_len);
uint64_t plain_count(const uint8_t *file, size_t file_len);
uint64_t plain_vector(const uint8_t *file, size_t file_len, uint64_t number, uint8_t *out, size_t out_len);
uint64_t plain_marks(const uint8_t *file, size_t file_len, const uint8_t *capture, size_t capture_len, uint8_t *out, size_t out_len);

#endif
