/*
 * rows.h - all rows of a board's vectors, asked of the library one by one.
 */
#ifndef ROWS_H
#define ROWS_H

#include "board.h"

/* All rows of an accepted board, R bytes each, vector 0 first. */
uint8_t *all_rows(const struct board *board);

/* The row of a vector among these, or of a capture. */
const uint8_t *row_of(const struct board *board, const uint8_t *rows, unsigned vector_number);

#endif
