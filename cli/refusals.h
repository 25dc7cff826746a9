/*
 * refusals.h - the library's refusals in words.
 */
#ifndef REFUSALS_H
#define REFUSALS_H

#include "board.h"

/* The refusal of this answer as one line on standard error: the file, number, place, and when it is given. */
void complain_refusal(const char *name, uint64_t answer);

/* A refused board's refusal at length: the cells and nets that it is about, and what to do. */
void print_refusal(FILE *out, const struct board *board);

#endif
