/*
 * text.h - the text description of a board, in and out. docs/FILE.md has the page about it.
 */
#ifndef TEXT_H
#define TEXT_H

#include "board.h"
#include "files.h"

enum { MOST_TEXT = 1 << 20 };

/* Reads a description. Each error is told on standard error with its line and what was expected; answers whether there was none.
 * The text is cut into words where it stands, and names point into it. */
bool read_description(const char *name, struct bytes *text, struct description *into);

/* Writes the description of a file that refusals 1 to 5 let pass. */
void write_description(FILE *out, const struct board *board);

#endif
