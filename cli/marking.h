/*
 * marking.h - a board and a capture, read and marked by the library: what `marks` and `report` begin with.
 */
#ifndef MARKING_H
#define MARKING_H

#include "arguments.h"
#include "board.h"
#include "files.h"

enum { NO_MARK = 255 };

struct marking {
    struct bytes capture;
    const char *capture_name;
    uint64_t answer;                       /* of the library's marks, accepted */
    uint8_t mark[RIGCANDLE_MOST_NETS];
    bool release;                          /* by the header's release rule */
};

/* Reads the board and the capture that the operands name, and has the library mark them. FINE where both are there and accepted. */
enum status read_marking(const struct arguments *arguments, struct board *board, struct marking *marking);

/* A mark in words, as "unsure, read twice". */
const char *mark_words(unsigned mark);

#endif
