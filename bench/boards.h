/*
 * boards.h - the reference boards of the benchmark, made by themselves, in three orders of their cells, and captures of them.
 */
#ifndef BOARDS_H
#define BOARDS_H

#include "rigcandle.h"

enum { MOST_BOARDS = 40 };

struct cell {
    uint8_t kind;
    uint8_t on;
    uint16_t control;
    uint16_t net;
};

struct board {
    char name[16];
    unsigned size;    /* C */
    unsigned nets;    /* N */
    unsigned limit;   /* SSOL */
    unsigned refusal; /* the number it is refused with, or 0 */
    struct cell cell[RIGCANDLE_MOST_CELLS];
};

/* The orders in which a board's cells stand: as it is made, from the last to the first, or shuffled, the same way each time. */
enum order { AS_MADE, REVERSED, SHUFFLED, ORDERS };

/* Makes all boards, at most MOST_BOARDS, and answers how many there are. */
unsigned make_boards(struct board *boards);

/* The same board with its cells in this order. */
void put_in_order(const struct board *made, enum order order, struct board *b);

/* Writes the board file and answers its length. */
size_t write_file(const struct board *b, uint8_t *file);

/*
 * Writes a capture of a board with these G and p, and answers its length. In every vector each input cell reads the value of the net that
 * is `further` numbers after its own: its own with 0, which is a healthy board. All other cells read 0.
 */
size_t write_capture(const struct board *b, unsigned groups, unsigned patterns, unsigned further, uint8_t *capture);

/* Those of kind 2 and the open-drain cells, each of which is one of its own. */
unsigned control_cells(const struct board *b);

/* The nets that have an input cell. */
unsigned nets_seen(const struct board *b);

#endif
