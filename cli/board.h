/*
 * board.h - a board file in memory: its bytes, what the library says of it, and for the words around an answer its numbers, cells and
 * names. Nothing here decides whether a board is right: that is the library's answer alone.
 */
#ifndef BOARD_H
#define BOARD_H

#include "rigcandle.h"
#include "status.h"

#include <stdbool.h>
#include <stdio.h>

/* The file's layout, as document 01 has it. */
enum {
    BODY = 508,              /* bytes of a block before its sums */
    RECORDS_A_BLOCK = 84,
    RECORD_SIZE = 6,
    RECORDS_FROM = 4,        /* where a block's records begin */
    NONE = 65535             /* no control cell, no net */
};

enum kind { INTERNAL = 0, INPUT = 1, CONTROL = 2, THREE_STATE = 3, TWO_STATE = 4, OPEN_DRAIN = 5 };

/* A record: its four numbers, whatever they are. */
struct cell {
    unsigned kind, on, control, net;
};

/* Where one has no name: NULL. */
struct names {
    const char *net[RIGCANDLE_MOST_NETS];
    const char *cell[RIGCANDLE_MOST_CELLS];
};

/* What a text description says, and what a file says that refusals 1 to 5 let pass. */
struct description {
    unsigned cells, nets, limit;
    struct cell cell[RIGCANDLE_MOST_CELLS];
    struct names names;
};

struct board {
    const char *name;        /* the file's name, for messages */
    uint8_t *file;
    size_t length;
    uint64_t counted;        /* what the library's count answers */
    bool readable;           /* refusals 1 to 5 let it pass: `says` is what it says */
    struct description says;
    size_t row;              /* R, the bytes of a row */
    unsigned vectors;        /* the total; 0 where the board is refused */
};

/* Reads a board file, asks the library to count its vectors, and takes the names of the description `names`, unless that is NULL.
 * Answers FINE also where the board is refused: `refused` tells. */
enum status read_board(const char *name, const char *names, struct board *board);

/* Whether the library refuses the board; the refusal is then told in a line on standard error. */
bool refused(const struct board *board);

/* The a or b of a block, computed over its first 508 bytes. */
struct sums {
    uint16_t a, b;
};
struct sums block_sums(const uint8_t *block);

/* The file of a description, in `file`, which has room for RIGCANDLE_MOST_FILE bytes; answers its length. */
size_t encode_board(const struct description *says, uint8_t *file);

/* 16 bits, the lower byte first. */
unsigned word_at(const uint8_t *bytes);

/* The bit of a row at a position. */
unsigned bit_at(const uint8_t *row, unsigned position);

/* Whether a cell is an output of this net, or an input of it. */
bool is_output(const struct cell *cell);
bool drives(const struct cell *cell, unsigned net);
bool senses(const struct cell *cell, unsigned net);

/* Whether a net has an open-drain output, and so a resistor that holds it at 1 while nothing drives it. */
bool is_open_drain_line(const struct board *board, unsigned net);

/* "net 3", or "net 3 DATA3" where it has a name; likewise for positions. */
void print_net(FILE *out, const struct board *board, unsigned net);
void print_position(FILE *out, const struct board *board, unsigned position);

/* The row's bytes in capital hex, byte 0 first. */
void print_row(FILE *out, const struct board *board, const uint8_t *row);

#endif
