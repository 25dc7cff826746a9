/*
 * faults.h - the faults of a board, and the capture that a board with them would be read as: to qualify a bench before it judges
 * anything, and to find what a pass does not cover. Marks are the library's; nothing here has a say in one.
 *
 * The model, vector by vector:
 *
 *   Outputs   A three-state output is on where its control cell's bit in the row is that cell's on value, a two-state output always.
 *             It gives its bit in the row. An open-drain output gives a 0 where its bit is 0: it pulls; where its bit is 1 it lets go
 *             and gives nothing. Stuck, an output goes by one value instead of its bit, so that an open-drain output pulls for ever or
 *             never. Open, it no longer reaches its net. A control cell that is stuck on or off has all its outputs on, or none.
 *   Nets      A net has the value that its outputs give, where these agree; where they fight, a 0 or a 1 wins, as is said for the
 *             whole board. A net to which no output gives anything is not driven. One with an open-drain output is then held at 1 by
 *             its resistor, unless that is missing. Any other floats: to a 0, to a 1 or to the level it last had (1 before the first
 *             vector), as is said for the whole board; but a net with an open output to what is said of that output.
 *   Bridges   Tied nets have one level: of those that are driven the AND, the OR, or that of the one that wins; where that one is not
 *             driven, the AND of the others. Nets that nothing drives have no say, so that a resistor's 1 wins over no output. Where
 *             nothing drives any, the resistor of one holds them all; where none has one, each floats as it would.
 *   Inputs    An input cell reads its net's level. Open, it reads one value instead. All other bits of the capture are 0.
 *
 * Faults that come and go are there in some vectors, from a first to a last; in the others the board is healthy.
 */
#ifndef FAULTS_H
#define FAULTS_H

#include "board.h"

enum {
    FAULTLESS = 2,   /* in place of a 0 or 1: there is no such fault */
    KEEP = 3,        /* in place of a 0 or 1: the level it last had */
    MOST_BRIDGES = RIGCANDLE_MOST_NETS / 2
};

/* Nets that are tied. */
struct bridge {
    uint8_t value;      /* what wins where those that are driven differ */
    unsigned winner;    /* the net that wins over all where it is driven, or NONE */
};

struct faults {
    uint8_t stuck[RIGCANDLE_MOST_CELLS];      /* of an output: what it gives */
    uint8_t switched[RIGCANDLE_MOST_CELLS];   /* of a control cell: 1 stuck on, 0 stuck off */
    uint8_t open[RIGCANDLE_MOST_CELLS];       /* of an input: what it reads; of an output: what its net floats to */
    uint8_t floats[RIGCANDLE_MOST_NETS];      /* of a net with an open output: what it floats to */
    bool bare[RIGCANDLE_MOST_NETS];           /* of a net with an open-drain output: its resistor is missing */
    uint8_t tied[RIGCANDLE_MOST_NETS];        /* a net's bridge, from 1; 0 where it is in none */
    struct bridge bridge[1 + MOST_BRIDGES];
    unsigned bridges;
    uint8_t fight;                            /* the value that wins where outputs differ */
    uint8_t afloat;                           /* 0, 1 or KEEP: what a net reads that nothing drives */
    unsigned first, last;                     /* the vectors in which the faults are there */
};

/* A board's faults to begin with: none, in all vectors. */
void no_faults(struct faults *faults);

/* The rows that an accepted board with these faults is read as, for these rows of its vectors. */
void fill_capture(const struct board *board, const struct faults *faults, const uint8_t *rows, uint8_t *capture);

#endif
