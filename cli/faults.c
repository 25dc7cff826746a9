/*
 * faults.c - the capture of a board with faults, by the model that faults.h tells.
 */
#include "faults.h"
#include "rows.h"

#include <limits.h>
#include <string.h>

enum { UNDRIVEN = 2 };   /* in place of a 0 or 1: nothing drives it */

void no_faults(struct faults *faults)
{
    memset(faults, 0, sizeof *faults);
    memset(faults->stuck, FAULTLESS, sizeof faults->stuck);
    memset(faults->switched, FAULTLESS, sizeof faults->switched);
    memset(faults->open, FAULTLESS, sizeof faults->open);
    memset(faults->floats, FAULTLESS, sizeof faults->floats);
    faults->afloat = 1;
    faults->last = UINT_MAX;
}

/* ---------------------------------------------------------------- levels */

/* Whether a control cell has its outputs on. */
static bool is_on(const struct board *board, const struct faults *faults, const uint8_t *row, unsigned control)
{
    if (faults->switched[control] != FAULTLESS)
        return faults->switched[control] == 1;
    return bit_at(row, control) == board->says.cell[control].on;
}

/* What the output at a position gives its net: nothing where it is off, open, or lets go. */
static uint8_t given_by(const struct board *board, const struct faults *faults, const uint8_t *row, unsigned position)
{
    const struct cell *cell = &board->says.cell[position];
    uint8_t value = faults->stuck[position] != FAULTLESS ? faults->stuck[position] : (uint8_t)bit_at(row, position);
    bool off = cell->kind == THREE_STATE && !is_on(board, faults, row, cell->control);
    bool lets_go = cell->kind == OPEN_DRAIN && value == 1;
    return off || lets_go || faults->open[position] != FAULTLESS ? UNDRIVEN : value;
}

/* What two drivers give together: `winner` where they differ. */
static uint8_t together(uint8_t one, uint8_t other, uint8_t winner)
{
    if (one == other || other == UNDRIVEN)
        return one;
    return one == UNDRIVEN ? other : winner;
}

/* What its own outputs give to each net. */
static void drive_nets(const struct board *board, const struct faults *faults, const uint8_t *row, uint8_t *own)
{
    memset(own, UNDRIVEN, RIGCANDLE_MOST_NETS);
    for (unsigned c = 0; c < board->says.cells; c++)
        if (is_output(&board->says.cell[c])) {
            uint8_t *net = &own[board->says.cell[c].net];
            *net = together(*net, given_by(board, faults, row, c), faults->fight);
        }
}

/* What the nets of each bridge give together; number 0, those in none, means nothing. */
static void drive_bridges(const struct board *board, const struct faults *faults, const uint8_t *own, uint8_t *bridge)
{
    memset(bridge, UNDRIVEN, 1 + MOST_BRIDGES);
    for (unsigned net = 0; net < board->says.nets; net++) {
        unsigned b = faults->tied[net];
        bridge[b] = together(bridge[b], own[net], faults->bridge[b].value);
    }
    for (unsigned b = 1; b <= faults->bridges; b++) {
        unsigned winner = faults->bridge[b].winner;
        if (winner != NONE && own[winner] != UNDRIVEN)
            bridge[b] = own[winner];
    }
}

/* The nets that a resistor holds at 1 while nothing drives them: their own, or that of a net they are tied to. */
static void find_held(const struct board *board, const struct faults *faults, bool *held)
{
    bool bridge[1 + MOST_BRIDGES] = {false};
    memset(held, 0, RIGCANDLE_MOST_NETS * sizeof *held);
    for (unsigned c = 0; c < board->says.cells; c++) {
        const struct cell *cell = &board->says.cell[c];
        if (cell->kind == OPEN_DRAIN && !faults->bare[cell->net]) {
            held[cell->net] = true;
            bridge[faults->tied[cell->net]] = true;
        }
    }
    for (unsigned net = 0; net < board->says.nets; net++)
        held[net] = held[net] || (faults->tied[net] != 0 && bridge[faults->tied[net]]);
}

/* The level of a net that nothing drives or holds, and that last had this level. */
static uint8_t floating(const struct faults *faults, unsigned net, uint8_t last)
{
    if (faults->floats[net] != FAULTLESS)
        return faults->floats[net];
    return faults->afloat == KEEP ? last : faults->afloat;
}

/* The nets' levels in a vector, in place of those in the vector before. */
static void settle_levels(const struct board *board, const struct faults *faults, const uint8_t *row, uint8_t *level)
{
    uint8_t own[RIGCANDLE_MOST_NETS], bridge[1 + MOST_BRIDGES];
    bool held[RIGCANDLE_MOST_NETS];
    drive_nets(board, faults, row, own);
    drive_bridges(board, faults, own, bridge);
    find_held(board, faults, held);
    for (unsigned net = 0; net < board->says.nets; net++) {
        uint8_t driven = faults->tied[net] != 0 ? bridge[faults->tied[net]] : own[net];
        if (driven != UNDRIVEN)
            level[net] = driven;
        else
            level[net] = held[net] ? 1 : floating(faults, net, level[net]);
    }
}

/* ---------------------------------------------------------------- the capture */

/* Sets the input cells' bits in a row of zeros. */
static void read_inputs(const struct board *board, const struct faults *faults, const uint8_t *level, uint8_t *row)
{
    for (unsigned c = 0; c < board->says.cells; c++) {
        const struct cell *cell = &board->says.cell[c];
        if (cell->kind == INPUT && (faults->open[c] != FAULTLESS ? faults->open[c] : level[cell->net]) == 1)
            row[c / 8] |= (uint8_t)(1u << c % 8);
    }
}

void fill_capture(const struct board *board, const struct faults *faults, const uint8_t *rows, uint8_t *capture)
{
    static struct faults none;
    uint8_t level[RIGCANDLE_MOST_NETS];
    no_faults(&none);
    memset(level, 1, sizeof level);
    memset(capture, 0, board->vectors * board->row);
    for (unsigned number = 0; number < board->vectors; number++) {
        const struct faults *now = number >= faults->first && number <= faults->last ? faults : &none;
        settle_levels(board, now, row_of(board, rows, number), level);
        read_inputs(board, now, level, capture + number * board->row);
    }
}
