/*
 * rows.c - the rows of all vectors, as the library answers them.
 */
#include "rows.h"
#include "files.h"
#include "refusals.h"

#include <stdlib.h>

uint8_t *all_rows(const struct board *board)
{
    uint8_t *rows = room_for(board->vectors * board->row);
    for (unsigned number = 0; number < board->vectors; number++) {
        uint64_t answer = vector(board->file, board->length, number, rows + number * board->row, board->row);
        if (rigcandle_refusal(answer) != RIGCANDLE_ACCEPTED) {
            complain_refusal(board->name, answer);
            exit(REFUSED);
        }
    }
    return rows;
}

const uint8_t *row_of(const struct board *board, const uint8_t *rows, unsigned vector_number)
{
    return rows + vector_number * board->row;
}
