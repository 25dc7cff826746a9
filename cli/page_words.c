/*
 * page_words.c - the words of a board and a capture, a character for each vector: each net's own, what each input cell read, and of
 * which net that is the own word. Worked out once for all, since a board may have a million bits. None of it decides a mark.
 */
#include "page.h"
#include "files.h"
#include "rows.h"

#include <stdlib.h>
#include <string.h>

/* ---------------------------------------------------------------- made once */

/* What stands at a position in each row. */
static char *column(const struct board *board, const uint8_t *rows, unsigned position)
{
    char *word = room_for(board->vectors);
    for (unsigned number = 0; number < board->vectors; number++)
        word[number] = (char)('0' + bit_at(row_of(board, rows, number), position));
    return word;
}

/* A net's value is the AND of its outputs' bits: an open-drain output without the turn is loaded with 1, every other output with the
 * value. Each net has an output, or the library would have refused the board. */
static void take_output(const struct board *board, const uint8_t *rows, unsigned position, struct words *words)
{
    char **own = &words->own[board->says.cell[position].net];
    if (*own == NULL)
        *own = column(board, rows, position);
    for (unsigned number = 0; number < board->vectors; number++)
        if (bit_at(row_of(board, rows, number), position) == 0)
            (*own)[number] = '0';
}

static void take_columns(const struct board *board, const uint8_t *rows, const uint8_t *capture, struct words *words)
{
    for (unsigned position = 0; position < board->says.cells; position++) {
        const struct cell *cell = &board->says.cell[position];
        if (cell->kind == INPUT)
            words->read[position].word = column(board, capture, position);
        else if (is_output(cell))
            take_output(board, rows, position, words);
    }
}

/* From the last vector to the first, so that the first that differs stays. */
static void compare(const char *own, unsigned vectors, struct read_word *read)
{
    read->constant = true;
    for (unsigned number = vectors; number-- > 0;) {
        if (read->word[number] != own[number]) {
            read->differs++;
            read->first = number;
        }
        read->constant = read->constant && read->word[number] == read->word[0];
    }
}

/* The net whose own word this is: one or none, since no two nets have one word. */
static unsigned net_with_word(const struct board *board, const struct words *words, const char *word)
{
    for (unsigned net = 0; net < board->says.nets; net++)
        if (memcmp(words->own[net], word, board->vectors) == 0)
            return net;
    return NONE;
}

/* The lowest position that read this word, which was read somewhere. */
static unsigned first_with_word(const struct board *board, const struct words *words, const char *word)
{
    unsigned position = 0;
    while (words->read[position].word == NULL || memcmp(words->read[position].word, word, board->vectors) != 0)
        position++;
    return position;
}

const struct words *words_of(const struct board *board, const uint8_t *capture)
{
    static struct words words;
    uint8_t *rows = all_rows(board);
    take_columns(board, rows, capture, &words);
    free(rows);
    for (unsigned position = 0; position < board->says.cells; position++) {
        struct read_word *read = &words.read[position];
        if (read->word != NULL) {
            compare(words.own[board->says.cell[position].net], board->vectors, read);
            read->as = net_with_word(board, &words, read->word);
            read->same = first_with_word(board, &words, read->word);
        }
    }
    return &words;
}

/* ---------------------------------------------------------------- asked often */

bool reads_well(const struct page *page, unsigned of, unsigned position)
{
    return senses(&page->board->says.cell[position], of) && page->words->read[position].differs == 0;
}

bool misreads(const struct page *page, unsigned of, unsigned position)
{
    return senses(&page->board->says.cell[position], of) && page->words->read[position].differs != 0;
}

bool reads_from_outside(const struct page *page, unsigned of, unsigned position)
{
    const struct cell *cell = &page->board->says.cell[position];
    return cell->kind == INPUT && cell->net != of && page->words->read[position].as == of;
}

bool reads_alike(const struct page *page, unsigned of, unsigned position)
{
    const struct cell *cell = page->board->says.cell;
    const struct read_word *read = page->words->read;
    return cell[position].kind == INPUT && cell[position].net != cell[of].net && read[position].same == read[of].same;
}

unsigned next_position(const struct page *page, question *asked, unsigned of, unsigned from)
{
    while (from < page->board->says.cells && !asked(page, of, from))
        from++;
    return from;
}

unsigned how_many(const struct page *page, question *asked, unsigned of)
{
    unsigned number = 0;
    for (unsigned position = 0; position < page->board->says.cells; position++)
        number += asked(page, of, position);
    return number;
}

unsigned row_end(const struct page *page, unsigned from)
{
    return page->board->vectors - from < SHOWN ? page->board->vectors : from + SHOWN;
}
