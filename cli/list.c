/*
 * list.c - list, groups and vector: the library's answers, printed.
 */
#include "board.h"
#include "commands.h"
#include "files.h"
#include "refusals.h"

#include <inttypes.h>

/* ---------------------------------------------------------------- list */

/* As the listing program prints it, so on standard output. */
static enum status list_refused(uint64_t answer)
{
    printf("refused %u %u\n", rigcandle_refusal(answer), rigcandle_place(answer));
    return REFUSED;
}

enum status run_list(const struct arguments *arguments)
{
    static struct board board;
    uint8_t row[RIGCANDLE_MOST_ROW];
    enum status read = read_board(arguments->operand[0], NULL, &board);
    if (read != FINE)
        return read;
    if (rigcandle_refusal(board.counted) != RIGCANDLE_ACCEPTED)
        return list_refused(board.counted);
    printf("vectors %u\n", board.vectors);
    for (unsigned number = 0; number < board.vectors; number++) {
        uint64_t answer = vector(board.file, board.length, number, row, sizeof row);
        if (rigcandle_refusal(answer) != RIGCANDLE_ACCEPTED)
            return list_refused(answer);
        printf("%u %u ", number, rigcandle_vector_group(answer));
        print_row(stdout, &board, row);
        putchar('\n');
    }
    return FINE;
}

/* ---------------------------------------------------------------- groups and vector */

/* The positions at which a row is 1, each behind a space. */
static void print_ones(const struct board *board, const uint8_t *row)
{
    for (unsigned position = 0; position < board->says.cells; position++)
        if (bit_at(row, position) != 0)
            printf(" %u", position);
}

enum status run_groups(const struct arguments *arguments)
{
    static struct board board;
    uint8_t rows[RIGCANDLE_MOST_GROUP_ROWS];
    enum status read = read_board(arguments->operand[0], NULL, &board);
    if (read != FINE)
        return read;
    uint64_t answer = groups(board.file, board.length, rows, sizeof rows);
    if (rigcandle_refusal(answer) != RIGCANDLE_ACCEPTED) {
        complain_refusal(board.name, answer);
        return REFUSED;
    }
    printf("groups %u\n", rigcandle_groups_g(answer));
    for (unsigned g = 0; g < rigcandle_groups_g(answer); g++) {
        const uint8_t *row = rows + g * board.row;
        printf("%u ", g + 1);
        print_row(stdout, &board, row);
        print_ones(&board, row);
        putchar('\n');
    }
    return FINE;
}

enum status run_vector(const struct arguments *arguments)
{
    static struct board board;
    uint8_t row[RIGCANDLE_MOST_ROW];
    unsigned long long number = 0;
    if (!read_number(arguments->operand[1], UINT64_MAX, &number))
        return USAGE;
    enum status read = read_board(arguments->operand[0], NULL, &board);
    if (read != FINE)
        return read;
    uint64_t answer = vector(board.file, board.length, number, row, sizeof row);
    if (rigcandle_refusal(answer) != RIGCANDLE_ACCEPTED) {
        complain_refusal(board.name, answer);
        return REFUSED;
    }
    printf("vector %llu\ngroup %u\nrow ", number, rigcandle_vector_group(answer));
    print_row(stdout, &board, row);
    printf("\nones");
    print_ones(&board, row);
    putchar('\n');
    return FINE;
}
