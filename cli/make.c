/*
 * make.c - make and show: a board file from its text description, and back.
 */
#include "board.h"
#include "commands.h"
#include "files.h"
#include "refusals.h"
#include "text.h"

enum status run_make(const struct arguments *arguments)
{
    static struct description says;
    uint8_t file[RIGCANDLE_MOST_FILE];
    const char *text_name = arguments->operand[0], *board_name = arguments->operand[1];
    static struct bytes text;
    if (!read_whole(text_name, MOST_TEXT, &text))
        return UNUSABLE;
    if (!read_description(input_name(text_name), &text, &says))
        return USAGE;
    size_t length = encode_board(&says, file);
    if (!write_whole(board_name, file, length))
        return UNUSABLE;
    uint64_t answer = count(file, length);
    if (rigcandle_refusal(answer) == RIGCANDLE_ACCEPTED)
        return FINE;
    complain_refusal(output_name(board_name), answer);
    complain("it is written all the same: rigcandle check says more");
    return REFUSED;
}

enum status run_show(const struct arguments *arguments)
{
    static struct board board;
    enum status read = read_board(arguments->operand[0], given_value(arguments, "--names"), &board);
    if (read != FINE)
        return read;
    if (board.readable)
        write_description(stdout, &board);
    return refused(&board) ? REFUSED : FINE;
}
