/*
 * marking.c - reads a board and a capture and has the library mark them. The buffer starts at a byte that is no mark, so that nothing
 * that was never written can be taken for a pass.
 */
#include "marking.h"
#include "refusals.h"

#include <string.h>

static enum status capture_refused(const struct board *board, const struct marking *marking)
{
    complain_refusal(marking->capture_name, marking->answer);
    if (rigcandle_refusal(marking->answer) == RIGCANDLE_CAPTURE_LENGTH)
        complain("%s has %s%zu bytes; %u vectors of %zu bytes are %zu", marking->capture_name,
                 marking->capture.length > RIGCANDLE_MOST_CAPTURE ? "at least " : "", marking->capture.length, board->vectors,
                 board->row, board->vectors * board->row);
    complain("nothing was tested: the scan was cut short, or the capture belongs to another board file");
    return REFUSED;
}

enum status read_marking(const struct arguments *arguments, struct board *board, struct marking *marking)
{
    enum status read = read_board(arguments->operand[0], given_value(arguments, "--names"), board);
    if (read != FINE)
        return read;
    marking->capture_name = input_name(arguments->operand[1]);
    if (!read_whole(arguments->operand[1], RIGCANDLE_MOST_CAPTURE, &marking->capture))
        return UNUSABLE;
    if (refused(board)) {
        complain("nothing was tested; rigcandle check says more of the board");
        return REFUSED;
    }
    memset(marking->mark, NO_MARK, sizeof marking->mark);
    marking->answer = marks(board->file, board->length, marking->capture.at, marking->capture.length, marking->mark,
                            sizeof marking->mark);
    if (rigcandle_refusal(marking->answer) != RIGCANDLE_ACCEPTED)
        return capture_refused(board, marking);
    marking->release = rigcandle_all_pass(marking->answer, board->says.nets) != 0;
    return FINE;
}

const char *mark_words(unsigned mark)
{
    switch (mark) {
    case RIGCANDLE_PASS:
        return "pass";
    case RIGCANDLE_FAIL:
        return "fail";
    case RIGCANDLE_NOT_SEEN:
        return "unsure, not seen";
    case RIGCANDLE_READ_TWICE:
        return "unsure, read twice";
    default:
        return "no mark";
    }
}
