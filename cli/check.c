/*
 * check.c - check: the library's verdict on a board file, and the board's figures or the refusal in words.
 */
#include "board.h"
#include "commands.h"
#include "refusals.h"

/* Clocks of a scan beside those that shift: Select-DR, Capture-DR, into Shift-DR, Update-DR, and back to Run-Test/Idle. */
enum { CLOCKS_AROUND = 5 };

#define USUAL_CLOCK "10MHz"

static bool is_unseen(const struct board *board, unsigned net)
{
    for (unsigned c = 0; c < board->says.cells; c++)
        if (senses(&board->says.cell[c], net))
            return false;
    return true;
}

static bool switches_nothing(const struct board *board, unsigned position)
{
    if (board->says.cell[position].kind != CONTROL)
        return false;
    for (unsigned c = 0; c < board->says.cells; c++)
        if (board->says.cell[c].kind == THREE_STATE && board->says.cell[c].control == position)
            return false;
    return true;
}

/* A net or a cell: whether it is one of those that a line tells of, and how it is called. */
struct sort {
    bool (*is_one)(const struct board *board, unsigned number);
    void (*print)(FILE *out, const struct board *board, unsigned number);
};

/* A line: how many there are below `end`, and which. Answers how many. */
static unsigned print_those(const struct board *board, const char *what, unsigned end, struct sort sort)
{
    unsigned number = 0;
    for (unsigned i = 0; i < end; i++)
        number += sort.is_one(board, i);
    printf("%s %u", what, number);
    const char *before = ": ";
    for (unsigned i = 0; i < end; i++)
        if (sort.is_one(board, i)) {
            fputs(before, stdout);
            sort.print(stdout, board, i);
            before = ", ";
        }
    putchar('\n');
    return number;
}

static void print_unseen(const struct board *board)
{
    if (print_those(board, "nets without an input cell", board->says.nets, (struct sort){is_unseen, print_net}) != 0)
        puts("no capture of this board is a RELEASE: a net that no input cell reads is unsure");
}

/* Only where there are any. Their resistors are not in the file, and no pass tells of them. */
static void print_open_drain(const struct board *board)
{
    unsigned net = 0;
    while (net < board->says.nets && !is_open_drain_line(board, net))
        net++;
    if (net == board->says.nets)
        return;
    print_those(board, "nets with an open-drain output", board->says.nets, (struct sort){is_open_drain_line, print_net});
    puts("each of these needs a resistor that holds it at 1; a pass does not show that it is there");
}

static void print_idle(const struct board *board)
{
    print_those(board, "control cells that switch nothing", board->says.cells, (struct sort){switches_nothing, print_position});
}

/* One scan for each vector, and one more that brings out the last response. */
static void print_time(const struct board *board, double rate)
{
    double clocks = (board->vectors + 1.0) * (board->says.cells + CLOCKS_AROUND);
    double seconds = clocks / rate;
    printf("time of all scans ");
    if (seconds < 1e-3)
        printf("%.1f microseconds", seconds * 1e6);
    else if (seconds < 1)
        printf("%.1f milliseconds", seconds * 1e3);
    else
        printf("%.1f seconds", seconds);
    printf(" (%u scans, %.0f clocks at %g MHz)\n", board->vectors + 1, clocks, rate / 1e6);
}

enum status run_check(const struct arguments *arguments)
{
    static struct board board;
    const char *clock = given_value(arguments, "--clock");
    double rate = read_rate(clock != NULL ? clock : USUAL_CLOCK);
    enum status read = read_board(arguments->operand[0], given_value(arguments, "--names"), &board);
    if (read != FINE)
        return read;
    if (rigcandle_refusal(board.counted) != RIGCANDLE_ACCEPTED) {
        print_refusal(stdout, &board);
        return REFUSED;
    }
    printf("accepted\ncells %u\nnets %u\nlimit %u\n", board.says.cells, board.says.nets, board.says.limit);
    printf("groups %u\npatterns %u\nvectors %u\n", rigcandle_count_g(board.counted), rigcandle_count_p(board.counted), board.vectors);
    print_unseen(&board);
    print_open_drain(&board);
    print_idle(&board);
    print_time(&board, rate);
    return FINE;
}
