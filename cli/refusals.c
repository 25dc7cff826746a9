/*
 * refusals.c - the library's refusals in words: when each is given, what to do, and for a board the bytes, cells and nets that it is
 * about. The number and the places are the library's; what is looked up here only explains them.
 */
#include "refusals.h"
#include "files.h"

#include <string.h>

static const struct {
    const char *when;   /* document 01's column "given exactly when" */
    const char *act;    /* what to do */
} texts[] = {
    {"accepted", ""},
    {"file empty, not a multiple of 512, or over 14 blocks",
     "The file was not copied whole, or is no board file. Copy it again and compare its size with the original's."},
    {"some block's a or b is wrong",
     "Bytes were changed on the way or in storage. Fetch the file again; if the original has the fault too, have it made again."},
    {"block 0 differs from its layout",
     "Not a board file, or one of another version. Check that it is the right file, and have it made as version 1."},
    {"C, N or SSOL outside its limits",
     "The board is larger than this test takes, or a number was left out when the file was made."},
    {"wrong number of blocks, or a cell block differs from its layout outside the records",
     "Blocks are missing, doubled or out of order, or C is not the number of records. Have the file made again."},
    {"a record breaks the table of cell kinds",
     "Compare the cell at this position with the device's description: its kind, on value, control cell and net."},
    {"a net has no kind 3, 4 or 5 output",
     "The net's driver was left out of the file, or no boundary-scan cell drives the net. In the second case it cannot be tested\n"
     "here: take the net out of the file and make its cells internal; a cell itself is never left out."},
    {"a net has a kind 4 output and another output, or two outputs of one control cell",
     "Two outputs would drive or pull against each other. Compare them with the circuit diagram, and do not scan the board before;\n"
     "perhaps an open-drain output is written as two-state. If the diagram agrees, the board is outside what this test can do."},
    {"a net has over 16 controlled drivers",
     "Compare the net's outputs with the circuit diagram; perhaps two nets have been given one number. If the diagram agrees, the\n"
     "board is outside what this test can do."},
    {"two control cells' net sets meet and neither holds the other",
     "For the layout engineer: compare these outputs with the diagram and the devices' descriptions: the net of each, its control\n"
     "cell, and whether one is missing here. Then check again. If all agrees, the board is outside what this test can do: of two\n"
     "control cells that share a net one must switch all nets of the other."},
    {"a control cell's nets differ in number of controlled drivers",
     "For the layout engineer: compare the drivers of these nets with the diagram. If it agrees, the board is outside what this\n"
     "test can do: all nets of a control cell must have equally many drivers, open-drain outputs counted."},
    {"over 4,096 vectors",
     "A larger SSOL means fewer inserted vectors. Whether the board bears it, the layout engineer decides."},
    {"vector number not below the count", "Ask for a vector from 0 to the total less 1; rigcandle check gives the total."},
    {"capture is not vectors x R bytes",
     "The scan was cut short, or the capture belongs to another board file. Scan again with this file."},
    {"lent buffer too short", "A fault of the calling program."}};

enum { TEXTS = sizeof texts / sizeof *texts };

static const char *when_given(unsigned number)
{
    return number < TEXTS ? texts[number].when : "a refusal that this program does not know";
}

void complain_refusal(const char *name, uint64_t answer)
{
    unsigned number = rigcandle_refusal(answer);
    complain("%s: refused %u %u: %s", name, number, rigcandle_place(answer), when_given(number));
}

/* ---------------------------------------------------------------- refusals 1 to 5: bytes */

static void explain_length(FILE *out, const struct board *board)
{
    fprintf(out, "  the file has %s%zu bytes\n", board->length > RIGCANDLE_MOST_FILE ? "at least " : "", board->length);
}

static void explain_sums(FILE *out, const struct board *board, unsigned number)
{
    const uint8_t *block = board->file + RIGCANDLE_BLOCK_SIZE * number;
    struct sums sums = block_sums(block);
    fprintf(out, "  block %u, bytes %u to %u: a and b are %u and %u, and its bytes add up to %u and %u\n", number,
            RIGCANDLE_BLOCK_SIZE * number, RIGCANDLE_BLOCK_SIZE * (number + 1) - 1, word_at(block + BODY), word_at(block + BODY + 2),
            sums.a, sums.b);
}

/* The first bytes of a block that differ from what its layout asks for: `wanted`, at the bytes where `fixed` is not 0. */
static void explain_bytes(FILE *out, const uint8_t *block, const uint8_t *wanted, const uint8_t *fixed)
{
    unsigned told = 0;
    for (unsigned i = 0; i < BODY; i++)
        if (fixed[i] != 0 && block[i] != wanted[i] && told++ < 4)
            fprintf(out, "  byte %u is %u and should be %u\n", i, block[i], wanted[i]);
    if (told > 4)
        fprintf(out, "  and %u more bytes that should be others\n", told - 4);
}

static void explain_header(FILE *out, const struct board *board)
{
    uint8_t wanted[BODY] = {0, 0, 1, 0, 'B', 'S', 'I', 'N', 1}, fixed[BODY];
    memset(fixed, 1, sizeof fixed);
    memset(fixed + 10, 0, 6);   /* C, N and SSOL */
    explain_bytes(out, board->file, wanted, fixed);
}

static void explain_limits(FILE *out, const struct board *board)
{
    static const struct {
        const char *name;
        unsigned at, most;
    } sizes[] = {{"C, the number of cells,", 10, RIGCANDLE_MOST_CELLS},
                 {"N, the number of nets,", 12, RIGCANDLE_MOST_NETS},
                 {"SSOL", 14, RIGCANDLE_MOST_CELLS}};
    for (size_t i = 0; i < sizeof sizes / sizeof *sizes; i++)
        fprintf(out, "  %s is %u; 1 to %u is allowed\n", sizes[i].name, word_at(board->file + sizes[i].at), sizes[i].most);
}

static void explain_block(FILE *out, const struct board *board, unsigned number)
{
    uint8_t wanted[BODY] = {0}, fixed[BODY];
    unsigned cells = word_at(board->file + 10), before = RECORDS_A_BLOCK * (number - 1);
    unsigned records = cells - before < RECORDS_A_BLOCK ? cells - before : RECORDS_A_BLOCK;
    if (number == 0) {
        fprintf(out, "  the file has %zu blocks, and %u cells need %u\n", board->length / RIGCANDLE_BLOCK_SIZE, cells,
                1 + (cells + RECORDS_A_BLOCK - 1) / RECORDS_A_BLOCK);
        return;
    }
    wanted[0] = (uint8_t)number;
    wanted[2] = 2;
    wanted[3] = (uint8_t)records;
    memset(fixed, 1, sizeof fixed);
    memset(fixed + RECORDS_FROM, 0, RECORD_SIZE * records);
    fprintf(out, "  block %u:\n", number);
    explain_bytes(out, board->file + RIGCANDLE_BLOCK_SIZE * number, wanted, fixed);
}

/* ---------------------------------------------------------------- refusals 6 to 12: cells and nets */

static const char *const kind_words[] = {"internal",           "input",            "control",
                                         "three-state output", "two-state output", "open-drain output"};

static const char *kind_word(unsigned kind)
{
    return kind < sizeof kind_words / sizeof *kind_words ? kind_words[kind] : "no kind";
}

static void print_number(FILE *out, const char *what, unsigned number)
{
    fprintf(out, number == NONE ? ", %s none" : ", %s %u", what, number);
}

/* Where a three-state output has a cell of another kind for its control cell: what that one is. */
static void explain_control(FILE *out, const struct board *board, const struct cell *cell)
{
    if (cell->kind != THREE_STATE || cell->control >= board->says.cells || board->says.cell[cell->control].kind == CONTROL)
        return;
    unsigned kind = board->says.cell[cell->control].kind;
    fputs("  ", out);
    print_position(out, board, cell->control);
    fprintf(out, ": kind %u (%s)\n", kind, kind_word(kind));
}

static void explain_record(FILE *out, const struct board *board, unsigned position)
{
    static const char *const wanted[] = {"on value 0, control none, net none", "on value 0, control none, net below N",
                                         "on value 0 or 1, control none, net none",
                                         "on value 0, the position of a kind 2 cell as control, net below N",
                                         "on value 0, control none, net below N", "on value 0, control none, net below N"};
    const struct cell *cell = &board->says.cell[position];
    fputs("  ", out);
    print_position(out, board, position);
    fprintf(out, ": kind %u (%s), on value %u", cell->kind, kind_word(cell->kind), cell->on);
    print_number(out, "control", cell->control);
    print_number(out, "net", cell->net);
    if (cell->kind < sizeof wanted / sizeof *wanted)
        fprintf(out, "\n  a cell of this kind has %s; N is %u\n", wanted[cell->kind], board->says.nets);
    else
        fputs("\n  kinds are 0 to 5\n", out);
    explain_control(out, board, cell);
}

/* The outputs and inputs of a net, a line each. */
static void explain_net(FILE *out, const struct board *board, unsigned net)
{
    unsigned told = 0;
    for (unsigned c = 0; c < board->says.cells; c++) {
        const struct cell *cell = &board->says.cell[c];
        if (!drives(cell, net) && !senses(cell, net))
            continue;
        told++;
        fputs("  ", out);
        print_position(out, board, c);
        fprintf(out, ": %s", kind_word(cell->kind));
        if (cell->kind == THREE_STATE) {
            fputs(", switched by ", out);
            print_position(out, board, cell->control);
        }
        fputc('\n', out);
    }
    if (told == 0)
        fputs("  no cell has this net\n", out);
}

static bool is_output_of(const struct cell *cell, unsigned control, unsigned net)
{
    return cell->kind == THREE_STATE && cell->control == control && cell->net == net;
}

static bool switches(const struct board *board, unsigned control, unsigned net)
{
    for (unsigned c = 0; c < board->says.cells; c++)
        if (is_output_of(&board->says.cell[c], control, net))
            return true;
    return false;
}

/* How many outputs of this kind a net has. */
static unsigned outputs_of(const struct board *board, unsigned net, unsigned kind)
{
    unsigned number = 0;
    for (unsigned c = 0; c < board->says.cells; c++)
        number += board->says.cell[c].kind == kind && board->says.cell[c].net == net;
    return number;
}

/* A net's number of controlled drivers, and how many of them are open-drain outputs, which no other cell switches. */
static void print_drivers(FILE *out, const struct board *board, unsigned net)
{
    unsigned open_drain = outputs_of(board, net, OPEN_DRAIN), drivers = outputs_of(board, net, THREE_STATE) + open_drain;
    fprintf(out, " (%u controlled driver%s", drivers, drivers != 1 ? "s" : "");
    if (open_drain != 0)
        fprintf(out, ", %u of them open-drain", open_drain);
    fputc(')', out);
}

/* A control cell's nets in a line, with their numbers of controlled drivers. */
static void explain_uneven(FILE *out, const struct board *board, unsigned control)
{
    const char *before = " switches ";
    fputs("  ", out);
    print_position(out, board, control);
    for (unsigned net = 0; net < board->says.nets; net++)
        if (switches(board, control, net)) {
            fputs(before, out);
            print_net(out, board, net);
            print_drivers(out, board, net);
            before = ", ";
        }
    fputc('\n', out);
}

/* A control cell's output on a net; it has one there at most, or check 8 would have refused the board. */
static void print_output(FILE *out, const struct board *board, unsigned control, unsigned net, const char *before)
{
    for (unsigned c = 0; c < board->says.cells; c++)
        if (is_output_of(&board->says.cell[c], control, net)) {
            fputs(before, out);
            print_position(out, board, c);
        }
}

/* The nets that one control cell switches and the other does, too, or does not: a line each, with the outputs that the two have there. */
static void print_nets(FILE *out, const struct board *board, unsigned one, unsigned other, bool both)
{
    for (unsigned net = 0; net < board->says.nets; net++)
        if (switches(board, one, net) && switches(board, other, net) == both) {
            fputs("    ", out);
            print_net(out, board, net);
            print_output(out, board, one, net, ": ");
            print_output(out, board, other, net, ", ");
            fputc('\n', out);
        }
}

static void explain_alone(FILE *out, const struct board *board, unsigned one, unsigned other)
{
    fputs("  of the two only ", out);
    print_position(out, board, one);
    fputs(" switches\n", out);
    print_nets(out, board, one, other, false);
}

/* What makes these two control cells cross: the nets that they share, and those that each has alone. */
static void explain_crossing(FILE *out, const struct board *board, unsigned one, unsigned other)
{
    fputs("  ", out);
    print_position(out, board, one);
    fputs(" and ", out);
    print_position(out, board, other);
    fputs(" both switch\n", out);
    print_nets(out, board, one, other, true);
    explain_alone(out, board, one, other);
    explain_alone(out, board, other, one);
}

static void explain_vectors(FILE *out, const struct board *board)
{
    fprintf(out, "  %u nets, SSOL %u\n", board->says.nets, board->says.limit);
}

/* ---------------------------------------------------------------- the whole */

static void explain(FILE *out, const struct board *board, unsigned number, unsigned place)
{
    switch (number) {
    case RIGCANDLE_FILE_LENGTH:
        explain_length(out, board);
        break;
    case RIGCANDLE_BLOCK_SUMS:
        explain_sums(out, board, place);
        break;
    case RIGCANDLE_HEADER_LAYOUT:
        explain_header(out, board);
        break;
    case RIGCANDLE_HEADER_LIMITS:
        explain_limits(out, board);
        break;
    case RIGCANDLE_BLOCK_LAYOUT:
        explain_block(out, board, place);
        break;
    case RIGCANDLE_RECORD:
        explain_record(out, board, place);
        break;
    case RIGCANDLE_NO_OUTPUT:
    case RIGCANDLE_CLASH:
    case RIGCANDLE_DRIVERS:
        fputs("  ", out);
        print_net(out, board, place);
        fputs(":\n", out);
        explain_net(out, board, place);
        break;
    case RIGCANDLE_CROSSING:
        explain_crossing(out, board, place, rigcandle_second_place(board->counted));
        break;
    case RIGCANDLE_UNEVEN:
        explain_uneven(out, board, place);
        break;
    default:
        explain_vectors(out, board);
    }
}

void print_refusal(FILE *out, const struct board *board)
{
    unsigned number = rigcandle_refusal(board->counted), place = rigcandle_place(board->counted);
    fprintf(out, "refused %u %u\n%s\n", number, place, when_given(number));
    explain(out, board, number, place);
    if (number < TEXTS)
        fprintf(out, "%s\n", texts[number].act);
}
