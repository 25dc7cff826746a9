/*
 * commands.c - the table of subcommands: what each takes, and its help. What each does stands in the file of its name.
 */
#include "commands.h"
#include "files.h"

#include <string.h>

#define NAMES_OPTION {"--names", "TEXT", "say nets and cells by their names in this text description of the board", false}
#define NEXT_LINE "\n                       "   /* within an option's help */

static const char check_help[] =
    "Accepted: the board's figures. Refused: the refusal in words, the cells and nets that it is about, and what to do.\n"
    "The time is that of one scan for each vector and one more, each of as many clocks as there are cells and five.";

static const char groups_help[] =
    "A line for each group: its number, its row in hex, and the positions of the control cells that are on. A bit is 1 for a\n"
    "control cell that is on, whatever its on value; what is scanned in are the vectors' rows. Byte 0 comes first in hex.\n"
    "An open-drain output is a control cell of its own, and is on in the groups in which it has the turn.";

static const char vector_help[] =
    "NUMBER counts from 0. Prints the vector's number, its group, its row in hex with byte 0 first, and the positions at\n"
    "which the row is 1. Position 0 is the cell nearest to TDO. An open-drain output without the turn is 1: it lets go.";

static const char marks_help[] =
    "A line for each net that does not pass, then the numbers of pass, fail and unsure, and as the last line RELEASE where\n"
    "every net passes (status 0), else HOLD (status 1). Status 2 is no verdict: the board or the capture was refused.";

static const char make_help[] =
    "The text description is on the page docs/FILE.md. Where it has errors all of them are told and nothing is written.\n"
    "Where the library refuses the board it is written all the same, the refusal is told, and the status is 2.";

static const char show_help[] =
    "Any board file that refusals 1 to 5 let pass can be shown, and make then gives the very file again.";

static const char simulate_help[] =
    "CAPTURE gets the rows that a board with the given faults would be read as, none: a healthy board. P is a position, V is\n"
    "0 or 1, A, B and W are nets; faults may be given several times. To qualify a bench before it judges anything. A CAPTURE\n"
    "that is there already is left alone unless --force is given: it may be a scanned one. Where nothing drives a net that has\n"
    "an open-drain output, its resistor holds it at 1; any other net floats. --open opens one cell's connection: a pin with an\n"
    "output cell and an input cell has two, and a lifted pin whose input cell still reads its own output cannot be given.";

static const char report_help[] =
    "One HTML page that needs nothing beside it: the verdict, the numbers, and each net with its words. Prints RELEASE or HOLD\n"
    "(unless the page itself goes to standard output); status as for marks. Where the board or the capture is refused no page is\n"
    "written, and one that stands there already stays what it was.";

/* ---------------------------------------------------------------- words that are not what they should be */

static bool check_fits(const struct arguments *arguments)
{
    const char *clock = given_value(arguments, "--clock");
    if (clock == NULL || read_rate(clock) > 0)
        return true;
    complain("--clock: expected a rate as 10MHz, 250kHz or 500000, found %s", clock);
    return false;
}

static bool vector_fits(const struct arguments *arguments)
{
    unsigned long long number;
    if (read_number(arguments->operand[1], UINT64_MAX, &number))
        return true;
    complain("vector: expected a number of at most 64 bits, found %s", arguments->operand[1]);
    return false;
}

static bool report_fits(const struct arguments *arguments)
{
    if (given_value(arguments, "-o") != NULL)
        return true;
    complain("report: -o PAGE is missing");
    return false;
}

/* Whether an option that is given has one of these values, the last of which may be NULL. */
static bool one_of(const struct arguments *arguments, const char *name, const char *const value[3])
{
    const char *given = given_value(arguments, name);
    for (unsigned i = 0; i < 3 && given != NULL && value[i] != NULL; i++)
        if (strcmp(given, value[i]) == 0)
            return true;
    if (given != NULL)
        complain("%s: expected %s%s%s%s%s, found %s", name, value[0], value[2] != NULL ? ", " : " or ", value[1],
                 value[2] != NULL ? " or " : "", value[2] != NULL ? value[2] : "", given);
    return given == NULL;
}

/* Nothing that may be a scanned capture is written over unless that is asked for: a healthy one in its place would be released. */
static bool simulate_fits(const struct arguments *arguments)
{
    static const char *const fights[] = {"low", "high", NULL}, *const floats[] = {"0", "1", "keep"};
    bool fight = one_of(arguments, "--fight", fights), floating = one_of(arguments, "--float", floats);
    if (is_there(arguments->operand[1]) && given_value(arguments, "--force") == NULL) {
        complain("%s is there already and may be a scanned capture; --force writes over it", arguments->operand[1]);
        return false;
    }
    return fight && floating;
}

/* ---------------------------------------------------------------- the table */

const struct command commands[] = {
    {.name = "check", .operand = {"BOARD"}, .inputs = 1, .fit = check_fits,
     .purpose = "whether a board file is accepted, and its figures", .more = check_help,
     .option = {{"--clock", "RATE", "clocks of the scan in a second, as 10MHz (so unless given), 250kHz or 500000", false},
                NAMES_OPTION}},
    {.name = "list", .operand = {"BOARD"}, .inputs = 1, .purpose = "all vectors, one a line: number, group, row in hex"},
    {.name = "groups", .operand = {"BOARD"}, .inputs = 1, .purpose = "the groups of control cells", .more = groups_help},
    {.name = "vector", .operand = {"BOARD", "NUMBER"}, .inputs = 1, .fit = vector_fits, .purpose = "one vector", .more = vector_help},
    {.name = "marks", .operand = {"BOARD", "CAPTURE"}, .inputs = 2,
     .purpose = "each net's mark for a capture, and RELEASE or HOLD", .more = marks_help,
     .option = {{"--all", NULL, "list the nets that pass, too", false},
                NAMES_OPTION}},
    {.name = "make", .operand = {"TEXT", "BOARD"}, .inputs = 1, .purpose = "a board file from a text description", .more = make_help},
    {.name = "show", .operand = {"BOARD"}, .inputs = 1, .purpose = "a board file as a text description", .more = show_help,
     .option = {NAMES_OPTION}},
    {.name = "simulate", .operand = {"BOARD", "CAPTURE"}, .inputs = 1, .fit = simulate_fits,
     .purpose = "the capture of a board with given faults", .more = simulate_help,
     .option = {{"--and", "A,B,..", "these nets are tied, and a 0 wins", true},
                {"--or", "A,B,..", "these nets are tied, and a 1 wins, but no resistor's", true},
                {"--wins", "W:A,B,..", "these nets are tied, and net W's drivers win", true},
                {"--open", "P=V", "the pin at P is open: an input reads V; an output no longer drives, and where nothing else" NEXT_LINE
                                  "drives or holds its net, that floats to V", true},
                {"--stuck", "P=V", "the output at P always gives V: an open-drain one pulls for ever (0) or never (1)", true},
                {"--on", "P", "the control cell at P is stuck on: its outputs always drive (of an open-drain output: --stuck P=0)", true},
                {"--off", "P", "the control cell at P is stuck off: its outputs never drive (of an open-drain output: --stuck P=1)", true},
                {"--fight", "low|high", "where outputs that are on at one net differ, a 0 wins (so unless given) or a 1", true},
                {"--float", "0|1|keep", "what a net reads that nothing drives and no resistor holds; 1 unless given", true},
                {"--no-resistor", "A", "net A, which has an open-drain output, has no resistor and floats where nothing drives it", true},
                {"--during", "FIRST-LAST", "the faults are there in these vectors only", true},
                {"--force", NULL, "write over a CAPTURE that is there already", false},
                NAMES_OPTION}},
    {.name = "report", .operand = {"BOARD", "CAPTURE"}, .inputs = 2, .fit = report_fits,
     .purpose = "a page for the consignment's record", .more = report_help,
     .option = {{"-o", "PAGE", "where the page is written; must be given", false},
                {"--serial", "WORDS", "the serial number that the page bears", false},
                {"--date", "WORDS", "the date that the page bears; today's unless given", false},
                NAMES_OPTION}},
    {.name = NULL}};
