/*
 * simulate.c - simulate: reads the faults that the options say, and writes the capture of a board with them (faults.h has the model).
 * All that is wrong with the options is told, and then nothing is written.
 */
#include "arguments.h"
#include "commands.h"
#include "faults.h"
#include "files.h"
#include "rows.h"

#include <stdlib.h>
#include <string.h>

enum { RANGE_SIZE = 64 };

/* What has been read, and whether all of it was understood. */
struct reader {
    const struct board *board;
    struct faults *faults;
    const struct given *given;   /* the option at hand */
    bool fine;
};

/* ---------------------------------------------------------------- words of a value */

/* Tells that the option at hand is wrong, and where `more` is not NULL something more of what was found. */
static void expected(struct reader *reader, const char *what, const char *found, const char *more)
{
    complain("%s %s: expected %s, found %s%s%s", reader->given->option->name, reader->given->value, what,
             *found != 0 ? found : "nothing", more != NULL ? ", " : "", more != NULL ? more : "");
    reader->fine = false;
}

/* The number that a word means, among so many: as a plain number, or else as the name of one; answers whether there is such. */
static bool find_number(const char *word, const char *const *name, unsigned many, unsigned *into)
{
    unsigned long long number = 0;
    if (strspn(word, "0123456789") == strlen(word)) {
        bool fine = read_number(word, many - 1, &number);
        *into = (unsigned)number;
        return fine;
    }
    for (*into = 0; *into < many; ++*into)
        if (name[*into] != NULL && strcmp(name[*into], word) == 0)
            return true;
    return false;
}

static bool take_net(struct reader *reader, const char *word, unsigned *net)
{
    const struct description *says = &reader->board->says;
    char range[RANGE_SIZE];
    if (find_number(word, says->names.net, says->nets, net))
        return true;
    snprintf(range, sizeof range, "a net, 0 to %u or a name of --names", says->nets - 1);
    expected(reader, range, word, NULL);
    return false;
}

/* A position whose cell is of one of these kinds, a bit for each; `what` are these in words. Only --on and --off bar open-drain outputs. */
static bool take_position(struct reader *reader, const char *word, unsigned kinds, const char *what, unsigned *position)
{
    static const char *const kind_words[] = {
        "an internal cell",     "an input",           "a control cell",
        "a three-state output", "a two-state output", "an open-drain output: --stuck P=0 has it pull for ever, --stuck P=1 never"};
    const struct description *says = &reader->board->says;
    char range[RANGE_SIZE];
    if (!find_number(word, says->names.cell, says->cells, position)) {
        snprintf(range, sizeof range, "a position, 0 to %u or a name of --names", says->cells - 1);
        expected(reader, range, word, NULL);
        return false;
    }
    unsigned kind = says->cell[*position].kind;
    if ((kinds >> kind & 1u) == 0)
        expected(reader, what, word, kind_words[kind]);
    return (kinds >> kind & 1u) != 0;
}

/* Cuts a value at its first `mark`; answers what stands behind, or NULL, with a complaint, where there is none. */
static char *cut(struct reader *reader, char *value, char mark)
{
    char *behind = strchr(value, mark);
    if (behind == NULL)
        expected(reader, reader->given->option->value, value, NULL);
    else
        *behind++ = 0;
    return behind;
}

/* The value of P=V. */
static bool take_bit(struct reader *reader, const char *word, uint8_t *bit)
{
    bool fine = strcmp(word, "0") == 0 || strcmp(word, "1") == 0;
    if (fine)
        *bit = (uint8_t)(word[0] - '0');
    else
        expected(reader, "0 or 1 behind the =", word, NULL);
    return fine;
}

/* Notes a fault, unless another option says the contrary. */
static void note(struct reader *reader, uint8_t *fault, uint8_t value)
{
    if (*fault != FAULTLESS && *fault != value) {
        complain("%s %s: another option says the contrary", reader->given->option->name, reader->given->value);
        reader->fine = false;
    }
    *fault = value;
}

/* ---------------------------------------------------------------- cells */

enum {
    OUTPUTS = 1u << THREE_STATE | 1u << TWO_STATE | 1u << OPEN_DRAIN,
    PINS = OUTPUTS | 1u << INPUT,
    CONTROLS = 1u << CONTROL   /* an open-drain output is switched by nothing but its own value: --stuck */
};

/* P=V: a position, and what it is forced to. */
struct forced {
    unsigned position;
    uint8_t bit;
};

/* Both sides are looked at before it is decided, so that all that is wrong is told. */
static bool take_forced(struct reader *reader, char *value, unsigned kinds, const char *what, struct forced *into)
{
    char *behind = cut(reader, value, '=');
    if (behind == NULL)
        return false;
    bool position_fine = take_position(reader, value, kinds, what, &into->position);
    bool bit_fine = take_bit(reader, behind, &into->bit);
    return position_fine && bit_fine;
}

static void take_stuck(struct reader *reader, char *value)
{
    struct forced stuck;
    if (take_forced(reader, value, OUTPUTS, "the position of an output", &stuck))
        note(reader, &reader->faults->stuck[stuck.position], stuck.bit);
}

/* Two open outputs of a net cannot have it float to both values. */
static void take_open(struct reader *reader, char *value)
{
    struct faults *faults = reader->faults;
    struct forced open;
    if (!take_forced(reader, value, PINS, "the position of an input or output", &open))
        return;
    const struct cell *cell = &reader->board->says.cell[open.position];
    note(reader, is_output(cell) ? &faults->floats[cell->net] : &faults->open[open.position], open.bit);
    faults->open[open.position] = open.bit;
}

static void take_switched(struct reader *reader, const char *value, uint8_t on)
{
    unsigned position;
    if (take_position(reader, value, CONTROLS, "the position of a control cell", &position))
        note(reader, &reader->faults->switched[position], on);
}

static void take_on(struct reader *reader, char *value)
{
    take_switched(reader, value, 1);
}

static void take_off(struct reader *reader, char *value)
{
    take_switched(reader, value, 0);
}

/* ---------------------------------------------------------------- resistors */

/* Only a line with an open-drain output has one. */
static void take_no_resistor(struct reader *reader, char *value)
{
    unsigned net;
    if (!take_net(reader, value, &net))
        return;
    if (is_open_drain_line(reader->board, net))
        reader->faults->bare[net] = true;
    else
        expected(reader, "a net with an open-drain output", value, NULL);
}

/* ---------------------------------------------------------------- bridges */

/* Whether these nets can be tied: there are two, and none is tied already. */
static bool can_be_tied(struct reader *reader, const bool *chosen)
{
    unsigned members = 0, tied = 0;
    for (unsigned net = 0; net < reader->board->says.nets; net++) {
        members += chosen[net];
        if (chosen[net] && reader->faults->tied[net] != 0) {
            complain("%s %s: net %u is in another bridge already; put both into one", reader->given->option->name, reader->given->value,
                     net);
            tied++;
        }
    }
    reader->fine = reader->fine && tied == 0;
    if (members < 2)
        expected(reader, "at least two different nets", "one", NULL);
    return tied == 0 && members >= 2;
}

static void tie(const struct board *board, struct faults *faults, const bool *chosen, struct bridge bridge)
{
    faults->bridge[++faults->bridges] = bridge;
    for (unsigned net = 0; net < board->says.nets; net++)
        if (chosen[net])
            faults->tied[net] = (uint8_t)faults->bridges;
}

/* Ties the nets of a list A,B,.. and the one that wins. */
static void take_bridge(struct reader *reader, char *list, struct bridge bridge)
{
    bool chosen[RIGCANDLE_MOST_NETS] = {false};
    bool fine = true;
    if (bridge.winner != NONE)
        chosen[bridge.winner] = true;
    for (char *word = list, *comma; word != NULL; word = comma) {
        unsigned net;
        comma = strchr(word, ',');
        if (comma != NULL)
            *comma++ = 0;
        if (take_net(reader, word, &net))
            chosen[net] = true;
        else
            fine = false;
    }
    if (fine && can_be_tied(reader, chosen))
        tie(reader->board, reader->faults, chosen, bridge);
}

static void take_and(struct reader *reader, char *value)
{
    take_bridge(reader, value, (struct bridge){0, NONE});
}

static void take_or(struct reader *reader, char *value)
{
    take_bridge(reader, value, (struct bridge){1, NONE});
}

static void take_wins(struct reader *reader, char *value)
{
    unsigned winner;
    char *behind = cut(reader, value, ':');
    if (behind != NULL && take_net(reader, value, &winner))
        take_bridge(reader, behind, (struct bridge){0, winner});
}

/* ---------------------------------------------------------------- the whole board */

static void take_fight(struct reader *reader, char *value)
{
    if (strcmp(value, "low") != 0 && strcmp(value, "high") != 0)
        expected(reader, "low or high", value, NULL);
    reader->faults->fight = strcmp(value, "high") == 0;
}

static void take_float(struct reader *reader, char *value)
{
    if (strcmp(value, "keep") == 0)
        reader->faults->afloat = KEEP;
    else if (strcmp(value, "0") == 0 || strcmp(value, "1") == 0)
        reader->faults->afloat = (uint8_t)(value[0] - '0');
    else
        expected(reader, "0, 1 or keep", value, NULL);
}

static void take_during(struct reader *reader, char *value)
{
    unsigned long long first, last;
    char range[RANGE_SIZE];
    char *behind = cut(reader, value, '-');
    if (behind == NULL)
        return;
    if (read_number(behind, reader->board->vectors - 1, &last) && read_number(value, last, &first)) {
        reader->faults->first = (unsigned)first;
        reader->faults->last = (unsigned)last;
        return;
    }
    snprintf(range, sizeof range, "FIRST-LAST, FIRST not above LAST, of vectors 0 to %u", reader->board->vectors - 1);
    expected(reader, range, reader->given->value, NULL);
}

/* ---------------------------------------------------------------- the command */

static const struct {
    const char *name;
    void (*take)(struct reader *reader, char *value);
} takes[] = {{"--and", take_and},     {"--or", take_or},   {"--wins", take_wins},   {"--open", take_open},   {"--stuck", take_stuck},
             {"--on", take_on},       {"--off", take_off}, {"--fight", take_fight}, {"--float", take_float}, {"--during", take_during},
             {"--no-resistor", take_no_resistor}};

/* Reads one option; its value is cut up, and so a copy of it is. */
static void take_given(struct reader *reader, const struct given *given)
{
    size_t size = strlen(given->value) + 1;
    char *copy = room_for(size);
    reader->given = given;
    for (size_t i = 0; i < sizeof takes / sizeof *takes; i++)
        if (strcmp(takes[i].name, given->option->name) == 0) {
            memcpy(copy, given->value, size);
            takes[i].take(reader, copy);
        }
    free(copy);
}

static bool read_faults(const struct arguments *arguments, const struct board *board, struct faults *faults)
{
    struct reader reader = {board, faults, NULL, true};
    no_faults(faults);
    for (unsigned i = 0; i < arguments->givens; i++)
        take_given(&reader, &arguments->given[i]);
    return reader.fine;
}

enum status run_simulate(const struct arguments *arguments)
{
    static struct board board;
    static struct faults faults;
    enum status read = read_board(arguments->operand[0], given_value(arguments, "--names"), &board);
    if (read != FINE)
        return read;
    if (refused(&board))
        return REFUSED;
    if (!read_faults(arguments, &board, &faults))
        return USAGE;
    size_t length = board.vectors * board.row;
    uint8_t *rows = all_rows(&board);
    uint8_t *capture = room_for(length);
    fill_capture(&board, &faults, rows, capture);
    bool written = write_whole(arguments->operand[1], capture, length);
    free(rows);
    free(capture);
    return written ? FINE : UNUSABLE;
}
