/*
 * text.c - the text description of a board: read in two passes (the lines, then what their names and numbers refer to, so that a cell
 * may be named before its line), and written again. docs/FILE.md has the page about it.
 */
#include "text.h"
#include "arguments.h"

#include <stdarg.h>
#include <stdlib.h>
#include <string.h>

enum { MOST_WORDS = 16, MOST_NAME = 63 };   /* words of a line, bytes of a name */

/* Some editors put it before the first line. */
#define BYTE_ORDER_MARK "\xEF\xBB\xBF"

/* The values that a cell's line may have, each behind its word. */
enum field { ON_FIELD = 1, CONTROL_FIELD = 2, NET_FIELD = 4, KIND_FIELD = 8, EVERY_FIELD = 15 };

static const struct {
    const char *word;
    enum field field;
    const char *value;
} fields[] = {{"on", ON_FIELD, "the on value, 0 or 1"},
              {"control", CONTROL_FIELD, "a control cell"},
              {"net", NET_FIELD, "a net"},
              {"kind", KIND_FIELD, "a kind, 0 to 255"}};

/* What a cell's line may begin with, and the values it then needs. */
static const struct form {
    const char *word;
    unsigned kind;
    unsigned wants;
} forms[] = {{"internal", INTERNAL, 0},
             {"input", INPUT, NET_FIELD},
             {"control", CONTROL, ON_FIELD},
             {"three-state", THREE_STATE, NET_FIELD | CONTROL_FIELD},
             {"two-state", TWO_STATE, NET_FIELD},
             {"open-drain", OPEN_DRAIN, NET_FIELD},
             {"record", 0, EVERY_FIELD}};

enum { FIELDS = sizeof fields / sizeof *fields, FORMS = sizeof forms / sizeof *forms, RECORD_FORM = FORMS - 1 };

/* A cell as its line has it. */
struct cell_line {
    unsigned line;
    const struct form *form;
    const char *value[FIELDS];
};

/* An error, kept until all are known, so that they are told in the order of their lines. */
struct mistake {
    unsigned line;
    size_t number;
    char says[256];
};

struct reader {
    const char *name;              /* of the text, for messages */
    struct mistake *mistake;
    size_t mistakes, room;
    struct description *into;
    struct cell_line cell[RIGCANDLE_MOST_CELLS];
    unsigned net_line[RIGCANDLE_MOST_NETS];   /* where a net got its name */
    unsigned next_net, nets_line, limit_line;
    unsigned line;
    bool too_many_cells;
};

static void wrong(struct reader *reader, unsigned line, const char *format, ...)
{
    va_list arguments;
    if (reader->mistakes == reader->room) {
        reader->room = 2 * reader->room + 16;
        reader->mistake = more_room(reader->mistake, reader->room * sizeof *reader->mistake);
    }
    struct mistake *mistake = &reader->mistake[reader->mistakes];
    mistake->line = line != 0 ? line : 1;
    mistake->number = reader->mistakes++;
    va_start(arguments, format);
    vsnprintf(mistake->says, sizeof mistake->says, format, arguments);
    va_end(arguments);
}

/* By line, and in one line as they were found. */
static int by_line(const void *one, const void *other)
{
    const struct mistake *a = one, *b = other;
    if (a->line != b->line)
        return a->line < b->line ? -1 : 1;
    return a->number < b->number ? -1 : 1;
}

static bool told_all(const struct reader *reader)
{
    if (reader->mistakes != 0)
        qsort(reader->mistake, reader->mistakes, sizeof *reader->mistake, by_line);
    for (size_t i = 0; i < reader->mistakes; i++)
        fprintf(stderr, "%s:%u: %s\n", reader->name, reader->mistake[i].line, reader->mistake[i].says);
    return reader->mistakes == 0;
}

/* ---------------------------------------------------------------- words */

static bool is_blank(char letter)
{
    return letter == ' ' || letter == '\t' || letter == '\r';
}

/* Cuts a line into its words, up to a word that begins with #; answers how many there are, at most one more than there is room for. */
static unsigned cut_words(char *line, char **word)
{
    unsigned words = 0;
    while (words <= MOST_WORDS) {
        while (is_blank(*line))
            *line++ = 0;
        if (*line == 0 || *line == '#')
            break;
        if (words < MOST_WORDS)
            word[words] = line;
        words++;
        while (*line != 0 && !is_blank(*line))
            line++;
    }
    *line = 0;
    return words;
}

static bool is_number(const char *word)
{
    return *word != 0 && strspn(word, "0123456789") == strlen(word);
}

static bool is_name(const char *word)
{
    size_t length = strlen(word);
    for (size_t i = 0; i < length; i++)
        if ((unsigned char)word[i] < 33 || word[i] == 127)
            return false;
    return length >= 1 && length <= MOST_NAME && word[0] != '#' && strpbrk(word, ",:=") == NULL && !is_number(word) &&
           strcmp(word, "none") != 0;
}

static bool take_name(struct reader *reader, const char *word)
{
    bool fine = is_name(word);
    if (!fine)
        wrong(reader, reader->line,
              "expected a name (1 to %d bytes, no comma, colon or equals sign, no number, not none), found %s", MOST_NAME, word);
    return fine;
}

/* A number from `least` to `most`. */
static bool take_number(struct reader *reader, const char *what, const char *word, const unsigned range[2], unsigned *into)
{
    unsigned long long number;
    if (!read_number(word, range[1], &number) || number < range[0]) {
        wrong(reader, reader->line, "expected %s, a number from %u to %u, found %s", what, range[0], range[1], word);
        return false;
    }
    *into = (unsigned)number;
    return true;
}

/* ---------------------------------------------------------------- first pass: lines */

/* `limit SSOL` or `nets COUNT`, which may stand once. */
static void read_size(struct reader *reader, char **word, unsigned words, unsigned most, unsigned *stands, unsigned *into)
{
    const unsigned range[2] = {1, most};
    if (*stands != 0)
        wrong(reader, reader->line, "%s stands twice, first in line %u", word[0], *stands);
    *stands = reader->line;
    if (words != 2)
        wrong(reader, reader->line, "expected %s and one number", word[0]);
    else
        take_number(reader, word[0], word[1], range, into);
}

/* `net NAME`, the next net, or `net NUMBER NAME`. */
static void read_net(struct reader *reader, char **word, unsigned words)
{
    const unsigned range[2] = {0, RIGCANDLE_MOST_NETS - 1};
    bool numbered = words >= 2 && is_number(word[1]);
    if (words != (numbered ? 3u : 2u)) {
        wrong(reader, reader->line, "expected net NAME or net NUMBER NAME");
        return;
    }
    if (numbered && !take_number(reader, "a net", word[1], range, &reader->next_net))
        return;
    if (!take_name(reader, word[words - 1]))
        return;
    unsigned net = reader->next_net;
    if (net >= RIGCANDLE_MOST_NETS)
        wrong(reader, reader->line, "expected at most %d nets", RIGCANDLE_MOST_NETS);
    else if (reader->net_line[net] != 0)
        wrong(reader, reader->line, "net %u has a name already, in line %u", net, reader->net_line[net]);
    else {
        reader->into->names.net[net] = word[words - 1];
        reader->net_line[net] = reader->line;
        reader->next_net = net + 1;
    }
}

/* The word at *at and the value behind it, of a cell's line. */
static void read_field(struct reader *reader, struct cell_line *cell, char **word, unsigned *at)
{
    unsigned i = 0;
    const char *first = word[(*at)++];
    while (i < FIELDS && strcmp(fields[i].word, first) != 0)
        i++;
    if (i == FIELDS) {
        wrong(reader, reader->line, "%s does not belong to %s", first, cell->form->word);
        return;
    }
    const char *value = word[*at];
    if (value != NULL)
        ++*at;
    if ((cell->form->wants & fields[i].field) == 0)
        wrong(reader, reader->line, "%s does not belong to %s", first, cell->form->word);
    else if (value == NULL)
        wrong(reader, reader->line, "expected %s behind %s", fields[i].value, first);
    else if (cell->value[i] != NULL)
        wrong(reader, reader->line, "%s stands twice", first);
    else
        cell->value[i] = value;
}

/* The words of a cell's line behind its first; what is missing is told where nothing else is wrong. */
static void read_fields(struct reader *reader, struct cell_line *cell, char **word)
{
    size_t before = reader->mistakes;
    for (unsigned at = 1; word[at] != NULL;)
        read_field(reader, cell, word, &at);
    for (unsigned i = 0; i < FIELDS && reader->mistakes == before; i++)
        if ((cell->form->wants & fields[i].field) != 0 && cell->value[i] == NULL)
            wrong(reader, reader->line, "expected %s and %s", fields[i].word, fields[i].value);
}

/* The form that this word begins, or none. */
static const struct form *form_named(const char *word)
{
    for (unsigned i = 0; i < FORMS && word != NULL; i++)
        if (strcmp(forms[i].word, word) == 0)
            return &forms[i];
    return NULL;
}

/* A cell's line without its name: the words are ended by NULL. A cell whose first word is none of a cell's keeps its place. */
static void read_cell(struct reader *reader, char **word)
{
    if (reader->into->cells == RIGCANDLE_MOST_CELLS) {
        if (!reader->too_many_cells)
            wrong(reader, reader->line, "expected at most %d cells", RIGCANDLE_MOST_CELLS);
        reader->too_many_cells = true;
        return;
    }
    struct cell_line *cell = &reader->cell[reader->into->cells++];
    cell->line = reader->line;
    cell->form = form_named(word[0]);
    if (cell->form != NULL)
        read_fields(reader, cell, word);
    else if (word[0] != NULL && form_named(word[1]) != NULL)
        wrong(reader, reader->line, "expected a colon behind the cell's name, found %s %s", word[0], word[1]);
    else
        wrong(reader, reader->line,
              "expected limit, nets, net, or a cell: internal, input, control, three-state, two-state, open-drain, record; found %s",
              word[0] != NULL ? word[0] : "nothing");
}

/* A cell's name is the first word, with a colon behind it. */
static void read_named_cell(struct reader *reader, char **word)
{
    size_t length = strlen(word[0]);
    if (word[0][length - 1] != ':') {
        read_cell(reader, word);
        return;
    }
    word[0][length - 1] = 0;
    if (take_name(reader, word[0]) && reader->into->cells < RIGCANDLE_MOST_CELLS)
        reader->into->names.cell[reader->into->cells] = word[0];
    read_cell(reader, word + 1);
}

static void read_line(struct reader *reader, char *line)
{
    char *word[MOST_WORDS + 1];
    unsigned words = cut_words(line, word);
    if (words == 0)
        return;
    if (words > MOST_WORDS) {
        wrong(reader, reader->line, "expected at most %d words", MOST_WORDS);
        return;
    }
    word[words] = NULL;
    if (strcmp(word[0], "limit") == 0)
        read_size(reader, word, words, RIGCANDLE_MOST_CELLS, &reader->limit_line, &reader->into->limit);
    else if (strcmp(word[0], "nets") == 0)
        read_size(reader, word, words, RIGCANDLE_MOST_NETS, &reader->nets_line, &reader->into->nets);
    else if (strcmp(word[0], "net") == 0)
        read_net(reader, word, words);
    else
        read_named_cell(reader, word);
}

/* ---------------------------------------------------------------- second pass: what names and numbers refer to */

/* How many nets there are: as `nets` says, or else up to the last that has a name. */
static void settle_nets(struct reader *reader)
{
    unsigned named = RIGCANDLE_MOST_NETS;
    while (named > 0 && reader->net_line[named - 1] == 0)
        named--;
    if (reader->nets_line == 0)
        reader->into->nets = named;
    for (unsigned net = reader->into->nets; net < named && reader->into->nets != 0; net++)
        if (reader->net_line[net] != 0)
            wrong(reader, reader->net_line[net], "net %u is not below the number of nets, %u", net, reader->into->nets);
    if (reader->nets_line == 0 && named == 0)
        wrong(reader, reader->line, "expected a line nets COUNT, or nets by name");
}

/* No two of these have one name; `line` answers where each stands. */
static void check_names(struct reader *reader, const char *const *name, unsigned number,
                        unsigned (*line)(const struct reader *, unsigned))
{
    for (unsigned i = 0; i < number; i++)
        for (unsigned k = 0; k < i && name[i] != NULL; k++)
            if (name[k] != NULL && strcmp(name[i], name[k]) == 0) {
                wrong(reader, line(reader, i), "%s is a name already, in line %u", name[i], line(reader, k));
                break;
            }
}

static unsigned line_of_net(const struct reader *reader, unsigned net)
{
    return reader->net_line[net];
}

static unsigned line_of_cell(const struct reader *reader, unsigned position)
{
    return reader->cell[position].line;
}

static unsigned index_of(const char *const *name, unsigned number, const char *word)
{
    unsigned i = 0;
    while (i < number && (name[i] == NULL || strcmp(name[i], word) != 0))
        i++;
    return i;
}

/* The number that a word stands for, among `number` names; a record may have any number of 16 bits, and none. */
static bool refer(const char *const *name, unsigned number, const char *word, bool any, unsigned *into)
{
    unsigned long long found = index_of(name, number, word);
    if (any && strcmp(word, "none") == 0)
        found = NONE;
    else if (is_number(word)) {
        if (!read_number(word, any ? NONE : number - 1, &found))
            return false;
    } else if (found == number) {
        return false;
    }
    *into = (unsigned)found;
    return true;
}

static void settle_net(struct reader *reader, const struct cell_line *line, bool any, struct cell *cell)
{
    const char *word = line->value[2];
    const struct description *into = reader->into;
    if (word != NULL && into->nets != 0 && !refer(into->names.net, into->nets, word, any, &cell->net))
        wrong(reader, line->line, "expected a net, a name or a number below %u, found %s", into->nets, word);
}

static void settle_control(struct reader *reader, const struct cell_line *line, bool any, struct cell *cell)
{
    const char *word = line->value[1];
    const struct description *into = reader->into;
    if (word == NULL)
        return;
    if (!refer(into->names.cell, into->cells, word, any, &cell->control)) {
        wrong(reader, line->line, "expected a control cell, a name or a position below %u, found %s", into->cells, word);
    } else if (!any) {
        const struct cell_line *to = &reader->cell[cell->control];
        if (to->form != NULL && to->form->kind != CONTROL)
            wrong(reader, line->line, "expected a control cell, found %s, which is %s in line %u", word, to->form->word, to->line);
    }
}

/* The numbers of a cell's record. */
static void settle_cell(struct reader *reader, unsigned position)
{
    const struct cell_line *line = &reader->cell[position];
    struct cell *cell = &reader->into->cell[position];
    if (line->form == NULL)
        return;
    bool any = line->form == &forms[RECORD_FORM];
    const unsigned range[2] = {0, any ? 255 : 1};
    *cell = (struct cell){line->form->kind, 0, NONE, NONE};
    reader->line = line->line;
    if (line->value[0] != NULL)
        take_number(reader, "an on value", line->value[0], range, &cell->on);
    if (line->value[3] != NULL)
        take_number(reader, "a kind", line->value[3], range, &cell->kind);
    settle_net(reader, line, any, cell);
    settle_control(reader, line, any, cell);
}

static void settle(struct reader *reader)
{
    struct description *into = reader->into;
    unsigned lines = reader->line;
    settle_nets(reader);
    if (reader->limit_line == 0)
        wrong(reader, lines, "expected a line limit SSOL");
    if (into->cells == 0)
        wrong(reader, lines, "expected at least one cell");
    check_names(reader, into->names.net, RIGCANDLE_MOST_NETS, line_of_net);
    check_names(reader, into->names.cell, into->cells, line_of_cell);
    for (unsigned position = 0; position < into->cells; position++)
        settle_cell(reader, position);
}

bool read_description(const char *name, struct bytes *text, struct description *into)
{
    static struct reader reader;
    memset(into, 0, sizeof *into);
    reader = (struct reader){.name = name, .into = into};
    if (text->length > MOST_TEXT || memchr(text->at, 0, text->length) != NULL) {
        wrong(&reader, 1, "expected text of at most %d bytes, without zero bytes", MOST_TEXT);
        return told_all(&reader);
    }
    char *first = (char *)text->at;
    if (strncmp(first, BYTE_ORDER_MARK, strlen(BYTE_ORDER_MARK)) == 0)
        first += strlen(BYTE_ORDER_MARK);
    for (char *line = first; line != NULL;) {
        char *end = strchr(line, '\n');
        if (end != NULL)
            *end++ = 0;
        if (*line != 0 || end != NULL)
            reader.line++;
        read_line(&reader, line);
        line = end;
    }
    settle(&reader);
    return told_all(&reader);
}

/* ---------------------------------------------------------------- writing */

/* Whether a cell can be told by a form's words, or has to be told as a record. */
static bool has_form(const struct description *says, const struct cell *cell)
{
    bool net = cell->net < says->nets, no_net = cell->net == NONE;
    bool no_control = cell->control == NONE, off = cell->on == 0;
    switch (cell->kind) {
    case INTERNAL:
        return off && no_control && no_net;
    case INPUT:
    case TWO_STATE:
    case OPEN_DRAIN:
        return off && no_control && net;
    case CONTROL:
        return cell->on <= 1 && no_control && no_net;
    case THREE_STATE:
        return off && net && cell->control < says->cells && says->cell[cell->control].kind == CONTROL &&
               has_form(says, &says->cell[cell->control]);
    default:
        return false;
    }
}

/* " WORD" and the name of this number, or the number. */
static int put_reference(char *at, size_t room, const char *word, const char *name, unsigned number)
{
    if (name != NULL)
        return snprintf(at, room, " %s %s", word, name);
    return snprintf(at, room, number == NONE ? " %s none" : " %s %u", word, number);
}

/* A cell's line without its name. */
static void put_cell(char *at, size_t room, const struct description *says, const struct cell *cell)
{
    const struct form *form = &forms[RECORD_FORM];
    for (unsigned i = 0; i < RECORD_FORM && has_form(says, cell); i++)
        if (forms[i].kind == cell->kind)
            form = &forms[i];
    int length = snprintf(at, room, "%s", form->word);
    if ((form->wants & KIND_FIELD) != 0)
        length += snprintf(at + length, room - (size_t)length, " kind %u", cell->kind);
    if ((form->wants & ON_FIELD) != 0)
        length += snprintf(at + length, room - (size_t)length, " on %u", cell->on);
    if ((form->wants & NET_FIELD) != 0)
        length += put_reference(at + length, room - (size_t)length, "net", cell->net < says->nets ? says->names.net[cell->net] : NULL,
                                cell->net);
    if ((form->wants & CONTROL_FIELD) != 0)
        put_reference(at + length, room - (size_t)length, "control",
                      cell->control < says->cells ? says->names.cell[cell->control] : NULL, cell->control);
}

void write_description(FILE *out, const struct board *board)
{
    const struct description *says = &board->says;
    int wide = 0;
    fprintf(out, "# %u cells; behind each its position\nlimit %u\nnets %u\n", says->cells, says->limit, says->nets);
    for (unsigned net = 0; net < says->nets; net++)
        if (says->names.net[net] != NULL)
            fprintf(out, "net %u %s\n", net, says->names.net[net]);
    for (unsigned c = 0; c < says->cells; c++)
        if (says->names.cell[c] != NULL && (int)strlen(says->names.cell[c]) + 2 > wide)
            wide = (int)strlen(says->names.cell[c]) + 2;
    fputc('\n', out);
    for (unsigned c = 0; c < says->cells; c++) {
        char label[MOST_NAME + 2] = "", line[256];
        if (says->names.cell[c] != NULL)
            snprintf(label, sizeof label, "%s:", says->names.cell[c]);
        put_cell(line, sizeof line, says, &says->cell[c]);
        fprintf(out, "%-*s%-36s # %u\n", wide, label, line, c);
    }
}
