/*
 * board.c - reads a board file, asks the library about it, and knows the file's layout for `make` and for words. The layout is
 * document 01's; whether a file keeps to it is the library's answer.
 */
#include "board.h"
#include "files.h"
#include "refusals.h"
#include "text.h"

#include <string.h>

unsigned word_at(const uint8_t *bytes)
{
    return bytes[0] + 256u * bytes[1];
}

unsigned bit_at(const uint8_t *row, unsigned position)
{
    return row[position / 8] >> position % 8 & 1u;
}

bool is_output(const struct cell *cell)
{
    return cell->kind == THREE_STATE || cell->kind == TWO_STATE || cell->kind == OPEN_DRAIN;
}

bool drives(const struct cell *cell, unsigned net)
{
    return is_output(cell) && cell->net == net;
}

bool senses(const struct cell *cell, unsigned net)
{
    return cell->kind == INPUT && cell->net == net;
}

bool is_open_drain_line(const struct board *board, unsigned net)
{
    for (unsigned c = 0; c < board->says.cells; c++)
        if (board->says.cell[c].kind == OPEN_DRAIN && board->says.cell[c].net == net)
            return true;
    return false;
}

/* ---------------------------------------------------------------- the file's layout */

struct sums block_sums(const uint8_t *block)
{
    struct sums sums = {1, 0};
    for (unsigned i = 0; i < BODY; i++) {
        sums.a = (uint16_t)(sums.a + block[i]);
        sums.b = (uint16_t)(sums.b + sums.a);
    }
    return sums;
}

static void put_word(uint8_t *at, unsigned word)
{
    at[0] = (uint8_t)(word & 255);
    at[1] = (uint8_t)(word >> 8);
}

static void seal(uint8_t *block)
{
    struct sums sums = block_sums(block);
    put_word(block + BODY, sums.a);
    put_word(block + BODY + 2, sums.b);
}

static void encode_header(const struct description *says, uint8_t *block)
{
    memset(block, 0, RIGCANDLE_BLOCK_SIZE);
    block[2] = 1;
    memcpy(block + 4, "BSIN", 4);
    block[8] = 1;
    put_word(block + 10, says->cells);
    put_word(block + 12, says->nets);
    put_word(block + 14, says->limit);
    seal(block);
}

/* Block `number`, which holds the records from position `from` on. */
static void encode_cells(const struct description *says, unsigned number, unsigned from, uint8_t *block)
{
    unsigned records = says->cells - from;
    if (records > RECORDS_A_BLOCK)
        records = RECORDS_A_BLOCK;
    memset(block, 0, RIGCANDLE_BLOCK_SIZE);
    put_word(block, number);
    block[2] = 2;
    block[3] = (uint8_t)records;
    for (unsigned i = 0; i < records; i++) {
        const struct cell *cell = &says->cell[from + i];
        uint8_t *record = block + RECORDS_FROM + RECORD_SIZE * i;
        record[0] = (uint8_t)cell->kind;
        record[1] = (uint8_t)cell->on;
        put_word(record + 2, cell->control);
        put_word(record + 4, cell->net);
    }
    seal(block);
}

size_t encode_board(const struct description *says, uint8_t *file)
{
    unsigned number = 1;
    encode_header(says, file);
    for (unsigned from = 0; from < says->cells; from += RECORDS_A_BLOCK, number++)
        encode_cells(says, number, from, file + RIGCANDLE_BLOCK_SIZE * number);
    return RIGCANDLE_BLOCK_SIZE * number;
}

/* Of a file that refusals 1 to 5 let pass. */
static void decode_board(const uint8_t *file, struct description *says)
{
    says->cells = word_at(file + 10);
    says->nets = word_at(file + 12);
    says->limit = word_at(file + 14);
    for (unsigned c = 0; c < says->cells; c++) {
        const uint8_t *block = file + RIGCANDLE_BLOCK_SIZE * (1 + c / RECORDS_A_BLOCK);
        const uint8_t *record = block + RECORDS_FROM + RECORD_SIZE * (c % RECORDS_A_BLOCK);
        says->cell[c] = (struct cell){record[0], record[1], word_at(record + 2), word_at(record + 4)};
    }
}

/* ---------------------------------------------------------------- reading a board */

/* Takes the description's names, if it describes this very file. */
static enum status take_names(const char *name, struct board *board)
{
    static struct description other;
    static uint8_t file[RIGCANDLE_MOST_FILE];
    static struct bytes text;
    if (!read_whole(name, MOST_TEXT, &text))
        return UNUSABLE;
    if (!read_description(input_name(name), &text, &other))
        return USAGE;
    if (!board->readable)
        return FINE;
    size_t length = encode_board(&other, file);
    if (length != board->length || memcmp(file, board->file, length) != 0) {
        complain("%s does not describe %s: its names would mislead", input_name(name), board->name);
        return USAGE;
    }
    board->says.names = other.names;
    return FINE;
}

enum status read_board(const char *name, const char *names, struct board *board)
{
    struct bytes read;
    memset(board, 0, sizeof *board);
    board->name = input_name(name);
    if (!read_whole(name, RIGCANDLE_MOST_FILE, &read))
        return UNUSABLE;
    board->file = read.at;
    board->length = read.length;
    board->counted = count(board->file, board->length);
    unsigned number = rigcandle_refusal(board->counted);
    board->readable = number == RIGCANDLE_ACCEPTED || number > RIGCANDLE_BLOCK_LAYOUT;
    if (board->readable) {
        decode_board(board->file, &board->says);
        board->row = (board->says.cells + 7) / 8;
        board->vectors = rigcandle_count_total(board->counted);
    }
    return names != NULL ? take_names(names, board) : FINE;
}

bool refused(const struct board *board)
{
    if (rigcandle_refusal(board->counted) == RIGCANDLE_ACCEPTED)
        return false;
    complain_refusal(board->name, board->counted);
    return true;
}

/* ---------------------------------------------------------------- words */

static void print_named(FILE *out, const char *what, unsigned number, const char *name)
{
    fprintf(out, "%s %u%s%s", what, number, name != NULL ? " " : "", name != NULL ? name : "");
}

void print_net(FILE *out, const struct board *board, unsigned net)
{
    print_named(out, "net", net, net < board->says.nets ? board->says.names.net[net] : NULL);
}

void print_position(FILE *out, const struct board *board, unsigned position)
{
    print_named(out, "position", position, position < board->says.cells ? board->says.names.cell[position] : NULL);
}

void print_row(FILE *out, const struct board *board, const uint8_t *row)
{
    for (size_t i = 0; i < board->row; i++)
        fprintf(out, "%02X", row[i]);
}
