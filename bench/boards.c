/*
 * boards.c - the reference boards of the benchmark. Each is made in the order of its positions: control cells with their outputs behind
 * them and open-drain cells, then the two-state outputs, then the input cells. The same board is then also put in two other orders, since
 * a board's cells may stand in any. Nothing is drawn at random but by a fixed seed, so that a count can be made again.
 */
#include "boards.h"

#include <assert.h>
#include <stdio.h>
#include <string.h>

enum { INTERNAL, INPUT, CONTROL, THREE_STATE, TWO_STATE, OPEN_DRAIN };

enum { NONE = 65535, BODY = 508, RECORDS_AT = 4, RECORD = 6, PER_BLOCK = 84, SEED = 12 };

/* ---------------------------------------------------------------- cells */

static void add(struct board *b, unsigned kind, unsigned on, unsigned control, unsigned net)
{
    assert(b->size < RIGCANDLE_MOST_CELLS);
    b->cell[b->size++] = (struct cell){(uint8_t)kind, (uint8_t)on, (uint16_t)control, (uint16_t)net};
}

/* A control cell, and behind it its outputs on these nets. */
static void add_driver(struct board *b, unsigned on, unsigned first, unsigned width)
{
    unsigned control = b->size;
    add(b, CONTROL, on, NONE, NONE);
    for (unsigned net = first; net < first + width; net++)
        add(b, THREE_STATE, 0, control, net);
}

/* A bus: as many control cells, each of which switches all these nets. */
static void add_bus(struct board *b, unsigned drivers, unsigned first, unsigned width)
{
    for (unsigned i = 0; i < drivers; i++)
        add_driver(b, i % 2, first, width);
}

/* Devices with an open-drain cell on each of these nets. */
static void add_drains(struct board *b, unsigned devices, unsigned first, unsigned width)
{
    for (unsigned i = 0; i < devices; i++)
        for (unsigned net = first; net < first + width; net++)
            add(b, OPEN_DRAIN, 0, NONE, net);
}

/* A bus that both kinds of device share, in turn as long as there are any. */
static void add_mixed_bus(struct board *b, unsigned drivers, unsigned drains, unsigned first, unsigned width)
{
    for (unsigned i = 0; i < drivers || i < drains; i++) {
        if (i < drivers)
            add_driver(b, i % 2, first, width);
        if (i < drains)
            add_drains(b, 1, first, width);
    }
}

/* One level of a tree: control cells of this width side by side over the nets from `first` up to `end`. */
static void add_level(struct board *b, unsigned on, unsigned width, unsigned first, unsigned end)
{
    for (; first < end; first += width)
        add_driver(b, on, first, width);
}

static void add_always_on(struct board *b, unsigned first, unsigned end)
{
    for (unsigned net = first; net < end; net++)
        add(b, TWO_STATE, 0, NONE, net);
}

/* Input cells up to this number of cells: of net 0, 1, .. N - 1, and again from net 0. */
static void fill_with_inputs(struct board *b, unsigned size)
{
    for (unsigned i = 0; b->size < size; i++)
        add(b, INPUT, 0, NONE, i % b->nets);
}

/* ---------------------------------------------------------------- boards */

/* Document 01's board E. */
static void make_e(struct board *b)
{
    add_driver(b, 1, 0, 2);
    add_driver(b, 0, 0, 1);
    add_driver(b, 1, 1, 1);
    add_always_on(b, 2, 3);
    fill_with_inputs(b, 11);
}

/* Three wide buses with 16, 8 and 4 drivers, over 80 nets. */
static void add_buses(struct board *b)
{
    add_bus(b, 16, 0, 32);
    add_bus(b, 8, 32, 32);
    add_bus(b, 4, 64, 16);
}

static void make_bus(struct board *b)
{
    add_buses(b);
    add_always_on(b, 80, 96);
    fill_with_inputs(b, 1024);
}

/* Control cells that halve eight nets: one of 8, two of 4, four of 2, three times eight of 1; the other way round in every other tree. */
static void add_tree(struct board *b, unsigned tree)
{
    static const unsigned width[] = {8, 4, 2, 1, 1, 1};
    const unsigned levels = sizeof width / sizeof *width;
    for (unsigned i = 0; i < levels; i++) {
        unsigned level = tree % 2 == 0 ? i : levels - 1 - i;
        add_level(b, i % 2, width[level], 8 * tree, 8 * tree + 8);
    }
}

static void add_trees(struct board *b, unsigned trees)
{
    for (unsigned tree = 0; tree < trees; tree++)
        add_tree(b, tree);
}

static void make_nested(struct board *b)
{
    add_trees(b, 11);
    fill_with_inputs(b, 1024);
}

/* One control cell over all nets, and a control cell for each net. */
static void make_cover(struct board *b)
{
    add_level(b, 1, b->nets, 0, b->nets);
    add_level(b, 0, 1, 0, b->nets);
    fill_with_inputs(b, 1024);
}

/* The same the other way round: a control cell for each net, and the one over all nets highest. */
static void make_widest(struct board *b)
{
    add_level(b, 0, 1, 0, b->nets);
    add_level(b, 1, b->nets, 0, b->nets);
    fill_with_inputs(b, 1024);
}

/* Three times a control cell for each pair of nets, and above them one for each 16 nets and one over all. */
static void make_pairs(struct board *b)
{
    for (unsigned i = 0; i < 3; i++)
        add_level(b, i % 2, 2, 0, b->nets);
    add_level(b, 1, 16, 0, b->nets);
    add_level(b, 0, b->nets, 0, b->nets);
    fill_with_inputs(b, 1024);
}

/* A binary tree of control cells over all nets: the small ones low, from those of `least` nets up to the one over all. */
static void make_tree(struct board *b, unsigned least)
{
    unsigned on = 0;
    for (unsigned width = least; width <= b->nets; width *= 2)
        add_level(b, on++ % 2, width, 0, b->nets);
    fill_with_inputs(b, 1024);
}

/* One net with this many drivers, which is G; the other nets are always on. Nearly all other cells are input cells. */
static void make_inputs(struct board *b, unsigned drivers)
{
    add_bus(b, drivers, 0, 1);
    add_always_on(b, 1, b->nets);
    fill_with_inputs(b, 1024);
}

/* Open-drain lines: some with as many cells as a net may have, some with fewer. No control cell of kind 2. */
static void make_drain(struct board *b)
{
    add_drains(b, 16, 0, 48);
    add_drains(b, 8, 48, 16);
    add_drains(b, 4, 64, 8);
    fill_with_inputs(b, 1024);
}

/*
 * Nets with both: three buses of 16 drivers a net, of which 12, 8 and 4 are three-state; one with nested control cells, one of 8 nets and
 * two of 4, and four open-drain cells a net. Besides, lines of open-drain cells alone.
 */
static void make_mixed(struct board *b)
{
    add_mixed_bus(b, 12, 4, 0, 16);
    add_mixed_bus(b, 8, 8, 16, 16);
    add_mixed_bus(b, 4, 12, 32, 16);
    add_level(b, 1, 8, 48, 56);
    add_drains(b, 4, 48, 8);
    add_level(b, 0, 4, 48, 56);
    add_drains(b, 3, 56, 16);
    add_always_on(b, 72, b->nets);
    fill_with_inputs(b, 1024);
}

/* Refused: one net with 500 drivers, too many. */
static void make_crowd(struct board *b)
{
    b->refusal = 9;
    add_bus(b, 500, 0, 1);
    fill_with_inputs(b, 1024);
}

/* Refused earlier: of as many drivers the last has the control cell of the one before it, so that reversed the two lowest clash. */
static void make_shared(struct board *b)
{
    b->refusal = 8;
    add_bus(b, 499, 0, 1);
    add(b, THREE_STATE, 0, b->size - 2, 0);
    fill_with_inputs(b, 1024);
}

/* Two control cells that cross: each has a net that the other lacks, and one is shared. */
static void add_crossing(struct board *b, unsigned first, unsigned width)
{
    add_driver(b, 1, first, width);
    add_driver(b, 0, first + width - 1, width);
}

/* Refused late: above all control cells of `nested`, none of which crosses another, are two that cross; reversed they come first. */
static void make_crossed_trees(struct board *b)
{
    b->refusal = 10;
    add_trees(b, 11);
    add_crossing(b, 88, 2);
    fill_with_inputs(b, 1024);
}

/* The same above the drivers of `bus`, each of which shares all its nets with up to 15 others. */
static void make_crossed_buses(struct board *b)
{
    b->refusal = 10;
    add_buses(b);
    add_crossing(b, 80, 8);
    add_always_on(b, 95, 96);
    fill_with_inputs(b, 1024);
}

/*
 * For growth, with 128 cells for each unit: a unit has 8 nets with 8 drivers each and 8 nets that are always on. `buses` buses share the
 * units' nets: as many as there are units, so that there are more of them, or one, so that it grows wider. SSOL is a quarter of the nets,
 * so that vectors grow little more than p.
 */
static void make_growth(struct board *b, unsigned units, unsigned buses)
{
    unsigned width = 8 * units / buses;
    for (unsigned i = 0; i < buses; i++)
        add_bus(b, 8, width * i, width);
    add_always_on(b, 8 * units, b->nets);
    fill_with_inputs(b, 128 * units);
}

/* ---------------------------------------------------------------- source 000's table 6 */

/*
 * The table gives cells, nets and the largest degree, and nothing of control cells, input cells and the other degrees. Decided here: the
 * nets are buses of eight. Components have one control cell for the whole bus or one for each half of it, in turn, since the source's
 * section 1 speaks of both on one bus. The first bus has the largest degree, and the others get drivers in turn as long as each net keeps
 * an input cell. What is left are more input cells. The source has no SSOL: it never binds.
 */
static const struct circuit {
    unsigned cells;
    unsigned nets;
    unsigned degree;
} table_6[] = {
    {36, 16, 1}, {160, 36, 3}, {196, 52, 3}, {190, 66, 3}, {226, 82, 3}, {430, 100, 4},
    {422, 134, 3}, {582, 130, 5}, {620, 166, 4}, {772, 196, 5}, {860, 200, 4}, {1012, 230, 5},
};

/* One component's outputs on the bus from this net on, unless there would be more than `most` cells. */
static void add_component(struct board *b, unsigned turn, unsigned first, unsigned most)
{
    unsigned width = b->nets - first < 8 ? b->nets - first : 8;
    if (b->size + width + 2 > most)
        return;
    if (turn % 2 == 1) {
        add_driver(b, 1, first, width);
    } else {
        add_driver(b, 0, first, width / 2);
        add_driver(b, 0, first + width / 2, width - width / 2);
    }
}

static void make_circuit(struct board *b, const struct circuit *circuit)
{
    unsigned most = circuit->cells - circuit->nets;
    for (unsigned turn = 0; turn < circuit->degree; turn++)
        add_component(b, turn, 0, most);
    for (unsigned turn = 0; turn < circuit->degree; turn++)
        for (unsigned first = 8; first < b->nets; first += 8)
            add_component(b, turn, first, most);
    fill_with_inputs(b, circuit->cells);
}

/* ---------------------------------------------------------------- all boards */

static struct board *begin(struct board *b, const char *name, unsigned number, unsigned nets, unsigned limit)
{
    memset(b, 0, sizeof *b);
    if (number == 0)
        snprintf(b->name, sizeof b->name, "%s", name);
    else
        snprintf(b->name, sizeof b->name, "%s-%u", name, number);
    b->nets = nets;
    b->limit = limit;
    return b;
}

unsigned make_boards(struct board *boards)
{
    struct board *next = boards;
    make_e(begin(next++, "e", 0, 3, 2));
    make_bus(begin(next++, "bus", 0, 96, 8));
    make_nested(begin(next++, "nested", 0, 88, 8));
    make_cover(begin(next++, "cover", 0, 255, 8));
    make_widest(begin(next++, "widest", 0, 255, RIGCANDLE_MOST_CELLS));
    make_pairs(begin(next++, "pairs", 0, 128, RIGCANDLE_MOST_CELLS));
    make_tree(begin(next++, "tree", 1, 64, RIGCANDLE_MOST_CELLS), 1);
    make_tree(begin(next++, "tree", 2, 128, RIGCANDLE_MOST_CELLS), 2);
    make_tree(begin(next++, "tree", 4, 128, RIGCANDLE_MOST_CELLS), 4);
    make_inputs(begin(next++, "limit", 0, 128, 2), 16);
    make_inputs(begin(next++, "nets256", 0, 256, 2), 7);
    make_inputs(begin(next++, "ssol1", 0, 256, 1), 3);
    make_drain(begin(next++, "drain", 0, 72, 8));
    make_mixed(begin(next++, "mixed", 0, 80, 8));
    for (unsigned i = 0; i < sizeof table_6 / sizeof *table_6; i++)
        make_circuit(begin(next++, "table6", i + 1, table_6[i].nets, RIGCANDLE_MOST_CELLS), &table_6[i]);
    for (unsigned units = 1; units <= 8; units *= 2)
        make_growth(begin(next++, "more", 128 * units, 16 * units, 4 * units), units, units);
    for (unsigned units = 1; units <= 8; units *= 2)
        make_growth(begin(next++, "wide", 128 * units, 16 * units, 4 * units), units, 1);
    make_crowd(begin(next++, "crowd", 0, 1, 8));
    make_shared(begin(next++, "shared", 0, 1, 8));
    make_crossed_trees(begin(next++, "crossed", 1, 91, 8));
    make_crossed_buses(begin(next++, "crossed", 2, 96, 8));
    assert(next - boards <= MOST_BOARDS);
    return (unsigned)(next - boards);
}

unsigned control_cells(const struct board *b)
{
    unsigned found = 0;
    for (unsigned q = 0; q < b->size; q++)
        found += b->cell[q].kind == CONTROL || b->cell[q].kind == OPEN_DRAIN;
    return found;
}

unsigned nets_seen(const struct board *b)
{
    uint8_t seen[RIGCANDLE_MOST_NETS] = {0};
    unsigned found = 0;
    for (unsigned q = 0; q < b->size; q++)
        if (b->cell[q].kind == INPUT)
            seen[b->cell[q].net] = 1;
    for (unsigned net = 0; net < b->nets; net++)
        found += seen[net];
    return found;
}

/* ---------------------------------------------------------------- orders */

/* Each place changes places with one at or below it, from the last down: which one, is told by a number that goes on from the seed. */
static void shuffle(uint16_t *place, unsigned size)
{
    uint32_t number = SEED;
    for (unsigned q = size - 1; q > 0; q--) {
        number = number * 1664525 + 1013904223;
        unsigned other = (number >> 16) % (q + 1);
        uint16_t moved = place[q];
        place[q] = place[other];
        place[other] = moved;
    }
}

/* place[q] is where the cell at q goes. */
static void find_places(unsigned size, enum order order, uint16_t *place)
{
    for (unsigned q = 0; q < size; q++)
        place[q] = (uint16_t)(order == REVERSED ? size - 1 - q : q);
    if (order == SHUFFLED)
        shuffle(place, size);
}

void put_in_order(const struct board *made, enum order order, struct board *b)
{
    uint16_t place[RIGCANDLE_MOST_CELLS];
    *b = *made;
    find_places(made->size, order, place);
    for (unsigned q = 0; q < made->size; q++) {
        struct cell *cell = &b->cell[place[q]];
        *cell = made->cell[q];
        if (cell->control != NONE)
            cell->control = place[cell->control];
    }
}

/* ---------------------------------------------------------------- the board file */

static void put_u16(uint8_t *bytes, unsigned number)
{
    bytes[0] = (uint8_t)number;
    bytes[1] = (uint8_t)(number >> 8);
}

static void seal(uint8_t *block)
{
    unsigned a = 1, b = 0;
    for (unsigned i = 0; i < BODY; i++) {
        a += block[i];
        b += a;
    }
    put_u16(block + BODY, a);
    put_u16(block + BODY + 2, b);
}

static void write_header(const struct board *b, uint8_t *block)
{
    memcpy(block, "\0\0\1\0BSIN\1", 9);
    put_u16(block + 10, b->size);
    put_u16(block + 12, b->nets);
    put_u16(block + 14, b->limit);
}

static void write_record(const struct cell *cell, uint8_t *record)
{
    record[0] = cell->kind;
    record[1] = cell->on;
    put_u16(record + 2, cell->control);
    put_u16(record + 4, cell->net);
}

size_t write_file(const struct board *b, uint8_t *file)
{
    unsigned blocks = 1 + (b->size + PER_BLOCK - 1) / PER_BLOCK;
    memset(file, 0, blocks * RIGCANDLE_BLOCK_SIZE);
    write_header(b, file);
    for (unsigned q = 0; q < b->size; q++) {
        uint8_t *block = file + (1 + q / PER_BLOCK) * RIGCANDLE_BLOCK_SIZE;
        put_u16(block, 1 + q / PER_BLOCK);
        block[2] = 2;
        block[3]++;
        write_record(&b->cell[q], block + RECORDS_AT + RECORD * (q % PER_BLOCK));
    }
    for (unsigned k = 0; k < blocks; k++)
        seal(file + k * RIGCANDLE_BLOCK_SIZE);
    return blocks * RIGCANDLE_BLOCK_SIZE;
}

/* ---------------------------------------------------------------- captures */

static unsigned code_bit(unsigned net, unsigned patterns, unsigned k)
{
    return (net + 1) >> (patterns - 1 - k) & 1;
}

/* The nets that differ between pattern k, from 0, and the next, which is the first after the last. */
static unsigned differing(const struct board *b, unsigned patterns, unsigned k)
{
    unsigned h = 0;
    for (unsigned net = 0; net < b->nets; net++)
        h += code_bit(net, patterns, k) != code_bit(net, patterns, (k + 1) % patterns);
    return h;
}

/* The net values of the t-th vector inserted after pattern k; of pattern k itself for t = 0. */
static void find_values(const struct board *b, unsigned patterns, unsigned k, unsigned t, uint8_t *values)
{
    unsigned left = t * b->limit;
    for (unsigned net = 0; net < b->nets; net++) {
        unsigned next = code_bit(net, patterns, (k + 1) % patterns);
        values[net] = (uint8_t)code_bit(net, patterns, k);
        if (values[net] != next && left > 0) {
            values[net] = (uint8_t)next;
            left--;
        }
    }
}

static void write_readings(const struct board *b, const uint8_t *values, unsigned further, uint8_t *row)
{
    memset(row, 0, (b->size + 7) / 8);
    for (unsigned q = 0; q < b->size; q++)
        if (b->cell[q].kind == INPUT && values[(b->cell[q].net + further) % b->nets])
            row[q / 8] |= (uint8_t)(1u << (q % 8));
}

size_t write_capture(const struct board *b, unsigned groups, unsigned patterns, unsigned further, uint8_t *capture)
{
    uint8_t values[RIGCANDLE_MOST_NETS];
    uint8_t *row = capture;
    for (unsigned base = 0; base < groups * patterns; base++) {
        unsigned k = base % patterns, h = differing(b, patterns, k);
        unsigned inserted = h == 0 || base + 1 == groups * patterns ? 0 : (h + b->limit - 1) / b->limit - 1;
        for (unsigned t = 0; t <= inserted; t++) {
            find_values(b, patterns, k, t, values);
            write_readings(b, values, further, row);
            row += (b->size + 7) / 8;
        }
    }
    return (size_t)(row - capture);
}
