/*
 * plain.c - the four questions of document 01, with request [1]'s second place and request [3]'s open-drain cells, written from their
 * sentences as one would write them in C: read the file into a struct, check it, work with sets of nets as bits. No tricks and no heap;
 * about 80 KB of stack.
 */
#include "plain.h"

#include <stdbool.h>
#include <string.h>

enum {
    BLOCK = 512,
    BODY = 508,        /* the bytes of a block that its sums cover */
    RECORDS_AT = 4,
    RECORD = 6,
    PER_BLOCK = 84,
    MOST_BLOCKS = 14,
    MOST_CELLS = 1024,
    MOST_NETS = 256,
    MOST_LIMIT = 1024, /* of SSOL */
    MOST_DRIVERS = 16,
    MOST_PATTERNS = 9, /* p where N is 256 */
    MOST_VECTORS = 4096,
    NET_WORDS = MOST_NETS / 64,
    MOST_ROW = MOST_CELLS / 8,
    NONE = 65535
};

enum { INTERNAL, INPUT, CONTROL, THREE_STATE, TWO_STATE, OPEN_DRAIN };

enum { PASS, FAIL, NOT_SEEN, READ_TWICE };

/* What a check answers where it finds no fault. */
enum { NOWHERE = -1 };

struct net_set {
    uint64_t word[NET_WORDS];
};

struct cell {
    uint8_t kind;
    uint8_t on;
    uint16_t control;
    uint16_t net;
};

struct board {
    unsigned size;  /* C */
    unsigned nets;  /* N */
    unsigned limit; /* SSOL */
    struct cell cell[MOST_CELLS];
    unsigned switches;                /* kind 2 cells */
    unsigned drains;                  /* open-drain cells, each a control cell of its own */
    unsigned controls;                /* both */
    uint16_t control[MOST_CELLS];     /* their positions: those of the kind 2 cells first, either ascending */
    struct net_set set[MOST_CELLS];   /* a control cell's net set, at its position */
    uint16_t drivers[MOST_NETS];      /* a net's kind 3 and 5 outputs */
    uint16_t always_on[MOST_NETS];    /* a net's kind 4 outputs */
    bool same_control[MOST_NETS];     /* a net has two outputs of one control cell */
};

struct plan {
    unsigned nets;
    unsigned limit;
    unsigned groups;                       /* G */
    unsigned patterns;                     /* p */
    struct net_set pattern[MOST_PATTERNS]; /* the nets with value 1 */
    unsigned inserted[MOST_PATTERNS];      /* vectors between a pattern and the next, the last's next being the first */
    unsigned total;
};

/* ---------------------------------------------------------------- sets of nets */

static bool has(const struct net_set *s, unsigned net)
{
    return s->word[net / 64] >> (net % 64) & 1;
}

static void add(struct net_set *s, unsigned net)
{
    s->word[net / 64] |= (uint64_t)1 << (net % 64);
}

static bool meet(const struct net_set *s, const struct net_set *t)
{
    for (unsigned i = 0; i < NET_WORDS; i++)
        if (s->word[i] & t->word[i])
            return true;
    return false;
}

/* s holds t */
static bool holds(const struct net_set *s, const struct net_set *t)
{
    for (unsigned i = 0; i < NET_WORDS; i++)
        if (t->word[i] & ~s->word[i])
            return false;
    return true;
}

/* they meet and neither holds the other */
static bool cross(const struct net_set *s, const struct net_set *t)
{
    return meet(s, t) && !holds(s, t) && !holds(t, s);
}

static struct net_set differing(const struct net_set *s, const struct net_set *t)
{
    struct net_set d;
    for (unsigned i = 0; i < NET_WORDS; i++)
        d.word[i] = s->word[i] ^ t->word[i];
    return d;
}

static unsigned members(const struct net_set *s)
{
    unsigned found = 0;
    for (unsigned i = 0; i < NET_WORDS; i++)
        for (uint64_t rest = s->word[i]; rest != 0; rest &= rest - 1)
            found++;
    return found;
}

/* ---------------------------------------------------------------- the board file */

static unsigned u16_at(const uint8_t *bytes)
{
    return bytes[0] | (unsigned)bytes[1] << 8;
}

static bool all_zero(const uint8_t *bytes, unsigned from, unsigned to)
{
    for (unsigned i = from; i < to; i++)
        if (bytes[i] != 0)
            return false;
    return true;
}

static unsigned row_bytes(unsigned size)
{
    return (size + 7) / 8;
}

/* 1: file empty, not a multiple of 512, or over 14 blocks */
static int length_fault(size_t file_len)
{
    return file_len == 0 || file_len % BLOCK != 0 || file_len > MOST_BLOCKS * BLOCK ? 0 : NOWHERE;
}

static bool sums_right(const uint8_t *block)
{
    uint16_t a = 1, b = 0;
    for (unsigned i = 0; i < BODY; i++) {
        a = (uint16_t)(a + block[i]);
        b = (uint16_t)(b + a);
    }
    return u16_at(block + BODY) == a && u16_at(block + BODY + 2) == b;
}

/* 2: some block's a or b is wrong */
static int sums_fault(const uint8_t *file, size_t file_len)
{
    for (unsigned k = 0; k < file_len / BLOCK; k++)
        if (!sums_right(file + k * BLOCK))
            return (int)k;
    return NOWHERE;
}

/* 3: block 0 differs from its layout (not C, N, SSOL) */
static int header_fault(const uint8_t *file)
{
    static const uint8_t start[10] = {0, 0, 1, 0, 'B', 'S', 'I', 'N', 1, 0};
    for (unsigned i = 0; i < sizeof start; i++)
        if (file[i] != start[i])
            return 0;
    return all_zero(file, 16, BODY) ? NOWHERE : 0;
}

static bool within(unsigned number, unsigned most)
{
    return 1 <= number && number <= most;
}

/* 4: C, N or SSOL outside its limits */
static int limits_fault(const struct board *b)
{
    return within(b->size, MOST_CELLS) && within(b->nets, MOST_NETS) && within(b->limit, MOST_LIMIT) ? NOWHERE : 0;
}

static unsigned records_in(unsigned size, unsigned block)
{
    unsigned left = size - PER_BLOCK * (block - 1);
    return left < PER_BLOCK ? left : PER_BLOCK;
}

/* 5: wrong number of blocks (place 0), or a cell block differs from its layout outside the records */
static int blocks_fault(const uint8_t *file, size_t file_len, unsigned size)
{
    unsigned blocks = 1 + (size + PER_BLOCK - 1) / PER_BLOCK;
    if (file_len != (size_t)blocks * BLOCK)
        return 0;
    for (unsigned k = 1; k < blocks; k++) {
        const uint8_t *block = file + k * BLOCK;
        unsigned records = records_in(size, k);
        if (u16_at(block) != k || block[2] != 2 || block[3] != records || !all_zero(block, RECORDS_AT + RECORD * records, BODY))
            return (int)k;
    }
    return NOWHERE;
}

static void read_cells(const uint8_t *file, struct board *b)
{
    for (unsigned q = 0; q < b->size; q++) {
        const uint8_t *record = file + (1 + q / PER_BLOCK) * BLOCK + RECORDS_AT + RECORD * (q % PER_BLOCK);
        b->cell[q].kind = record[0];
        b->cell[q].on = record[1];
        b->cell[q].control = (uint16_t)u16_at(record + 2);
        b->cell[q].net = (uint16_t)u16_at(record + 4);
    }
}

static bool record_right(struct board *b, const struct cell *cell)
{
    switch (cell->kind) {
    case INTERNAL:
        return cell->on == 0 && cell->control == NONE && cell->net == NONE;
    case INPUT:
    case TWO_STATE:
        return cell->on == 0 && cell->control == NONE && cell->net < b->nets;
    case OPEN_DRAIN:
        b->drains++;
        return cell->on == 0 && cell->control == NONE && cell->net < b->nets;
    case CONTROL:
        return cell->on <= 1 && cell->control == NONE && cell->net == NONE;
    case THREE_STATE:
        return cell->on == 0 && cell->control < b->size && b->cell[cell->control].kind == CONTROL && cell->net < b->nets;
    default:
        return false;
    }
}

/* 6: a record breaks the table. Counts the open-drain cells on the way. */
static int records_fault(struct board *b)
{
    b->drains = 0;
    for (unsigned q = 0; q < b->size; q++)
        if (!record_right(b, &b->cell[q]))
            return (int)q;
    return NOWHERE;
}

/* ---------------------------------------------------------------- nets and control cells */

/* From here on an open-drain cell is a three-state output that is its own control cell; only refusal 10 and the rows tell it apart. */
static void list_drains(struct board *b)
{
    for (unsigned q = 0; q < b->size; q++)
        if (b->cell[q].kind == OPEN_DRAIN) {
            b->cell[q].kind = THREE_STATE;
            b->cell[q].control = (uint16_t)q;
            b->control[b->controls++] = (uint16_t)q;
            memset(&b->set[q], 0, sizeof b->set[q]);
        }
}

static void list_controls(struct board *b)
{
    b->controls = 0;
    for (unsigned q = 0; q < b->size; q++)
        if (b->cell[q].kind == CONTROL) {
            b->control[b->controls++] = (uint16_t)q;
            memset(&b->set[q], 0, sizeof b->set[q]);
        }
    b->switches = b->controls;
    if (b->drains > 0)
        list_drains(b);
}

static void count_outputs(struct board *b)
{
    memset(b->drivers, 0, sizeof b->drivers);
    memset(b->always_on, 0, sizeof b->always_on);
    memset(b->same_control, 0, sizeof b->same_control);
    for (unsigned q = 0; q < b->size; q++) {
        const struct cell *cell = &b->cell[q];
        if (cell->kind == TWO_STATE)
            b->always_on[cell->net]++;
        if (cell->kind == THREE_STATE) {
            struct net_set *set = &b->set[cell->control];
            b->drivers[cell->net]++;
            if (has(set, cell->net))
                b->same_control[cell->net] = true;
            add(set, cell->net);
        }
    }
}

/* 7: a net has no kind 3, 4 or 5 output */
static int no_output_fault(const struct board *b)
{
    for (unsigned net = 0; net < b->nets; net++)
        if (b->drivers[net] + b->always_on[net] == 0)
            return (int)net;
    return NOWHERE;
}

/* 8: a net has a kind 4 output and another output, or two outputs of one control cell */
static int clash_fault(const struct board *b)
{
    for (unsigned net = 0; net < b->nets; net++)
        if ((b->always_on[net] > 0 && b->always_on[net] + b->drivers[net] > 1) || b->same_control[net])
            return (int)net;
    return NOWHERE;
}

/* 9: a net has over 16 controlled drivers */
static int drivers_fault(const struct board *b)
{
    for (unsigned net = 0; net < b->nets; net++)
        if (b->drivers[net] > MOST_DRIVERS)
            return (int)net;
    return NOWHERE;
}

/*
 * 10: two control cells' net sets meet and neither holds the other. The second place is the smallest larger position that crosses the
 * first. An open-drain cell's one net is held by every set that meets it.
 */
static int crossing_fault(const struct board *b, int *second)
{
    for (unsigned i = 0; i < b->switches; i++)
        for (unsigned j = i + 1; j < b->switches; j++)
            if (cross(&b->set[b->control[i]], &b->set[b->control[j]])) {
                *second = b->control[j];
                return b->control[i];
            }
    return NOWHERE;
}

/* 11: a control cell's nets differ in number of controlled drivers. Each output is held against the first of its control cell. */
static int uneven_fault(const struct board *b)
{
    uint16_t first[MOST_CELLS] = {0};
    int lowest = NOWHERE;
    for (unsigned q = 0; q < b->size; q++) {
        const struct cell *cell = &b->cell[q];
        if (cell->kind != THREE_STATE)
            continue;
        if (first[cell->control] == 0)
            first[cell->control] = b->drivers[cell->net];
        else if (first[cell->control] != b->drivers[cell->net] && (lowest == NOWHERE || cell->control < lowest))
            lowest = cell->control;
    }
    return lowest;
}

/* ---------------------------------------------------------------- codes and vectors */

static unsigned pattern_count(unsigned nets)
{
    unsigned p = 0;
    while (1u << p < nets + 2)
        p++;
    return p;
}

/* the nets whose code has a 1 at this bit, from the least */
static struct net_set code_bit(unsigned nets, unsigned bit)
{
    struct net_set s = {{0}};
    for (unsigned net = 0; net < nets; net++)
        if ((net + 1) >> bit & 1)
            add(&s, net);
    return s;
}

static unsigned insertions(unsigned h, unsigned limit)
{
    return h == 0 ? 0 : (h + limit - 1) / limit - 1;
}

/* G: the largest degree, but at least 1 */
static unsigned group_count(const struct board *b)
{
    unsigned most = 1;
    for (unsigned net = 0; net < b->nets; net++)
        if (b->drivers[net] > most)
            most = b->drivers[net];
    return most;
}

static unsigned next_pattern(const struct plan *plan, unsigned k)
{
    return k + 1 < plan->patterns ? k + 1 : 0;
}

static struct net_set change_after(const struct plan *plan, unsigned k)
{
    return differing(&plan->pattern[k], &plan->pattern[next_pattern(plan, k)]);
}

/* vectors inserted after base vector b; none after the last */
static unsigned inserted_after(const struct plan *plan, unsigned b)
{
    return b + 1 < plan->groups * plan->patterns ? plan->inserted[b % plan->patterns] : 0;
}

static void make_plan(const struct board *b, struct plan *plan)
{
    plan->nets = b->nets;
    plan->limit = b->limit;
    plan->groups = group_count(b);
    plan->patterns = pattern_count(b->nets);
    for (unsigned k = 0; k < plan->patterns; k++)
        plan->pattern[k] = code_bit(b->nets, plan->patterns - 1 - k);
    for (unsigned k = 0; k < plan->patterns; k++) {
        struct net_set change = change_after(plan, k);
        plan->inserted[k] = insertions(members(&change), plan->limit);
    }
    plan->total = 0;
    for (unsigned base = 0; base < plan->groups * plan->patterns; base++)
        plan->total += 1 + inserted_after(plan, base);
}

/* 12: over 4,096 vectors */
static int total_fault(const struct plan *plan)
{
    return plan->total > MOST_VECTORS ? 0 : NOWHERE;
}

/* The net values of the t-th vector inserted after a base vector; of the base vector itself for t = 0. */
static struct net_set values_of(const struct plan *plan, unsigned base, unsigned t)
{
    unsigned k = base % plan->patterns;
    struct net_set values = plan->pattern[k];
    struct net_set change = change_after(plan, k);
    unsigned left = t * plan->limit;
    for (unsigned net = 0; net < plan->nets && left > 0; net++)
        if (has(&change, net)) {
            values.word[net / 64] ^= (uint64_t)1 << (net % 64);
            left--;
        }
    return values;
}

/* ---------------------------------------------------------------- groups */

static void set_bit(uint8_t *row, unsigned q)
{
    row[q / 8] |= (uint8_t)(1u << (q % 8));
}

static void turn_on(const struct board *b, unsigned c, bool *marked, uint8_t *row)
{
    set_bit(row, c);
    for (unsigned i = 0; i < b->controls; i++)
        if (meet(&b->set[c], &b->set[b->control[i]]))
            marked[b->control[i]] = true;
}

static bool is_on(const uint8_t *row, unsigned c)
{
    return row[c / 8] >> (c % 8) & 1;
}

/* One group's row; `earlier` holds the control cells that were on in an earlier group, and afterwards in this one too. */
static void select_group(const struct board *b, unsigned g, bool *earlier, uint8_t *row)
{
    bool marked[MOST_CELLS] = {false};
    memset(row, 0, row_bytes(b->size));
    for (unsigned q = b->size; q-- > 0;) {
        const struct cell *cell = &b->cell[q];
        if (cell->kind == THREE_STATE && b->drivers[cell->net] >= g && !marked[cell->control] && !earlier[cell->control])
            turn_on(b, cell->control, marked, row);
    }
    for (unsigned q = b->size; q-- > 0;) {
        const struct cell *cell = &b->cell[q];
        if (cell->kind == THREE_STATE && b->drivers[cell->net] < g && !marked[cell->control])
            turn_on(b, cell->control, marked, row);
    }
    for (unsigned i = 0; i < b->controls; i++)
        if (is_on(row, b->control[i]))
            earlier[b->control[i]] = true;
}

/* The rows of groups 1 to `last`, one after the other. */
static void select_groups(const struct board *b, unsigned last, uint8_t *rows)
{
    bool earlier[MOST_CELLS] = {false};
    for (unsigned g = 1; g <= last; g++)
        select_group(b, g, earlier, rows + (g - 1) * row_bytes(b->size));
}

/* ---------------------------------------------------------------- rows and marks */

static bool row_bit(const struct cell *cell, bool on, const struct net_set *values)
{
    switch (cell->kind) {
    case CONTROL:
        return on ? cell->on : !cell->on;
    case THREE_STATE:
    case TWO_STATE:
        return has(values, cell->net);
    default:
        return false;
    }
}

/* A row; an open-drain cell out of its turn is loaded with 1, whatever the net's value. */
static void write_row(const struct board *b, const uint8_t *group, const struct net_set *values, uint8_t *out)
{
    memset(out, 0, row_bytes(b->size));
    for (unsigned q = 0; q < b->size; q++)
        if (row_bit(&b->cell[q], is_on(group, q), values))
            set_bit(out, q);
    for (unsigned i = b->switches; i < b->controls; i++)
        if (!is_on(group, b->control[i]))
            set_bit(out, b->control[i]);
}

/* Leaves in same[q], for each input cell q, the nets whose value q has read in every vector so far. */
static void read_row(const struct board *b, const struct net_set *values, const uint8_t *row, struct net_set *same)
{
    for (unsigned q = 0; q < b->size; q++)
        if (b->cell[q].kind == INPUT) {
            bool reading = row[q / 8] >> (q % 8) & 1;
            for (unsigned i = 0; i < NET_WORDS; i++)
                same[q].word[i] &= reading ? values->word[i] : ~values->word[i];
        }
}

static void read_capture(const struct board *b, const struct plan *plan, const uint8_t *capture, struct net_set *same)
{
    memset(same, 0xFF, b->size * sizeof *same);
    for (unsigned base = 0; base < plan->groups * plan->patterns; base++)
        for (unsigned t = 0; t <= inserted_after(plan, base); t++) {
            struct net_set values = values_of(plan, base, t);
            read_row(b, &values, capture, same);
            capture += row_bytes(b->size);
        }
}

static uint8_t mark(const struct board *b, const struct net_set *same, unsigned net)
{
    bool seen = false, differs = false, elsewhere = false;
    for (unsigned q = 0; q < b->size; q++) {
        if (b->cell[q].kind != INPUT)
            continue;
        bool reads = has(&same[q], net);
        if (b->cell[q].net == net) {
            seen = true;
            differs = differs || !reads;
        } else {
            elsewhere = elsewhere || reads;
        }
    }
    return !seen ? NOT_SEEN : differs ? FAIL : elsewhere ? READ_TWICE : PASS;
}

/* ---------------------------------------------------------------- the four questions */

static uint64_t refused(unsigned number, int place, int second)
{
    return number | (uint64_t)place << 8 | (uint64_t)second << 24;
}

/* Refusals 1 to 12, packed; 0 if the board is accepted, which then stands in b and its plan in plan. */
static uint64_t read_board(const uint8_t *file, size_t file_len, struct board *b, struct plan *plan)
{
    int place, second;
    if ((place = length_fault(file_len)) != NOWHERE)
        return refused(1, place, 0);
    if ((place = sums_fault(file, file_len)) != NOWHERE)
        return refused(2, place, 0);
    if ((place = header_fault(file)) != NOWHERE)
        return refused(3, place, 0);
    b->size = u16_at(file + 10);
    b->nets = u16_at(file + 12);
    b->limit = u16_at(file + 14);
    if ((place = limits_fault(b)) != NOWHERE)
        return refused(4, place, 0);
    if ((place = blocks_fault(file, file_len, b->size)) != NOWHERE)
        return refused(5, place, 0);
    read_cells(file, b);
    if ((place = records_fault(b)) != NOWHERE)
        return refused(6, place, 0);
    list_controls(b);
    count_outputs(b);
    if ((place = no_output_fault(b)) != NOWHERE)
        return refused(7, place, 0);
    if ((place = clash_fault(b)) != NOWHERE)
        return refused(8, place, 0);
    if ((place = drivers_fault(b)) != NOWHERE)
        return refused(9, place, 0);
    if ((place = crossing_fault(b, &second)) != NOWHERE)
        return refused(10, place, second);
    if ((place = uneven_fault(b)) != NOWHERE)
        return refused(11, place, 0);
    make_plan(b, plan);
    if ((place = total_fault(plan)) != NOWHERE)
        return refused(12, place, 0);
    return 0;
}

uint64_t plain_groups(const uint8_t *file, size_t file_len, uint8_t *out, size_t out_len)
{
    struct board b;
    struct plan plan;
    uint64_t refusal = read_board(file, file_len, &b, &plan);
    if (refusal != 0)
        return refusal;
    if (out_len < plan.groups * row_bytes(b.size))
        return refused(15, 0, 0);
    select_groups(&b, plan.groups, out);
    return (uint64_t)plan.groups << 8;
}

uint64_t plain_count(const uint8_t *file, size_t file_len)
{
    struct board b;
    struct plan plan;
    uint64_t refusal = read_board(file, file_len, &b, &plan);
    if (refusal != 0)
        return refusal;
    return (uint64_t)plan.groups << 8 | (uint64_t)plan.patterns << 16 | (uint64_t)plan.total << 24;
}

uint64_t plain_vector(const uint8_t *file, size_t file_len, uint64_t number, uint8_t *out, size_t out_len)
{
    struct board b;
    struct plan plan;
    uint8_t rows[MOST_DRIVERS * MOST_ROW];
    uint64_t refusal = read_board(file, file_len, &b, &plan);
    if (refusal != 0)
        return refusal;
    if (number >= plan.total)
        return refused(13, 0, 0);
    if (out_len < row_bytes(b.size))
        return refused(15, 0, 0);
    unsigned base = 0, t = (unsigned)number;
    while (t > inserted_after(&plan, base)) {
        t -= 1 + inserted_after(&plan, base);
        base++;
    }
    unsigned group = base / plan.patterns + 1;
    struct net_set values = values_of(&plan, base, t);
    select_groups(&b, group, rows);
    write_row(&b, rows + (group - 1) * row_bytes(b.size), &values, out);
    return (uint64_t)group << 8;
}

uint64_t plain_marks(const uint8_t *file, size_t file_len, const uint8_t *capture, size_t capture_len, uint8_t *out, size_t out_len)
{
    struct board b;
    struct plan plan;
    struct net_set same[MOST_CELLS];
    uint64_t refusal = read_board(file, file_len, &b, &plan);
    if (refusal != 0)
        return refusal;
    if (capture_len != (size_t)plan.total * row_bytes(b.size))
        return refused(14, 0, 0);
    if (out_len < b.nets)
        return refused(15, 0, 0);
    read_capture(&b, &plan, capture, same);
    uint64_t found[4] = {0};
    for (unsigned net = 0; net < b.nets; net++) {
        out[net] = mark(&b, same, net);
        found[out[net]]++;
    }
    return found[PASS] << 8 | found[FAIL] << 24 | (found[NOT_SEEN] + found[READ_TWICE]) << 40;
}
