/*
 * bench.c - asks the library and plain C the four questions about the reference boards, each in three orders of its cells, compares the
 * answers, and measures. A board that is refused is only counted.
 *
 *     bench stack     prints the boards, and the deepest stack of each question in bytes
 *     bench count     under callgrind, or with counter.c: one dump for each call, named by its trigger: board, order, question, what was asked, implementation
 *
 * A third implementation does nothing. It costs what asking costs, which is to be taken off.
 */
#include "boards.h"
#include "plain.h"

#include <inttypes.h>
#include <stdbool.h>
#include <stdio.h>
#include <stdlib.h>
#include <string.h>
#include <ucontext.h>
#include <valgrind/callgrind.h>

enum {
    OUT_ROOM = RIGCANDLE_MOST_GROUP_ROWS, /* the most that a question writes */
    UNWRITTEN = 0xA5,
    STACK_ROOM = 1 << 20
};

enum question { GROUPS, COUNT, VECTOR, MARKS };

static const char *const question_name[] = {"groups", "count", "vector", "marks"};

static const char *const order_name[ORDERS] = {"made", "reversed", "shuffled"};

struct implementation {
    const char *name;
    uint64_t (*groups)(const uint8_t *file, size_t file_len, uint8_t *out, size_t out_len);
    uint64_t (*count)(const uint8_t *file, size_t file_len);
    uint64_t (*vector)(const uint8_t *file, size_t file_len, uint64_t number, uint8_t *out, size_t out_len);
    uint64_t (*marks)(const uint8_t *file, size_t file_len, const uint8_t *capture, size_t capture_len, uint8_t *out, size_t out_len);
};

struct call {
    const char *board;
    const char *order;
    unsigned refusal; /* the number it must be refused with, or 0 */
    enum question question;
    const char *what; /* the vector or the capture that is asked about */
    const uint8_t *file;
    size_t file_len;
    uint64_t number;
    const uint8_t *capture;
    size_t capture_len;
};

/* ---------------------------------------------------------------- three implementations */

static uint64_t empty_groups(const uint8_t *file, size_t file_len, uint8_t *out, size_t out_len)
{
    (void)file, (void)file_len, (void)out, (void)out_len;
    return 0;
}

static uint64_t empty_count(const uint8_t *file, size_t file_len)
{
    (void)file, (void)file_len;
    return 0;
}

static uint64_t empty_vector(const uint8_t *file, size_t file_len, uint64_t number, uint8_t *out, size_t out_len)
{
    (void)file, (void)file_len, (void)number, (void)out, (void)out_len;
    return 0;
}

static uint64_t empty_marks(const uint8_t *file, size_t file_len, const uint8_t *capture, size_t capture_len, uint8_t *out, size_t out_len)
{
    (void)file, (void)file_len, (void)capture, (void)capture_len, (void)out, (void)out_len;
    return 0;
}

static const struct implementation
    rigcandle = {"rigcandle", groups, count, vector, marks},
    plain = {"plain", plain_groups, plain_count, plain_vector, plain_marks},
    empty = {"empty", empty_groups, empty_count, empty_vector, empty_marks};

/* Not inlined, so that asking costs the same wherever it is done. */
__attribute__((noinline)) static uint64_t ask(const struct implementation *of, const struct call *c, uint8_t *out)
{
    switch (c->question) {
    case GROUPS:
        return of->groups(c->file, c->file_len, out, OUT_ROOM);
    case COUNT:
        return of->count(c->file, c->file_len);
    case VECTOR:
        return of->vector(c->file, c->file_len, c->number, out, OUT_ROOM);
    default:
        return of->marks(c->file, c->file_len, c->capture, c->capture_len, out, OUT_ROOM);
    }
}

/* Asks with a fresh buffer; if counting, leaves a dump of the instructions this takes. */
static uint64_t ask_afresh(bool counting, const struct implementation *of, const struct call *c, uint8_t *out)
{
    char label[100];
    memset(out, UNWRITTEN, OUT_ROOM);
    if (!counting)
        return ask(of, c, out);
    snprintf(label, sizeof label, "%s %s %s %s %s", c->board, c->order, question_name[c->question], c->what, of->name);
    CALLGRIND_ZERO_STATS;
    uint64_t answer = ask(of, c, out);
    CALLGRIND_DUMP_STATS_AT(label);
    return answer;
}

/* ---------------------------------------------------------------- comparing */

static void fail(const struct call *c, const char *message)
{
    fprintf(stderr, "bench: board %s, %s, %s %s: %s\n", c->board, c->order, question_name[c->question], c->what, message);
    exit(1);
}

/*
 * The answer of both; ends the program where they differ in a bit of it or a byte of the buffer, or where they refuse but should not, or
 * the other way round. If counting, the calls that are compared are those that are counted: the slow ones run once under valgrind.
 */
static uint64_t agreed(bool counting, const struct call *c)
{
    static uint8_t ours[OUT_ROOM], theirs[OUT_ROOM];
    char message[80];
    uint64_t answer = ask_afresh(counting, &rigcandle, c, ours), other = ask_afresh(counting, &plain, c, theirs);
    if (answer != other) {
        snprintf(message, sizeof message, "the library answers %016" PRIx64 ", plain C %016" PRIx64, answer, other);
        fail(c, message);
    }
    for (unsigned i = 0; i < OUT_ROOM; i++)
        if (ours[i] != theirs[i]) {
            snprintf(message, sizeof message, "byte %u is %02x by the library, %02x by plain C", i, ours[i], theirs[i]);
            fail(c, message);
        }
    if (rigcandle_refusal(answer) != c->refusal) {
        snprintf(message, sizeof message, "refused %u %u, expected %u", rigcandle_refusal(answer), rigcandle_place(answer), c->refusal);
        fail(c, message);
    }
    return answer;
}

/* ---------------------------------------------------------------- measuring */

/* What asking itself costs. It is the same for every call of a question. */
static void count_asking(void)
{
    static uint8_t out[OUT_ROOM];
    struct call c = {.board = "-", .order = "-", .what = "-"};
    for (c.question = GROUPS; c.question <= MARKS; c.question++)
        ask_afresh(true, &empty, &c, out);
}

static uint8_t painted[STACK_ROOM] __attribute__((aligned(16)));
static const struct implementation *asked_of;
static const struct call *asked_call;

static void ask_there(void)
{
    static uint8_t out[OUT_ROOM];
    ask(asked_of, asked_call, out);
}

/* The bytes of a stack of this colour, from its top down to the deepest that no longer has it after a call. */
static size_t depth_on(uint8_t colour, const struct implementation *of, const struct call *c)
{
    ucontext_t here, there;
    size_t untouched = 0;
    memset(painted, colour, sizeof painted);
    asked_of = of;
    asked_call = c;
    getcontext(&there);
    there.uc_stack.ss_sp = painted;
    there.uc_stack.ss_size = sizeof painted;
    there.uc_link = &here;
    makecontext(&there, ask_there, 0);
    swapcontext(&here, &there);
    while (untouched < sizeof painted && painted[untouched] == colour)
        untouched++;
    return sizeof painted - untouched;
}

/* On two colours, since a byte that is written may have one of them. */
static size_t depth(const struct implementation *of, const struct call *c)
{
    size_t first = depth_on(UNWRITTEN, of, c), second = depth_on((uint8_t)~UNWRITTEN, of, c);
    return first > second ? first : second;
}

static void print_stack(const struct implementation *of, const struct call *c)
{
    printf("stack %s %s %s %s %zu\n", c->board, c->order, question_name[c->question], of->name, depth(of, c) - depth(&empty, c));
}

/* ---------------------------------------------------------------- calls */

/* Measures a call of both, and answers what they answer. */
static uint64_t measure(bool counting, const struct call *c)
{
    uint64_t answer = agreed(counting, c);
    if (!counting) {
        print_stack(&rigcandle, c);
        print_stack(&plain, c);
    }
    return answer;
}

static void measure_vectors(bool counting, struct call c, unsigned total)
{
    const uint64_t numbers[] = {0, total / 2, total - 1};
    static const char *const names[] = {"first", "middle", "last"};
    c.question = VECTOR;
    for (unsigned i = 0; i < 3; i++) {
        c.number = numbers[i];
        c.what = names[i];
        measure(counting, &c);
    }
}

/* Healthy, and with every input cell on the next net, so that no net reads itself and each reads another's word. */
static void measure_marks(bool counting, struct call c, const struct board *b, uint64_t counted)
{
    static uint8_t capture[RIGCANDLE_MOST_CAPTURE];
    static const char *const names[] = {"healthy", "swapped"};
    c.question = MARKS;
    c.capture = capture;
    for (unsigned further = 0; further < 2; further++) {
        c.what = names[further];
        c.capture_len = write_capture(b, rigcandle_count_g(counted), rigcandle_count_p(counted), further, capture);
        if (rigcandle_marks_pass(measure(counting, &c)) != (further == 0 ? nets_seen(b) : 0))
            fail(&c, "all nets of a healthy board pass that are seen, and none of a swapped one");
    }
}

static void measure_board(bool counting, const struct board *b, enum order order)
{
    static uint8_t file[RIGCANDLE_MOST_FILE];
    struct call c = {
        .board = b->name, .order = order_name[order], .refusal = b->refusal,
        .question = COUNT, .what = "-", .file = file, .file_len = write_file(b, file),
    };
    uint64_t counted = measure(counting, &c);
    unsigned total = rigcandle_count_total(counted);
    if (!counting && order == AS_MADE)
        printf("board %s %u %u %u %u %u\n", b->name, b->size, b->nets, control_cells(b), total, b->refusal);
    if (b->refusal != RIGCANDLE_ACCEPTED)
        return;
    c.question = GROUPS;
    measure(counting, &c);
    measure_vectors(counting, c, total);
    measure_marks(counting, c, b, counted);
}

static void measure_all(bool counting)
{
    static struct board boards[MOST_BOARDS], b;
    unsigned made = make_boards(boards);
    for (unsigned i = 0; i < made; i++)
        for (enum order order = AS_MADE; order < ORDERS; order++) {
            put_in_order(&boards[i], order, &b);
            measure_board(counting, &b, order);
        }
}

int main(int argc, char **argv)
{
    if (argc != 2 || (strcmp(argv[1], "stack") != 0 && strcmp(argv[1], "count") != 0)) {
        fprintf(stderr, "usage: bench stack|count\n");
        return 2;
    }
    bool counting = strcmp(argv[1], "count") == 0;
    if (counting)
        count_asking();
    measure_all(counting);
    return 0;
}
