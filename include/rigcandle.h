/*
 * rigcandle.h - boundary-scan interconnect test: four questions about a board file.
 *
 * Each question is asked with the bytes of the board file itself and answers with one 64-bit number. Nothing is kept between calls,
 * nothing is allocated, no file is opened and nothing is printed; calls may run at the same time in several threads.
 *
 * An answer is read with the functions at the end of this header:
 *
 *     uint64_t answer = count(file, file_len);
 *     if (rigcandle_refusal(answer) != RIGCANDLE_ACCEPTED)
 *         printf("refused %u %u %u\n", rigcandle_refusal(answer), rigcandle_place(answer), rigcandle_second_place(answer));
 *     else
 *         printf("vectors %u\n", rigcandle_count_total(answer));
 *
 * Position 0 is the cell of the chain nearest to TDO: its bit goes in first and comes out first. A capture of V vectors takes V + 1
 * scans, since the response to a row leaves the chain while the next row goes in: docs/OPERATING.md has how to scan.
 *
 * What a caller owes, since no library can check it:
 *   - a length is true: that many bytes may be read (file, capture) or written (out);
 *   - buffers do not overlap, and nobody else writes to them during the call;
 *   - a pointer may be null only with length 0.
 * Any bytes may stand in the file and in the capture: what is wrong with them is answered as a numbered refusal.
 *
 * What a caller gets:
 *   - the file and the capture are only read;
 *   - a refusal writes no byte, so that what stood in out still stands there: look at rigcandle_refusal before anything else;
 *   - an accepted call writes the bytes it needs, from the first of out on, and those past them keep their values.
 *
 * The release rule is rigcandle_all_pass and nothing weaker. A refused marks call says 0 fail and 0 unsure, and a buffer that began
 * with zeros still says pass for every net: neither is a verdict. A compiler that can warn of an answer that nobody looks at does.
 *
 * The header needs C99 or C++11.
 *
 * Linking: librigcandle.a is x86-64 code for the System V calling convention (Linux and its like) and needs memset, and nothing else.
 *
 * Names: the four functions are called groups, count, vector and marks, as in the document, and these are common names. Include this
 * header only where the questions are asked. A program must have no other global function or variable of these names; where it does,
 * rename the library's (objcopy --redefine-sym vector=board_vector librigcandle.a) and declare the new name. A C++ file that says
 * "using namespace std" writes ::vector and ::count. Every other name here begins with rigcandle_ or RIGCANDLE_.
 *
 * docs/INTERFACE.md has the layout of the 64 bits, what to do about each refusal, and a complete example.
 */
#ifndef RIGCANDLE_H
#define RIGCANDLE_H

#include <stddef.h>
#include <stdint.h>

/* The version of library, header and command, and the only place where it stands. */
#define RIGCANDLE_VERSION "1.3.0"

/* An answer that nobody looks at may be a refusal taken for a clean board: such a call is warned of. */
#if defined(__GNUC__) || defined(__clang__)
#define RIGCANDLE_LOOK_AT_ANSWER __attribute__((warn_unused_result))
#else
#define RIGCANDLE_LOOK_AT_ANSWER
#endif

/* Limits of a board, and the sizes of buffers that follow from them. */
enum {
    RIGCANDLE_BLOCK_SIZE = 512,      /* bytes in a block of the board file */
    RIGCANDLE_MOST_BLOCKS = 14,      /* blocks in a board file */
    RIGCANDLE_MOST_CELLS = 1024,     /* C */
    RIGCANDLE_MOST_NETS = 256,       /* N; also the bytes that marks writes at most */
    RIGCANDLE_MOST_GROUPS = 16,      /* G: as many as there are controlled drivers on a net */
    RIGCANDLE_MOST_VECTORS = 4096,   /* the total */
    RIGCANDLE_MOST_FILE = RIGCANDLE_MOST_BLOCKS * RIGCANDLE_BLOCK_SIZE,
    RIGCANDLE_MOST_ROW = RIGCANDLE_MOST_CELLS / 8,                              /* R; the bytes that vector writes at most */
    RIGCANDLE_MOST_GROUP_ROWS = RIGCANDLE_MOST_GROUPS * RIGCANDLE_MOST_ROW,     /* the bytes that groups writes at most */
    RIGCANDLE_MOST_CAPTURE = RIGCANDLE_MOST_VECTORS * RIGCANDLE_MOST_ROW
};

/*
 * The refusals, checked in ascending order: the first that applies is given. 1 to 12 belong to all four questions, 13 to vector, 14 to
 * marks, 15 to the three that write. In brackets what rigcandle_place gives; 10 alone has a second place too, which
 * rigcandle_second_place gives.
 *
 * Outputs are cells of kind 3 (three-state), 4 (two-state, always on) and 5 (open-drain); those of kind 3 and 5 are controlled drivers.
 * Control cells are the cells of kind 2, each with the nets of its kind 3 outputs, and those of kind 5, each with its own one net; so 10
 * and 11 never give the position of a kind 5 cell.
 */
enum {
    RIGCANDLE_ACCEPTED = 0,
    RIGCANDLE_FILE_LENGTH = 1,       /* file empty, not a multiple of 512, or over 14 blocks (0) */
    RIGCANDLE_BLOCK_SUMS = 2,        /* some block's a or b is wrong (lowest block) */
    RIGCANDLE_HEADER_LAYOUT = 3,     /* block 0 differs from its layout, not C, N, SSOL (0) */
    RIGCANDLE_HEADER_LIMITS = 4,     /* C, N or SSOL outside its limits (0) */
    RIGCANDLE_BLOCK_LAYOUT = 5,      /* wrong number of blocks (0), or a cell block differs from its layout outside the records
                                        (lowest block) */
    RIGCANDLE_RECORD = 6,            /* a record breaks the table of cell kinds, which are 0 to 5 (lowest position) */
    RIGCANDLE_NO_OUTPUT = 7,         /* a net has no kind 3, 4 or 5 output (lowest net) */
    RIGCANDLE_CLASH = 8,             /* a net has a kind 4 output and another output, or two outputs of one control cell (lowest net) */
    RIGCANDLE_DRIVERS = 9,           /* a net has over 16 controlled drivers (lowest net) */
    RIGCANDLE_CROSSING = 10,         /* two control cells' net sets meet and neither holds the other (lowest position that is the
                                        smaller of such a pair; second place: smallest larger position that crosses it) */
    RIGCANDLE_UNEVEN = 11,           /* a control cell's nets differ in number of controlled drivers (lowest such cell) */
    RIGCANDLE_VECTORS = 12,          /* over 4,096 vectors (0) */
    RIGCANDLE_VECTOR_NUMBER = 13,    /* vector number not below the count (0) */
    RIGCANDLE_CAPTURE_LENGTH = 14,   /* capture is not vectors x R bytes (0) */
    RIGCANDLE_BUFFER_SHORT = 15      /* lent buffer too short (0) */
};

/* The marks, one byte a net; the first row of the document's table that applies is given, in the order 2, 1, 3, 0. */
enum {
    RIGCANDLE_PASS = 0,              /* pass: otherwise */
    RIGCANDLE_FAIL = 1,              /* fail: an input cell of it once differs from its value */
    RIGCANDLE_NOT_SEEN = 2,          /* unsure, not seen: the net has no input cell */
    RIGCANDLE_READ_TWICE = 3         /* unsure, read twice: an input cell of another net reads this net's own word in every vector */
};

#ifdef __cplusplus
extern "C" {
#endif

/*
 * The groups of control cells. Writes G rows of R = ceil(C / 8) bytes, group 1 first: the bit at a position is 1 for a control cell that
 * is on. An open-drain output is a control cell of its own: it is on where it has the turn, and the bit stands at its own position.
 * Position c is bit c mod 8 (from the least) of byte c / 8; spare bits are 0.
 * Answers G. Refusals 1 to 12 and 15.
 */
RIGCANDLE_LOOK_AT_ANSWER
uint64_t groups(const uint8_t *file, size_t file_len, uint8_t *out, size_t out_len);

/*
 * The number of vectors. Writes nothing.
 * Answers G, p (the patterns of a group) and the total. Refusals 1 to 12.
 */
RIGCANDLE_LOOK_AT_ANSWER
uint64_t count(const uint8_t *file, size_t file_len);

/*
 * The vector of this number, from 0 to total - 1. Writes its row of R bytes, in the groups' bit order: what is shifted into the chain. A
 * kind 2 cell has its on value when on, else the other; a three-state or two-state output its net's value, on or not; an open-drain output
 * its net's value when it has the turn, else 1, with which it lets go of its line; inputs and internal cells 0.
 * Answers its group, from 1. Refusals 1 to 12, 13 and 15.
 */
RIGCANDLE_LOOK_AT_ANSWER
uint64_t vector(const uint8_t *file, size_t file_len, uint64_t number, uint8_t *out, size_t out_len);

/*
 * The marks for a capture: a row of R bytes for each vector, vector 0 first, in the same bit order; only input cells (kind 1) are looked
 * at, so that an open-drain pin is seen by an input cell of its net and never by its output cell.
 * Writes N bytes, net 0 first, each one of the four marks above.
 * Answers how many nets pass, fail and are unsure. Refusals 1 to 12, 14 and 15.
 */
RIGCANDLE_LOOK_AT_ANSWER
uint64_t marks(const uint8_t *file, size_t file_len, const uint8_t *capture, size_t capture_len, uint8_t *out, size_t out_len);

#ifdef __cplusplus
}
#endif

/* ------------------------------------------------------------------------------------------------------------------------------------
 * Reading an answer. A refused call has number and place, refusal 10 a second place besides, and every other number is 0; an accepted one
 * has 0 for number and both places.
 */

/* The number in `width` of an answer's bits, from bit `from` on. */
static inline unsigned rigcandle_bits(uint64_t answer, unsigned from, unsigned width)
{
    return (unsigned)((answer >> from) & ((1u << width) - 1u));
}

/* The refusal's number, any question; RIGCANDLE_ACCEPTED where there is none. */
static inline unsigned rigcandle_refusal(uint64_t answer)
{
    return rigcandle_bits(answer, 0, 8);
}

/* These bits of a refused answer, and 0 of an accepted one. */
static inline unsigned rigcandle_if_refused(uint64_t answer, unsigned from, unsigned width)
{
    return rigcandle_refusal(answer) != RIGCANDLE_ACCEPTED ? rigcandle_bits(answer, from, width) : 0u;
}

/* These bits of an accepted answer, and 0 of a refused one. */
static inline unsigned rigcandle_if_accepted(uint64_t answer, unsigned from, unsigned width)
{
    return rigcandle_refusal(answer) == RIGCANDLE_ACCEPTED ? rigcandle_bits(answer, from, width) : 0u;
}

/* The refusal's place, any question: a block, a position or a net, by the refusal's number. */
static inline unsigned rigcandle_place(uint64_t answer)
{
    return rigcandle_if_refused(answer, 8, 16);
}

/* The refusal's second place, any question: of RIGCANDLE_CROSSING the position of the other control cell, which is above the place and so
 * never 0; 0 means that there is none, as of every other refusal. */
static inline unsigned rigcandle_second_place(uint64_t answer)
{
    return rigcandle_if_refused(answer, 24, 16);
}

/* groups: G. */
static inline unsigned rigcandle_groups_g(uint64_t answer)
{
    return rigcandle_if_accepted(answer, 8, 8);
}

/* count: G. */
static inline unsigned rigcandle_count_g(uint64_t answer)
{
    return rigcandle_if_accepted(answer, 8, 8);
}

/* count: p. */
static inline unsigned rigcandle_count_p(uint64_t answer)
{
    return rigcandle_if_accepted(answer, 16, 8);
}

/* count: the total of vectors. */
static inline unsigned rigcandle_count_total(uint64_t answer)
{
    return rigcandle_if_accepted(answer, 24, 16);
}

/* vector: its group, from 1. */
static inline unsigned rigcandle_vector_group(uint64_t answer)
{
    return rigcandle_if_accepted(answer, 8, 8);
}

/* marks: the number of nets that pass. */
static inline unsigned rigcandle_marks_pass(uint64_t answer)
{
    return rigcandle_if_accepted(answer, 8, 16);
}

/* marks: the number of nets that fail. */
static inline unsigned rigcandle_marks_fail(uint64_t answer)
{
    return rigcandle_if_accepted(answer, 24, 16);
}

/* marks: the number of nets that are unsure, of either kind. */
static inline unsigned rigcandle_marks_unsure(uint64_t answer)
{
    return rigcandle_if_accepted(answer, 40, 16);
}

/* C, N and R = ceil(C / 8) of a board file that was accepted. */
static inline unsigned rigcandle_file_cells(const uint8_t *file)
{
    return file[10] + 256u * file[11];
}

static inline unsigned rigcandle_file_nets(const uint8_t *file)
{
    return file[12] + 256u * file[13];
}

static inline unsigned rigcandle_file_row(const uint8_t *file)
{
    return (rigcandle_file_cells(file) + 7u) / 8u;
}

/* The release rule: 1 where the marks call was accepted, none of its nets fails or is unsure and all `nets` of the board pass
 * (rigcandle_file_nets); else 0. A number of nets that is not the board's never makes it 1. */
static inline int rigcandle_all_pass(uint64_t answer, unsigned nets)
{
    return rigcandle_refusal(answer) == RIGCANDLE_ACCEPTED && nets != 0u && rigcandle_marks_pass(answer) == nets &&
           rigcandle_marks_fail(answer) == 0u && rigcandle_marks_unsure(answer) == 0u;
}

#endif
