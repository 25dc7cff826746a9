/*
 * page.h - the report's page: page.c writes it, page_tiles.c the tiles and their legend, page_nets.c the tables, page_words.c works out
 * which cell read which word, page_text.c has the text that stands in HTML, page_style.c the style. The verdict, the marks and the
 * three numbers are the library's; the words beside them only say what the capture has.
 */
#ifndef PAGE_H
#define PAGE_H

#include "board.h"
#include "marking.h"

#include <stdio.h>

enum {
    SHOWN = 64,        /* so many vectors of a word stand in a row; a longer one stands whole where the reader opens it */
    IN_ONE_LINE = 40   /* a word of so many is not broken into lines: it fits on a phone */
};

/* What an input cell read. A word has a character, 0 or 1, for each vector. */
struct read_word {
    const char *word;     /* of other cells NULL */
    unsigned differs;     /* in so many vectors it is not its net's value */
    unsigned first;       /* the first of these vectors */
    unsigned as;          /* the net whose own word it is, or NONE */
    unsigned same;        /* the lowest position that read this word */
    bool constant;        /* always 0 or always 1 */
};

struct words {
    char *own[RIGCANDLE_MOST_NETS];                /* each net's own word */
    struct read_word read[RIGCANDLE_MOST_CELLS];   /* by position */
};

struct page {
    const struct board *board;
    const struct marking *marking;
    const char *serial;   /* or NULL */
    const char *date;
    const struct words *words;
};

/* The whole page, from its first byte to its last. */
void write_page(FILE *out, const struct page *page);

/* ---------------------------------------------------------------- words (page_words.c) */

/* The words of an accepted board and of a capture that the library accepted for it. */
const struct words *words_of(const struct board *board, const uint8_t *capture);

/* A question about the cell at a position: whether it is an input cell of net `of` that reads that net's own word, or misreads; one of
 * another net that read the own word of net `of`; one of another net that read the same as the input cell at position `of`. */
typedef bool question(const struct page *page, unsigned of, unsigned position);
question reads_well, misreads, reads_from_outside, reads_alike;

/* The first position from `from` on with the answer yes; the number of cells where there is none. */
unsigned next_position(const struct page *page, question *asked, unsigned of, unsigned from);

/* So many positions have the answer yes. */
unsigned how_many(const struct page *page, question *asked, unsigned of);

/* The end of the row of vectors that begins with `from`. */
unsigned row_end(const struct page *page, unsigned from);

/* ---------------------------------------------------------------- text (page_text.c) */

/* Text from outside: escaped, and U+FFFD for each byte that is no UTF-8 and each character that HTML does not let stand. */
void put_text(FILE *out, const char *text);

/* The same, and nothing that it says of the direction of writing reaches beyond it; not for attributes. */
void put_apart(FILE *out, const char *text);

/* "2", or "2 CLK" where it has a name. */
void put_named(FILE *out, unsigned number, const char *name);

/* Vectors `from` to before `to` of a word, in groups. Where it differs from `own`, unless that is NULL, it stands out. */
void put_word(FILE *out, const char *word, const char *own, unsigned from, unsigned to);

/* ---------------------------------------------------------------- parts of the page */

void put_style(FILE *out);

/* How a mark is shown: its class in the style, and the sign beside its words. */
const char *mark_class(unsigned mark);
const char *mark_sign(unsigned mark);

/* So many nets have this mark. */
unsigned nets_marked(const struct page *page, unsigned mark);

/* Every net as a tile, in the order of their numbers, and what each mark means. */
void put_tiles(FILE *out, const struct page *page);
void put_legend(FILE *out, const struct page *page);

/* The tables: the nets that do not pass, and those that do. */
void put_tables(FILE *out, const struct page *page);

#endif
