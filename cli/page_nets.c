/*
 * page_nets.c - the tables of the report's page: each net with its own word and the input cells that read it, and a row for each input
 * cell that read something else. Nets that do not pass come first, in a table of their own.
 */
#include "page.h"

enum { NAMED_ALIKE = 3 }; /* so many other positions are told that misread the same */

/* ---------------------------------------------------------------- names */

static void put_position(FILE *out, const struct page *page, unsigned position)
{
    put_named(out, position, page->board->says.names.cell[position]);
}

static void put_link(FILE *out, const struct page *page, unsigned net)
{
    fprintf(out, "<a href=\"#net-%u\">net ", net);
    put_named(out, net, page->board->says.names.net[net]);
    fputs("</a>", out);
}

/* "position 10 U3.D2 of net 2 CLK" */
static void put_place(FILE *out, const struct page *page, unsigned position)
{
    fputs("position ", out);
    put_position(out, page, position);
    fputs(" of ", out);
    put_link(out, page, page->board->says.cell[position].net);
}

/* ---------------------------------------------------------------- whole words */

static bool differs_within(const char *word, const char *own, unsigned from, unsigned to)
{
    for (unsigned number = from; number < to; number++)
        if (word[number] != own[number])
            return true;
    return false;
}

/* A word that is too long for a row, whole: rows with the number of their first vector, and * where one differs from `own`. */
static void put_whole(FILE *out, const struct page *page, const char *word, const char *own)
{
    if (page->board->vectors <= SHOWN)
        return;
    fprintf(out, "<details><summary>all %u vectors</summary><pre>", page->board->vectors);
    for (unsigned from = 0; from < page->board->vectors; from += SHOWN) {
        unsigned to = row_end(page, from);
        fprintf(out, "%4u%c ", from, differs_within(word, own, from, to) ? '*' : ' ');
        put_word(out, word, NULL, from, to);
        fputc('\n', out);
    }
    fputs("</pre></details>", out);
}

/* ---------------------------------------------------------------- a net's first row */

/* The input cells that read a net's own word, as they should. */
static void put_readers(FILE *out, const struct page *page, unsigned net)
{
    const char *between = "";
    for (unsigned position = 0; position < page->board->says.cells; position++)
        if (reads_well(page, net, position)) {
            fputs(between, out);
            put_position(out, page, position);
            between = ", ";
        }
    if (*between == 0)
        fputs(how_many(page, misreads, net) != 0 ? "nowhere" : "no input cell", out);
}

/* Where else a net's own word was read. */
static void put_outside(FILE *out, const struct page *page, unsigned net)
{
    const char *between = "; read, too, at ";
    for (unsigned position = 0; position < page->board->says.cells; position++)
        if (reads_from_outside(page, net, position)) {
            fputs(between, out);
            put_place(out, page, position);
            between = ", at ";
        }
}

static void put_own(FILE *out, const struct page *page, unsigned net)
{
    const char *word = page->words->own[net];
    fputs("<td class=\"at\">", out);
    put_readers(out, page, net);
    fputs("</td><td class=\"word\"><code>", out);
    put_word(out, word, NULL, 0, row_end(page, 0));
    fputs("</code>", out);
    put_whole(out, page, word, word);
    fputs("</td><td>own word", out);
    put_outside(out, page, net);
    fputs("</td></tr>\n", out);
}

/* ---------------------------------------------------------------- a row for a cell that misreads */

/* Where else the word was read that was misread at a position: nets that are tied read one word. */
static void put_alike(FILE *out, const struct page *page, unsigned at)
{
    unsigned alike = how_many(page, reads_alike, at);
    unsigned position = next_position(page, reads_alike, at, 0);
    for (unsigned told = 0; told < alike && told < NAMED_ALIKE; told++) {
        fputs(told == 0 ? ", but the same as " : ", ", out);
        put_place(out, page, position);
        position = next_position(page, reads_alike, at, position + 1);
    }
    if (alike > NAMED_ALIKE)
        fprintf(out, " and %u more", alike - NAMED_ALIKE);
}

/* What the word is that was misread at a position. */
static void put_what(FILE *out, const struct page *page, unsigned position)
{
    const struct read_word *read = &page->words->read[position];
    if (read->constant) {
        fprintf(out, "read <strong>always %c</strong>", read->word[0]);
    } else if (read->as != NONE) {
        fputs("read <strong>", out);
        put_link(out, page, read->as);
        fputs("&#39;s word</strong> in every vector", out);
    } else {
        fputs("read no net&#39;s word", out);
        put_alike(out, page, position);
    }
}

/* The vectors shown are those around the first wrong one. */
static void put_misread(FILE *out, const struct page *page, unsigned net, unsigned position)
{
    const struct read_word *read = &page->words->read[position];
    unsigned from = read->first / SHOWN * SHOWN;
    fprintf(out, "<tr class=\"misread\" data-position=\"%u\"><td class=\"at\">", position);
    put_position(out, page, position);
    fputs("</td><td class=\"word\">", out);
    if (from != 0)
        fprintf(out, "<span class=\"from\">from vector %u on</span>", from);
    fputs("<code>", out);
    put_word(out, read->word, page->words->own[net], from, row_end(page, from));
    fputs("</code>", out);
    if (!read->constant && read->as == NONE)
        put_whole(out, page, read->word, page->words->own[net]);
    fputs("</td><td>", out);
    put_what(out, page, position);
    fprintf(out, "; wrong in %u of %u vectors, first in vector %u</td></tr>\n", read->differs, page->board->vectors, read->first);
}

/* ---------------------------------------------------------------- tables */

static void put_net(FILE *out, const struct page *page, unsigned net)
{
    unsigned mark = page->marking->mark[net];
    unsigned rows = 1 + how_many(page, misreads, net);
    fprintf(out, "<tbody id=\"net-%u\" class=\"%s\">\n<tr><th scope=\"rowgroup\" rowspan=\"%u\">", net, mark_class(mark), rows);
    put_named(out, net, page->board->says.names.net[net]);
    fprintf(out, "</th><td class=\"mark\" rowspan=\"%u\"><span class=\"tile %s\" aria-hidden=\"true\">%s</span> %s</td>", rows,
            mark_class(mark), mark_sign(mark), mark_words(mark));
    put_own(out, page, net);
    for (unsigned position = 0; position < page->board->says.cells; position++)
        if (misreads(page, net, position))
            put_misread(out, page, net, position);
    fputs("</tbody>\n", out);
}

static void put_nets_marked(FILE *out, const struct page *page, unsigned mark)
{
    for (unsigned net = 0; net < page->board->says.nets; net++)
        if (page->marking->mark[net] == mark)
            put_net(out, page, net);
}

static void put_table_head(FILE *out, const struct page *page, const char *id, const char *title, unsigned nets)
{
    fprintf(out, "<section id=\"%s\">\n<h2>%s <span class=\"of\">%u</span></h2>\n<table class=\"nets%s\">\n", id, title, nets,
            page->board->vectors <= IN_ONE_LINE ? " short" : "");
    fputs("<thead><tr><th scope=\"col\">Net</th><th scope=\"col\">Mark</th><th scope=\"col\">Read at position</th>"
          "<th scope=\"col\">Word, vector 0 first</th><th scope=\"col\">What it is</th></tr></thead>\n",
          out);
}

void put_tables(FILE *out, const struct page *page)
{
    static const unsigned order[] = {RIGCANDLE_FAIL, RIGCANDLE_READ_TWICE, RIGCANDLE_NOT_SEEN};
    unsigned nets = page->board->says.nets;
    unsigned pass = rigcandle_marks_pass(page->marking->answer);
    if (pass < nets) {
        put_table_head(out, page, "not-passing", "Nets that do not pass", nets - pass);
        for (unsigned i = 0; i < sizeof order / sizeof *order; i++)
            put_nets_marked(out, page, order[i]);
        fputs("</table>\n</section>\n", out);
    }
    if (pass != 0) {
        put_table_head(out, page, "passing", "Nets that pass", pass);
        put_nets_marked(out, page, RIGCANDLE_PASS);
        fputs("</table>\n</section>\n", out);
    }
}
