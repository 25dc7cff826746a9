/*
 * page_tiles.c - every net as a tile that shows its mark, with its words where the pointer rests on it, and the legend of the marks.
 */
#include "page.h"

enum { IN_A_TITLE = 3 }; /* so many input cells a tile's title tells of */

const char *mark_class(unsigned mark)
{
    switch (mark) {
    case RIGCANDLE_PASS:
        return "pass";
    case RIGCANDLE_FAIL:
        return "fail";
    case RIGCANDLE_NOT_SEEN:
        return "not-seen";
    case RIGCANDLE_READ_TWICE:
        return "read-twice";
    default:
        return "no-mark";
    }
}

const char *mark_sign(unsigned mark)
{
    switch (mark) {
    case RIGCANDLE_PASS:
        return "&#10003;";
    case RIGCANDLE_FAIL:
        return "&#10007;";
    case RIGCANDLE_READ_TWICE:
        return "2&#215;";
    default:
        return "?";
    }
}

unsigned nets_marked(const struct page *page, unsigned mark)
{
    unsigned number = 0;
    for (unsigned net = 0; net < page->board->says.nets; net++)
        number += page->marking->mark[net] == mark;
    return number;
}

/* ---------------------------------------------------------------- a tile's title, line by line */

/* "net 2 CLK" or "position 10 U3.D2" */
static void put_plain(FILE *out, const char *what, unsigned number, const char *name)
{
    fprintf(out, "%s %u%s", what, number, name != NULL ? " " : "");
    if (name != NULL)
        put_text(out, name);
}

static void put_first_vectors(FILE *out, const struct page *page, const char *word)
{
    put_word(out, word, NULL, 0, row_end(page, 0));
    if (page->board->vectors > SHOWN)
        fputs(" ..", out);
}

/* What a cell misread. */
static void put_misread_line(FILE *out, const struct page *page, unsigned position)
{
    const struct read_word *read = &page->words->read[position];
    fputs("&#10;", out);
    put_plain(out, "position", position, page->board->says.names.cell[position]);
    fputs(" read ", out);
    put_first_vectors(out, page, read->word);
    if (read->constant)
        fprintf(out, ", always %c", read->word[0]);
    else if (read->as != NONE)
        fprintf(out, ", net %u&#39;s word", read->as);
}

static void put_misread_lines(FILE *out, const struct page *page, unsigned net)
{
    unsigned wrong = how_many(page, misreads, net);
    unsigned position = next_position(page, misreads, net, 0);
    for (unsigned told = 0; told < wrong && told < IN_A_TITLE; told++) {
        put_misread_line(out, page, position);
        position = next_position(page, misreads, net, position + 1);
    }
    if (wrong > IN_A_TITLE)
        fprintf(out, "&#10;and %u more misread", wrong - IN_A_TITLE);
}

/* The first input cell of another net that read this net's word. */
static void put_outside_line(FILE *out, const struct page *page, unsigned net)
{
    unsigned position = next_position(page, reads_from_outside, net, 0);
    if (position == page->board->says.cells)
        return;
    fputs("&#10;read, too, at ", out);
    put_plain(out, "position", position, page->board->says.names.cell[position]);
    fprintf(out, " of net %u", page->board->says.cell[position].net);
}

static void put_title(FILE *out, const struct page *page, unsigned net)
{
    put_plain(out, "net", net, page->board->says.names.net[net]);
    fprintf(out, ": %s&#10;own word ", mark_words(page->marking->mark[net]));
    put_first_vectors(out, page, page->words->own[net]);
    put_misread_lines(out, page, net);
    put_outside_line(out, page, net);
}

/* ---------------------------------------------------------------- tiles */

static void put_tile(FILE *out, const struct page *page, unsigned net)
{
    unsigned mark = page->marking->mark[net];
    const char *name = page->board->says.names.net[net];
    fprintf(out, "<li><a class=\"tile %s\" href=\"#net-%u\" aria-label=\"", mark_class(mark), net);
    put_plain(out, "net", net, name);
    fprintf(out, ", %s\" title=\"", mark_words(mark));
    put_title(out, page, net);
    fprintf(out, "\"><span class=\"sign\">%s</span><span class=\"number\">%u</span>", mark_sign(mark), net);
    if (name != NULL) {
        fputs("<span class=\"name\">", out);
        put_apart(out, name);
        fputs("</span>", out);
    }
    fputs("</a></li>\n", out);
}

/* Names need wider tiles. */
static bool any_named(const struct page *page)
{
    for (unsigned net = 0; net < page->board->says.nets; net++)
        if (page->board->says.names.net[net] != NULL)
            return true;
    return false;
}

void put_tiles(FILE *out, const struct page *page)
{
    fprintf(out, "<ul class=\"tiles%s\">\n", any_named(page) ? " named" : "");
    for (unsigned net = 0; net < page->board->says.nets; net++)
        put_tile(out, page, net);
    fputs("</ul>\n", out);
}

/* ---------------------------------------------------------------- legend */

/* In the words of docs/INTERFACE.md. */
static const struct {
    unsigned mark;
    const char *means, *then;
} legend[] = {
    {RIGCANDLE_PASS, "Every input cell of the net read its word, and no other net&#39;s input cell read the same throughout.",
     "Nothing to do, within <a href=\"#limits\">what a pass covers</a>."},
    {RIGCANDLE_FAIL, "An input cell of the net misread at least once.",
     "Look for an open, a bridge, a dead driver or an output that pulls for ever."},
    {RIGCANDLE_READ_TWICE, "The net reads well, but an input cell of another net read its word, too, in every vector.",
     "Look for a bridge to a net that fails."},
    {RIGCANDLE_NOT_SEEN, "The net has no input cell, so that this test says nothing of it.", "Probe it by other means."}};

void put_legend(FILE *out, const struct page *page)
{
    fputs("<dl class=\"legend\">\n", out);
    for (unsigned i = 0; i < sizeof legend / sizeof *legend; i++) {
        unsigned mark = legend[i].mark;
        fprintf(out, "<div><dt><span class=\"tile %s\" aria-hidden=\"true\"><span class=\"sign\">%s</span></span> %s", mark_class(mark),
                mark_sign(mark), mark_words(mark));
        fprintf(out, " <span class=\"of\">%u</span></dt><dd>%s <em>%s</em></dd></div>\n", nets_marked(page, mark), legend[i].means,
                legend[i].then);
    }
    fputs("</dl>\n", out);
}
