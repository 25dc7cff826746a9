/*
 * page.c - writes the report's page: one HTML file that needs nothing beside it, for the one who files it with the consignment and for
 * the one who opens it years later. No script; and its head forbids the browser to load anything.
 */
#include "page.h"
#include "sha256.h"

/* ---------------------------------------------------------------- head */

/* What the page is about: by its serial, or else by the board file. */
static void put_subject(FILE *out, const struct page *page, void (*put)(FILE *, const char *))
{
    fputs(page->serial != NULL ? "Board " : "Board file ", out);
    put(out, page->serial != NULL ? page->serial : page->board->name);
}

static const char *verdict(const struct page *page)
{
    return page->marking->release ? "RELEASE" : "HOLD";
}

static void put_head(FILE *out, const struct page *page)
{
    fputs("<!DOCTYPE html>\n<html lang=\"en\">\n<head>\n<meta charset=\"utf-8\">\n"
          "<meta name=\"viewport\" content=\"width=device-width, initial-scale=1\">\n"
          "<meta http-equiv=\"Content-Security-Policy\" content=\"default-src 'none'; style-src 'unsafe-inline'\">\n"
          "<meta name=\"generator\" content=\"rigcandle " RIGCANDLE_VERSION "\">\n",
          out);
    fprintf(out, "<title>%s: ", verdict(page));
    put_subject(out, page, put_text);
    fputs("</title>\n<style>\n", out);
    put_style(out);
    fputs("</style>\n</head>\n", out);
}

/* ---------------------------------------------------------------- verdict */

static void put_failing(FILE *out, unsigned fail)
{
    fprintf(out, fail == 1 ? "%u net fails" : "%u nets fail", fail);
}

/* Behind those that fail the word "net" is not said again. */
static void put_unsure(FILE *out, unsigned unsure, bool behind)
{
    const char *nets = unsure == 1 ? "net " : "nets ";
    fprintf(out, "%s%u %s%s unsure", behind ? ", " : "", unsure, behind ? "" : nets, unsure == 1 ? "is" : "are");
}

/* The verdict's reason, from the library's numbers. */
static void put_reason(FILE *out, const struct page *page)
{
    unsigned nets = page->board->says.nets;
    unsigned fail = rigcandle_marks_fail(page->marking->answer);
    unsigned unsure = rigcandle_marks_unsure(page->marking->answer);
    fputs("<p class=\"reason\">", out);
    if (page->marking->release)
        fprintf(out, nets == 1 ? "the board&#39;s one net passes" : "all %u nets pass", nets);
    if (fail != 0)
        put_failing(out, fail);
    if (unsure != 0)
        put_unsure(out, unsure, fail != 0);
    fputs("</p>\n", out);
}

/* What follows for the one who has the board before him. */
static void put_advice(FILE *out, const struct page *page)
{
    unsigned unseen = nets_marked(page, RIGCANDLE_NOT_SEEN);
    if (page->marking->release)
        fputs("<p>What a pass does not cover is said at <a href=\"#limits\">the end of this page</a>.</p>\n", out);
    else
        fputs("<p>Not to be released on this test. <a href=\"#not-passing\">The nets that do not pass</a> come first below.</p>\n",
              out);
    if (unseen == 1)
        fputs("<p>One net of this board file has no input cell: no capture of it is a RELEASE.</p>\n", out);
    else if (unseen != 0)
        fprintf(out, "<p>%u nets of this board file have no input cell: no capture of it is a RELEASE.</p>\n", unseen);
}

static void put_numbers(FILE *out, uint64_t answer)
{
    fprintf(out, "<dl class=\"numbers\">\n<div><dt>pass</dt><dd id=\"pass\">%u</dd></div>\n", rigcandle_marks_pass(answer));
    fprintf(out, "<div><dt>fail</dt><dd id=\"fail\">%u</dd></div>\n", rigcandle_marks_fail(answer));
    fprintf(out, "<div><dt>unsure</dt><dd id=\"unsure\">%u</dd></div>\n</dl>\n", rigcandle_marks_unsure(answer));
}

static void put_verdict(FILE *out, const struct page *page)
{
    fputs("<header>\n<p class=\"kind\">Boundary-scan interconnect test</p>\n<h1>", out);
    put_subject(out, page, put_apart);
    fprintf(out, "</h1>\n</header>\n<section class=\"verdict %s\">\n<h2 id=\"verdict\">%s</h2>\n<div class=\"why\">\n",
            page->marking->release ? "release" : "hold", verdict(page));
    put_reason(out, page);
    put_advice(out, page);
    fputs("</div>\n", out);
    put_numbers(out, page->marking->answer);
    fputs("</section>\n", out);
}

/* ---------------------------------------------------------------- record */

static void put_said(FILE *out, const char *what, const char *said)
{
    fprintf(out, "<div><dt>%s</dt><dd>", what);
    put_apart(out, said);
    fputs("</dd></div>\n", out);
}

static void put_figure(FILE *out, const char *what, const char *id, unsigned number)
{
    fprintf(out, "<div><dt>%s</dt><dd id=\"%s\">%u</dd></div>\n", what, id, number);
}

static void put_figures(FILE *out, const struct board *board)
{
    fputs("<dl class=\"figures\">\n", out);
    put_figure(out, "Cells", "cells", board->says.cells);
    put_figure(out, "Nets", "nets", board->says.nets);
    put_figure(out, "<abbr title=\"switching limit: at most so many nets change from a vector to the next\">SSOL</abbr>", "limit",
               board->says.limit);
    put_figure(out, "Groups", "groups", rigcandle_count_g(board->counted));
    put_figure(out, "Patterns", "patterns", rigcandle_count_p(board->counted));
    put_figure(out, "Vectors", "vectors", board->vectors);
    fputs("</dl>\n", out);
}

static void put_file(FILE *out, const char *what, const char *id, const char *name, struct bytes file)
{
    char digits[SHA256_DIGITS + 1];
    sha256(file.at, file.length, digits);
    fprintf(out, "<tr><th scope=\"row\">%s</th><td>", what);
    put_apart(out, name);
    fprintf(out, "</td><td><span id=\"%s-bytes\">%zu</span> bytes</td>", id, file.length);
    fprintf(out, "<td><code id=\"%s-sha256\">%s</code></td></tr>\n", id, digits);
}

static void put_record(FILE *out, const struct page *page)
{
    const struct board *board = page->board;
    fputs("<section>\n<h2>Record</h2>\n<dl class=\"said\">\n", out);
    put_said(out, "Serial", page->serial != NULL ? page->serial : "not given");
    put_said(out, "Date", page->date);
    put_said(out, "Program", "rigcandle " RIGCANDLE_VERSION);
    fputs("</dl>\n", out);
    put_figures(out, board);
    fputs("<table class=\"files\">\n<thead><tr><th scope=\"col\">File</th><th scope=\"col\">Name</th><th scope=\"col\">Size</th>"
          "<th scope=\"col\">SHA-256, as <code>sha256sum</code> prints it</th></tr></thead>\n<tbody>\n",
          out);
    put_file(out, "Board", "board", board->name, (struct bytes){board->file, board->length});
    put_file(out, "Capture", "capture", page->marking->capture_name, page->marking->capture);
    fputs("</tbody>\n</table>\n</section>\n", out);
}

/* ---------------------------------------------------------------- nets */

static void put_aid(FILE *out, const struct page *page)
{
    unsigned vectors = page->board->vectors;
    fprintf(out,
            "<section class=\"aid\">\n<h2>How to read the tables</h2>\n"
            "<p>A net&#39;s own word is its value, 0 or 1, in each vector%s. The first row of a net has its own word and the input "
            "cells that read it, by their position in the chain. Each further row is an input cell of the net that read something "
            "else; where that is wrong it <b>stands out</b>.",
            vectors > IN_ONE_LINE ? "; a line of it has 32 vectors" : "");
    if (vectors > SHOWN)
        fprintf(out,
                " Of the %u vectors a row shows %d: the first, or those around the first wrong one. A word that is told by nothing "
                "else opens whole beneath, with an asterisk at each line that has something wrong.",
                vectors, SHOWN);
    fputs("</p>\n</section>\n", out);
}

static void put_nets(FILE *out, const struct page *page)
{
    fprintf(out, "<section>\n<h2>Nets <span class=\"of\">%u</span></h2>\n", page->board->says.nets);
    put_tiles(out, page);
    put_legend(out, page);
    fputs("</section>\n", out);
    put_aid(out, page);
    put_tables(out, page);
}

/* ---------------------------------------------------------------- the end */

static void put_limits(FILE *out)
{
    fputs("<section id=\"limits\">\n<h2>What a pass does not cover</h2>\n"
          "<p>A pass says that the net&#39;s input cells read its word in every vector of this one capture, and that no other "
          "net&#39;s input cell did. Some faults leave every mark as it is, always or at times: a control cell that is stuck on, a "
          "dead driver that it hides, two drivers that fight and agree, a bridge to a net that has no input cell, the missing resistor "
          "of an open-drain line, a fault that comes and goes. Nets, pins and parts that the board file leaves out were not tested at "
          "all, and nothing here is about voltage, timing or what a part does. <cite>docs/OPERATING.md</cite> goes through this fault by "
          "fault.</p>\n",
          out);
    fputs("<p>Each net&#39;s mark and the three numbers are the answers of Rigcandle&#39;s library, which is proved to "
          "keep to its definition of them; RELEASE is said where these count every net as pass. What the tables say of the words that "
          "cells read is worked out beside that, to help find the fault, and decides nothing.</p>\n</section>\n",
          out);
}

void write_page(FILE *out, const struct page *page)
{
    put_head(out, page);
    fputs("<body>\n<main>\n", out);
    put_verdict(out, page);
    put_record(out, page);
    put_nets(out, page);
    put_limits(out);
    fputs("</main>\n</body>\n</html>\n", out);
}
