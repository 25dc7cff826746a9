/*
 * report.c - report: one HTML page for the consignment's record. Verdict, marks and numbers are the library's (marking.c); the page is
 * written by page.c and its like.
 */
#include "board.h"
#include "commands.h"
#include "files.h"
#include "marking.h"
#include "page.h"

#include <time.h>

enum { DATE_ROOM = 32 };

/* Today's date where the program runs, as 2026-03-14. */
static const char *today(char room[DATE_ROOM])
{
    time_t now = time(NULL);
    const struct tm *here = localtime(&now);
    return here != NULL && strftime(room, DATE_ROOM, "%Y-%m-%d", here) != 0 ? room : "not known";
}

enum status run_report(const struct arguments *arguments)
{
    static struct board board;
    static struct marking marking;
    char room[DATE_ROOM];
    const char *date = given_value(arguments, "--date");
    struct page page = {&board, &marking, given_value(arguments, "--serial"), date != NULL ? date : today(room), NULL};
    struct output out;
    const char *name = given_value(arguments, "-o");
    enum status read = read_marking(arguments, &board, &marking);
    if (read != FINE) {
        if (is_there(name))
            complain("%s is of an earlier run, and says nothing of this one", name);
        return read;
    }
    page.words = words_of(&board, marking.capture.at);
    if (!open_output(name, &out))
        return UNUSABLE;
    write_page(out.stream, &page);
    bool printed = out.stream == stdout;
    if (!close_output(&out))
        return UNUSABLE;
    if (!printed)
        puts(marking.release ? "RELEASE" : "HOLD");
    return marking.release ? FINE : HOLD;
}
