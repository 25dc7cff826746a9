/*
 * main.c - the command `rigcandle`: finds the subcommand, runs it, and ends with its status. A program over the library and its header
 * alone; every verdict in it comes from the library.
 */
#define _POSIX_C_SOURCE 200809L
#define _XOPEN_SOURCE 700 /* SIGPIPE, SIGXFSZ */

#include "commands.h"
#include "files.h"

#include <signal.h>
#include <stdio.h>
#include <string.h>

static const struct {
    const char *name;
    enum status (*run)(const struct arguments *);
} functions[] = {{"check", run_check},   {"list", run_list}, {"groups", run_groups},     {"vector", run_vector}, {"marks", run_marks},
                 {"make", run_make},     {"show", run_show}, {"simulate", run_simulate}, {"report", run_report}};

static enum status run(const struct arguments *arguments)
{
    for (size_t i = 0; i < sizeof functions / sizeof *functions; i++)
        if (strcmp(functions[i].name, arguments->command->name) == 0)
            return functions[i].run(arguments);
    return USAGE;
}

/* What was printed is only said once it is out: a full disk or a closed pipe is no success. */
static enum status ended(enum status status)
{
    struct output out = {stdout, "-", NULL};
    return close_output(&out) ? status : UNUSABLE;
}

int main(int argc, char **argv)
{
    struct arguments arguments;
    /* A closed pipe, or a file that may not grow, is then a write that fails. */
    signal(SIGPIPE, SIG_IGN);
    signal(SIGXFSZ, SIG_IGN);
    switch (read_arguments(argc, argv, &arguments)) {
    case HELP_GIVEN:
        return ended(FINE);
    case NOT_UNDERSTOOD:
        return USAGE;
    default:
        return ended(run(&arguments));
    }
}
