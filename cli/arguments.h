/*
 * arguments.h - what stands on the command line: a subcommand, its operands and its options. Knows nothing of the library, so that
 * ./rigcandle can look at its arguments before anything is proved (look.c).
 */
#ifndef ARGUMENTS_H
#define ARGUMENTS_H

#include <stdbool.h>

enum { MOST_OPERANDS = 2, MOST_OPTIONS = 16, MOST_GIVEN = 256 };

struct option {
    const char *name;   /* "--clock" */
    const char *value;  /* what its value is called, or NULL where it has none */
    const char *help;
    bool many;          /* it may be given more than once */
};

struct arguments;

struct command {
    const char *name;
    const char *operand[MOST_OPERANDS];   /* BOARD, CAPTURE, TEXT or NUMBER */
    unsigned inputs;                      /* so many of the operands, from the first, are files to read */
    const char *purpose;                  /* one line */
    const char *more;                     /* the rest of its help */
    struct option option[MOST_OPTIONS];   /* ended by one without a name */
    bool (*fit)(const struct arguments *);   /* whether its words are what they should be, or NULL; tells where they are not */
};

struct given {
    const struct option *option;
    const char *value;
};

struct arguments {
    const struct command *command;
    const char *operand[MOST_OPERANDS];
    struct given given[MOST_GIVEN];   /* in the order of the command line */
    unsigned givens;
};

enum reading { TO_RUN, HELP_GIVEN, NOT_UNDERSTOOD };

/* Reads the command line. Help and the version are printed here, and so is what is wrong with the arguments. */
enum reading read_arguments(int argc, char **argv, struct arguments *into);

/* The value given last for an option of this name, or NULL; of one without a value, the empty string. */
const char *given_value(const struct arguments *arguments, const char *name);

/* A decimal number up to `most`, and nothing behind it. */
bool read_number(const char *text, unsigned long long most, unsigned long long *into);

/* A clock rate as "10MHz", "2.5 kHz" or "500000", in Hz; 0 where the text is none. */
double read_rate(const char *text);

#endif
