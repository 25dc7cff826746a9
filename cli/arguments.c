/*
 * arguments.c - reads the command line by the table of subcommands, and prints help. An option's value stands behind it or behind "=";
 * options and operands may stand in any order; "--" ends the options.
 */
#include "arguments.h"
#include "commands.h"
#include "files.h"
#include "rigcandle.h"

#include <stdio.h>
#include <stdlib.h>
#include <string.h>

/* No clock is faster, in Hz. */
#define FASTEST 1e12

/* ---------------------------------------------------------------- help */

static void print_overview(FILE *out)
{
    fputs("rigcandle: boundary-scan interconnect test whose every verdict is proved\n\n", out);
    for (const struct command *one = commands; one->name != NULL; one++)
        fprintf(out, "  %-10s %s\n", one->name, one->purpose);
    fputs("\nrigcandle SUBCOMMAND --help says more of each; rigcandle --version has the version.\n"
          "Status: 0 accepted or RELEASE, 1 HOLD, 2 refused, 3 wrong usage, 4 a file cannot be read or written.\n"
          "Any one file may be -, standard input or output.\n",
          out);
}

static void print_usage(FILE *out, const struct command *command)
{
    fprintf(out, "usage: rigcandle %s", command->name);
    for (unsigned i = 0; i < MOST_OPERANDS && command->operand[i] != NULL; i++)
        fprintf(out, " %s", command->operand[i]);
    if (command->option[0].name != NULL)
        fputs(" [options]", out);
    fputc('\n', out);
}

static void print_help(const struct command *command)
{
    print_usage(stdout, command);
    printf("\n%s\n", command->purpose);
    if (command->more != NULL)
        printf("\n%s\n", command->more);
    if (command->option[0].name != NULL)
        putchar('\n');
    for (const struct option *one = command->option; one->name != NULL; one++) {
        char left[40];
        snprintf(left, sizeof left, "%s%s%s", one->name, one->value != NULL ? " " : "", one->value != NULL ? one->value : "");
        printf("  %-20s %s\n", left, one->help);
    }
}

/* ---------------------------------------------------------------- reading */

static const struct command *command_named(const char *name)
{
    for (const struct command *one = commands; one->name != NULL; one++)
        if (strcmp(one->name, name) == 0)
            return one;
    return NULL;
}

/* The option that this word begins with, up to its end or to "=". */
static const struct option *option_named(const struct command *command, const char *word)
{
    size_t length = strcspn(word, "=");
    for (const struct option *one = command->option; one->name != NULL; one++)
        if (strlen(one->name) == length && strncmp(one->name, word, length) == 0)
            return one;
    return NULL;
}

static enum reading misunderstood(const struct command *command)
{
    print_usage(stderr, command);
    fprintf(stderr, "rigcandle %s --help says more\n", command->name);
    return NOT_UNDERSTOOD;
}

/* Takes the option at argv[*at], and its value where it has one. */
static bool take_option(char **argv, int *at, struct arguments *into)
{
    const char *word = argv[*at];
    const struct option *option = option_named(into->command, word);
    const char *equals = strchr(word, '=');
    const char *value = equals != NULL ? equals + 1 : "";
    if (option == NULL) {
        complain("%s: there is no option %s", into->command->name, word);
        return false;
    }
    if (option->value == NULL && equals != NULL) {
        complain("%s has no value", option->name);
        return false;
    }
    if (option->value != NULL && equals == NULL) {
        value = argv[*at + 1];
        if (value == NULL) {
            complain("%s needs a value, %s", option->name, option->value);
            return false;
        }
        ++*at;
    }
    if (!option->many && given_value(into, option->name) != NULL) {
        complain("%s is given twice", option->name);
        return false;
    }
    if (into->givens == MOST_GIVEN) {
        complain("more than %d options", MOST_GIVEN);
        return false;
    }
    into->given[into->givens++] = (struct given){option, value};
    return true;
}

static bool take_operand(const char *word, unsigned *taken, struct arguments *into)
{
    if (*taken == MOST_OPERANDS || into->command->operand[*taken] == NULL) {
        complain("%s: one argument too many: %s", into->command->name, word);
        return false;
    }
    into->operand[(*taken)++] = word;
    return true;
}

static bool enough(const struct arguments *arguments, unsigned taken)
{
    if (taken < MOST_OPERANDS && arguments->command->operand[taken] != NULL) {
        complain("%s: %s is missing", arguments->command->name, arguments->command->operand[taken]);
        return false;
    }
    return true;
}

/* Standard input can be read once. */
static bool standard_once(const struct arguments *arguments)
{
    unsigned read = 0;
    for (unsigned i = 0; i < arguments->command->inputs; i++)
        read += strcmp(arguments->operand[i], "-") == 0;
    const char *names = given_value(arguments, "--names");
    read += names != NULL && strcmp(names, "-") == 0;
    if (read > 1)
        complain("standard input can be one file, not two");
    return read <= 1;
}

/* The file that a subcommand writes: the value of -o, or an operand that is neither read nor a number; NULL where it writes none. */
static const char *written_file(const struct arguments *arguments)
{
    const struct command *command = arguments->command;
    const char *written = given_value(arguments, "-o");
    for (unsigned i = command->inputs; i < MOST_OPERANDS && command->operand[i] != NULL && written == NULL; i++)
        if (strcmp(command->operand[i], "NUMBER") != 0)
            written = arguments->operand[i];
    return written;
}

/* No file that is read is written, too. */
static bool keeps_inputs(const struct arguments *arguments)
{
    const char *read[MOST_OPERANDS + 1] = {given_value(arguments, "--names")};
    const char *written = written_file(arguments);
    memcpy(read + 1, arguments->operand, arguments->command->inputs * sizeof *read);
    for (unsigned i = 0; i <= MOST_OPERANDS && written != NULL; i++)
        if (read[i] != NULL && would_overwrite(written, read[i])) {
            complain("%s would be overwritten", input_name(read[i]));
            return false;
        }
    return true;
}

static enum reading read_words(int argc, char **argv, struct arguments *into)
{
    unsigned taken = 0;
    bool options = true;
    for (int at = 2; at < argc; at++) {
        const char *word = argv[at];
        bool dashed = options && word[0] == '-' && word[1] != 0;
        if (dashed && strcmp(word, "--") == 0) {
            options = false;
        } else if (dashed && strcmp(word, "--help") == 0) {
            print_help(into->command);
            return HELP_GIVEN;
        } else if (!(dashed ? take_option(argv, &at, into) : take_operand(word, &taken, into))) {
            return misunderstood(into->command);
        }
    }
    if (!enough(into, taken) || !standard_once(into) || !keeps_inputs(into) ||
        (into->command->fit != NULL && !into->command->fit(into)))
        return misunderstood(into->command);
    return TO_RUN;
}

enum reading read_arguments(int argc, char **argv, struct arguments *into)
{
    const char *first = argc > 1 ? argv[1] : NULL;
    memset(into, 0, sizeof *into);
    if (first == NULL) {
        print_overview(stderr);
        return NOT_UNDERSTOOD;
    }
    if (strcmp(first, "--help") == 0 || strcmp(first, "-h") == 0 || strcmp(first, "help") == 0) {
        print_overview(stdout);
        return HELP_GIVEN;
    }
    if (strcmp(first, "--version") == 0) {
        printf("rigcandle %s\n", RIGCANDLE_VERSION);
        return HELP_GIVEN;
    }
    into->command = command_named(first);
    if (into->command == NULL) {
        complain("there is no subcommand %s; rigcandle --help lists them", first);
        return NOT_UNDERSTOOD;
    }
    return read_words(argc, argv, into);
}

const char *given_value(const struct arguments *arguments, const char *name)
{
    const char *value = NULL;
    for (unsigned i = 0; i < arguments->givens; i++)
        if (strcmp(arguments->given[i].option->name, name) == 0)
            value = arguments->given[i].value;
    return value;
}

bool read_number(const char *text, unsigned long long most, unsigned long long *into)
{
    unsigned long long number = 0;
    if (*text == 0)
        return false;
    for (; *text != 0; text++) {
        if (*text < '0' || *text > '9')
            return false;
        unsigned digit = (unsigned)(*text - '0');
        if (number > (most - digit) / 10 || most < digit)
            return false;
        number = 10 * number + digit;
    }
    *into = number;
    return true;
}

double read_rate(const char *text)
{
    static const struct {
        const char *unit;
        double times;
    } units[] = {{"", 1}, {"Hz", 1}, {"kHz", 1e3}, {"MHz", 1e6}};
    size_t length = strspn(text, "0123456789.");
    const char *unit = text + length + strspn(text + length, " ");
    char *end;
    double rate = strtod(text, &end);
    if (length == 0 || end != text + length || !(rate < FASTEST))
        return 0;
    for (size_t i = 0; i < sizeof units / sizeof *units; i++)
        if (strcmp(unit, units[i].unit) == 0)
            return rate * units[i].times;
    return 0;
}
