/*
 * commands.h - the subcommands: their operands, options and help (commands.c), and the functions that do them, each in a file of its
 * own. A function answers the status with which the command ends.
 */
#ifndef COMMANDS_H
#define COMMANDS_H

#include "arguments.h"
#include "status.h"

/* Ended by one without a name. */
extern const struct command commands[];

enum status run_check(const struct arguments *arguments);
enum status run_list(const struct arguments *arguments);
enum status run_groups(const struct arguments *arguments);
enum status run_vector(const struct arguments *arguments);
enum status run_marks(const struct arguments *arguments);
enum status run_make(const struct arguments *arguments);
enum status run_show(const struct arguments *arguments);
enum status run_simulate(const struct arguments *arguments);
enum status run_report(const struct arguments *arguments);

#endif
