/*
 * look.c - looks at the command's arguments as the command itself would, without the library, so that ./rigcandle tells of a mistyped
 * word or file name before minutes of proving.
 *
 *     look ARGUMENTS..    0 they can be run; 3 wrong usage; 4 a file cannot be read; 10 help was printed, and there is nothing to run
 */
#include "commands.h"
#include "files.h"

#include <stddef.h>

enum { NOTHING_TO_RUN = 10 };

int main(int argc, char **argv)
{
    struct arguments arguments;
    enum reading reading = read_arguments(argc, argv, &arguments);
    if (reading != TO_RUN)
        return reading == HELP_GIVEN ? NOTHING_TO_RUN : USAGE;
    for (unsigned i = 0; i < arguments.command->inputs; i++)
        if (!can_be_read(arguments.operand[i]))
            return UNUSABLE;
    const char *names = given_value(&arguments, "--names");
    return names == NULL || can_be_read(names) ? 0 : UNUSABLE;
}
