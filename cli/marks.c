/*
 * marks.c - marks: what the library says of each net for a capture, and by the header's release rule RELEASE or HOLD.
 */
#include "board.h"
#include "commands.h"
#include "files.h"
#include "marking.h"

enum status run_marks(const struct arguments *arguments)
{
    static struct board board;
    struct marking marking;
    bool all = given_value(arguments, "--all") != NULL;
    enum status read = read_marking(arguments, &board, &marking);
    if (read != FINE)
        return read;
    for (unsigned net = 0; net < board.says.nets; net++)
        if (all || marking.mark[net] != RIGCANDLE_PASS) {
            print_net(stdout, &board, net);
            printf(" %s\n", mark_words(marking.mark[net]));
        }
    printf("pass %u fail %u unsure %u\n", rigcandle_marks_pass(marking.answer), rigcandle_marks_fail(marking.answer),
           rigcandle_marks_unsure(marking.answer));
    puts(marking.release ? "RELEASE" : "HOLD");
    return marking.release ? FINE : HOLD;
}
