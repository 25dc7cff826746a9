/*
 * stack.c - the stack that the first call of a question takes in a program, and whether it fits a small thread.
 *
 *     stack QUESTION BOARD CAPTURE          prints the bytes of a painted stack that the question writes beyond an empty call
 *     stack QUESTION BOARD CAPTURE BYTES    asks in a thread with a stack of so many bytes; ends with status 0, or overflows
 *
 * The first call, since a program linked the usual way looks for memset in it, by way of the loader and on the same stack. So nothing
 * here may call memset before.
 */
#define _GNU_SOURCE /* for ucontext and pthread_attr_setstacksize */

#include "rigcandle.h"

#include <pthread.h>
#include <stdio.h>
#include <stdlib.h>
#include <string.h>
#include <ucontext.h>

enum { STACK_ROOM = 1 << 18, COLOUR = 0x5A };

static uint8_t file[RIGCANDLE_MOST_FILE], capture[RIGCANDLE_MOST_CAPTURE], out[RIGCANDLE_MOST_GROUP_ROWS];
static size_t file_len, capture_len;
static const char *question;
static uint64_t answer;

static size_t read_all(const char *name, uint8_t *into, size_t room)
{
    FILE *in = fopen(name, "rb");
    size_t length = in != NULL ? fread(into, 1, room, in) : 0;
    if (length == 0) {
        fprintf(stderr, "stack: %s cannot be read\n", name);
        exit(2);
    }
    fclose(in);
    return length;
}

static void ask(void)
{
    if (strcmp(question, "groups") == 0)
        answer = groups(file, file_len, out, sizeof out);
    else if (strcmp(question, "count") == 0)
        answer = count(file, file_len);
    else if (strcmp(question, "vector") == 0)
        answer = vector(file, file_len, 0, out, sizeof out);
    else
        answer = marks(file, file_len, capture, capture_len, out, sizeof out);
}

static void ask_nothing(void)
{
    answer = 0;
}

/* How much of a painted stack this function changes. */
static size_t depth(void (*function)(void))
{
    static volatile uint8_t painted[STACK_ROOM];
    ucontext_t here, there;
    size_t untouched = 0;
    for (size_t i = 0; i < sizeof painted; i++)
        painted[i] = COLOUR;
    getcontext(&there);
    there.uc_stack.ss_sp = (void *)painted;
    there.uc_stack.ss_size = sizeof painted;
    there.uc_link = &here;
    makecontext(&there, function, 0);
    swapcontext(&here, &there);
    while (untouched < sizeof painted && painted[untouched] == COLOUR)
        untouched++;
    return sizeof painted - untouched;
}

static void *ask_in_thread(void *unused)
{
    ask();
    return unused;
}

static int in_thread(size_t size)
{
    pthread_attr_t attributes;
    pthread_t thread;
    pthread_attr_init(&attributes);
    if (pthread_attr_setstacksize(&attributes, size) != 0 || pthread_create(&thread, &attributes, ask_in_thread, NULL) != 0) {
        fprintf(stderr, "stack: no thread with %zu bytes of stack\n", size);
        return 2;
    }
    pthread_join(thread, NULL);
    return 0;
}

int main(int argc, char **argv)
{
    if (argc < 4) {
        fprintf(stderr, "usage: stack QUESTION BOARD CAPTURE [BYTES]\n");
        return 2;
    }
    question = argv[1];
    file_len = read_all(argv[2], file, sizeof file);
    capture_len = read_all(argv[3], capture, sizeof capture);
    if (argc > 4) {
        int status = in_thread(strtoul(argv[4], NULL, 10));
        return status != 0 ? status : rigcandle_refusal(answer) != RIGCANDLE_ACCEPTED;
    }
    size_t empty = depth(ask_nothing);
    printf("%zu\n", depth(ask) - empty);
    return rigcandle_refusal(answer) != RIGCANDLE_ACCEPTED;
}
