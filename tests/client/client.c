/*
 * client.c - asks the library the questions of a stream of cases, on buffers with forbidden memory around them.
 *
 *     client end|begin < cases > answers
 *
 * With `end` every buffer ends where a page begins that may not be touched, with `begin` it begins right after such a page. The file and
 * the capture lie on pages that are read-only during the call. An empty buffer is a null pointer with `end`, and with `begin` a pointer
 * to the forbidden page itself. A call that touches forbidden memory, writes beside its buffer, crashes or does not return ends the
 * program with status 1 and a line that names the case.
 *
 * A case, numbers little-endian: question (1 byte: 1 groups, 2 count, 3 vector, 4 marks), length of its label (1), vector number (8),
 * lengths of the file, of the capture and of out (4 each); then the label, the file, the capture, and out's bytes before the call.
 * An answer: the 64 bits (8), and out's bytes after the call.
 */
#define _DEFAULT_SOURCE /* for MAP_ANONYMOUS and sigaltstack */

#include "rigcandle.h"

#include <signal.h>
#include <stdarg.h>
#include <stdbool.h>
#include <stdio.h>
#include <stdlib.h>
#include <string.h>
#include <sys/mman.h>
#include <unistd.h>

enum {
    HEAD_SIZE = 22,
    FILE_ROOM = 1 << 15,
    CAPTURE_ROOM = 1 << 20,
    OUT_ROOM = 1 << 13,
    UNWRITTEN = 0xA5,     /* stands around out */
    SIGNAL_STACK = 1 << 16,
    SECONDS_A_CALL = 60
};

enum question { GROUPS = 1, COUNT, VECTOR, MARKS };

/* Memory between two forbidden pages, and the buffer that is lent of it. */
struct region {
    const char *name;
    uint8_t *start;
    size_t room;
    uint8_t *lent;
    size_t length;
};

static struct region file = {.name = "the file"}, capture = {.name = "the capture"}, out = {.name = "out"};
static bool at_end;
static size_t page;

static unsigned long case_number;
static char label[256];

/* ---------------------------------------------------------------- ending the test */

static void fail(const char *format, ...)
{
    va_list arguments;
    va_start(arguments, format);
    fprintf(stderr, "client: case %lu (%s): ", case_number, label);
    vfprintf(stderr, format, arguments);
    fputc('\n', stderr);
    va_end(arguments);
    _exit(1);
}

static bool within(const struct region *r, const uint8_t *address)
{
    return address >= r->start - page && address < r->start + r->room + page;
}

/* The signal comes from inside a call of the library and never from inside the C library's own output, so printing is safe. */
static void stopped(int signal_number, siginfo_t *info, void *context)
{
    const struct region *regions[] = {&file, &capture, &out};
    const uint8_t *address = info->si_addr;
    (void)context;
    if (signal_number == SIGALRM)
        fail("no answer after %d seconds", SECONDS_A_CALL);
    if (signal_number == SIGSEGV || signal_number == SIGBUS)
        for (size_t i = 0; i < 3; i++)
            if (within(regions[i], address))
                fail("page fault at byte %td of %s, which has %zu bytes", address - regions[i]->lent, regions[i]->name,
                     regions[i]->length);
    fail("signal %d at address %p", signal_number, info->si_addr);
}

static void catch_signals(void)
{
    static uint8_t stack[SIGNAL_STACK];
    const int caught[] = {SIGSEGV, SIGBUS, SIGILL, SIGFPE, SIGABRT, SIGTRAP, SIGALRM};
    stack_t other = {.ss_sp = stack, .ss_size = sizeof stack};
    struct sigaction action = {.sa_sigaction = stopped, .sa_flags = SA_SIGINFO | SA_ONSTACK};
    sigaltstack(&other, NULL);
    for (size_t i = 0; i < sizeof caught / sizeof *caught; i++)
        sigaction(caught[i], &action, NULL);
}

/* ---------------------------------------------------------------- buffers */

static void protect(const struct region *r, int protection)
{
    if (mprotect(r->start, r->room, protection) != 0)
        fail("mprotect refused");
}

static void make_region(struct region *r, size_t room)
{
    room = (room + page - 1) / page * page;
    uint8_t *whole = mmap(NULL, room + 2 * page, PROT_NONE, MAP_PRIVATE | MAP_ANONYMOUS, -1, 0);
    if (whole == MAP_FAILED)
        fail("mmap refused");
    r->start = whole + page;
    r->room = room;
    protect(r, PROT_READ | PROT_WRITE);
    memset(r->start, UNWRITTEN, room);
}

static void place(struct region *r, size_t length)
{
    if (length > r->room)
        fail("%s has %zu bytes, more than the test has room for", r->name, length);
    r->length = length;
    if (length == 0)
        r->lent = at_end ? NULL : r->start - page;
    else
        r->lent = at_end ? r->start + r->room - length : r->start;
}

static void load(struct region *r, size_t length)
{
    place(r, length);
    if (length != 0 && fread(r->lent, 1, length, stdin) != length)
        fail("the stream ends inside %s", r->name);
}

/* As load, and read-only from then on. */
static void load_sealed(struct region *r, size_t length)
{
    protect(r, PROT_READ | PROT_WRITE);
    load(r, length);
    protect(r, PROT_READ);
}

static void check_around_out(void)
{
    const uint8_t *lent = out.length != 0 ? out.lent : out.start;
    for (const uint8_t *at = out.start; at < out.start + out.room; at++)
        if ((at < lent || at >= lent + out.length) && *at != UNWRITTEN)
            fail("wrote byte %td of out, which has %zu bytes", at - lent, out.length);
}

static void clear_out(void)
{
    if (out.length != 0)
        memset(out.lent, UNWRITTEN, out.length);
}

/* ---------------------------------------------------------------- the stream */

static uint64_t number_at(const uint8_t *bytes, unsigned length)
{
    uint64_t number = 0;
    for (unsigned i = length; i-- > 0;)
        number = number << 8 | bytes[i];
    return number;
}

static void write_answer(uint64_t answer)
{
    for (unsigned i = 0; i < 8; i++)
        putchar((int)(answer >> (8 * i) & 255));
    if (out.length != 0)
        fwrite(out.lent, 1, out.length, stdout);
}

static uint64_t ask(unsigned question, uint64_t number)
{
    switch (question) {
    case GROUPS:
        return groups(file.lent, file.length, out.lent, out.length);
    case COUNT:
        return count(file.lent, file.length);
    case VECTOR:
        return vector(file.lent, file.length, number, out.lent, out.length);
    case MARKS:
        return marks(file.lent, file.length, capture.lent, capture.length, out.lent, out.length);
    default:
        fail("there is no question %u", question);
        return 0;
    }
}

static void run_case(const uint8_t *head)
{
    size_t label_length = head[1];
    if (fread(label, 1, label_length, stdin) != label_length)
        fail("the stream ends inside a label");
    label[label_length] = 0;
    load_sealed(&file, number_at(head + 10, 4));
    load_sealed(&capture, number_at(head + 14, 4));
    load(&out, number_at(head + 18, 4));
    alarm(SECONDS_A_CALL);
    uint64_t answer = ask(head[0], number_at(head + 2, 8));
    alarm(0);
    check_around_out();
    write_answer(answer);
    clear_out();
}

int main(int argc, char **argv)
{
    uint8_t head[HEAD_SIZE];
    size_t got;
    if (argc != 2 || (strcmp(argv[1], "end") != 0 && strcmp(argv[1], "begin") != 0)) {
        fprintf(stderr, "usage: client end|begin < cases > answers\n");
        return 2;
    }
    at_end = strcmp(argv[1], "end") == 0;
    page = (size_t)sysconf(_SC_PAGESIZE);
    make_region(&file, FILE_ROOM);
    make_region(&capture, CAPTURE_ROOM);
    make_region(&out, OUT_ROOM);
    catch_signals();
    for (case_number = 0; (got = fread(head, 1, sizeof head, stdin)) == sizeof head; case_number++)
        run_case(head);
    if (got != 0)
        fail("the stream ends inside a head");
    return fflush(stdout) == 0 ? 0 : 1;
}
