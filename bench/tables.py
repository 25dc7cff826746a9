"""The tables of the benchmark and what they say of the goals, from what bench/bench.c leaves.

    python3 tables.py PRINTED DUMPS     PRINTED: what `bench stack` printed; DUMPS: the folder of the dumps of `bench count`, one for each
                                        call: callgrind's, each in a file, or those of bench/counter.c, all in one
"""

import collections
import os
import re
import sys

QUESTIONS = ("groups", "count", "vector", "marks")
ORDERS = ("made", "reversed", "shuffled")
ASKED = ("-", "first", "middle", "last", "healthy", "swapped")
FAMILIES = ("more", "wide")
TRIGGER = "desc: Trigger: Client Request: "
GROWTH = re.compile(r"(more|wide)-(\d+)$")
SIZES = (128, 256, 512, 1024)

# the goals
MOST_RATIO = 1.0
MOST_BUS_VECTOR = 300_000   # instructions, below
MOST_MARKS = 20_000_000     # instructions, on the boards of MANY_VECTORS
MANY_VECTORS = ("limit", "nets256", "ssol1")
CLOSE_TO_LINEAR = 1.25      # times what linear growth would give
MOST_STACK = 12 * 1024      # bytes, below

Board = collections.namedtuple("Board", "cells nets controls vectors refusal")


class Call(collections.namedtuple("Call", "board order question asked ours theirs")):
    """What was asked of a board in an order, and the instructions it took the library and plain C."""

    @property
    def ratio(self):
        return self.ours / self.theirs


# --------------------------------------------------------------------------
# Reading
# --------------------------------------------------------------------------

def read_printed(name):
    """Boards by name, and bytes of stack by (question, implementation, board, order): the deepest of what was asked."""
    boards, stacks = {}, collections.defaultdict(int)
    with open(name) as lines:
        for line in lines:
            sort, board, *rest = line.split()
            if sort == "board":
                boards[board] = Board(*map(int, rest))
            else:
                order, question, implementation, depth = rest
                key = question, implementation, board, order
                stacks[key] = max(stacks[key], int(depth))
    return boards, stacks


def read_dumps(name):
    """Of each dump in a file (board, order, question, what was asked, implementation) and its instructions; not of that at the program's end."""
    label = None
    with open(name) as lines:
        for line in lines:
            if line.startswith(TRIGGER):
                label = tuple(line[len(TRIGGER):].split())
            elif line.startswith("summary:") and label:
                yield label, int(line.split()[1])


def read_calls(folder, boards):
    """All calls, without the instructions of asking: by board as they are made, then by order, question and what was asked."""
    found = dict(dump for name in os.listdir(folder) for dump in read_dumps(os.path.join(folder, name)))
    asking = {label[2]: number for label, number in found.items() if label[4] == "empty"}
    calls = [Call(*call, number - asking[call[2]], found[(*call, "plain")] - asking[call[2]])
             for (*call, of), number in found.items() if of == "rigcandle"]
    names = list(boards)
    return sorted(calls, key=lambda call: (names.index(call.board), ORDERS.index(call.order), QUESTIONS.index(call.question),
                                           ASKED.index(call.asked)))


def highest(calls):
    """Instructions by (board, order, question, implementation): the highest of what was asked."""
    found = collections.defaultdict(int)
    for call in calls:
        for of, number in (("rigcandle", call.ours), ("plain", call.theirs)):
            key = call.board, call.order, call.question, of
            found[key] = max(found[key], number)
    return found


# --------------------------------------------------------------------------
# Tables
# --------------------------------------------------------------------------

def table(heads, rows):
    print("| " + " | ".join(heads) + " |")
    print("|" + "---|" * len(heads))
    for row in rows:
        print("| " + " | ".join("{:,}".format(x) if isinstance(x, int) else x for x in row) + " |")
    print()


def place(call):
    """The order, and what was asked where a question is asked more than once."""
    return call.order if call.asked == "-" else "%s, %s" % (call.order, call.asked)


def cost_rows(boards, calls, most):
    """For each board and question the highest counts in the order as made, and the worst single call of all orders."""
    for name, board in boards.items():
        if GROWTH.match(name):
            continue
        for question in QUESTIONS:
            asked = [call for call in calls if call.board == name and call.question == question]
            if asked:
                worst = max(asked, key=lambda call: call.ratio)
                vectors = "refused %d" % board.refusal if board.refusal else board.vectors
                yield (name, board.cells, board.nets, board.controls, vectors, question, most[name, "made", question, "rigcandle"],
                       most[name, "made", question, "plain"], "%.2f" % worst.ratio, place(worst))


def above_rows(above):
    for call in above:
        yield (call.board, call.order, call.question, call.asked, call.ours, call.theirs, "%.3f" % call.ratio)


def tell_above(of, above):
    """Every call above the ratio, one by one."""
    print("### Above %.1f of plain C: %s\n" % (MOST_RATIO, of))
    if above:
        table(("board", "order", "question", "asked", "rigcandle", "plain C", "ratio"), above_rows(above))
    else:
        print("None.\n")


def growth(boards, most, family, order, question, of):
    """The four counts, how many times the first the last is, and how many times it would be if growth were linear: in the cells, and for
    marks in the bits of the capture."""
    numbers = [most["%s-%d" % (family, size), order, question, of] for size in SIZES]
    first, last = (boards["%s-%d" % (family, size)] for size in (SIZES[0], SIZES[-1]))
    linear = last.cells / first.cells
    if question == "marks":
        linear *= last.vectors / first.vectors
    return numbers, numbers[-1] / numbers[0], linear


def growth_rows(boards, most):
    """The counts are those in the order as made."""
    for family in FAMILIES:
        for question in QUESTIONS:
            for of in ("rigcandle", "plain"):
                numbers, times, linear = growth(boards, most, family, "made", question, of)
                in_order = {order: growth(boards, most, family, order, question, of)[1] for order in ORDERS}
                worst = max(ORDERS, key=in_order.get)
                yield (family, question, of, *numbers, "%.1f" % times, "%.1f" % linear, "%.1f" % in_order[worst], worst)


def deepest(stacks, question, of):
    """The bytes, and the first board that needs them, with its order if it is not as made."""
    found = {key[2:]: depth for key, depth in stacks.items() if key[:2] == (question, of)}
    board, order = max(found, key=found.get)
    return found[board, order], board if order == "made" else "%s %s" % (board, order)


def stack_rows(stacks):
    for question in QUESTIONS:
        yield (question, *deepest(stacks, question, "rigcandle"), *deepest(stacks, question, "plain"))


# --------------------------------------------------------------------------
# Goals
# --------------------------------------------------------------------------

def tell(goal, faults):
    """A goal, and under it each place where it is not met."""
    print("- %s: %s" % ("not met" if faults else "met", goal))
    for fault in faults:
        print("  - " + fault)


def ratio_faults(calls, above):
    """For each question, how many of its calls are above the ratio, and the highest three."""
    for question in QUESTIONS:
        found = sorted((call for call in above if call.question == question), key=lambda call: -call.ratio)
        if found:
            asked = sum(call.question == question for call in calls)
            three = "; ".join("%s %s %.3f" % (call.board, place(call), call.ratio) for call in found[:3])
            yield "%s: %d of %d calls above, the highest %s" % (question, len(found), asked, three)


def growth_faults(boards, most):
    for family in FAMILIES:
        for question in QUESTIONS:
            for order in ORDERS:
                _, times, linear = growth(boards, most, family, order, question, "rigcandle")
                if times > CLOSE_TO_LINEAR * linear:
                    yield "%s on %s, %s, grows %.1f times, linear is %.1f" % (question, family, order, times, linear)


def most_faults(most, names, question, limit):
    """The boards and orders in which a question takes more than the limit."""
    for name in names:
        for order in ORDERS:
            number = most[name, order, question, "rigcandle"]
            if number > limit:
                yield "%s, %s: %s" % (name, order, f"{number:,}")


def tell_goals(boards, calls, above, marks_above, most, stacks):
    tell("every groups, count and vector at most %.1f of plain C's instructions on each board in each order" % MOST_RATIO,
         list(ratio_faults(calls, above)))
    tell("every marks at most %.1f of plain C's instructions on each board in each order" % MOST_RATIO,
         list(ratio_faults(calls, marks_above)))
    tell("vector on bus under %s instructions (as made %s)" % (f"{MOST_BUS_VECTOR:,}", f"{most['bus', 'made', 'vector', 'rigcandle']:,}"),
         list(most_faults(most, ("bus",), "vector", MOST_BUS_VECTOR - 1)))
    tell("marks at most %s instructions at thousands of vectors" % f"{MOST_MARKS:,}",
         list(most_faults(most, MANY_VECTORS, "marks", MOST_MARKS)))
    tell("from 128 to 1,024 cells at most %.2f times linear growth" % CLOSE_TO_LINEAR, list(growth_faults(boards, most)))
    depths = {question: deepest(stacks, question, "rigcandle")[0] for question in QUESTIONS}
    tell("deepest stack under %s bytes (%s)" % (f"{MOST_STACK:,}", f"{max(depths.values()):,}"),
         ["%s: %s" % (question, f"{depth:,}") for question, depth in depths.items() if depth >= MOST_STACK])


def main(printed, dumps):
    boards, stacks = read_printed(printed)
    calls = read_calls(dumps, boards)
    most = highest(calls)
    above = [call for call in calls if call.ratio > MOST_RATIO and call.question != "marks"]
    marks_above = [call for call in calls if call.ratio > MOST_RATIO and call.question == "marks"]
    print("### Instructions a call\n")
    table(("board", "cells", "nets", "control cells", "vectors", "question", "rigcandle", "plain C", "worst ratio", "in order"),
          cost_rows(boards, calls, most))
    tell_above("groups, count, vector", above)
    tell_above("marks", marks_above)
    print("### Growth from 128 to 1,024 cells\n")
    table(("family", "question", "of", *("%s cells" % f"{size:,}" for size in SIZES), "times", "linear", "most times", "in order"),
          growth_rows(boards, most))
    print("### Deepest stack, in bytes\n")
    table(("question", "rigcandle", "on", "plain C", "on"), stack_rows(stacks))
    print("### Goals\n")
    tell_goals(boards, calls, above, marks_above, most, stacks)


if __name__ == "__main__":
    main(*sys.argv[1:])
