"""Demand 3 with open-drain cells, read off the answers as a bench would: on
random accepted boards, from the bits that groups and vector give, that

 - in every vector exactly one output of each net has the turn;
 - an open-drain cell without the turn is loaded with 1;
 - the level of each net is its value;
 - a control cell whose nets have d drivers is on in exactly one of the first d
   groups, and one that switches nothing in none.

    python3 levels.py COUNT SEED

The same is then asked of document01 with one line changed, for each change of
EDITS; a change that goes unseen is an error.
"""

import collections
import os
import random
import sys
import time
import types

import boards
import document01

# (what is broken, a text that document01.py has once, what is put in its place)
EDITS = (
    ("out of its turn loaded with the net's value",
     "value = one.values[cell.net] if q in on else 1\n", "value = one.values[cell.net]\n"),
    ("out of its turn loaded with 0",
     "value = one.values[cell.net] if q in on else 1\n",
     "value = one.values[cell.net] if q in on else 0\n"),
    ("in its turn loaded with 1",
     "value = one.values[cell.net] if q in on else 1\n", "value = 1\n"),
    ("its turn read at the next position",
     "value = one.values[cell.net] if q in on else 1\n",
     "value = one.values[cell.net] if q + 1 in on else 1\n"),
    ("both passes walk past it",
     "             if control_of(board, q) is not None]\n    earlier",
     "             if board.cells[q].kind == THREE_STATE]\n    earlier"),
    ("the first pass walks past it",
     "if degree[net] >= g and", "if board.cells[control].kind == CONTROL and degree[net] >= g and"),
    ("the second pass walks past it",
     "if degree[net] < g and", "if board.cells[control].kind == CONTROL and degree[net] < g and"),
    ("it marks no control cell of its net",
     "return {c}.union(", "return {c} if board.cells[c].kind == OPEN_DRAIN else {c}.union("),
    ("it has no net as a control cell",
     "            sets[q].add(cell.net)\n", "            pass\n"),
)


# --------------------------------------------------------------------------
# What a bench sees
# --------------------------------------------------------------------------

def bit(row, q):
    return row[q // 8] >> q % 8 & 1


def is_driving(cells, q, row):
    """A kind 3 or 4 output's driver is on, by the row alone."""
    return cells[q].kind == 4 or bit(row, cells[q].control) == cells[cells[q].control].on


def level(cells, outputs, row):
    """The level that these outputs of one net give it: 0 or 1, or a word."""
    given = {bit(row, q) for q in outputs if cells[q].kind != 5 and is_driving(cells, q, row)}
    if any(cells[q].kind == 5 and bit(row, q) == 0 for q in outputs):
        given.add(0)  # pulled low
    if len(given) == 2:
        return "fight"
    if given:
        return given.pop()
    return 1 if any(cells[q].kind == 5 for q in outputs) else "float"  # the resistor


def fault_in_vector(board, outputs, group, row, values):
    """What is wrong with a vector, given its group's row, its own row and its
    nets' values; None if nothing."""
    cells = board.cells
    for net in range(board.nets):
        turn = [q for q in outputs[net]
                if (bit(group, q) if cells[q].kind == 5 else is_driving(cells, q, row))]
        if len(turn) != 1:
            return "%d outputs of net %d have the turn" % (len(turn), net)
        if any(cells[q].kind == 5 and q not in turn and bit(row, q) == 0 for q in outputs[net]):
            return "net %d is pulled by a cell out of its turn" % net
        if level(cells, outputs[net], row) != values[net]:
            return "net %d has the level %s" % (net, level(cells, outputs[net], row))
    return None


def fault_in_turns(board, outputs, rows):
    """What is wrong with the groups' rows; None if nothing."""
    drivers = [sum(board.cells[q].kind in (3, 5) for q in those) for those in outputs]
    needs = {c: 0 for c, cell in enumerate(board.cells) if cell.kind == 2}
    for q, cell in enumerate(board.cells):
        if cell.kind in (3, 5):
            needs[cell.control if cell.kind == 3 else q] = drivers[cell.net]
    for q in range(len(board.cells)):
        turns = [bit(row, q) for row in rows]
        if q not in needs and any(turns):
            return "cell %d, which is no control cell, is on" % q
        if q in needs and sum(turns[:needs[q]]) != (needs[q] > 0):
            return "control cell %d is on in %d of %d groups" % (q, sum(turns[:needs[q]]), needs[q])
        if needs.get(q) == 0 and any(turns):
            return "control cell %d, which switches nothing, is on" % q
    return None


def fault_of(rules, file):
    """What is wrong with the answers of `rules`, which is document01 or an
    edited one; None if nothing."""
    board = rules.read(file)
    size = (len(board.cells) + 7) // 8
    outputs = [[] for _ in range(board.nets)]
    for q, cell in enumerate(board.cells):
        if cell.kind in (3, 4, 5):
            outputs[cell.net].append(q)
    count = rules.unpacked("count", rules.count(file))
    if "refusal" in count:
        return "refused %d" % count["refusal"]
    bits, data = rules.groups(file, bytes(count["G"] * size))
    rows = [data[k:k + size] for k in range(0, len(data), size)]
    found = fault_in_turns(board, outputs, rows)
    for number, (group, values) in enumerate(rules.vector_list(file)):
        if found is not None:
            return found
        bits, row = rules.vector(file, number, bytes(size))
        if bits != group << 8:
            return "vector %d is not of group %d" % (number, group)
        found = fault_in_vector(board, outputs, rows[group - 1], row, values)
    return found


# --------------------------------------------------------------------------
# Run
# --------------------------------------------------------------------------

def edited(old, new):
    """document01 with one text in another's place, as a module of its own."""
    with open(os.path.join(os.path.dirname(os.path.abspath(__file__)), "document01.py")) as file:
        text = file.read()
    if text.count(old) != 1:
        raise SystemExit("levels: document01.py does not have this once: %r" % old)
    module = types.ModuleType("edited")
    exec(compile(text.replace(old, new), "document01.py, edited", "exec"), module.__dict__)
    return module


def some_boards(count, seed):
    """Accepted boards, most of them small, in every share of open-drain cells."""
    for i in range(count):
        rng = random.Random("levels %d %d" % (seed, i))
        if i % 100 == 0:
            yield boards.accepted(rng, rng.choice([100, 300, 1023, 1024]), limit=1024)
        elif i % 100 == 1:
            size = rng.choice([100, 300, 1023, 1024])
            yield boards.crowded(rng, size, limit=1024, share=rng.choice([0.5, 1]))
        elif i % 10 == 2:
            yield boards.mixed(rng, rng.choice([8, 16, 24, 40]))
        else:
            yield boards.accepted(rng, rng.choice([1, 2, 3, 5, 8, 9, 12, 16, 20, 30]))


def sorts_of_nets(file):
    """Of each net, the kinds of its outputs."""
    board = document01.read(file)
    kinds = [set() for _ in range(board.nets)]
    for cell in board.cells:
        if cell.kind in (3, 4, 5):
            kinds[cell.net].add(cell.kind)
    return collections.Counter(" and ".join(map(str, sorted(those))) for those in kinds)


def main(count, seed):
    start = time.time()
    given, sorts, vectors = list(some_boards(count, seed)), collections.Counter(), 0
    for i, file in enumerate(given):
        found = fault_of(document01, file)
        if found is not None:
            raise SystemExit("levels: board %d of seed %d: %s" % (i, seed, found))
        sorts += sorts_of_nets(file)
        vectors += document01.kept(file).total
    print("levels: %d boards, %d vectors, nets by the kinds of their outputs %s, %.1f s"
          % (count, vectors, dict(sorted(sorts.items())), time.time() - start))
    for kinds in ("3", "4", "5", "3 and 5"):
        if sorts[kinds] < count // 10:
            raise SystemExit("levels: too few nets with outputs of kind " + kinds)
    for what, old, new in EDITS:
        rules = edited(old, new)
        found = next(filter(None, (fault_of(rules, file) for file in given)), None)
        if found is None:
            raise SystemExit("levels: goes unseen: " + what)
    print("levels: %d changes of document01 are all seen, %.1f s" % (len(EDITS), time.time() - start))


if __name__ == "__main__":
    main(int(sys.argv[1]), int(sys.argv[2]))
