"""What the command should print, from tests/reference alone: the answers of list, groups, vector, marks and check, and a refusal's words.

Nets and cells may have names: `Names` has them by number, and none where they are not there.
"""

import os
import re
import sys

HERE = os.path.dirname(os.path.abspath(__file__))
ROOT = os.path.join(HERE, "..", "..")
sys.path.insert(0, os.path.join(HERE, "..", "reference"))
sys.dont_write_bytecode = True
import boards
import document01
from document01 import CONTROL, INPUT, OPEN_DRAIN, THREE_STATE, TWO_STATE

NONE = document01.NONE
MARKS = ("pass", "fail", "unsure, not seen", "unsure, read twice")
KINDS = ("internal", "input", "control", "three-state output", "two-state output", "open-drain output")


class Names:
    def __init__(self, nets=None, cells=None):
        self.nets, self.cells = nets or {}, cells or {}

    def net(self, number):
        return "net %d%s" % (number, " " + self.nets[number] if number in self.nets else "")

    def cell(self, number):
        return "position %d%s" % (number, " " + self.cells[number] if number in self.cells else "")


NO_NAMES = Names()


def printed(lines):
    return "".join(line + "\n" for line in lines).encode("utf-8", "surrogateescape")


def is_accepted(file):
    return document01.verdict(file)[0] == 0


# --------------------------------------------------------------------------
# Answers about an accepted board
# --------------------------------------------------------------------------

def ones(row):
    """The positions at which a row is 1, each behind a space."""
    return "".join(" %d" % c for c in range(8 * len(row)) if row[c // 8] >> c % 8 & 1)


def hexed(row):
    return row.hex().upper()


def groups(file):
    bits, rows = document01.groups(file, bytes(2048))
    number, size = document01.unpacked("groups", bits)["G"], document01.kept(file).size
    yield "groups %d" % number
    for g in range(number):
        row = rows[g * size:(g + 1) * size]
        yield "%d %s%s" % (g + 1, hexed(row), ones(row))


def vector(file, number):
    bits, row = document01.vector(file, number, bytes(document01.kept(file).size))
    yield "vector %d" % number
    yield "group %d" % document01.unpacked("vector", bits)["group"]
    yield "row " + hexed(row)
    yield "ones" + ones(row)


def marks_of(file, capture):
    """The three numbers and the marks of a capture that is accepted."""
    bits, marks = document01.marks(file, capture, bytes(document01.read(file).nets))
    return document01.unpacked("marks", bits), marks


def marks(file, capture, every=False, names=NO_NAMES):
    numbers, found = marks_of(file, capture)
    for net, mark in enumerate(found):
        if every or mark != 0:
            yield "%s %s" % (names.net(net), MARKS[mark])
    yield "pass %(pass)d fail %(fail)d unsure %(unsure)d" % numbers
    yield "HOLD" if any(found) else "RELEASE"


def unseen(board):
    seen = {cell.net for cell in board.cells if cell.kind == INPUT}
    return [net for net in range(board.nets) if net not in seen]


def open_drain(board):
    lines = {cell.net for cell in board.cells if cell.kind == OPEN_DRAIN}
    return [net for net in range(board.nets) if net in lines]


def idle(board):
    return [c for c, nets in sorted(document01.net_sets(board).items()) if not nets]


def told(what, which):
    """How many, and which."""
    return "%s %d%s" % (what, len(which), ": " + ", ".join(which) if which else "")


def time_of(scans, cells, rate):
    clocks = scans * (cells + 5)
    seconds = clocks / rate
    unit, times = ("microseconds", 1e6) if seconds < 1e-3 else ("milliseconds", 1e3) if seconds < 1 else ("seconds", 1)
    return "time of all scans %.1f %s (%d scans, %d clocks at %g MHz)" % (seconds * times, unit, scans, clocks, rate / 1e6)


def accepted(file, rate=1e7, names=NO_NAMES):
    board, kept = document01.read(file), document01.kept(file)
    yield "accepted"
    yield "cells %d" % len(board.cells)
    yield "nets %d" % board.nets
    yield "limit %d" % board.limit
    yield "groups %d" % len(kept.groups)
    yield "patterns %d" % kept.patterns
    yield "vectors %d" % kept.total
    yield told("nets without an input cell", [names.net(net) for net in unseen(board)])
    if unseen(board):
        yield "no capture of this board is a RELEASE: a net that no input cell reads is unsure"
    if open_drain(board):
        yield told("nets with an open-drain output", [names.net(net) for net in open_drain(board)])
        yield "each of these needs a resistor that holds it at 1; a pass does not show that it is there"
    yield told("control cells that switch nothing", [names.cell(c) for c in idle(board)])
    yield time_of(kept.total + 1, len(board.cells), rate)


# --------------------------------------------------------------------------
# A refusal: number, place, when it is given, what it is about, what to do
# --------------------------------------------------------------------------

def refusals_of_page():
    """Number -> when it is given, from docs/INTERFACE.md."""
    with open(os.path.join(ROOT, "docs", "INTERFACE.md"), encoding="utf-8") as page:
        rows = re.findall(r"^\| (\d+) \| `RIGCANDLE_\w+` \| ([^|]*) \|", page.read(), re.M)
    return {int(number): when.replace("×", "x") for number, when in rows}


def wrong_bytes(block, wanted, free):
    """Lines about the bytes of a block that differ from its layout; those in `free` may be anything."""
    wrong = [i for i in range(508) if i not in free and block[i] != wanted[i]]
    yield from ("  byte %d is %d and should be %d" % (i, block[i], wanted[i]) for i in wrong[:4])
    if len(wrong) > 4:
        yield "  and %d more bytes that should be others" % (len(wrong) - 4)


def padded(*begin):
    return bytes(begin) + bytes(508 - len(begin))


def about_length(file, place, names):
    yield "  the file has %s%d bytes" % ("at least " if len(file) > 7168 else "", min(len(file), 7169))


def about_sums(file, place, names):
    block = document01.blocks(file)[place]
    said = document01.u16(block, 508), document01.u16(block, 510)
    yield ("  block %d, bytes %d to %d: a and b are %d and %d, and its bytes add up to %d and %d"
           % (place, 512 * place, 512 * place + 511, *said, *document01.sums(block[:508])))


def about_header(file, place, names):
    yield from wrong_bytes(file[:512], padded(0, 0, 1, 0, *b"BSIN", 1, 0), range(10, 16))


def about_limits(file, place, names):
    for what, number, most in zip(("C, the number of cells,", "N, the number of nets,", "SSOL"), document01.header(file), (1024, 256, 1024)):
        yield "  %s is %d; 1 to %d is allowed" % (what, number, most)


def about_block(file, place, names):
    cells = document01.header(file)[0]
    if place == 0:
        yield "  the file has %d blocks, and %d cells need %d" % (len(file) // 512, cells, document01.blocks_for(cells))
        return
    records = document01.records_in(cells, place)
    yield "  block %d:" % place
    yield from wrong_bytes(document01.blocks(file)[place], padded(place, 0, 2, records), range(4, 4 + 6 * records))


def kind_word(kind):
    return "kind %d (%s)" % (kind, KINDS[kind] if kind < len(KINDS) else "no kind")


def about_record(file, place, names):
    board = document01.read(file)
    cell = board.cells[place]
    number = lambda n: "none" if n == NONE else str(n)
    yield ("  %s: %s, on value %d, control %s, net %s"
           % (names.cell(place), kind_word(cell.kind), cell.on, number(cell.control), number(cell.net)))
    if cell.kind > 5:
        yield "  kinds are 0 to 5"
        return
    on = "0 or 1" if cell.kind == CONTROL else "0"
    control = "the position of a kind 2 cell as control" if cell.kind == THREE_STATE else "control none"
    net = "net below N" if cell.kind in (INPUT, THREE_STATE, TWO_STATE, OPEN_DRAIN) else "net none"
    yield "  a cell of this kind has on value %s, %s, %s; N is %d" % (on, control, net, board.nets)
    if cell.kind == THREE_STATE and cell.control < len(board.cells) and board.cells[cell.control].kind != CONTROL:
        yield "  %s: %s" % (names.cell(cell.control), kind_word(board.cells[cell.control].kind))


def about_net(file, place, names):
    yield "  %s:" % names.net(place)
    pins = (INPUT, THREE_STATE, TWO_STATE, OPEN_DRAIN)
    on_net = [(q, cell) for q, cell in enumerate(document01.read(file).cells) if cell.kind in pins and cell.net == place]
    for q, cell in on_net:
        switched = ", switched by " + names.cell(cell.control) if cell.kind == THREE_STATE else ""
        yield "  %s: %s%s" % (names.cell(q), KINDS[cell.kind], switched)
    if not on_net:
        yield "  no cell has this net"


def about_crossing(file, place, names):
    board, other = document01.read(file), document01.verdict(file)[2]
    sets = document01.net_sets(board)
    outputs = {(cell.control, cell.net): q for q, cell in enumerate(board.cells) if cell.kind == THREE_STATE}

    def nets(these):
        for net in sorted(these):
            on_it = [outputs[c, net] for c in (place, other) if (c, net) in outputs]
            yield "    %s: %s" % (names.net(net), ", ".join(map(names.cell, on_it)))

    yield "  %s and %s both switch" % (names.cell(place), names.cell(other))
    yield from nets(sets[place] & sets[other])
    for c, d in ((place, other), (other, place)):
        yield "  of the two only %s switches" % names.cell(c)
        yield from nets(sets[c] - sets[d])


def drivers_told(board, net):
    """How many controlled drivers, and how many of these no control cell of another position switches."""
    kinds = [cell.kind for cell in board.cells if cell.kind in (THREE_STATE, OPEN_DRAIN) and cell.net == net]
    open_ones = kinds.count(OPEN_DRAIN)
    return "(%d controlled driver%s%s)" % (len(kinds), "s" if len(kinds) != 1 else "", ", %d of them open-drain" % open_ones if open_ones else "")


def about_uneven(file, place, names):
    board = document01.read(file)
    nets = sorted(document01.net_sets(board)[place])
    yield "  %s switches %s" % (names.cell(place), ", ".join("%s %s" % (names.net(net), drivers_told(board, net)) for net in nets))


def about_vectors(file, place, names):
    _, nets, limit = document01.header(file)
    yield "  %d nets, SSOL %d" % (nets, limit)


ABOUT = {1: about_length, 2: about_sums, 3: about_header, 4: about_limits, 5: about_block, 6: about_record, 7: about_net, 8: about_net,
         9: about_net, 10: about_crossing, 11: about_uneven, 12: about_vectors}


def refusal(file, names=NO_NAMES):
    """The lines that check prints of a refused board, but its second and its last: when it is given and what to do."""
    number, place, _ = document01.verdict(file)
    return ["refused %d %d" % (number, place), *ABOUT[number](file, place, names)]
