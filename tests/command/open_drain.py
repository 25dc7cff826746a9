"""Open-drain outputs, cell kind 5, as people meet them: what is written here by hand, and not taken from tests/reference or from a model,
is what the command should print and write.

Words of a text and bytes of a record; refusals 6 to 9 and 11 with open-drain cells in them; the level of a line, vector by vector, healthy and
with each fault; the files of examples/board-i2c; and what docs/OPERATING.md and docs/FILE.md show.
"""

import os
import re

import shown
from answers import EXAMPLES
from cases import C, D, I, T, W
from expected import NONE, boards
from statuses import read, write

# --------------------------------------------------------------------------
# Text and file
# --------------------------------------------------------------------------

LINE = b"limit 1\nnet LINE\nA: open-drain net LINE\nB: open-drain net 0\n   input net LINE\n"
RECORDS = bytes.fromhex("0500ffff0000 0500ffff0000 0100ffff0000")
SHOWN = b"""\
# 3 cells; behind each its position
limit 1
nets 1

open-drain net 0                     # 0
open-drain net 0                     # 1
input net 0                          # 2
"""


def check_text(program):
    """The word gives kind 5, and kind 5 the word; a record of the four numbers, as one could write it before, is the same cell."""
    file = program.expect(0, "make", "-", "-", given=LINE).out
    program.check(("make",), file[516:534] == RECORDS and not any(file[534:1020]), "the records are %s" % file[516:540].hex())
    as_record = LINE.replace(b"B: open-drain net 0", b"B: record kind 5 on 0 control none net 0")
    program.expect(0, "make", "-", "-", given=as_record, out=file)
    program.expect(0, "show", "-", given=file, out=SHOWN)
    named = LINE.replace(b"A:", b"open-drain:") + b"open-drain net LINE\n"  # the word is free as a name
    program.check(("make",), program.expect(0, "make", "-", "-", given=named).out[516:528] == RECORDS[:12], "a cell of the name open-drain")


# --------------------------------------------------------------------------
# Refusals
# --------------------------------------------------------------------------

BROKEN = "a record breaks the table of cell kinds"
FITS = "  a cell of this kind has on value 0, control none, net below N; N is 1"
SEVENTEEN = [D(0)] * 9 + [cell for k in range(8) for cell in (C(), T(9 + 2 * k, 0))]

# (cells, nets, what check prints of them before it says what to do)
REFUSED = (
    ([D(0), T(0, 0)], 1,
     ["refused 6 1", BROKEN, "  position 1: kind 3 (three-state output), on value 0, control 0, net 0",
      "  a cell of this kind has on value 0, the position of a kind 2 cell as control, net below N; N is 1", "  position 0: kind 5 (open-drain output)"]),
    ([W(0), (5, 1, NONE, 0)], 1, ["refused 6 1", BROKEN, "  position 1: kind 5 (open-drain output), on value 1, control none, net 0", FITS]),
    ([C(), (5, 0, 0, 0)], 1, ["refused 6 1", BROKEN, "  position 1: kind 5 (open-drain output), on value 0, control 0, net 0", FITS]),
    ([D(0), D(1)], 1, ["refused 6 1", BROKEN, "  position 1: kind 5 (open-drain output), on value 0, control none, net 1", FITS]),
    ([D(0), (5, 0, NONE, NONE)], 1, ["refused 6 1", BROKEN, "  position 1: kind 5 (open-drain output), on value 0, control none, net none", FITS]),
    ([D(0), (6, 0, NONE, 0)], 1,
     ["refused 6 1", BROKEN, "  position 1: kind 6 (no kind), on value 0, control none, net 0", "  kinds are 0 to 5"]),
    ([D(0), I(0), I(1)], 2, ["refused 7 1", "a net has no kind 3, 4 or 5 output", "  net 1:", "  position 2: input"]),
    ([D(0), I(0), W(0)], 1,
     ["refused 8 0", "a net has a kind 4 output and another output, or two outputs of one control cell", "  net 0:", "  position 0: open-drain output",
      "  position 1: input", "  position 2: two-state output"]),
    (SEVENTEEN, 1,
     ["refused 9 0", "a net has over 16 controlled drivers", "  net 0:", *("  position %d: open-drain output" % q for q in range(9)),
      *("  position %d: three-state output, switched by position %d" % (10 + 2 * k, 9 + 2 * k) for k in range(8))]),
    # the control cell at 1 is named for the open-drain outputs on one of its nets
    ([D(0), C(), T(1, 0), T(1, 1), D(0)], 2,
     ["refused 11 1", "a control cell's nets differ in number of controlled drivers",
      "  position 1 switches net 0 (3 controlled drivers, 2 of them open-drain), net 1 (1 controlled driver)"]),
    ([D(1), C(), T(1, 0), T(1, 1), C(), T(4, 0), D(0)], 2,
     ["refused 11 1", "a control cell's nets differ in number of controlled drivers",
      "  position 1 switches net 0 (3 controlled drivers, 1 of them open-drain), net 1 (2 controlled drivers, 1 of them open-drain)"]))

# Boards that no refusal names: both kinds on a net, 16 drivers, equally many on both nets of a control cell.
ACCEPTED = (([C(), T(0, 0), D(0)], 1), (SEVENTEEN[1:9] + [cell for k in range(8) for cell in (C(), T(8 + 2 * k, 0))], 1),
            ([D(0), C(), T(1, 0), T(1, 1), D(1)], 2), ([D(0)] * 16, 1))


def check_refusals(program):
    for cells, nets, wanted in REFUSED:
        told = program.expect(2, "check", "-", given=boards.encode(cells, nets, 1)).out.decode().splitlines()
        program.check(("check", wanted[0]), told[:len(wanted)] == wanted, "told %s\n  expected %s" % (told, wanted))
        program.check(("check", wanted[0]), len(told) > len(wanted) and not told[len(wanted)].startswith(" "), "told more: %s" % told)
    for cells, nets in ACCEPTED:
        program.expect(0, "check", "-", given=boards.encode(cells, nets, 1))


# --------------------------------------------------------------------------
# Levels
# --------------------------------------------------------------------------

def lines_board():
    """Open-drain outputs 0 and 1 on net 0 and 2 on net 1, an input of each; output 1 has the turn in vectors 0 to 3, 0 in the others."""
    return boards.encode([D(0), D(0), D(1), I(0), I(1)], 2, 1)


def mixed_board():
    """Open-drain 0 and 3 and a three-state output of control cell 1 on one net, with an input; 3 has the turn first, then 1, then 0."""
    return boards.encode([D(0), C(), T(1, 0), D(0), I(0)], 1, 1)


def driven_board():
    """An open-drain line and a net that is always driven, with an input each."""
    return boards.encode([D(0), W(1), I(0), I(1)], 2, 2)


# Board, position of each net's input cell, and faults with the level of each net in each vector.
LEVELS = (
    (lines_board(), (3, 4), (
        ("", "0110011", "1100110"),
        ("--float 0", "0110011", "1100110"),                               # the resistors hold
        ("--float keep --fight high", "0110011", "1100110"),
        ("--stuck 0=0", "0000000", "1100110"),                             # pulls for ever
        ("--stuck 1=0", "0000000", "1100110"),
        ("--stuck 0=1", "0110111", "1100110"),                             # never pulls: wrong in its turn alone
        ("--stuck 1=1", "1111011", "1100110"),
        ("--open 0=0", "0110111", "1100110"),                              # the line is held all the same
        ("--open 0=1", "0110111", "1100110"),
        ("--open 0=0 --open 1=0", "1111111", "1100110"),
        ("--stuck 2=0 --stuck 0=1", "0110111", "0000000"),
        ("--and 0,1", "0100010", "0100010"),                               # who pulls one pulls both
        ("--or 0,1", "0100010", "0100010"),
        ("--wins 0:1", "0100010", "0100010"),
        ("--wins 1:0", "0100010", "0100010"),
        ("--no-resistor 0", "0110011", "1100110"),                         # floats to 1
        ("--no-resistor 0 --float 0", "0000000", "1100110"),
        ("--no-resistor 0 --float keep", "0000000", "1100110"),
        ("--no-resistor 1 --float keep", "0110011", "1100000"),
        ("--no-resistor 1 --no-resistor 0 --float 0", "0000000", "0000000"),
        ("--no-resistor 0 --float 0 --and 0,1", "0100010", "0100010"),     # the other's resistor holds both
        ("--no-resistor 0 --open 0=0 --open 1=0", "0000000", "1100110"),   # without its resistor it floats as the open pin says
        ("--stuck 0=0 --during 1-2", "0000011", "1100110"))),
    (mixed_board(), (4,), (
        ("", "010101"),
        ("--float 0", "010101"),
        ("--stuck 0=0", "000000"),
        ("--stuck 0=0 --fight high", "000100"),                            # the three-state output wins in its turn, no resistor ever
        ("--stuck 3=1", "110101"),
        ("--off 1", "011101"),                                             # nobody drives in its turn: the resistor holds
        ("--off 1 --float 0", "011101"),
        ("--open 2=0", "011101"),
        ("--on 1", "010101"),
        ("--on 1 --stuck 0=1 --stuck 3=1", "010101"),                      # a driver that is stuck on hides outputs that never pull
        ("--on 1 --stuck 0=0", "000000"),
        ("--stuck 2=0", "010001"),
        ("--no-resistor 0 --float 0", "000100"),
        ("--no-resistor 0 --off 1 --float 0", "000000"))),
    (driven_board(), (2, 3), (
        ("", "01", "10"),
        ("--and 0,1", "00", "00"),
        ("--or 0,1", "10", "10"),                                          # a driver's 1 wins over the pull, its 0 over the resistor
        ("--wins 1:0", "10", "10"),
        ("--wins 0:1", "00", "00"),
        ("--stuck 0=0 --and 0,1", "00", "00"),
        ("--open 1=0", "01", "00"))))


def check_levels(program):
    for file, inputs, faults in LEVELS:
        write(program.folder, "line.bsin", file)
        for words, *levels in faults:
            wanted = boards.packed(file, {q: [int(bit) for bit in word] for q, word in zip(inputs, levels)})
            program.expect(0, "simulate", "line.bsin", "-", *words.split(), out=wanted)


def check_verdicts(program):
    """Healthy the lines pass; with an output that pulls for ever, or never, its net fails and no other."""
    write(program.folder, "line.bsin", lines_board())
    for words, status, marks in (("", 0, b"pass 2 fail 0 unsure 0\nRELEASE\n"), ("--stuck 1=0", 1, b"net 0 fail\npass 1 fail 1 unsure 0\nHOLD\n"),
                                 ("--stuck 2=1", 1, b"net 1 fail\npass 1 fail 1 unsure 0\nHOLD\n"), ("--no-resistor 0", 0, b"pass 2 fail 0 unsure 0\nRELEASE\n")):
        capture = program.expect(0, "simulate", "line.bsin", "-", *words.split()).out
        program.expect(status, "marks", "line.bsin", "-", given=capture, out=marks)


def check_switched(program):
    """An open-drain output is no control cell that could be stuck: who asks for that is told what to ask for."""
    write(program.folder, "line.bsin", lines_board())
    for option in ("--on", "--off"):
        program.expect(3, "simulate", "line.bsin", "-", option, "1", err=b"found 1, an open-drain output: --stuck P=0 has it pull for ever, --stuck P=1 never")
        ran = program.expect(3, "simulate", "line.bsin", "-", option, "3", err=b"found 3, an input")
        program.check(ran.words, b"--stuck" not in ran.err, "told %r of an input" % ran.err)


# --------------------------------------------------------------------------
# examples/board-i2c and docs/OPERATING.md
# --------------------------------------------------------------------------

# Position of each cell that has the turn, group by group, by its name.
TURNS = ("PMU.READY PHY.SCL PHY.SDA PHY.ALERT#", "FPGA.READY.OE PMU.SCL PMU.SDA PMU.ALERT#", "FPGA.SCL FPGA.SDA FPGA.ALERT# PMU.READY",
         "CPU.SCL CPU.SDA PMU.READY PHY.ALERT#")
FAULTS = {"healthy": "", "bridged": "--and SCL,SDA", "held": "--stuck PMU.SDA=0"}


def example(name):
    return os.path.join(EXAMPLES, "board-i2c" + name)


def check_example(program):
    """Its files are what the command makes of its text: board, listing, captures and marks."""
    names = ["--names", example(".txt")]
    program.expect(0, "make", example(".txt"), "-", out=read("", example(".bsin")))
    program.expect(0, "list", example(".bsin"), out=read("", example(".listing")))
    for name, words in FAULTS.items():
        program.expect(0, "simulate", example(".bsin"), "-", *names, *words.split(), out=read("", example("-%s.capture" % name)))
        ran = program.run("marks", "--all", example(".bsin"), example("-%s.capture" % name))
        told = ran.out.splitlines(True)
        wanted = read("", example("-%s.marks" % name))
        program.check(ran.words, told[-2] + b"".join(told[:-2]) == wanted, "printed %r, expected %r" % (ran.out, wanted))
        program.check(ran.words, (ran.status, told[-1]) == ((0, b"RELEASE\n") if name == "healthy" else (1, b"HOLD\n")), "status %s" % ran.status)


def check_turns(program):
    """groups gives the positions of those that have the turn; in every vector each net has one, and the other open-drain cells are 1."""
    text = read("", example(".txt")).decode()
    cells = [line.split() for line in text.splitlines() if re.match(r"\s*(\S+:)?\s*(internal|input|control|three-state|two-state|open-drain)\b", line)]
    place = {words[0][:-1]: q for q, words in enumerate(cells) if words[0].endswith(":")}
    told = program.expect(0, "groups", example(".bsin")).out.decode().splitlines()
    program.check(("groups",), [line.split()[2:] for line in told[1:]] == [[str(place[name]) for name in turn.split()] for turn in TURNS], "told %s" % told)
    pulling = {name: q for name, q in place.items() if cells[q][1] == "open-drain"}
    for number in range(12):
        told = program.expect(0, "vector", example(".bsin"), str(number)).out.decode().split()
        group, ones = int(told[told.index("group") + 1]), set(map(int, told[told.index("ones") + 1:]))
        idle = {q for name, q in pulling.items() if name not in TURNS[group - 1].split()}
        program.check(("vector",), idle <= ones and len(pulling) == 12, "vector %d pulls out of turn: %s" % (number, sorted(idle - ones)))


def check_operating(program):
    """What docs/OPERATING.md shows is what the command prints; and what it says of the report."""
    shown.check(program, "docs/OPERATING.md", 5)
    for capture, says in ((example("-held.capture"), b"read <strong>always 0</strong>; wrong in 8 of 12 vectors"),
                          ("never.capture", b"wrong in 1 of 12 vectors, first in vector 3<")):
        ran = program.expect(1, "report", example(".bsin"), capture, "-o", "-")
        program.check(ran.words, ran.out.count(says) == 4, "%r of %d input cells" % (says, ran.out.count(says)))


def check_uneven(program):
    """The text of docs/FILE.md that refusal 11 names a control cell of, and what the page says that check prints of it."""
    text, printed = re.search(r"^```text\n(limit 1\n.*?)^```\n\n```text\n(refused 11 .*?)^```$", shown.page("docs/FILE.md"), re.S | re.M).groups()
    write(program.folder, "uneven.txt", text.encode())
    write(program.folder, "uneven.bsin", program.expect(2, "make", "uneven.txt", "-", refusal=(11, 0)).out)
    program.expect(2, "check", "uneven.bsin", "--names", "uneven.txt", out=printed.encode())


def run(program):
    check_text(program)
    check_refusals(program)
    check_levels(program)
    check_verdicts(program)
    check_switched(program)
    check_example(program)
    check_turns(program)
    check_operating(program)
    check_uneven(program)
