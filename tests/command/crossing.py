"""Refusal 10 as the layout engineer meets it: what is written here by hand, and not taken from tests/reference, is which two control cells
are named, the nets that both switch and those that each switches alone.

Boards with and without names; examples/board-crossing and what examples/README.md shows and says of it.
"""

import expected
import shown
from answers import EXAMPLES, check_refused
from cases import C, T
from expected import NO_NAMES, Names, boards, printed
from statuses import read, write

# Net sets of control cells side by side, from position 0 on; the two that are named; the nets of both; those that each has alone.
CROSSINGS = (
    (((0, 1), (1, 2), (0, 3)), (0, 1), (1,), (0,), (2,)),                                       # the first crosses both others
    (((0, 1), (0, 3), (1, 2)), (0, 1), (0,), (1,), (3,)),
    (((0, 1), (1, 2), (2, 3)), (0, 1), (1,), (0,), (2,)),                                       # one after the other
    (((0, 1), (), (1,), (0, 1, 2), (1, 0), (3,), (3, 1), (0, 2)), (0, 6), (1,), (0,), (3,)),    # empty, inside, around, equal, apart: no crossing
    (((1,), (), (0, 1, 2, 3), (1, 2), (3,), (2, 3), (2, 1)), (3, 5), (2,), (1,), (3,)),         # the shared net is switched by a third one, too
    (((7, 6, 4, 2, 0), (5, 6, 1, 4, 3, 2)), (0, 1), (2, 4, 6), (0, 7), (1, 3, 5)),              # several nets of both and of each alone
    (((5, 4, 1, 6), (0, 1, 3, 6, 2)), (0, 1), (1, 6), (4, 5), (0, 2, 3)),                       # the upper one has the lower net
    (((*range(200),), (*range(100, 256),)), (0, 1), (*range(100, 200),), (*range(100),), (*range(200, 256),)),
    (((*range(100, 256),), (*range(200),)), (0, 1), (*range(100, 200),), (*range(200, 256),), (*range(100),)))


def number_of_nets(sets):
    return len({net for nets in sets for net in nets})


def outputs(sets):
    """Behind all control cells, in this order."""
    return [(c, net) for c, nets in enumerate(sets) for net in nets]


def board(sets):
    return boards.encode([C()] * len(sets) + [T(c, net) for c, net in outputs(sets)], number_of_nets(sets), 1)


def names_of(sets):
    cells = ["OE%d" % c for c in range(len(sets))] + ["Y%d.%d" % output for output in outputs(sets)]
    return Names({net: "LINE%d" % net for net in range(number_of_nets(sets))}, dict(enumerate(cells)))


def text(sets):
    """The same board, with these names."""
    yield "limit 1"
    yield from ("net LINE%d" % net for net in range(number_of_nets(sets)))
    yield from ("OE%d: control on 1" % c for c in range(len(sets)))
    yield from ("Y%d.%d: three-state net LINE%d control OE%d" % (c, net, net, c) for c, net in outputs(sets))


def lines(sets, two, both, *alone, names):
    one, other = map(names.cell, two)
    cells = lambda net, of: ", ".join(names.cell(len(sets) + outputs(sets).index((c, net))) for c in of)
    nets = lambda these, *of: ["    %s: %s" % (names.net(net), cells(net, of)) for net in these]
    return ["refused 10 %d" % two[0], "two control cells' net sets meet and neither holds the other",
            "  %s and %s both switch" % (one, other), *nets(both, *two),
            "  of the two only %s switches" % one, *nets(alone[0], two[0]),
            "  of the two only %s switches" % other, *nets(alone[1], two[1])]


def check_crossings(program):
    when = expected.refusals_of_page()
    for sets, *found in CROSSINGS:
        file = board(sets)
        check_refused(program, when, file)
        write(program.folder, "crossing.txt", printed(text(sets)))
        program.expect(2, "make", "crossing.txt", "-", refusal=(10, found[0][0]), out=file)
        for names, more in ((NO_NAMES, []), (names_of(sets), ["--names", "crossing.txt"])):
            told = program.expect(2, "check", "-", *more, given=file).out.decode().splitlines()
            wanted = lines(sets, *found, names=names)
            rest = told[len(wanted):]
            program.check(("check", *more), told[:len(wanted)] == wanted and rest and not rest[0].startswith(" "), "told %s\n  expected %s" % (told, wanted))


def check_mended(program):
    """The example's output on the line that the diagram has: the board is accepted, as its page says."""
    laid_out = read(EXAMPLES, "board-crossing.txt")
    mended = laid_out.replace(b"DATA3 control BUF.OE2#", b"DATA4 control BUF.OE2#")
    program.check(("make",), mended != laid_out, "the mistake of board-crossing.txt is another")
    program.expect(0, "make", "-", "-", given=mended)


def run(program):
    check_crossings(program)
    shown.check(program, "examples/README.md", 1)
    check_mended(program)
