"""What a pass does not cover: the table of docs/OPERATING.md, made by the command itself.

    python3 coverage.py PROGRAM         prints the table
    python3 coverage.py PROGRAM PAGE    compares it with the lines between <!-- coverage --> and
                                        <!-- /coverage --> of PAGE; status 1 where they differ

Every fault of a class is simulated on its own (`rigcandle simulate`), and its
capture judged (`rigcandle marks`).  A fault after which each net has the mark
that it has on the healthy board is one that the marks do not exclude.  Each
capture is also held against a model of simulate in Python, written from its
description (cli/faults.h) and over document01's rows.
"""

import difflib
import itertools
import os
import subprocess
import sys
import tempfile
from concurrent.futures import ThreadPoolExecutor

HERE = os.path.dirname(os.path.abspath(__file__))
EXAMPLES = os.path.join(HERE, "..", "..", "examples")
sys.path.insert(0, os.path.join(HERE, "..", "reference"))
sys.dont_write_bytecode = True
import boards
import document01

INTERNAL, INPUT, CONTROL, THREE_STATE, TWO_STATE, OPEN_DRAIN = range(6)
BEGIN, END = "<!-- coverage -->", "<!-- /coverage -->"


class Board:
    def __init__(self, path):
        self.path = path
        with open(path, "rb") as file:
            content = file.read()
        read, kept = document01.read(content), document01.kept(content)
        self.cells, self.nets, self.total = read.cells, read.nets, kept.total
        self.rows = [kept.row(at) for at in range(self.total)]
        self.seen = {cell.net for cell in self.cells if cell.kind == INPUT}
        self.open_drain = sorted({cell.net for cell in self.cells if cell.kind == OPEN_DRAIN})  # each has a resistor

    def positions(self, *kinds):
        return [q for q, cell in enumerate(self.cells) if cell.kind in kinds]

    def net(self, q):
        return self.cells[q].net

    def switched(self, control):
        """The outputs of a control cell."""
        return [q for q in self.positions(THREE_STATE) if self.cells[q].control == control]


# --------------------------------------------------------------------------
# Faults.  One fault is a list of simulate's options; a class, a function from
# a board to its faults
# --------------------------------------------------------------------------

def bridges(board, seen, *hows):
    """Pairs of nets of which so many have an input cell; where one has, it is the first of its pair."""
    for pair in itertools.combinations(range(board.nets), 2):
        if len(board.seen.intersection(pair)) == seen:
            a, b = sorted(pair, key=lambda net: net not in board.seen)
            ways = {"and": ["--and", "%d,%d" % (a, b)], "or": ["--or", "%d,%d" % (a, b)],
                    "first": ["--wins", "%d:%d" % (a, b)], "second": ["--wins", "%d:%d" % (b, a)]}
            yield from (ways[how] for how in hows)


ALL_WAYS = ("and", "or", "first", "second")


def all_bridges(board):
    return [fault for seen in (2, 1, 0) for fault in bridges(board, seen, *ALL_WAYS)]


def inputs_open(board):
    return [["--open", "%d=%d" % (q, v)] for q in board.positions(INPUT) for v in (0, 1)]


def outputs(board, option, seen):
    """Outputs open or stuck, of nets with an input cell or without."""
    return [[option, "%d=%d" % (q, v)] for q in board.positions(THREE_STATE, TWO_STATE, OPEN_DRAIN)
            if (board.net(q) in board.seen) == seen for v in (0, 1)]


def open_drain_outputs(board, value):
    """Open-drain outputs of nets with an input cell, stuck: at 0 they pull for ever, at 1 never."""
    return [["--stuck", "%d=%d" % (q, value)] for q in board.positions(OPEN_DRAIN) if board.net(q) in board.seen]


def no_resistor(board, *floats):
    return [["--no-resistor", str(net), "--float", level] for net in board.open_drain if net in board.seen for level in floats]


def controls(board, seen):
    """Control cells that switch nets of which some, or none, have an input cell."""
    return [c for c in board.positions(CONTROL)
            if board.switched(c) and any(board.net(q) in board.seen for q in board.switched(c)) == seen]


def stuck_off(board, seen):
    return [["--off", str(c), "--float", level] for c in controls(board, seen) for level in ("0", "1", "keep")]


def stuck_on(board):
    return [["--on", str(c), "--fight", wins] for c in controls(board, True) + controls(board, False) for wins in ("low", "high")]


def switch_nothing(board):
    return [[option, str(c)] for c in board.positions(CONTROL) if not board.switched(c) for option in ("--on", "--off")]


def on_and_own(board):
    """A control cell stuck on, and an output of its own stuck; of nets with an input cell."""
    return [["--on", str(c), "--stuck", "%d=%d" % (q, v), "--fight", wins] for c in controls(board, True)
            for q in board.switched(c) if board.net(q) in board.seen for v in (0, 1) for wins in ("low", "high")]


def on_and_other(board, *options, kinds=(THREE_STATE, OPEN_DRAIN)):
    """A control cell stuck on, and something about another output of one of its nets that has an input cell."""
    for c in controls(board, True):
        nets = {board.net(q) for q in board.switched(c)} & board.seen
        for q in board.positions(*kinds):
            if board.net(q) in nets and board.cells[q].control != c:
                yield ["--on", str(c)] + [option.replace("P", str(q)) for option in options]


def in_one_vector(board, faults):
    return [fault + ["--during", "%d-%d" % (t, t)] for fault in faults for t in range(board.total)]


def lost_fights(board):
    return [*on_and_other(board, "--stuck", "P=1", "--fight", "low"), *on_and_other(board, "--stuck", "P=0", "--fight", "high")]


def won_fights(board):
    """An open-drain output that is stuck at 1 never pulls, and so wins nothing."""
    return [*on_and_other(board, "--stuck", "P=0", "--fight", "low"), *on_and_other(board, "--stuck", "P=1", "--fight", "high", kinds=(THREE_STATE,))]


CLASSES = (
    ("two nets tied, both with an input cell (a 0 wins, a 1 wins, either net wins)", lambda b: bridges(b, 2, *ALL_WAYS)),
    ("two nets tied, one without an input cell: a 0 wins", lambda b: bridges(b, 1, "and")),
    ("two nets tied, one without an input cell: a 1 wins", lambda b: bridges(b, 1, "or")),
    ("two nets tied, one without an input cell: that one wins", lambda b: bridges(b, 1, "second")),
    ("two nets tied, one without an input cell: the other one wins", lambda b: bridges(b, 1, "first")),
    ("two nets tied, neither with an input cell (all four ways)", lambda b: bridges(b, 0, *ALL_WAYS)),
    ("any two nets tied: all of the above", all_bridges),
    ("an input pin open (reads 0, reads 1)", inputs_open),
    ("an output stuck (at 0, at 1), its net has an input cell", lambda b: outputs(b, "--stuck", True)),
    ("an output stuck (at 0, at 1), its net has none", lambda b: outputs(b, "--stuck", False)),
    ("an output pin open (its net floats to 0, to 1), its net has an input cell", lambda b: outputs(b, "--open", True)),
    ("an output pin open (its net floats to 0, to 1), its net has none", lambda b: outputs(b, "--open", False)),
    ("a control cell stuck off (nets float to 0, to 1, keep their level), a net of it has an input cell", lambda b: stuck_off(b, True)),
    ("a control cell stuck off (nets float to 0, to 1, keep their level), no net of it has one", lambda b: stuck_off(b, False)),
    ("a control cell stuck on (where drivers fight a 0 wins, a 1 wins)", stuck_on),
    ("a control cell stuck on, and one of its own outputs stuck (at 0, at 1), its net has an input cell", on_and_own),
    ("a control cell stuck on, and another output of one of its nets open", lambda b: on_and_other(b, "--open", "P=0")),
    ("a control cell stuck on, and another output of one of its nets stuck at the value that loses a fight", lost_fights),
    ("a control cell stuck on, and another output of one of its nets stuck at the value that wins a fight", won_fights),
    ("a control cell that switches nothing, stuck (on, off)", switch_nothing),
    ("an open-drain output that pulls for ever, its net has an input cell", lambda b: open_drain_outputs(b, 0)),
    ("an open-drain output that never pulls, its net has an input cell", lambda b: open_drain_outputs(b, 1)),
    ("a control cell stuck on, and an open-drain output of one of its nets that never pulls",
     lambda b: on_and_other(b, "--stuck", "P=1", kinds=(OPEN_DRAIN,))),
    ("the resistor of an open-drain line missing, its net has an input cell and floats to 1", lambda b: no_resistor(b, "1")),
    ("the resistor of an open-drain line missing, its net has an input cell and floats to 0 or keeps its level",
     lambda b: no_resistor(b, "0", "keep")),
    ("in one vector only: any two nets tied (all four ways)", lambda b: in_one_vector(b, all_bridges(b))),
    ("in one vector only: an input pin open (reads 0, reads 1)", lambda b: in_one_vector(b, inputs_open(b))),
    ("in one vector only: an output stuck (at 0, at 1), its net has an input cell",
     lambda b: in_one_vector(b, outputs(b, "--stuck", True))),
)


# --------------------------------------------------------------------------
# The model of simulate
# --------------------------------------------------------------------------

class Faults:
    def __init__(self, words):
        self.stuck, self.open, self.switch, self.tied, self.bare = {}, {}, {}, [], set()
        self.fight, self.afloat, self.during = min, "1", range(1 << 16)
        for option, value in zip(words[::2], words[1::2]):
            numbers = [int(n) for n in value.replace(":", ",").replace("=", ",").replace("-", ",").split(",") if n.isdigit()]
            if option in ("--stuck", "--open"):
                getattr(self, option[2:])[numbers[0]] = numbers[1]
            elif option in ("--on", "--off"):
                self.switch[numbers[0]] = option == "--on"
            elif option in ("--and", "--or", "--wins"):
                self.tied.append((option, numbers))
            elif option == "--no-resistor":
                self.bare.add(numbers[0])
            elif option == "--fight":
                self.fight = {"low": min, "high": max}[value]
            elif option == "--float":
                self.afloat = value
            elif option == "--during":
                self.during = range(numbers[0], numbers[1] + 1)


NO_FAULTS = Faults([])


def drives(board, row, faults, q):
    """Whether the output at q drives its net: an open-drain output where it pulls."""
    bit = lambda c: row[c // 8] >> c % 8 & 1
    kind, control = board.cells[q].kind, board.cells[q].control
    if q in faults.open:
        return False
    if kind == THREE_STATE:
        return faults.switch.get(control, bit(control) == board.cells[control].on)
    return kind == TWO_STATE or faults.stuck.get(q, bit(q)) == 0


def held(board, faults):
    """Net -> 1, for the nets that their own resistor, or that of a net tied to them, holds where nothing drives them."""
    own = set(board.open_drain) - faults.bare
    tied = {net for _, nets in faults.tied if own.intersection(nets) for net in nets}
    return {net: 1 for net in own | tied}


def driven(board, row, faults):
    """Net -> the value that its outputs give it, for the nets that have one."""
    given = {}
    for q in board.positions(THREE_STATE, TWO_STATE, OPEN_DRAIN):
        if drives(board, row, faults, q):
            given.setdefault(board.net(q), []).append(faults.stuck.get(q, row[q // 8] >> q % 8 & 1))
    own = {net: faults.fight(values) for net, values in given.items()}
    level = dict(own)
    for option, nets in faults.tied:
        values = [own[net] for net in nets if net in own]
        if option == "--wins" and nets[0] in own:
            values = [own[nets[0]]]
        level.update({net: (max if option == "--or" else min)(values) for net in nets if values})
    return level


def model(board, words):
    given, capture, level = Faults(words), b"", {net: 1 for net in range(board.nets)}
    for at, row in enumerate(board.rows):
        faults = given if at in given.during else NO_FAULTS
        floats = {net: old if faults.afloat == "keep" else int(faults.afloat) for net, old in level.items()}
        floats.update({board.net(q): v for q, v in faults.open.items() if board.cells[q].kind != INPUT})
        level = {**floats, **held(board, faults), **driven(board, row, faults)}
        ones = sum(1 << q for q in board.positions(INPUT) if faults.open.get(q, level[board.net(q)]))
        capture += ones.to_bytes(len(row), "little")
    return capture


# --------------------------------------------------------------------------
# The table
# --------------------------------------------------------------------------

class Command:
    """The program, and the marks of the captures that it has judged."""

    def __init__(self, program):
        self.program = program
        self.judged = {}

    def run(self, words, statuses, given=b""):
        done = subprocess.run([self.program] + words, input=given, capture_output=True)
        if done.returncode not in statuses or done.stderr:
            raise SystemExit("rigcandle %s: status %d\n%s" % (" ".join(words), done.returncode, done.stderr.decode()))
        return done

    def simulate(self, board, fault):
        return self.run(["simulate", board.path, "-"] + fault, (0,)).stdout

    def marks(self, board, capture):
        """The lines that marks prints; the last agrees with the status, and 0 is RELEASE."""
        key = board.path, capture
        if key not in self.judged:
            done = self.run(["marks", "--all", board.path, "-"], (0, 1), capture)
            lines = done.stdout.decode().splitlines()
            assert lines[-1] == ("HOLD" if done.returncode else "RELEASE"), lines
            self.judged[key] = lines
        return self.judged[key]


def modelled(board, words, lasting):
    """The model's capture.  In one vector only, these faults leave nothing behind: the healthy capture but for that vector's row."""
    if words[-2:-1] != ["--during"]:
        return model(board, words)
    key, row = tuple(words[:-2]), len(board.rows[0])
    if key not in lasting:
        lasting[key] = model(board, words[:-2])
    at = int(words[-1].split("-")[0]) * row
    return lasting[()][:at] + lasting[key][at:at + row] + lasting[()][at + row:]


def missed(command, board, faults):
    """How many of these faults change no mark of the healthy board."""
    healthy = command.marks(board, command.simulate(board, []))
    lasting = {(): model(board, [])}

    def unchanged(fault):
        capture = command.simulate(board, fault)
        if capture != modelled(board, fault, lasting):
            raise SystemExit("simulate %s %s: not what the model says" % (board.path, " ".join(fault)))
        return command.marks(board, capture) == healthy

    with ThreadPoolExecutor(os.cpu_count()) as pool:
        return sum(pool.map(unchanged, faults))


def number(command, board, faults):
    return "%s of %s" % (format(missed(command, board, faults), ","), format(len(faults), ",")) if faults else "-"


def e_unseen(path):
    """Board E without the input cells of nets 0 and 1."""
    cells = boards.cells_e()
    cells[8] = cells[9] = (INTERNAL, 0, boards.NONE, boards.NONE)
    with open(path, "wb") as out:
        out.write(boards.encode(cells, 3, 2))
    return path


def table(command, folder):
    """The table's lines; "3 of 12" are three faults of twelve that change no mark."""
    judged = [Board(path) for path in (os.path.join(EXAMPLES, "board-e.bsin"), e_unseen(os.path.join(folder, "board-e-unseen.bsin")),
                                       os.path.join(EXAMPLES, "board-bus.bsin"), os.path.join(EXAMPLES, "board-i2c.bsin"))]
    yield "| fault | board E | E without the inputs at 8 and 9 | bus board | I2C board |"
    yield "|---|---|---|---|---|"
    for words, faults in CLASSES:
        yield "| %s | %s |" % (words, " | ".join(number(command, board, list(faults(board))) for board in judged))


def on_page(page):
    with open(page) as text:
        lines = text.read().splitlines()
    if lines.count(BEGIN) != 1 or lines.count(END) != 1:
        raise SystemExit("%s: expected one line %s and one line %s" % (page, BEGIN, END))
    return [line for line in lines[lines.index(BEGIN) + 1:lines.index(END)] if line]


def main(program, page=None):
    there = on_page(page) if page is not None else None
    if not os.access(program, os.X_OK):
        raise SystemExit("%s: no program" % program)
    with tempfile.TemporaryDirectory() as folder:
        made = list(table(Command(os.path.abspath(program)), folder))
    if there is None:
        print("\n".join(made))
        return 0
    differences = list(difflib.unified_diff(there, made, page, "what the command gives", lineterm=""))
    print("\n".join(differences) if differences else "coverage: %d classes of faults as on %s" % (len(CLASSES), page))
    return 1 if differences else 0


if __name__ == "__main__":
    if len(sys.argv) not in (2, 3):
        raise SystemExit(__doc__)
    sys.exit(main(*sys.argv[1:]))
