"""make and show: the very file again for every file that refusals 1 to 5 let pass; a text of any style as this file's own writer makes
it; names; and all errors of a wrong text (wrong_texts.py).
"""

import os
import re

import expected
import wrong_texts
from answers import examples
from cases import made as cases_made
from expected import NONE, ROOT, Names, boards, document01, is_accepted, printed
from statuses import expect_nothing, make_files, read, refused_board, taken, write


# --------------------------------------------------------------------------
# Boards: (cells, nets, limit), or files
# --------------------------------------------------------------------------

def noise(rng):
    """Records of any bytes at all, most of them near to what is allowed."""
    count, nets = rng.choice([1, 2, 3, 5, 10, 20, 83, 84, 85, 169]), rng.choice([1, 2, 3, 10, 255, 256])
    some = lambda: rng.randrange(count)
    control = lambda q: rng.choice([NONE, NONE, 65534, q, 0, count - 1, count, count + 1, some(), some(), rng.randrange(65536)])
    net = lambda: rng.choice([NONE, 65534, 0, nets - 1, nets, rng.randrange(nets), rng.randrange(nets), rng.randrange(65536)])
    kind = lambda: rng.choice([0, 1, 2, 2, 2, 3, 3, 3, 4, 5, 5, 6, 255, rng.randrange(256)])
    on = lambda: rng.choice([0, 0, 0, 1, 1, 2, 255, rng.randrange(256)])
    return [(kind(), on(), control(q), net()) for q in range(count)], nets, rng.choice([1, 2, 1024, rng.randint(1, 1024)])


def telling_records():
    """Few cells, each sort of reference to each sort of control cell: whole, broken, itself, beyond; and open-drain records, whole and
    broken."""
    whole, on_2, with_net, with_control = (2, 1, NONE, NONE), (2, 2, NONE, NONE), (2, 0, NONE, 0), (2, 0, 0, NONE)
    for first in (whole, on_2, with_net, with_control, (3, 0, 0, 0), (3, 0, 1, 0), (5, 0, NONE, 0), (255, 0, NONE, NONE), (0, 0, NONE, NONE)):
        for control in (0, 1, 2, 3, 65534, NONE):
            for net in (0, 1, 65534, NONE):
                yield boards.encode([first, (3, 0, control, net), (4, 0, NONE, 0)], 1, 1)
    for on in (0, 1, 255):
        for control in (0, 1, 2, 65534, NONE):
            for net in (0, 1, 65534, NONE):
                yield boards.encode([whole, (5, on, control, net), (1, 0, NONE, 0)], 1, 1)


def layout_right(file):
    return document01.board_verdict(file)[0] not in range(1, 6)


def shown_boards(rng, share):
    """Files that refusals 1 to 5 let pass."""
    yield from examples()
    yield from (file for _, file, _ in cases_made(True) if layout_right(file))
    yield from telling_records()
    yield boards.full(rng)
    for _ in range(int(500 * share)):
        yield boards.accepted(rng, rng.choice([1, 2, 5, 12, 24, 40, 85]))
    for _ in range(int(4 * share)):
        yield boards.accepted(rng, 1024)
    for number in range(6, 13):
        for _ in range(int((40 if number < 12 else 3) * share)):
            yield refused_board(rng, number)[0]
    for _ in range(int(500 * share)):
        file = boards.loose(rng, rng.choice([3, 12, 40])).file
        if layout_right(file):
            yield file
    for _ in range(int(800 * share)):
        yield boards.encode(*noise(rng))
    yield boards.encode([(0, 0, NONE, NONE)] * 1024, 256, 1024)
    yield boards.encode([(255, 255, NONE, NONE)] * 1024, 256, 1024)


def status_of(file):
    return 0 if is_accepted(file) else 2


def check_round(program, file):
    """show, and make of what it showed."""
    status = status_of(file)
    shown = program.expect(status, "show", "-", given=file).out
    made = program.expect(status, "make", "-", "-", given=shown)
    if made.out != file:
        at = next((i for i, (a, b) in enumerate(zip(made.out, file)) if a != b), min(len(made.out), len(file)))
        program.fault(("show and make",), "not the file again: %d bytes, expected %d; first at byte %d\n%s"
                      % (len(made.out), len(file), at, shown[:500].decode()))


# --------------------------------------------------------------------------
# A writer of texts, in any style
# --------------------------------------------------------------------------

ODD_NAMES = ("net", "nets", "limit", "internal", "input", "control", "three-state", "two-state", "open-drain", "record", "on", "kind", "None", "NONE", "-", "--",
             "+1", "-1", "1a", "0x10", "1.0", "a#b", "<b>", "&amp;", "\"x\"", "'", "a'b", "\\n", "%s%n", "*", "/../", "n" * 63, "ä" * 31,
             "\udcff\udcfe", "名前", "A.1", "[3]", "D(0)", ";", "!", "@home", "none0", "nonE", "$HOME", "`x`", "<script>alert(1)</script>")


def some_name(rng, taken_names):
    while True:
        rest = "".join(rng.choice("ABC_.-/#019$") for _ in range(rng.choice([0, 1, 3, 8, 40])))
        name = rng.choice(ODD_NAMES) if rng.random() < 0.3 else rng.choice("ABCXYZabc_.") + rest
        if name not in taken_names:
            taken_names.add(name)
            return name


def some_names(rng, number):
    """Names for some of so many."""
    taken_names, often = set(), rng.choice([0, 0.3, 1, 1])
    return {i: some_name(rng, taken_names) for i in range(number) if rng.random() < often}


# What a cell's line begins with, by kind, and the values it then has.
FORMS = (("internal", ()), ("input", ("net",)), ("control", ("on",)), ("three-state", ("net", "control")), ("two-state", ("net",)),
         ("open-drain", ("net",)))


class Writer:
    """Writes a board as text, each time in another style."""

    def __init__(self, rng, cells, nets, limit):
        self.rng, self.cells, self.nets, self.limit = rng, cells, nets, limit
        self.names = Names(some_names(rng, nets), some_names(rng, len(cells)))
        board = document01.Board([document01.Cell(*cell) for cell in cells], nets, limit)
        self.as_record = [rng.random() < 0.1 or not document01.record_holds(board, cell) for cell in board.cells]

    def number(self, number):
        return "none" if number == NONE and self.rng.random() < 0.8 else "%0*d" % (self.rng.choice([1, 1, 1, 3, 9]), number)

    def reference(self, number, names, many):
        """By name, or by number."""
        return names[number] if number in names and number < many and self.rng.random() < 0.7 else self.number(number)

    def fields(self, cell):
        kind, on, control, net = cell
        return {"kind": "%d" % kind, "on": "%d" % on, "control": self.reference(control, self.names.cells, len(self.cells)),
                "net": self.reference(net, self.names.nets, self.nets)}

    def cell_words(self, position):
        cell = self.cells[position]
        word, wanted = FORMS[cell[0] % len(FORMS)]
        switched_by_record = cell[0] == 3 and cell[2] < len(self.cells) and self.as_record[cell[2]]
        if self.as_record[position] or switched_by_record:
            word, wanted = "record", ("kind", "on", "control", "net")
        fields = self.fields(cell)
        name = [self.names.cells[position] + ":"] if position in self.names.cells else []
        return name + [word] + [part for field in self.rng.sample(wanted, len(wanted)) for part in (field, fields[field])]

    def net_lines(self):
        """In the order of the nets, or in another with their numbers."""
        numbers = sorted(self.names.nets)
        if self.rng.random() < 0.4:
            self.rng.shuffle(numbers)
        following = 0
        for net in numbers:
            by_number = net != following or self.rng.random() < 0.2
            yield ["net", self.number(net), self.names.nets[net]] if by_number else ["net", self.names.nets[net]]
            following = net + 1

    def lines(self):
        """Lists of words; cells stand in their order, the others anywhere."""
        lines = [self.cell_words(position) for position in range(len(self.cells))]
        others = [["limit", "%d" % self.limit]]
        if self.nets - 1 not in self.names.nets or self.rng.random() < 0.5:
            others.append(["nets", "%d" % self.nets])
        for line in others:
            lines.insert(self.rng.choice([0, 0, len(lines), self.rng.randint(0, len(lines))]), line)
        at = self.rng.choice([0, 0, self.rng.randint(0, len(lines))])
        return lines[:at] + list(self.net_lines()) + lines[at:]

    def text(self):
        rng = self.rng
        blank, end = rng.choice([" ", " ", "\t", "  \t "]), rng.choice(["\n", "\n", "\r\n", " \n"])
        out = []
        for words in self.lines():
            while rng.random() < 0.1:
                out.append(rng.choice(["", "# a comment", "   ", "\t# limit 7", "#", "##two-state net 0"]))
            out.append(rng.choice(["", "", blank]) + blank.join(words) + rng.choice(["", "", "", blank + "# 5", blank + "#control on 1", blank]))
        return (end.join(out) + rng.choice([end, "", end * 3])).encode("utf-8", "surrogateescape")


def written_boards(rng, share):
    for _ in range(int(260 * share)):
        d = boards.draft(rng, rng.choice([1, 3, 8, 16, 30, 60]))
        yield d.arrange(rng)[0], d.nets, boards.limit_for(rng, d.nets, max([1] + d.drivers()))
    for _ in range(int(200 * share)):
        file = boards.damaged(rng, rng.choice([6, 6, 7, 8, 9, 10, 11]), rng.choice([3, 12, 30])).file
        yield [tuple(cell) for cell in document01.read(file).cells], *document01.header(file)[1:]
    for _ in range(int(100 * share)):
        yield noise(rng)


def check_written(program, rng, cells, nets, limit):
    """make of a text gives the board; its names are what check, marks, show and simulate say."""
    writer = Writer(rng, cells, nets, limit)
    text, file = writer.text(), boards.encode(cells, nets, limit)
    status = status_of(file)
    write(program.folder, "named.txt", text)
    write(program.folder, "named.bsin", file)
    made = program.expect(status, "make", "-", "-", given=text)
    if made.out != file:
        program.fault(("make",), "not the board that this text says:\n%s" % text.decode("utf-8", "backslashreplace")[:1500])
    check_names_kept(program, file, status)
    check_names_told(program, rng, file, writer.names)


def check_names_kept(program, file, status):
    shown = program.expect(status, "show", "named.bsin", "--names", "named.txt").out
    write(program.folder, "shown.txt", shown)
    program.expect(status, "make", "shown.txt", "-", out=file)
    program.expect(status, "show", "named.bsin", "--names", "shown.txt", out=shown)


def check_names_told(program, rng, file, names):
    """By the text itself and by what show made of it."""
    text = rng.choice(["named.txt", "shown.txt"])
    if is_accepted(file):
        program.expect(0, "check", "named.bsin", "--names", text, out=printed(expected.accepted(file, names=names)))
        if document01.kept(file).total < 200:
            check_named_marks(program, rng, file, text, names)
            check_named_bridge(program, rng, file, text, names)
    else:
        told = program.expect(2, "check", "named.bsin", "--names", text).out.splitlines(True)
        wanted = printed(expected.refusal(file, names))
        about = told[:1] + [line for line in told if line.startswith(b"  ")]
        program.check(("check", "--names"), b"".join(about) == wanted, "told %r\n  expected %r" % (told, wanted))


def check_named_marks(program, rng, file, text, names):
    fault = rng.choice(["healthy", "and", "or", "open", "swap", "copy"])
    capture = boards.capture(rng, file, fault)
    _, marks = expected.marks_of(file, capture)
    every = rng.choice([[], ["--all"]])
    program.expect(1 if any(marks) else 0, "marks", "named.bsin", "-", "--names", text, *every, given=capture,
                   out=printed(expected.marks(file, capture, every=bool(every), names=names)))


def check_named_bridge(program, rng, file, text, names):
    """Nets and cells by name, where they have one, are those of the number."""
    board = document01.read(file)
    inputs = [q for q, cell in enumerate(board.cells) if cell.kind == document01.INPUT]
    if board.nets < 2 or not inputs:
        return
    a, b = rng.sample(range(board.nets), 2)
    q = rng.choice(inputs)
    as_bytes = lambda words: [word.encode("utf-8", "surrogateescape") for word in words]
    by_number = program.expect(0, "simulate", "named.bsin", "-", "--or", "%d,%d" % (a, b), "--open", "%d=0" % q).out
    named = ["--or", "%s,%s" % (names.nets.get(a, a), names.nets.get(b, b)), "--open", "%s=0" % names.cells.get(q, q), "--names", text]
    program.expect(0, "simulate", "named.bsin", "-", *as_bytes(named), out=by_number)


def other_names(program, rng):
    """A text of another board: status 3, whatever the command; a board that differs in one number only."""
    cells = boards.cells_e()
    texts = {"limit": (cells, 3, 3), "nets": (cells, 4, 2), "a cell more": (cells + [(0, 0, NONE, NONE)], 3, 2), "a cell less": (cells[:-1], 3, 2),
             "an on value": ([(2, 0, NONE, NONE)] + cells[1:], 3, 2), "a net": (cells[:-1] + [(1, 0, NONE, 1)], 3, 2)}
    write(program.folder, "e.bsin", boards.board_e())
    write(program.folder, "e.capture", boards.tied_capture(boards.board_e(), "healthy", []))
    for what, board in texts.items():
        write(program.folder, "other.txt", Writer(rng, *board).text())
        for typed in (["check", "e.bsin"], ["marks", "e.bsin", "e.capture"], ["show", "e.bsin"], ["simulate", "e.bsin", "out/new", "--force"],
                      ["report", "e.bsin", "e.capture", "-o", "out/new"]):
            ran = expect_nothing(program, 3, [*typed, "--names", "other.txt"], err=b"other.txt")
            program.check(ran.words, b"e.bsin" in ran.err, "another %s: told %r" % (what, ran.err))


# --------------------------------------------------------------------------
# Wrong texts
# --------------------------------------------------------------------------

TOLD = re.compile(rb"^(.*?):(\d+): (.+)$", re.M)


def check_wrong(program, text, errors):
    """Exactly these errors, as text of make and as names; nothing is written."""
    data = text.encode()
    write(program.folder, "wrong.txt", data)
    for typed, how, name in ((["make", "wrong.txt", "out/new"], {}, b"wrong.txt"), (["make", "-", "out/new"], {"given": data}, b"standard input"),
                             (["check", "good.bsin", "--names", "wrong.txt"], {}, b"wrong.txt")):
        ran = expect_nothing(program, 3, typed, **how)
        told = [(one[1], int(one[2]), one[3].decode("utf-8", "replace")) for one in TOLD.finditer(ran.err)]
        right = len(told) == len(errors) and all(at == line and word in says for (_, at, says), (line, word) in zip(told, errors))
        program.check(typed, right and {one[0] for one in told} == {name} and len(told) == ran.err.count(b"\n"),
                      "text %r\n  told     %s\n  expected %s" % (text[-200:], ran.err.decode("utf-8", "replace")[:1500], errors[:20]))


def wrong_ones(program):
    make_files(program.folder)
    program.expect(2, "make", "-", "out/new", given=wrong_texts.GOOD.replace("net 1", "net 0").encode(), refusal=(7, 1))
    program.check(("make",), taken(program) is not None, "a refused board was not written")
    program.expect(0, "make", "-", "out/new", given=wrong_texts.GOOD.encode())
    program.check(("make",), taken(program) == boards.encode([(4, 0, NONE, 0), (4, 0, NONE, 1), (2, 1, NONE, NONE)], 2, 2), "not the board of GOOD")
    for text, errors in wrong_texts.all_of_them():
        check_wrong(program, text, errors)


# --------------------------------------------------------------------------
# docs/FILE.md and examples/
# --------------------------------------------------------------------------

def check_page(program):
    """The page's text is board E."""
    with open(os.path.join(ROOT, "docs", "FILE.md"), encoding="utf-8") as page:
        text = re.search(r"```text\n(limit.*?)```", page.read(), re.S)[1]
    program.expect(0, "make", "-", "-", given=text.encode(), out=boards.board_e())


def check_examples(program):
    """Each board is made from its text."""
    for name in ("board-e", "board-bus", "board-i2c", "board-crossing"):
        path = os.path.join(ROOT, "examples", name)
        file = read(os.path.dirname(path), name + ".bsin")
        program.expect(status_of(file), "make", path + ".txt", "-", out=file)


def run(program, rng, share):
    check_page(program)
    check_examples(program)
    wrong_ones(program)
    other_names(program, rng)
    for board in written_boards(rng, share):
        check_written(program, rng, *board)
    for file in shown_boards(rng, share):
        check_round(program, file)
