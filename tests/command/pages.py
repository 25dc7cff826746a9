"""report: page.py looks at pages of healthy, bridged and open boards, small and large, with names, serial and date that have in them what
HTML gives a meaning to, and bytes that are no UTF-8.
"""

import html
import os

import page
from answers import EXAMPLES
from expected import boards, document01, marks_of
from statuses import read, taken, write
from texts import Writer

# Words from outside, and how the page should say them.
NASTY = ((b"<script>alert(1)</script>", "<script>alert(1)</script>"),
         (b"a & b &amp; \"c\" 'd' > e", "a & b &amp; \"c\" 'd' > e"),
         (b"\xff\xfe ok \xc3", "\ufffd\ufffd ok \ufffd"),
         ("Prüfling 7 名 \u202e".encode(), "Prüfling 7 名 \u202e"),
         (b"</title></style></body>", "</title></style></body>"),
         (b"tab\tline\nend\x1b[31m\x7f", "tab\ufffdline\ufffdend\ufffd[31m\ufffd"),
         (b"\xed\xa0\x80\xf4\x90\x80\x80\xc0\xaf", "\ufffd" * 9),
         (b"-->]]>", "-->]]>"))


def check_page(program, typed, board, capture):
    """Writes the page and looks at it; gives its text."""
    _, marks = marks_of(board, capture)
    program.expect(1 if any(marks) else 0, "report", *typed, "-o", "out/new", out=b"HOLD\n" if any(marks) else b"RELEASE\n")
    made = taken(program)
    if made is None:
        program.fault(["report", *typed], "no page")
        return ""
    try:
        page.check(made, board, capture)
    except page.Wrong as wrong:
        program.fault(["report", *typed], str(wrong))
    return made.decode("utf-8", "replace")


def examples(program):
    """Board E and the I2C board with the captures that are there, and the bus board with captures of simulate."""
    for board, name in (("e", "healthy"), ("e", "bridged"), ("e", "open"), ("i2c", "healthy"), ("i2c", "bridged"), ("i2c", "held")):
        files = [os.path.join(EXAMPLES, one) for one in ("board-%s.bsin" % board, "board-%s-%s.capture" % (board, name))]
        check_page(program, files, *(read("", one) for one in files))
    bus = read(EXAMPLES, "board-bus.bsin")
    write(program.folder, "bus.bsin", bus)
    for number, faults in enumerate(([], ["--and", "3,9"], ["--or", "0,12"], ["--open", "9=0"], ["--off", "0", "--float", "0"])):
        program.expect(0, "simulate", "bus.bsin", "bus.capture", "--force", *faults)
        names = ["--names", os.path.join(EXAMPLES, "board-bus.txt")] if number % 2 else []
        check_page(program, ["bus.bsin", "bus.capture", *names], bus, read(program.folder, "bus.capture"))


def said(text, what):
    """What stands behind <dt>what</dt>, as a browser would show it."""
    return html.unescape(text.split("<dt>%s</dt>" % what, 1)[-1].split("<bdi>", 1)[-1].split("</bdi>", 1)[0])


def from_outside(program, rng, size):
    draft = boards.draft(rng, size)
    cells = draft.arrange(rng)[0]
    limit = max(8, boards.limit_for(rng, draft.nets, max([1] + draft.drivers())))
    writer = Writer(rng, cells, draft.nets, limit)
    board = boards.encode(cells, draft.nets, limit)
    capture = boards.capture(rng, board, rng.choice(["and", "or", "mixed", "copy", "random", "healthy"]))
    (serial, serial_said), (date, date_said) = rng.choice(NASTY), rng.choice(NASTY)
    name = rng.choice(["plain.bsin", "<b>&\"'.bsin", "\udcff.bsin"])
    write(program.folder, name, board)
    write(program.folder, "any.capture", capture)
    write(program.folder, "any.txt", writer.text())
    text = check_page(program, [name, "any.capture", "--names", "any.txt", "--serial", serial, "--date", date], board, capture)
    for what, found, wanted in (("serial", said(text, "Serial"), serial_said), ("date", said(text, "Date"), date_said)):
        program.check(("report",), found == wanted, "the %s is shown as %r, expected %r" % (what, found, wanted))
    shown = html.unescape(text)
    for net, word in writer.names.nets.items():
        program.check(("report",), word.encode("utf-8", "surrogateescape").decode("utf-8", "replace") in shown, "no word of net %d, %r" % (net, word))


def run(program, rng, share):
    os.mkdir(os.path.join(program.folder, "out"))
    examples(program)
    for number in range(max(2, int(20 * share))):
        from_outside(program, rng, 120 if number % 5 == 0 else rng.choice([3, 12, 40]))
    program.expect(0, "report", os.path.join(EXAMPLES, "board-e.bsin"), os.path.join(EXAMPLES, "board-e-healthy.capture"), "-o", "-")
