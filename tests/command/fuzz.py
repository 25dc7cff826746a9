"""Mutated text descriptions through make and as names, mutated board files and captures through every other subcommand.

Meant for a program compiled with sanitizers.  What a mutation leads to is not known beforehand, but what must hold of it is: the status is
the reference's verdict, and what make accepts is a file that the reference reads.
"""

import wrong_texts
from expected import boards, document01, is_accepted
from statuses import write
from texts import TOLD, Writer, noise

NUMBERS = ("0", "1", "2", "-1", "255", "256", "257", "1023", "1024", "1025", "65534", "65535", "65536", "4294967295", "4294967296", "4294967297",
           "18446744073709551615", "18446744073709551616", "00000000000000000000000000000000000001", "9" * 100, "1e3", "0x1", "")
WORDS = ("limit", "nets", "net", "internal", "input", "control", "three-state", "two-state", "open-drain", "record", "on", "kind", "none", "#", ":",
         "A:", "a,b", "=", *NUMBERS)


# --------------------------------------------------------------------------
# Texts
# --------------------------------------------------------------------------

def some_text(rng):
    what = rng.randrange(4)
    if what == 0:
        return rng.choice(wrong_texts.SEVERAL)[0].encode()
    if what == 1:
        return Writer(rng, *noise(rng)).text()
    draft = boards.draft(rng, rng.choice([2, 8, 20, 60]))
    return Writer(rng, draft.arrange(rng)[0], draft.nets, rng.randint(1, 9)).text()


def change_words(rng, text):
    """A word taken out, doubled, or another in its place, in some lines."""
    lines = [line.split(b" ") for line in text.split(b"\n")]
    for _ in range(rng.choice([1, 1, 2, 5, 20])):
        line = rng.choice(lines)
        at = rng.randrange(len(line) + 1)
        line[at:at + rng.choice([0, 1])] = rng.choice([[], [rng.choice(WORDS).encode()], [rng.choice(rng.choice(lines) or [b""])]])
    return b"\n".join(b" ".join(line) for line in lines)


def change_lines(rng, text):
    lines = text.split(b"\n")
    for _ in range(rng.choice([1, 1, 2, 5])):
        at, other = rng.randrange(len(lines)), rng.randrange(len(lines))
        what = rng.randrange(5)
        if what == 0:
            lines[at], lines[other] = lines[other], lines[at]
        elif what == 1:
            lines[at:at] = [lines[other]] * rng.choice([1, 2, 300, 1100])
        elif what == 2 and len(lines) > 1:
            del lines[at]
        elif what == 3:
            lines[at] += rng.choice([b" ", b"", b"\t"]) + lines[other]
        else:
            lines[at] = rng.choice(WORDS).encode() * rng.choice([1, 17, 300, 5000])
    return b"\n".join(lines)


def change_bytes(rng, data):
    out = bytearray(data or b"\0")
    for _ in range(rng.choice([1, 1, 2, 5, 30])):
        at = rng.randrange(len(out) + 1)
        what = rng.randrange(4)
        if what == 0 and out:
            out[at % len(out)] ^= 1 << rng.randrange(8)
        elif what == 1:
            out[at:at] = bytes([rng.choice([0, 9, 10, 13, 32, 35, 58, 127, 255, rng.randrange(256)])]) * rng.choice([1, 1, 1, 70, 600])
        elif what == 2:
            del out[at:at + rng.choice([1, 1, 5, 100])]
        else:
            out[at:at] = out[:rng.choice([1, 10, 100])]
    return bytes(out)


def mutated_text(rng):
    text = some_text(rng)
    for _ in range(rng.choice([1, 1, 2])):
        text = rng.choice([change_words, change_words, change_lines, change_bytes])(rng, text)
    return text


def has_open_drain(file):
    return any(cell.kind == document01.OPEN_DRAIN for cell in document01.read(file).cells)


def try_text(program, rng):
    """Gives whether it was a whole text of an accepted board with an open-drain output."""
    text = mutated_text(rng)
    ran = program.run("make", "-", "-", given=text)
    if ran.status in (0, 2):
        verdict = document01.verdict(ran.out)
        right = (ran.status == 0) == (verdict[0] == 0) and verdict[0] not in range(1, 6)
        program.check(ran.words, right, "status %d, and the reference says %s" % (ran.status, verdict))
    else:
        lines = [int(one[2]) for one in TOLD.finditer(ran.err)]
        program.check(ran.words, ran.status == 3 and lines and lines == sorted(lines), "status %s, lines %s" % (ran.status, lines[:20]))
    if rng.random() < 0.2:
        named_text(program, rng, text, ran)
    return ran.status == 0 and has_open_drain(ran.out)


def named_text(program, rng, text, made):
    """The text as names: of the board that it makes, or, where it makes none, of some other."""
    whole = made.status in (0, 2)
    write(program.folder, "fuzz.txt", text)
    write(program.folder, "fuzz.bsin", made.out if whole else boards.board_e())
    name = rng.choice(["check", "show"])
    program.expect(made.status if whole else 3, name, "fuzz.bsin", "--names", "fuzz.txt")


# --------------------------------------------------------------------------
# Boards and captures
# --------------------------------------------------------------------------

def mutated_board(rng):
    what = rng.randrange(6)
    if what == 0:
        return boards.loose(rng, rng.choice([3, 12, 40])).file
    if what == 1:
        return boards.encode(*noise(rng))
    if what == 2:
        return boards.resealed(change_bytes(rng, rng.choice([boards.board_e, boards.mixed_line, boards.two_lines])())[:7168])
    file = boards.accepted(rng, rng.choice([3, 12, 40, 90]), limit=64, share=rng.choice([None, 0.5, 1]))
    return change_bytes(rng, file) if what == 3 else file


def some_capture(rng, file, accepted):
    if not accepted:
        return rng.randbytes(rng.choice([0, 12, 500]))
    return boards.capture(rng, file, rng.choice(boards.FAULTS))


def some_faults(rng, cells, nets):
    """Options of simulate with numbers that are near to right."""
    number = lambda most: str(rng.choice([0, most - 1, rng.randrange(most), rng.randrange(most), most, rng.choice(NUMBERS)]))
    for _ in range(rng.choice([0, 1, 2, 5])):
        option = rng.choice(["--and", "--or", "--wins", "--open", "--stuck", "--on", "--off", "--no-resistor", "--fight", "--float", "--during"])
        if option in ("--and", "--or"):
            yield from (option, ",".join(number(nets) for _ in range(rng.choice([1, 2, 2, 3, 200]))))
        elif option == "--wins":
            yield from (option, number(nets) + rng.choice([":", ":", ",", ""]) + ",".join(number(nets) for _ in range(rng.choice([0, 1, 2]))))
        elif option in ("--open", "--stuck"):
            yield from (option, number(cells) + rng.choice(["=0", "=1", "=2", "="]))
        elif option in ("--on", "--off"):
            yield from (option, number(cells))
        elif option == "--no-resistor":
            yield from (option, number(nets))
        else:
            yield from (option, rng.choice(["low", "high", "0", "1", "keep", "0-1", "1-0", "-", number(9) + "-" + number(9)]))


def try_board(program, rng):
    """Gives whether it was an accepted board with an open-drain output."""
    file = mutated_board(rng)
    accepted = is_accepted(file)
    status, verdict = (0, None) if accepted else (2, document01.verdict(file)[:2])
    write(program.folder, "fuzz.bsin", file)
    name = rng.choice(["check", "show", "list", "marks", "groups", "report", "simulate"])
    if name in ("marks", "report"):
        try_capture(program, rng, name, file, verdict)
    elif name == "simulate":
        cells, nets, _ = document01.header(file) if accepted else (1, 1, 1)
        ran = program.run("simulate", "fuzz.bsin", "-", *some_faults(rng, cells, nets))
        program.check(ran.words, ran.status in ((0, 3) if accepted else (2, 3)), "status %s" % ran.status)
    else:
        program.expect(status, name, "fuzz.bsin", refusal=verdict)
    return accepted and has_open_drain(file)


def try_capture(program, rng, name, file, verdict):
    capture = some_capture(rng, file, verdict is None)
    if verdict is None:
        bits, marks = document01.marks(file, capture, bytes(document01.read(file).nets))
        status = 2 if bits & 255 else 1 if any(marks) else 0
    more = ["-o", "-", "--serial", rng.randbytes(8).replace(b"\0", b"<")] if name == "report" else ["--all"]
    program.expect(2 if verdict else status, name, "fuzz.bsin", "-", *more, given=capture, refusal=verdict)


def run(program, rng):
    for what, attempt in (("text", try_text), ("board", try_board)):
        accepted = sum(attempt(program, rng) for _ in range(1300))
        program.check(("fuzz",), accepted > 5, "an accepted %s with an open-drain output came up %d times" % (what, accepted))
