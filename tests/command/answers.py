"""list, groups, vector, marks, check and simulate on many boards: every byte that is printed, against tests/reference (expected.py) and,
for list, against the listing program.
"""

import os
import random
import subprocess

import expected
from expected import ROOT, boards, document01, is_accepted, printed
from statuses import refused_board, write

EXAMPLES = os.path.join(ROOT, "examples")


# --------------------------------------------------------------------------
# Boards
# --------------------------------------------------------------------------

def examples():
    for name in sorted(os.listdir(EXAMPLES)):
        if name.endswith(".bsin"):
            with open(os.path.join(EXAMPLES, name), "rb") as file:
                yield file.read()


def accepted_boards(rng, share):
    yield from filter(is_accepted, examples())
    yield from (boards.table3(), boards.encode([(4, 0, boards.NONE, 0)], 1, 1), boards.full(random.Random(20), limit=256))
    for _ in range(int(130 * share)):
        yield boards.accepted(rng, rng.choice([1, 2, 3, 7, 8, 9, 16, 17, 30, 40, 60]))
    for _ in range(int(24 * share)):
        yield boards.accepted(rng, rng.choice([84, 85, 120, 168, 169, 250]), limit=rng.choice([30, 64, 256]))


def damaged_boards(rng, share):
    yield from (file for file in examples() if not is_accepted(file))
    for number in range(1, 13):
        for _ in range(max(1, int(8 * share))):
            yield refused_board(rng, number)[0]
    for _ in range(int(100 * share)):
        yield boards.damaged(rng, rng.choice(["loose", "length"]), rng.choice([3, 12, 40])).file


# --------------------------------------------------------------------------
# list
# --------------------------------------------------------------------------

def listing_program():
    """The words that start it; None where it is not there and nobody has named it."""
    named = os.environ.get("RIGCANDLE_LISTING")
    found = named or os.path.join(ROOT, "crates", "listing", "out", "listing")
    if named or os.path.exists(found):
        return [*os.environ.get("RIGCANDLE_LOADER", "").split(), found]
    print("command: no crates/listing/out/listing (rt ci makes it): list is compared with tests/reference alone")
    return None


def listed(program, listing, file):
    """The listing program's own output; a fault where that is not the reference's."""
    wanted = document01.listing(file)
    if listing is not None:
        found = subprocess.run(listing, input=file, stdout=subprocess.PIPE).stdout
        program.check(("listing",), found == wanted, "the listing program differs from the reference")
    return wanted


def check_list(program, listing, file):
    status = 0 if is_accepted(file) else 2
    program.expect(status, "list", "-", given=file, out=listed(program, listing, file))


# --------------------------------------------------------------------------
# groups, vector, check
# --------------------------------------------------------------------------

RATES = (("10MHz", 1e7), ("250kHz", 2.5e5), ("500000", 5e5), ("1Hz", 1.0), ("33.3MHz", 33.3e6), ("0.5 kHz", 500.0))


def check_accepted(program, rng, file):
    total = document01.kept(file).total
    program.expect(0, "groups", "-", given=file, out=printed(expected.groups(file)))
    program.expect(0, "check", "-", given=file, out=printed(expected.accepted(file)))
    text, rate = rng.choice(RATES)
    program.expect(0, "check", "-", "--clock", text, given=file, out=printed(expected.accepted(file, rate)))
    for number in {0, rng.randrange(total), total - 1}:
        program.expect(0, "vector", "-", str(number), given=file, out=printed(expected.vector(file, number)))
    for number in (total, total + rng.choice([1, 2 ** 16, 2 ** 32, 2 ** 63])):
        program.expect(2, "vector", "-", str(number), given=file, refusal=(13, 0), out=b"")


def check_refused(program, when, file):
    """number, place, when it is given (as docs/INTERFACE.md has it), what it is about, what to do"""
    number, place, _ = document01.verdict(file)
    lines = expected.refusal(file)
    ran = program.expect(2, "check", "-", given=file, refusal=(number, place))
    told = ran.out.decode().splitlines()
    about = told[:1] + [line for line in told if line.startswith("  ")]
    program.check(ran.words, about == lines, "told %s\n  expected %s" % (about, lines))
    program.check(ran.words, len(told) > 2 and len(told[1]) > 10 and when[number].startswith(told[1]), "%r is not %r" % (told[1:2], when[number]))
    act = told[1 + len(lines):]
    program.check(ran.words, act and act[-1].endswith(".") and len(" ".join(act)) > 20 and not act[0].startswith(" "), "what to do: %r" % act)
    program.expect(2, "groups", "-", given=file, refusal=(number, place), out=b"")
    program.expect(2, "vector", "-", "0", given=file, refusal=(number, place), out=b"")
    program.expect(2, "marks", write(program.folder, "refused.bsin", file), "/dev/null", refusal=(number, place), out=b"")


# --------------------------------------------------------------------------
# marks
# --------------------------------------------------------------------------

def check_marks(program, file, capture, seen):
    write(program.folder, "marks.bsin", file)
    total, size = document01.kept(file).total, document01.kept(file).size
    if len(capture) != total * size:
        program.expect(2, "marks", "marks.bsin", "-", given=capture, refusal=(14, 0), out=b"")
        return
    _, marks = expected.marks_of(file, capture)
    status = 1 if any(marks) else 0
    program.expect(status, "marks", "marks.bsin", "-", given=capture, out=printed(expected.marks(file, capture)))
    program.expect(status, "marks", "--all", "marks.bsin", "-", given=capture, out=printed(expected.marks(file, capture, every=True)))
    seen.update(marks)
    seen.add("RELEASE" if status == 0 else "HOLD")


def seen_board(rng, size):
    """An accepted board whose every net has an input cell, so that it may be released."""
    while True:
        file = boards.accepted(rng, size)
        if not expected.unseen(document01.read(file)):
            return file


def check_captures(program, rng, share):
    seen = set()
    for fault in boards.FAULTS:
        for _ in range(max(1, int(7 * share))):
            file = boards.accepted(rng, rng.choice([5, 12, 24, 40]))
            check_marks(program, file, boards.capture(rng, file, fault), seen)
        file = seen_board(rng, 24)
        check_marks(program, file, boards.capture(rng, file, fault), seen)
    for mark in (0, 1, 2, 3, "RELEASE", "HOLD"):
        program.check(("marks",), mark in seen, "no capture led to %s" % mark)


# --------------------------------------------------------------------------
# simulate
# --------------------------------------------------------------------------

def check_simulated(program, rng, file):
    """Healthy and bridged boards are read as tests/reference has them, and the marks of what is read are the reference's.  With an
    open-drain line only the AND can come of a bridge, whatever is said of it (open_drain.py)."""
    board = document01.read(file)
    write(program.folder, "simulated.bsin", file)
    for how in ("healthy", "and", "or", "wins"):
        free = [net for net in range(board.nets) if how in ("healthy", "and") or net not in expected.open_drain(board)]
        if how != "healthy" and len(free) < 2:
            continue
        chosen = rng.sample(free, min(len(free), rng.randint(2, 5)))
        listed_nets = ",".join(map(str, chosen))
        option = {"healthy": [], "wins": ["--wins", "%d:%s" % (chosen[0], listed_nets)]}.get(how, ["--" + how, listed_nets])
        capture = boards.tied_capture(file, how, chosen)
        program.expect(0, "simulate", "simulated.bsin", "-", *option, out=capture)
    check_marks(program, file, capture, set())


# --------------------------------------------------------------------------
# All
# --------------------------------------------------------------------------

def largest(rng):
    return boards.near_limit(rng, False, boards.AT_LIMIT)


def run(program, rng, share):
    """`share` of the usual number of boards."""
    listing, when = listing_program(), expected.refusals_of_page()
    for file in accepted_boards(rng, share):
        check_list(program, listing, file)
        check_accepted(program, rng, file)
        if document01.kept(file).total < 100:
            check_simulated(program, rng, file)
    for file in damaged_boards(rng, share):
        check_list(program, listing, file)
        if not is_accepted(file):
            check_refused(program, when, file)
    check_captures(program, rng, share)
    file = largest(rng)
    check_list(program, listing, file)
    check_marks(program, file, boards.capture(rng, file, "mixed"), set())
