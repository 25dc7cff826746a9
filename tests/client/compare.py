"""The library, asked by client.c, against document 01 with requests [1] and [3]
in Python: every bit of every answer and every byte of every lent buffer.

    python3 compare.py CLIENT...     CLIENT is the command that starts client.c

Boards, damage and captures are drawn by tests/reference/boards.py from a seed,
which is printed; RIGCANDLE_SEED=n sets it.  What is expected comes from
tests/reference/document01.py, and for the figures of document 01, of crossings
and of open-drain cells from the documents, by hand.  All cases are asked twice:
buffers that end at forbidden memory, and buffers that begin after it.
"""

import collections
import functools
import os
import random
import subprocess
import sys
import time

sys.path.insert(0, os.path.join(os.path.dirname(os.path.abspath(__file__)), "..", "reference"))
sys.dont_write_bytecode = True
import boards
import document01

QUESTIONS = ("groups", "count", "vector", "marks")
OWN_REFUSALS = {"groups": (15,), "count": (), "vector": (13, 15), "marks": (14, 15)}
LEAST_CALLS = 20000  # in each of the two runs
LEAST_SHARE = 1 / 3  # of the accepted calls: boards with open-drain cells
MOST_SHOWN = 10      # differences printed

# out is the buffer before the call; bits and after, the buffer afterwards, are what is expected
Case = collections.namedtuple("Case", "label question file number capture out bits after")


# --------------------------------------------------------------------------
# Cases
# --------------------------------------------------------------------------

def expected(question, file, number, capture, out):
    if question == "groups":
        return document01.groups(file, out)
    if question == "count":
        return document01.count(file), out
    if question == "vector":
        return document01.vector(file, number, out)
    return document01.marks(file, capture, out)


def case(label, question, file, number=0, capture=b"", out=b""):
    bits, after = expected(question, file, number, capture, out)
    return Case(label, question, file, number, capture, out, bits, after)


def by_hand(label, question, file, bits, after=b"", **with_):
    """A case whose answer is known from the document."""
    made = case(label, question, file, **with_)
    if (made.bits, made.after) != (bits, after):
        raise SystemExit("%s: by hand %x %s, document01 %x %s"
                         % (label, bits, after.hex(), made.bits, made.after.hex()))
    return made


def packed(*fields):
    """(width, value) one after the other, the first in the lowest bits."""
    bits, at = 0, 0
    for width, value in fields:
        bits |= value << at
        at += width
    return bits


def refused(number, place, second=0):
    return packed((8, number), (16, place), (16, second))


def counted(groups, patterns, total):
    return packed((8, 0), (8, groups), (8, patterns), (16, total))


def marked(passed, failed, unsure):
    return packed((8, 0), (16, passed), (16, failed), (16, unsure))


# --------------------------------------------------------------------------
# The figures of document 01
# --------------------------------------------------------------------------

SPARE = b"\xAA\xAA"  # bytes past those needed

LISTING_E = ((1, "2000"), (1, "E400"), (1, "B200"), (2, "0900"), (2, "CD00"), (2, "9B00"))


def refused_by_all(label, file, number, place, second=0):
    for question in QUESTIONS:
        out = b"" if question == "count" else bytes(range(256)) * 8
        yield by_hand(label, question, file, refused(number, place, second), out, out=out)


def row_figure(label, file, number, group, row):
    return by_hand(label, "vector", file, packed((8, 0), (8, group)), bytes.fromhex(row) + SPARE,
                   number=number, out=bytes([255]) * (len(row) // 2) + SPARE)


def marks_figure(label, file, how, nets, wanted):
    counts = wanted.count(0), wanted.count(1), wanted.count(2) + wanted.count(3)
    return by_hand(label, "marks", file, marked(*counts), bytes(wanted) + SPARE,
                   capture=boards.tied_capture(file, how, nets), out=b"\xFF" * len(wanted) + SPARE)


def figures_of_e():
    e, e_1 = boards.board_e(), boards.board_e(limit=1)
    yield by_hand("E, groups {3, 5} and {0}", "groups", e, packed((8, 0), (8, 2)),
                  bytes.fromhex("28000100") + SPARE, out=b"\xFF" * 4 + SPARE)
    yield by_hand("E", "count", e, counted(2, 3, 6))
    for number, (group, row) in enumerate(LISTING_E):
        yield row_figure("E, listing", e, number, group, row)
    yield by_hand("E, SSOL 1", "count", e_1, counted(2, 3, 11))
    yield row_figure("E, SSOL 1, nets 0, 1, 0", e_1, 1, 1, "6400")
    yield row_figure("E, SSOL 1, inserted across the groups", e_1, 5, 1, "A000")
    yield marks_figure("E healthy", e, "healthy", [], [0, 0, 0])
    yield marks_figure("E, nets 0 and 2 wired-AND", e, "and", [0, 2], [3, 0, 1])
    yield marks_figure("E, nets 0 and 1 wired-AND", e, "and", [0, 1], [1, 1, 0])
    yield marks_figure("E, nets 0 and 1 wired-OR", e, "or", [0, 1], [1, 1, 3])
    cells = boards.cells_e()
    cells[9] = (0, 0, boards.NONE, boards.NONE)
    yield marks_figure("E, position 9 internal", boards.encode(cells, 3, 2), "healthy", [], [0, 2, 0])
    cells = boards.cells_e()
    cells[7] = (4, 0, boards.NONE, 0)
    yield from refused_by_all("E, position 7 on net 0", boards.encode(cells, 3, 2), 7, 2)


def drivers_on_one_net(number):
    cells = []
    for x in range(number):
        cells += [(2, x % 2, boards.NONE, boards.NONE), (3, 0, 2 * x, 0)]
    return boards.encode(cells, 1, 1)


def two_state_board(nets):
    return boards.encode([(4, 0, boards.NONE, net) for net in range(nets)], nets, 1024)


def figures_of_limits():
    single = boards.encode([(4, 0, boards.NONE, 0)], 1, 1)
    yield by_hand("one two-state net", "count", single, counted(1, 2, 2))
    yield by_hand("one two-state net", "groups", single, packed((8, 0), (8, 1)), b"\x00" + SPARE,
                  out=b"\xFF" + SPARE)
    yield row_figure("one two-state net", single, 0, 1, "00")
    yield row_figure("one two-state net", single, 1, 1, "01")
    for nets, p in ((1, 2), (2, 2), (3, 3), (6, 3), (7, 4), (254, 8), (255, 9), (256, 9)):
        yield by_hand("p of %d nets" % nets, "count", two_state_board(nets), counted(1, p, p))
    yield by_hand("16 drivers on one net", "count", drivers_on_one_net(16), counted(16, 2, 32))
    yield from refused_by_all("17 drivers on one net", drivers_on_one_net(17), 9, 0)
    none = boards.NONE
    crossing = [(3, 0, 4, 0), (2, 1, none, none), (3, 0, 1, 1), (3, 0, 1, 2), (2, 1, none, none), (3, 0, 4, 1)]
    yield from refused_by_all("sets {0, 1} and {1, 2}", boards.encode(crossing, 3, 2), 10, 1, 4)
    at = boards.near_limit(random.Random(1), False, boards.AT_LIMIT)
    yield by_hand("4,096 vectors", "count", at, counted(16, 8, 4096))
    yield by_hand("4,096 vectors, number 4,096", "vector", at, refused(13, 0), SPARE, number=4096, out=SPARE)
    past = boards.near_limit(random.Random(1), True, boards.PAST_LIMIT, share=0)
    yield from refused_by_all("4,098 vectors", past, 12, 0)


def figures_of_000():
    """Table 3's board has table 5's groups."""
    groups = ((26, 23, 22, 15), (20, 17, 12, 5), (23, 0))
    rows = b"".join(sum(1 << c for c in on).to_bytes(4, "little") for on in groups)
    yield by_hand("source 000, tables 3 and 5", "groups", boards.table3(), packed((8, 0), (8, 3)),
                  rows + SPARE, out=b"\xFF" * 12 + SPARE)


# --------------------------------------------------------------------------
# Figures of crossings, worked out by hand from request [1]
# --------------------------------------------------------------------------

def net_sets_board(sets, size):
    """Of `size` cells: control cells at the positions of `sets`, with these nets; their
    outputs, the last first, at the lowest positions that are left; the rest internal."""
    none = boards.NONE
    cells = [(0, 0, none, none)] * size
    for c in sets:
        cells[c] = (2, c % 2, none, none)
    outputs = [(3, 0, c, net) for c in sets for net in sets[c]]
    for q in range(size):
        if q not in sets and outputs:
            cells[q] = outputs.pop()
    return boards.encode(cells, 1 + max(max(nets) for nets in sets.values() if nets), 2)


def figures_of_crossings():
    for label, sets, size, first, second in (
            ("one pair", {0: [0, 1], 1: [1, 2]}, 6, 0, 1),
            ("two cross it, the smaller by its higher net", {2: [0, 1], 4: [1, 2], 9: [0, 3]}, 12, 2, 4),
            ("two cross it, the smaller by its lower net", {2: [0, 1], 4: [0, 2], 9: [1, 3]}, 12, 2, 4),
            ("pairs (1, 4) and (2, 3)", {1: [0, 1], 2: [3, 4], 3: [4, 5], 4: [1, 2]}, 12, 1, 4),
            ("pairs (1, 4) and (2, 3), the other nets", {1: [3, 4], 2: [0, 1], 3: [1, 2], 4: [4, 5]}, 12, 1, 4),
            ("equal, inside, idle and around it between", {3: [0, 1], 4: [0, 1], 5: [1], 6: [], 7: [0, 1, 2], 8: [0, 3]},
             20, 3, 8),
            ("one inside it and one around it below", {0: [1], 1: [0, 1, 2], 5: [0, 1], 7: [1, 2]}, 16, 5, 7),
            ("the last cell of all", {300: [0, 255], 700: [0], 1023: [*range(1, 256)]}, 1024, 300, 1023),
            ("both bytes of both places", {258: [0, 1], 515: [2, 3], 772: [1, 2]}, 1024, 258, 772)):
        yield from refused_by_all(label, net_sets_board(sets, size), 10, first, second)


# --------------------------------------------------------------------------
# Figures of open-drain cells, worked out by hand from request [3]
# --------------------------------------------------------------------------

LISTING_MIXED = ((1, "01"), (1, "0D"), (2, "0B"), (2, "0F"), (3, "08"), (3, "0D"))
LISTING_TWO = ((1, "05"), (1, "07"), (1, "03"), (1, "01"), (2, "06"), (2, "07"), (2, "03"))


def figures_of_open_drain():
    mixed, two = boards.mixed_line(), boards.two_lines()
    yield by_hand("mixed line, groups {3}, {1}, {0}", "groups", mixed, packed((8, 0), (8, 3)),
                  b"\x08\x02\x01" + SPARE, out=b"\xFF" * 3 + SPARE)
    yield by_hand("mixed line", "count", mixed, counted(3, 2, 6))
    for number, (group, row) in enumerate(LISTING_MIXED):
        yield row_figure("mixed line, listing", mixed, number, group, row)
    yield by_hand("two lines, groups {1, 2} and {0, 2}", "groups", two, packed((8, 0), (8, 2)),
                  b"\x06\x05" + SPARE, out=b"\xFF" * 2 + SPARE)
    yield by_hand("two lines", "count", two, counted(2, 2, 7))
    for number, (group, row) in enumerate(LISTING_TWO):
        yield row_figure("two lines, listing", two, number, group, row)
    yield marks_figure("two lines healthy", two, "healthy", [], [0, 0])
    yield marks_figure("two lines, wired-AND", two, "and", [0, 1], [1, 1])


def figures_of_1024():
    """Group g turns on the g-th highest cell of each net.  In vector 0 only the
    highest net's value is 1: all cells in their turn are 0 but the last one."""
    file = boards.all_open_drain(64)
    rows = b"".join((1 << 16 - g).to_bytes(2, "little") * 64 for g in range(1, 17))
    yield by_hand("1,024 open-drain cells, 64 nets", "count", file, counted(16, 7, 112))
    yield by_hand("1,024 open-drain cells, 64 nets", "groups", file, packed((8, 0), (8, 16)), rows + SPARE,
                  out=b"\xFF" * 2048 + SPARE)
    yield row_figure("1,024 open-drain cells, 64 nets", file, 0, 1, "FF7F" * 63 + "FFFF")
    file = boards.all_open_drain(256)
    rows = b"".join(bytes([two_nets]) * 128 for two_nets in (0x88, 0x44, 0x22, 0x11))
    yield by_hand("1,024 open-drain cells, 256 nets", "count", file, counted(4, 9, 36))
    yield by_hand("1,024 open-drain cells, 256 nets", "groups", file, packed((8, 0), (8, 4)), rows + SPARE,
                  out=b"\xFF" * 512 + SPARE)
    yield row_figure("1,024 open-drain cells, 256 nets", file, 0, 1, "77" * 127 + "F7")


def refusals_of_open_drain():
    none = boards.NONE
    line, control = (5, 0, none, 0), (2, 1, none, none)
    for label, cells, nets, *verdict in (
            ("kind 6", [line, (6, 0, none, 0)], 1, 6, 1),
            ("three-state output of an open-drain cell", [line, (3, 0, 0, 0)], 1, 6, 1),
            ("two-state beside open-drain", [line, (4, 0, none, 0)], 1, 8, 0),
            ("17 drivers of both kinds", [line] * 16 + [control, (3, 0, 16, 0)], 1, 9, 0),
            ("sets that cross above an open-drain cell",
             [line, control, (3, 0, 1, 0), (3, 0, 1, 1), control, (3, 0, 4, 0), (3, 0, 4, 2)], 3, 10, 1, 4),
            ("sets that cross around an open-drain cell",
             [control, (3, 0, 0, 0), (3, 0, 0, 1), line, control, (3, 0, 4, 0), (3, 0, 4, 2)], 3, 10, 0, 4),
            ("set {0, 1}, net 0 with an open-drain cell", [line, control, (3, 0, 1, 0), (3, 0, 1, 1)], 2, 11, 1)):
        yield from refused_by_all(label, boards.encode(cells, nets, 2), *verdict)


# --------------------------------------------------------------------------
# Calls on accepted boards
# --------------------------------------------------------------------------

def enough(rng, need):
    """A buffer of the bytes needed, or longer."""
    return rng.randbytes(need + rng.choice([0, 0, 1, rng.randint(2, 300)]))


def telling_buffers(rng, need):
    """Empty, one byte short, exact, one byte long, longer."""
    return [rng.randbytes(length) for length in (0, need - 1, need, need + 1, need + rng.randint(2, 300))]


def groups_calls(rng, label, file):
    kept = document01.kept(file)
    for out in telling_buffers(rng, len(kept.groups) * kept.size):
        yield case(label, "groups", file, out=out)


def vector_calls(rng, label, file):
    kept = document01.kept(file)
    some = rng.randrange(kept.total)
    numbers = [0, some, rng.randrange(kept.total), kept.total - 1, kept.total, kept.total + 1,
               2 ** 16 + some, 2 ** 32, 2 ** 32 + some, 2 ** 63, 2 ** 63 + some, 2 ** 64 - 1]
    for number in numbers:
        yield case(label, "vector", file, number=number, out=enough(rng, kept.size))
    for out in telling_buffers(rng, kept.size):
        yield case(label, "vector", file, number=some, out=out)
    yield case(label + ", 13 before 15", "vector", file, number=kept.total, out=rng.randbytes(kept.size - 1))


def marks_calls(rng, label, file, faults):
    nets = document01.kept(file).board.nets
    for fault in faults:
        yield case("%s, %s" % (label, fault), "marks", file, capture=boards.capture(rng, file, fault),
                   out=enough(rng, nets))
    healthy = boards.tied_capture(file, "healthy", [])
    for what, capture in (("one byte short", healthy[:-1]), ("one byte long", healthy + b"\x00")):
        yield case("%s, %s" % (label, what), "marks", file, capture=capture, out=enough(rng, nets))
        yield case("%s, %s, 14 before 15" % (label, what), "marks", file, capture=capture,
                   out=rng.randbytes(nets - 1))
    for out in telling_buffers(rng, nets):
        yield case(label + ", healthy", "marks", file, capture=healthy, out=out)


def accepted_calls(rng, label, file, faults):
    if document01.verdict(file) != (0, 0, 0):
        raise SystemExit("%s: refused %r" % (label, document01.verdict(file)))
    yield case(label, "count", file)
    yield from groups_calls(rng, label, file)
    yield from vector_calls(rng, label, file)
    yield from marks_calls(rng, label, file, faults)


USUAL_FAULTS = ("healthy", "and", "or", "wins", "open", "noise", "random")
OTHER_FAULTS = tuple(fault for fault in boards.FAULTS if fault not in USUAL_FAULTS)


def accepted_boards(rng):
    """(label, file, the faults of its captures)"""
    for i in range(340):
        size = rng.choice([1, 2, 3, 5, 7, 8, 9, 11, 16, 17, 24, 30, 40])
        yield "small %d" % i, boards.accepted(rng, size), USUAL_FAULTS + tuple(rng.sample(OTHER_FAULTS, 4))
    for i in range(40):
        size = rng.choice([83, 84, 85, 100, 167, 168, 169, 200, 252, 253, 300])
        yield "middle %d" % i, boards.accepted(rng, size), rng.sample(boards.FAULTS, 3)
    for i in range(24):
        size = rng.choice([500, 600, 756, 757, 900, 1008, 1009, 1023, 1024])
        yield "large %d" % i, boards.accepted(rng, size), rng.sample(boards.FAULTS, 2)
    for i in range(6):
        yield "full %d" % i, boards.full(rng), [rng.choice(USUAL_FAULTS)]
    for i in range(60):
        size = rng.choice([5, 7, 8, 9, 11, 16, 17, 24, 30, 40])
        yield "mixed lines %d" % i, boards.mixed(rng, size), rng.sample(boards.FAULTS, 5)
    for i in range(8):
        size = rng.choice([85, 168, 169, 300, 1024])
        yield "more mixed lines %d" % i, boards.mixed(rng, size, limit=1024), rng.sample(boards.FAULTS, 2)
    for i in range(6):
        size = rng.choice([513, 1023, 1024])
        yield "crowded lines %d" % i, boards.crowded(rng, size, limit=1024), [rng.choice(USUAL_FAULTS)]
    yield "4,096 vectors", boards.near_limit(rng, False, boards.AT_LIMIT), ["mixed"]
    for i in range(4):
        yield "near 4,096 vectors %d" % i, boards.near_limit(rng, False), [rng.choice(USUAL_FAULTS)]


# --------------------------------------------------------------------------
# Calls on damaged boards
# --------------------------------------------------------------------------

def damaged_calls(rng, label, file):
    """Whatever else is lent, the file's refusal comes first."""
    yield case(label, "count", file)
    for length in (0, rng.choice([1, 7, 128]), 2048):
        number = rng.choice([0, 1, 5000, 2 ** 64 - 1])
        capture = rng.randbytes(rng.choice([0, 1, 12, 500]))
        yield case(label, "groups", file, out=rng.randbytes(length))
        yield case(label, "vector", file, number=number, out=rng.randbytes(length))
        yield case(label, "marks", file, capture=capture, out=rng.randbytes(length))


def damaged_boards(rng):
    """(label, file)"""
    for number in list(range(1, 12)) + ["length"]:
        for i in range(150 if number == 10 else 50):
            made = boards.damaged(rng, number)
            if made.expected not in (None, document01.verdict(made.file)):
                raise SystemExit("%s: by its making %r, document01 %r"
                                 % (made.label, made.expected, document01.verdict(made.file)))
            yield "damage %s %d, %s" % (number, i, made.label), made.file
    for i in range(300):
        made = boards.damaged(rng, "loose", rng.choice([3, 12, 40, 120, 300]))
        yield "loose damage %d, %s" % (i, made.label), made.file
    for i in range(12):
        exact = boards.PAST_LIMIT if i == 0 else None
        yield "over 4,096 vectors %d" % i, boards.near_limit(rng, True, exact, share=1 if i == 1 else None)


def all_cases(seed):
    rng = random.Random(seed)
    cases = [*figures_of_e(), *figures_of_limits(), *figures_of_000(), *figures_of_crossings(),
             *figures_of_open_drain(), *figures_of_1024(), *refusals_of_open_drain()]
    for label, file, faults in accepted_boards(rng):
        cases += accepted_calls(rng, label, file, faults)
    for label, file in damaged_boards(rng):
        cases += damaged_calls(rng, label, file)
    rng.shuffle(cases)  # no answer rests on an earlier call: neighbours are about different boards
    return cases


# --------------------------------------------------------------------------
# Asking and comparing
# --------------------------------------------------------------------------

def encoded(one):
    """A case in the stream that client.c reads."""
    label = one.label.encode("ascii")[:255]
    lengths = b"".join(len(part).to_bytes(4, "little") for part in (one.file, one.capture, one.out))
    head = bytes([1 + QUESTIONS.index(one.question), len(label)]) + one.number.to_bytes(8, "little")
    return head + lengths + label + one.file + one.capture + one.out


def asked(client, stream, placement):
    """What the client answers to the whole stream."""
    ran = subprocess.run([*client, placement], input=stream, stdout=subprocess.PIPE)
    if ran.returncode != 0:
        raise SystemExit("compare: buffers at the %s of their page: the client ended with status %d"
                         % (placement, ran.returncode))
    return ran.stdout


def shown(question, bits):
    return "%016x %r" % (bits, document01.unpacked(question, bits))


def show_difference(at, one, placement, bits, after):
    print("compare: DIFFERENT: case %d (%s), %s, number %d, file of %d bytes, capture of %d, out of %d, at the %s of its page"
          % (at, one.label, one.question, one.number, len(one.file), len(one.capture), len(one.out), placement))
    if bits != one.bits:
        print("  wanted %s, got %s" % (shown(one.question, one.bits), shown(one.question, bits)))
    for i, (wanted, got) in enumerate(zip(one.after, after)):
        if wanted != got:
            print("  out's byte %d: wanted %02x, got %02x, before %02x" % (i, wanted, got, one.out[i]))
            break


def differences(cases, answers, placement):
    """How many cases are answered otherwise; the first are printed."""
    found, at = 0, 0
    for i, one in enumerate(cases):
        bits = int.from_bytes(answers[at:at + 8], "little")
        after = answers[at + 8:at + 8 + len(one.out)]
        at += 8 + len(one.out)
        if (bits, after) != (one.bits, one.after):
            found += 1
            if found <= MOST_SHOWN:
                show_difference(i, one, placement, bits, after)
    if at != len(answers):
        raise SystemExit("compare: %d bytes of answers, wanted %d" % (len(answers), at))
    return found


@functools.lru_cache(maxsize=None)
def kinds_in(file):
    return {cell.kind for cell in document01.read(file).cells}


def has_open_drain(one):
    """The case's file has cells, and one of them is an open-drain cell."""
    return one.bits & 255 not in range(1, 6) and document01.OPEN_DRAIN in kinds_in(one.file)


def missing(cases):
    """What had to occur and did not."""
    seen = {(one.question, one.bits & 255, has_open_drain(one)) for one in cases}
    for question in QUESTIONS:
        for number in (*range(13), *OWN_REFUSALS[question]):
            what = "refusal %d of %s" % (number, question) if number else "an accepted call of " + question
            if (question, number, False) not in seen:
                yield what
            if number not in range(1, 6) and (question, number, True) not in seen:
                yield what + " with open-drain cells"
    accepted = [one for one in cases if one.bits & 255 == 0]
    if sum(has_open_drain(one) for one in accepted) < LEAST_SHARE * len(accepted):
        yield "open-drain cells in %.0f %% of the accepted calls" % (100 * LEAST_SHARE)
    judged = set().union(*(one.after[:document01.header(one.file)[1]]
                           for one in cases if one.question == "marks" and one.bits & 255 == 0))
    yield from ("mark %d" % mark for mark in range(4) if mark not in judged)
    if len(cases) < LEAST_CALLS:
        yield "%d calls, there are %d" % (LEAST_CALLS, len(cases))


def tell(cases):
    for question in QUESTIONS:
        numbers = collections.Counter(one.bits & 255 for one in cases if one.question == question)
        print("compare: %-6s %5d calls, %5d accepted; refused %s"
              % (question, sum(numbers.values()), numbers[0],
                 ", ".join("%d: %d" % (n, k) for n, k in sorted(numbers.items()) if n)))
    numbers = collections.Counter(one.bits & 255 for one in cases)
    print("compare: all    %5d calls, %5d accepted; refused %s"
          % (len(cases), numbers[0], ", ".join("%d: %d" % (n, k) for n, k in sorted(numbers.items()) if n)))
    lines = [one for one in cases if has_open_drain(one)]
    print("compare: open-drain cells in %d of these calls, %d of them accepted"
          % (len(lines), sum(one.bits & 255 == 0 for one in lines)))


def main(client):
    start = time.time()
    seed = int(os.environ.get("RIGCANDLE_SEED") or random.SystemRandom().randrange(10 ** 9))
    print("compare: seed %d (RIGCANDLE_SEED=%d runs these cases again)" % (seed, seed), flush=True)
    cases = all_cases(seed)
    stream = b"".join(map(encoded, cases))
    print("compare: %d cases made, %d MB, %.0f s" % (len(cases), len(stream) >> 20, time.time() - start), flush=True)
    wrong = sum(differences(cases, asked(client, stream, placement), placement) for placement in ("end", "begin"))
    tell(cases)
    absent = list(missing(cases))
    for what in absent:
        print("compare: did not occur: " + what)
    print("compare: %d calls, %d different, seed %d, %.0f s" % (2 * len(cases), wrong, seed, time.time() - start))
    return 1 if wrong or absent else 0


if __name__ == "__main__":
    sys.exit(main(sys.argv[1:]))
