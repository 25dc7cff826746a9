"""Document 01 ("Exact scope and rules") with requests [1] and [3] of document 02
(both cells of a crossing, open-drain outputs) as plain Python, for comparison.

Written from the documents' sentences alone (and source 000, sections 2 to 5,
for the groups; docs/DECISIONS.md for the open points, its first list
being cited below as "OP n").  Each function carries its sentence; those of a
request stand behind "[1]" or "[3]".  Nothing here is clever; what is slow
stays slow, except that the vectors and words of one file are kept between calls.

    python3 document01.py              self-check: the figures of document 01
    python3 document01.py listing <f   the listing program
"""

import functools
import sys
from collections import namedtuple

NONE = 65535  # "65,535 means none."  OP 3: "None" is exactly 65,535.

INTERNAL, INPUT, CONTROL, THREE_STATE, TWO_STATE, OPEN_DRAIN = 0, 1, 2, 3, 4, 5

Cell = namedtuple("Cell", "kind on control net")
Board = namedtuple("Board", "cells nets limit")  # limit is SSOL
Vector = namedtuple("Vector", "group values")    # values: one 0/1 per net


# --------------------------------------------------------------------------
# The board file
# --------------------------------------------------------------------------

def u16(data, at):
    # "numbers little-endian"
    return data[at] + 256 * data[at + 1]


def blocks(file):
    # "Blocks of 512 bytes"
    return [file[k:k + 512] for k in range(0, len(file), 512)]


def sums(data):
    # "Start a = 1, b = 0; for each of bytes 0 to 507 add the byte to a, then
    # a to b, both sums wrapping at 65,536."
    a, b = 1, 0
    for byte in data:
        a = (a + byte) % 65536
        b = (b + a) % 65536
    return a, b


def blocks_for(cells):
    # "There are 1 + ceil(C / 84) blocks."
    return 1 + (cells + 83) // 84


def records_in(cells, k):
    # "Blocks 1 on: ... up to 84 cell records ..., each block full but the
    # last".  How many records cell block k (from 1) has.  OP 2: goes by C.
    return min(84, cells - 84 * (k - 1))


def header(file):
    # "10-11 cells C; 12-13 nets N; 14-15 SSOL"
    return u16(file, 10), u16(file, 12), u16(file, 14)


def record(file, position):
    # "cell records of 6 bytes from byte 4"; "A record: cell kind (1 byte),
    # on value (1), control position (2), net (2)."
    at = 512 * (1 + position // 84) + 4 + 6 * (position % 84)
    return Cell(file[at], file[at + 1], u16(file, at + 2), u16(file, at + 4))


def read(file):
    """The board of a file that has passed refusals 1 to 5."""
    c, n, limit = header(file)
    return Board([record(file, q) for q in range(c)], n, limit)


# --------------------------------------------------------------------------
# Numbered refusals.  Each gives its place, or None if it does not apply.
# "Checked in ascending order; the first that applies is given."
# --------------------------------------------------------------------------

def refusal_1(file):
    # 1: "file empty, not a multiple of 512, or over 14 blocks", place 0
    if len(file) == 0 or len(file) % 512 != 0 or len(file) > 14 * 512:
        return 0
    return None


def refusal_2(file):
    # 2: "some block's a or b is wrong", "lowest block"
    # "Bytes 508-509 hold a, 510-511 hold b."
    for k, block in enumerate(blocks(file)):
        a, b = sums(block[0:508])
        if u16(block, 508) != a or u16(block, 510) != b:
            return k
    return None


def refusal_3(file):
    # 3: "block 0 differs from its layout (not C, N, SSOL)", place 0
    # "Bytes 0-1 are the block's number from 0, byte 2 its kind, byte 3 its
    # record count."
    # "Block 0: kind 1, count 0; bytes 4-7 "BSIN"; byte 8 version 1; byte 9
    # zero; 10-11 cells C; 12-13 nets N; 14-15 SSOL; 16-507 zero."
    block = file[0:512]
    if u16(block, 0) != 0 or block[2] != 1 or block[3] != 0:
        return 0
    if block[4:8] != b"BSIN" or block[8] != 1 or block[9] != 0:
        return 0
    if any(block[16:508]):
        return 0
    return None


def refusal_4(file):
    # 4: "C, N or SSOL outside its limits", place 0
    # "Limits: C 1 to 1,024; N 1 to 256; SSOL 1 to 1,024"
    c, n, limit = header(file)
    if not 1 <= c <= 1024 or not 1 <= n <= 256 or not 1 <= limit <= 1024:
        return 0
    return None


def refusal_5(file):
    # 5: "wrong number of blocks (place 0), or a cell block differs from its
    # layout outside the records", "lowest block".  OP 2: a wrong number of
    # blocks goes first; a wrong number, kind or count byte is 5 at that block.
    c, _, _ = header(file)
    all_blocks = blocks(file)
    if len(all_blocks) != blocks_for(c):
        return 0
    for k in range(1, len(all_blocks)):
        block = all_blocks[k]
        count = records_in(c, k)
        # "Bytes 0-1 are the block's number", "Blocks 1 on: kind 2", "byte 3
        # its record count", "the rest to 507 zero"
        if u16(block, 0) != k or block[2] != 2 or block[3] != count:
            return k
        if any(block[4 + 6 * count:508]):
            return k
    return None


def record_holds(board, cell):
    # | kind | meaning            | on value | control                   | net     |
    # | 0    | internal           | 0        | none                      | none    |
    # | 1    | input              | 0        | none                      | below N |
    # | 2    | control            | 0 or 1   | none                      | none    |
    # | 3    | three-state output | 0        | position of a kind 2 cell | below N |
    # | 4    | two-state output   | 0        | none                      | below N |
    # [3] "New cell kind 5: control none, on value 0, net below N."
    # OP 3: the control position must be below C and its record's kind byte 2,
    # whatever else is wrong with that record.
    if cell.kind == INTERNAL:
        return cell.on == 0 and cell.control == NONE and cell.net == NONE
    if cell.kind == INPUT:
        return cell.on == 0 and cell.control == NONE and cell.net < board.nets
    if cell.kind == CONTROL:
        return cell.on in (0, 1) and cell.control == NONE and cell.net == NONE
    if cell.kind == THREE_STATE:
        return (cell.on == 0
                and cell.control < len(board.cells)
                and board.cells[cell.control].kind == CONTROL
                and cell.net < board.nets)
    if cell.kind == TWO_STATE:
        return cell.on == 0 and cell.control == NONE and cell.net < board.nets
    if cell.kind == OPEN_DRAIN:
        return cell.on == 0 and cell.control == NONE and cell.net < board.nets
    return False


def refusal_6(board):
    # 6: "a record breaks the table above", "lowest position"
    # [3] "6 knows the new kind"
    for q, cell in enumerate(board.cells):
        if not record_holds(board, cell):
            return q
    return None


def outputs_of(board):
    """For each net, the positions of its kind 3, 4 and 5 outputs."""
    found = [[] for _ in range(board.nets)]
    for q, cell in enumerate(board.cells):
        if cell.kind in (THREE_STATE, TWO_STATE, OPEN_DRAIN):
            found[cell.net].append(q)
    return found


def control_of(board, q):
    """The control cell of the controlled driver at q; None for other cells."""
    # Kind 3: the record's control position.
    # [3] "It counts as a control cell of its own"
    if board.cells[q].kind == THREE_STATE:
        return board.cells[q].control
    if board.cells[q].kind == OPEN_DRAIN:
        return q
    return None


def drivers_of(board):
    """For each net, its number of controlled drivers."""
    # OP 5: 9 counts kind 3 outputs.  [3] "9 and 11 [count it] as a controlled
    # driver"
    return [len([q for q in outputs if control_of(board, q) is not None])
            for outputs in outputs_of(board)]


def refusal_7(board):
    # 7: "a net has no kind 3 or 4 output", "lowest net"
    # [3] "7 and 8 count it as an output"
    for net, outputs in enumerate(outputs_of(board)):
        if len(outputs) == 0:
            return net
    return None


def refusal_8(board):
    # 8: "a net has a kind 4 output and another output, or two outputs of one
    # control cell", "lowest net".  OP 4: two kind 4 outputs are "a kind 4
    # output and another"; "two outputs of one control cell" means on that net.
    # [3] "7 and 8 count it as an output"; it is its own control cell's only one
    for net, outputs in enumerate(outputs_of(board)):
        cells = [board.cells[q] for q in outputs]
        if any(cell.kind == TWO_STATE for cell in cells) and len(cells) > 1:
            return net
        controls = [control_of(board, q) for q in outputs if control_of(board, q) is not None]
        if len(set(controls)) != len(controls):
            return net
    return None


def refusal_9(board):
    # 9: "a net has over 16 controlled drivers", "lowest net"
    for net, drivers in enumerate(drivers_of(board)):
        if drivers > 16:
            return net
    return None


def control_cells(board):
    """Positions of the kind 2 and kind 5 cells, ascending."""
    # [3] "10 and 11 [count it] as a control cell"
    return [q for q, cell in enumerate(board.cells) if cell.kind in (CONTROL, OPEN_DRAIN)]


def net_sets(board):
    # "A control cell's net set is the nets of its kind 3 outputs."
    # [3] "It counts as a control cell of its own with that one net"
    sets = {q: set() for q in control_cells(board)}
    for q, cell in enumerate(board.cells):
        if cell.kind == THREE_STATE:
            sets[cell.control].add(cell.net)
        elif cell.kind == OPEN_DRAIN:
            sets[q].add(cell.net)
    return sets


def cross(s, t):
    # "two control cells' net sets meet and neither holds the other"
    # "Equal sets hold each other."  OP 6: an empty set meets nothing.
    return not s.isdisjoint(t) and not s <= t and not t <= s


def refusal_10(board):
    # 10: "two control cells' net sets meet and neither holds the other",
    # "lowest position that is the smaller of such a pair"
    sets = net_sets(board)
    controls = control_cells(board)
    for x, c in enumerate(controls):
        for d in controls[x + 1:]:  # c < d
            if cross(sets[c], sets[d]):
                return c
    return None


def second_place(board, number, place):
    # [1] "Return the smallest larger position that crosses it as a second
    # place; all other refusals return 0 there."
    if number != 10:
        return 0
    sets = net_sets(board)
    return min(d for d in sets if d > place and cross(sets[place], sets[d]))


def degrees(board):
    # "The degree of a net is its number of control cells; a net with a kind 4
    # output has degree 0."
    degree = [0] * board.nets
    for nets in net_sets(board).values():
        for net in nets:
            degree[net] += 1
    for cell in board.cells:
        if cell.kind == TWO_STATE:
            degree[cell.net] = 0
    return degree


def refusal_11(board):
    # 11: "a control cell's nets differ in number of controlled drivers",
    # "lowest such cell"
    drivers = drivers_of(board)
    sets = net_sets(board)
    for c in control_cells(board):
        if len({drivers[net] for net in sets[c]}) > 1:
            return c
    return None


def refusal_12(board):
    # 12: "over 4,096 vectors", place 0
    if total(board.nets, turns(board), board.limit) > 4096:
        return 0
    return None


def board_verdict(file):
    """(number, place, second place) of refusals 1 to 11; (0, 0, 0) if accepted."""
    file = bytes(file)
    for number, check in ((1, refusal_1), (2, refusal_2), (3, refusal_3),
                          (4, refusal_4), (5, refusal_5)):
        place = check(file)
        if place is not None:
            return number, place, 0
    board = read(file)
    for number, check in ((6, refusal_6), (7, refusal_7), (8, refusal_8),
                          (9, refusal_9), (10, refusal_10), (11, refusal_11)):
        place = check(board)
        if place is not None:
            return number, place, second_place(board, number, place)
    return 0, 0, 0


@functools.lru_cache(maxsize=8)
def verdict(file):
    """(number, place, second place) of refusals 1 to 12, which belong to all
    four questions (OP 1); (0, 0, 0) if accepted."""
    found = board_verdict(file)
    if found[0] != 0:
        return found
    place = refusal_12(read(file))
    if place is not None:
        return 12, place, 0
    return 0, 0, 0


# --------------------------------------------------------------------------
# Groups
# --------------------------------------------------------------------------

def turns(board):
    # "G is the largest degree, but at least 1."
    return max([1] + degrees(board))


def groups_of(board):
    """The groups as lists of positions, ascending; groups_of(b)[0] is group 1."""
    degree = degrees(board)
    sets = net_sets(board)
    controls_of = [[] for _ in range(board.nets)]
    for c, nets in sets.items():
        for net in nets:
            controls_of[net].append(c)

    def sharing(c):
        # "every control cell that shares a net with it, itself included"
        return {c}.union(*(controls_of[net] for net in sets[c]))

    # [3] "both passes stop at it": as at a kind 3 output, with the control
    # cell that it is itself.
    stops = [(board.cells[q].net, control_of(board, q)) for q in reversed(range(len(board.cells)))
             if control_of(board, q) is not None]
    earlier = set()
    result = []
    # "For each group g from 1 to G nothing is marked at first."
    for g in range(1, turns(board) + 1):
        marked = set()
        on = set()
        # "First pass, positions from highest to lowest: at a kind 3 output
        # whose net has degree g or more, whose control cell is unmarked and
        # was on in no earlier group, turn that control cell on and mark every
        # control cell that shares a net with it, itself included."
        for net, control in stops:
            if degree[net] >= g and control not in marked and control not in earlier:
                on.add(control)
                marked |= sharing(control)
        # "Second pass, same order: at a kind 3 output whose net has degree
        # below g and whose control cell is unmarked, do the same; earlier
        # groups don't matter here."
        for net, control in stops:
            if degree[net] < g and control not in marked:
                on.add(control)
                marked |= sharing(control)
        earlier |= on
        result.append(sorted(on))
    return result


def row_bytes(board):
    # "R = ceil(C / 8)."
    return (len(board.cells) + 7) // 8


def row_of_positions(board, positions):
    # "Position c is bit c mod 8 (from the least) of byte c / 8; spare bits
    # are 0."
    row = bytearray(row_bytes(board))
    for c in positions:
        row[c // 8] |= 1 << (c % 8)
    return bytes(row)


# --------------------------------------------------------------------------
# Codes and vectors
# --------------------------------------------------------------------------

def patterns(nets):
    # "p is the least number with 2^p at least N + 2."
    p = 0
    while 2 ** p < nets + 2:
        p += 1
    return p


def pattern(nets, k):
    # "Net i has code i + 1 in p bits; pattern 1 is the most significant bit."
    # Pattern k (1 to p) as one value per net.
    p = patterns(nets)
    return [((i + 1) >> (p - k)) & 1 for i in range(nets)]


def base(nets, turn_count):
    # "Each group applies patterns 1 to p in order, so there are G x p base
    # vectors."
    return [Vector(g, pattern(nets, k))
            for g in range(1, turn_count + 1)
            for k in range(1, patterns(nets) + 1)]


def inserted_number(h, limit):
    # "Between neighbours with h nets different, also across a group's end,
    # ceil(h / SSOL) - 1 vectors are inserted (none for h = 0)."
    if h == 0:
        return 0
    return (h + limit - 1) // limit - 1


def differing(old, new):
    """The nets whose values differ, ascending."""
    return [i for i in range(len(old)) if old[i] != new[i]]


def total(nets, turn_count, limit):
    """The number of vectors, counted without making the inserted ones."""
    line = base(nets, turn_count)
    count_ = len(line)
    for old, new in zip(line, line[1:]):
        count_ += inserted_number(len(differing(old.values, new.values)), limit)
    return count_


def woven(line, limit):
    """The base vectors of `line` with those inserted between them."""
    # "The first vector has no predecessor."
    result = [line[0]]
    for old, new in zip(line, line[1:]):
        differs = differing(old.values, new.values)
        for t in range(1, inserted_number(len(differs), limit) + 1):
            # "The t-th takes the new value at the t x SSOL lowest-numbered
            # differing nets and the old elsewhere, with the earlier group's
            # drivers on."
            values = list(old.values)
            for i in differs[:t * limit]:
                values[i] = new.values[i]
            result.append(Vector(old.group, values))
        result.append(new)
    return result


def vectors_of(board):
    """All vectors in order, as (group, values); for accepted boards."""
    return woven(base(board.nets, turns(board)), board.limit)


def row_of(board, groups_, one):
    """The row of the vector `one`, where groups_ is groups_of(board)."""
    # "A vector's row, in the groups' bit order with spare bits 0: a control
    # cell has its on value when on, else the other; an output has its net's
    # value, on or not; inputs and internal cells 0."
    # [3] "In its turn it is loaded with the net's value, otherwise with 1, and
    # its group bit stands at its own position."
    on = set(groups_[one.group - 1])
    bits = []
    for q, cell in enumerate(board.cells):
        if cell.kind == CONTROL:
            value = cell.on if q in on else 1 - cell.on
        elif cell.kind in (THREE_STATE, TWO_STATE):
            value = one.values[cell.net]
        elif cell.kind == OPEN_DRAIN:
            value = one.values[cell.net] if q in on else 1
        else:
            value = 0
        if value == 1:
            bits.append(q)
    return row_of_positions(board, bits)


# --------------------------------------------------------------------------
# Marks
# --------------------------------------------------------------------------

def own_words(board, vectors):
    # "A net's own word is its value in each vector."
    return [bytes(one.values[net] for one in vectors) for net in range(board.nets)]


def mark_list(board, words, capture):
    """The N marks; words is own_words(..), and the capture has the right length."""
    # "The capture has a row per vector in the same bit order; only input
    # cells are looked at."
    size = row_bytes(board)
    readings = []  # (net, bits read in every vector), one per input cell
    for q, cell in enumerate(board.cells):
        if cell.kind == INPUT:
            column = capture[q // 8::size]
            readings.append((cell.net, bytes((x >> (q % 8)) & 1 for x in column)))
    marks_ = []
    for net, word in enumerate(words):
        own = [bits for other, bits in readings if other == net]
        if len(own) == 0:
            # 2: "the net has no input cell"
            mark = 2
        elif any(bits != word for bits in own):
            # 1: "an input cell of it once differs from its value"
            mark = 1
        elif any(other != net and bits == word for other, bits in readings):
            # 3: "neither of these, and an input cell of another net reads
            # this net's own word in every vector"
            mark = 3
        else:
            # 0: "otherwise"
            mark = 0
        marks_.append(mark)
    return marks_


# --------------------------------------------------------------------------
# What is kept of a file between calls (nothing but speed)
# --------------------------------------------------------------------------

class Kept:
    def __init__(self, file):
        self.board = read(file)
        self.groups = groups_of(self.board)
        self.patterns = patterns(self.board.nets)
        self.total = total(self.board.nets, len(self.groups), self.board.limit)
        self.size = row_bytes(self.board)

    @functools.cached_property
    def vectors(self):
        made = vectors_of(self.board)
        assert len(made) == self.total
        return made

    @functools.cached_property
    def words(self):
        return own_words(self.board, self.vectors)

    def row(self, number):
        return row_of(self.board, self.groups, self.vectors[number])


@functools.lru_cache(maxsize=8)
def kept(file):
    """For a file with verdict (0, 0, 0)."""
    return Kept(file)


# --------------------------------------------------------------------------
# The four questions as C sees them (64 bits and the buffer afterwards)
# --------------------------------------------------------------------------

def refused(number, place, second=0):
    # "Bits 0-7: the refusal's number"; "8-23 place; 24-39 the second place"
    # [1] "so the board check and all four questions report it"
    return number | place << 8 | second << 24


def written(buffer, data):
    # "Bytes of a buffer past those needed keep their values."
    return data + buffer[len(data):]


def groups(file, buffer):
    """-> (bits64, buffer_after)"""
    file, buffer = bytes(file), bytes(buffer)
    found = verdict(file)
    if found[0] != 0:
        return refused(*found), buffer
    k = kept(file)
    # "The groups question writes G rows of R bytes: the bit at a position is
    # 1 for a control cell that is on. ... It returns G."
    data = b"".join(row_of_positions(k.board, on) for on in k.groups)
    if len(buffer) < len(data):
        return refused(15, 0), buffer  # 15: "lent buffer too short"
    return len(k.groups) << 8, written(buffer, data)


def count(file):
    """-> bits64"""
    file = bytes(file)
    found = verdict(file)
    if found[0] != 0:
        return refused(*found)
    k = kept(file)
    # "The count question returns G, p and the total."
    # "8-15 G; 16-23 p; 24-39 total"
    return len(k.groups) << 8 | k.patterns << 16 | k.total << 24


def vector(file, number, buffer):
    """-> (bits64, buffer_after)"""
    file, buffer = bytes(file), bytes(buffer)
    found = verdict(file)
    if found[0] != 0:
        return refused(*found), buffer
    k = kept(file)
    # 13: "vector number not below the count", place 0
    if not number < k.total:
        return refused(13, 0), buffer
    if len(buffer) < k.size:
        return refused(15, 0), buffer
    # "The vector question returns its group and writes R bytes."
    return k.vectors[number].group << 8, written(buffer, k.row(number))


def marks(file, capture, buffer):
    """-> (bits64, buffer_after)"""
    file, capture, buffer = bytes(file), bytes(capture), bytes(buffer)
    found = verdict(file)
    if found[0] != 0:
        return refused(*found), buffer
    k = kept(file)
    # 14: "capture is not vectors x R bytes", place 0
    if len(capture) != k.total * k.size:
        return refused(14, 0), buffer
    if len(buffer) < k.board.nets:
        return refused(15, 0), buffer
    # "N bytes are written; the numbers of pass, fail and unsure are returned
    # and are the numbers of those bytes."
    data = bytes(mark_list(k.board, k.words, capture))
    passed = data.count(0)
    failed = data.count(1)
    unsure = data.count(2) + data.count(3)
    # "8-23 pass; 24-39 fail; 40-55 unsure"
    return (passed << 8 | failed << 24 | unsure << 40), written(buffer, data)


# --------------------------------------------------------------------------
# The listing program
# --------------------------------------------------------------------------

def listing(file):
    # "prints the vector total, then per line vector number from 0, group, row
    # in capital hex with byte 0 first, single spaces between"
    # "For a refusal it prints `refused`, number and place on one line."
    # OP 11: each line ends with a newline.
    file = bytes(file)
    number, place, _ = verdict(file)
    if number != 0:
        return b"refused %d %d\n" % (number, place)
    k = kept(file)
    lines = ["vectors %d\n" % k.total]
    for v in range(k.total):
        lines.append("%d %d %s\n" % (v, k.vectors[v].group, k.row(v).hex().upper()))
    return "".join(lines).encode("ascii")


# --------------------------------------------------------------------------
# Helpers for tests
# --------------------------------------------------------------------------

def group_lists(file):
    """Groups of an accepted file, as lists of positions."""
    return [list(on) for on in kept(bytes(file)).groups]


def vector_list(file):
    """All vectors of an accepted file, as (group, values of the nets)."""
    return [(one.group, list(one.values)) for one in kept(bytes(file)).vectors]


def vector_row(file, number):
    """The row of one vector of an accepted file."""
    return kept(bytes(file)).row(number)


def unpacked(question, bits):
    """The named numbers of a 64-bit answer, for reading by people."""
    number = bits & 255
    if number != 0:
        return {"refusal": number, "place": bits >> 8 & 65535, "second": bits >> 24 & 65535}
    if question == "groups":
        return {"G": bits >> 8 & 255}
    if question == "count":
        return {"G": bits >> 8 & 255, "p": bits >> 16 & 255, "total": bits >> 24 & 65535}
    if question == "vector":
        return {"group": bits >> 8 & 255}
    return {"pass": bits >> 8 & 65535, "fail": bits >> 24 & 65535, "unsure": bits >> 40 & 65535}


# --------------------------------------------------------------------------
# Self-check: the figures of document 01, and source 000's tables 3 and 5
# --------------------------------------------------------------------------

def self_check():
    from boards import board_e, cells_e, encode, mixed_line, table3, tied_capture, two_lines

    done = []

    def same(name, got, wanted):
        if got != wanted:
            raise SystemExit("%s: got %r, wanted %r" % (name, got, wanted))
        done.append(name)

    e = board_e()
    same("E accepted", board_verdict(e), (0, 0, 0))
    same("E file size", len(e), 1024)
    same("E groups", group_lists(e), [[3, 5], [0]])
    same("E groups bytes", groups(e, b"\xAA" * 6), (2 << 8, b"\x28\x00\x01\x00\xAA\xAA"))
    same("E count", unpacked("count", count(e)), {"G": 2, "p": 3, "total": 6})
    same("E listing", listing(e),
         b"vectors 6\n0 1 2000\n1 1 E400\n2 1 B200\n3 2 0900\n4 2 CD00\n5 2 9B00\n")

    one = board_e(limit=1)
    same("E SSOL 1 total", unpacked("count", count(one))["total"], 11)
    same("E SSOL 1 vector 1", vector_list(one)[1], (1, [0, 1, 0]))
    same("E SSOL 1 across the groups", [g for g, _ in vector_list(one)],
         [1] * 6 + [2] * 5)

    same("p", [patterns(n) for n in (1, 2, 3, 6, 7, 254, 255, 256)],
         [2, 2, 3, 3, 4, 8, 9, 9])
    same("508 zero bytes", sums(bytes(508)), (1, 508))

    def tied_marks(file, tie, nets):
        bits, out = marks(file, tied_capture(file, tie, nets), bytes(read(file).nets))
        found = unpacked("marks", bits)
        same("counts of " + repr((tie, nets)), found,
             {"pass": out.count(0), "fail": out.count(1), "unsure": out.count(2) + out.count(3)})
        return list(out)

    same("E 0 and 2 wired-AND", tied_marks(e, "and", [0, 2]), [3, 0, 1])
    same("E 0 and 1 wired-AND", tied_marks(e, "and", [0, 1]), [1, 1, 0])
    same("E 0 and 1 wired-OR", tied_marks(e, "or", [0, 1]), [1, 1, 3])
    same("E healthy", tied_marks(e, "healthy", []), [0, 0, 0])
    same("E SSOL 1 healthy", tied_marks(one, "healthy", []), [0, 0, 0])

    cells = cells_e()
    cells[9] = (0, 0, NONE, NONE)
    blind = encode(cells, 3, 2)
    same("E position 9 internal", tied_marks(blind, "healthy", []), [0, 2, 0])

    cells = cells_e()
    cells[7] = (4, 0, NONE, 0)
    same("E position 7 on net 0", board_verdict(encode(cells, 3, 2)), (7, 2, 0))
    same("E position 7 on net 0, listing", listing(encode(cells, 3, 2)), b"refused 7 2\n")

    crossing = [(3, 0, 4, 0), (2, 1, NONE, NONE), (3, 0, 1, 1), (3, 0, 1, 2),
                (2, 1, NONE, NONE), (3, 0, 4, 1)]
    same("crossing sets {0, 1} and {1, 2}", board_verdict(encode(crossing, 3, 2)), (10, 1, 4))

    single = encode([(4, 0, NONE, 0)], 1, 1)
    same("one two-state net", unpacked("count", count(single)), {"G": 1, "p": 2, "total": 2})
    same("one two-state net, listing", listing(single), b"vectors 2\n0 1 00\n1 1 01\n")
    same("one two-state net, groups", groups(single, b"\xFF\xFF"), (1 << 8, b"\x00\xFF"))

    def drivers(k):
        made = []
        for x in range(k):
            made += [(2, x % 2, NONE, NONE), (3, 0, 2 * x, 0)]
        return encode(made, 1, 1)

    same("16 drivers", board_verdict(drivers(16)), (0, 0, 0))
    same("16 drivers, groups", group_lists(drivers(16)), [[2 * x] for x in range(15, -1, -1)])
    same("17 drivers", board_verdict(drivers(17)), (9, 0, 0))

    t = table3()
    same("table 3 accepted", board_verdict(t), (0, 0, 0))
    same("table 3 degrees", degrees(read(t)), [3, 3, 3, 3, 2, 2])
    # table 5's output array, columns 26 23 22 20 17 15 12 5 0
    columns = (26, 23, 22, 20, 17, 15, 12, 5, 0)
    table5 = ("111001000", "000110110", "010000001")
    same("table 5", ["".join(str(int(c in on)) for c in columns) for on in group_lists(t)],
         list(table5))
    same("table 5, nothing else on", [len(on) for on in group_lists(t)], [4, 4, 2])
    # table 4's net vs control cell array
    same("table 4", [sorted(c for c, s in net_sets(read(t)).items() if n in s) for n in range(6)],
         [[0, 5, 22], [0, 5, 15], [0, 20, 26], [0, 17, 26], [12, 23], [12, 23]])

    # [1] By hand: position 1 has nets 0 and 1; the set at 4 lies inside, the one
    # at 6 holds it, those at 10 and 13 cross it.
    several = encode([(0, 0, NONE, NONE), (2, 1, NONE, NONE), (3, 0, 1, 0), (3, 0, 1, 1),
                      (2, 1, NONE, NONE), (3, 0, 4, 1), (2, 1, NONE, NONE), (3, 0, 6, 0), (3, 0, 6, 1),
                      (3, 0, 6, 2), (2, 1, NONE, NONE), (3, 0, 10, 1), (3, 0, 10, 3),
                      (2, 1, NONE, NONE), (3, 0, 13, 0), (3, 0, 13, 3)], 4, 2)
    same("two cross it", verdict(several), (10, 1, 10))
    same("two cross it, asked", (groups(several, b""), count(several), vector(several, 0, b""),
                                 marks(several, b"", b"")),
         ((0x0A00010A, b""), 0x0A00010A, (0x0A00010A, b""), (0x0A00010A, b"")))
    same("two cross it, listing", listing(several), b"refused 10 1\n")

    # [3] By hand: an open-drain cell out of its turn is 1 in every row.
    mixed = mixed_line()
    same("mixed line", board_verdict(mixed), (0, 0, 0))
    same("mixed line, groups", group_lists(mixed), [[3], [1], [0]])
    same("mixed line, groups bytes", groups(mixed, bytes(3)), (3 << 8, b"\x08\x02\x01"))
    same("mixed line, listing", listing(mixed),
         b"vectors 6\n0 1 01\n1 1 0D\n2 2 0B\n3 2 0F\n4 3 08\n5 3 0D\n")
    lines = two_lines()
    same("two lines, groups", group_lists(lines), [[1, 2], [0, 2]])
    same("two lines, listing", listing(lines),
         b"vectors 7\n0 1 05\n1 1 07\n2 1 03\n3 1 01\n4 2 06\n5 2 07\n6 2 03\n")
    same("two lines healthy", tied_marks(lines, "healthy", []), [0, 0])
    same("two lines wired-AND", tied_marks(lines, "and", [0, 1]), [1, 1])

    same("total at the limit", total(128, 16, 2), 4096)
    same("total past the limit", total(183, 16, 3), 4098)
    # OP 7: "no base board has exactly 4,097 vectors; the nearest are 4,096
    # (N 128, 16 drivers on a net, SSOL 2) and 4,098 (N 183, 16, SSOL 3)."
    found = set()
    for n in range(1, 257):
        inner = [len(differing(pattern(n, k), pattern(n, k + 1))) for k in range(1, patterns(n))]
        across = len(differing(pattern(n, patterns(n)), pattern(n, 1)))
        for limit in range(1, 257):
            a = patterns(n) + sum(inserted_number(h, limit) for h in inner)
            b = inserted_number(across, limit)
            for g in range(1, 17):
                t_ = g * a + (g - 1) * b
                if 4090 <= t_ <= 4102:
                    found.add(t_)
    same("4,097 is no total", (4096 in found, 4097 in found, 4098 in found), (True, False, True))

    # refusals 13, 14, 15, each changing no byte
    same("13", vector(e, 6, b"\xAA" * 2), (13, b"\xAA" * 2))
    same("13 before 15", vector(e, 2 ** 64 - 1, b""), (13, b""))
    same("vector 2^32", vector(e, 2 ** 32, b"\xAA" * 2), (13, b"\xAA" * 2))
    same("15 vector", vector(e, 5, b"\xAA"), (15, b"\xAA"))
    same("vector", vector(e, 5, b"\xAA" * 3), (2 << 8, b"\x9B\x00\xAA"))
    same("14", marks(e, bytes(11), b"\xAA" * 3), (14, b"\xAA" * 3))
    same("14 before 15", marks(e, bytes(13), b""), (14, b""))
    same("15 marks", marks(e, bytes(12), b"\xAA" * 2), (15, b"\xAA" * 2))
    same("15 groups", groups(e, b"\xAA" * 3), (15, b"\xAA" * 3))
    same("refused, packed", groups(encode(crossing, 3, 2), b"\xAA"), (10 | 1 << 8 | 4 << 24, b"\xAA"))
    return done


if __name__ == "__main__":
    if sys.argv[1:] == ["listing"]:
        sys.stdout.buffer.write(listing(sys.stdin.buffer.read(14 * 512 + 1)))
    else:
        # Under the name document01, so that boards.py sees the same module.
        import document01
        checks = document01.self_check()
        print("document01: %d figures hold" % len(checks))
