"""Verdict cases for a small test program.

    python3 cases.py OUTDIR        about 110 cases
    python3 cases.py OUTDIR all    some 40 more

writes OUTDIR/stdin (each case: 2-byte little-endian length, then that many
bytes of board file), OUTDIR/stdout (one line a case, "NUMBER PLACE SECOND")
and OUTDIR/names (one line a case: what it is, for people).  Every expected
verdict below is written by hand and compared with document01.board_verdict.
No board here has over 4,096 vectors, so refusal 12 changes no line.
"""

import os
import random
import sys

import document01
from boards import (NONE, all_open_drain, board_e, cells_e, encode, full, mixed_line, resealed,
                    sealed, table3, two_lines)


def X():
    return (0, 0, NONE, NONE)


def I(net):
    return (1, 0, NONE, net)


def C(on=1):
    return (2, on, NONE, NONE)


def T(control, net):
    return (3, 0, control, net)


def W(net):
    return (4, 0, NONE, net)


def D(net):
    return (5, 0, NONE, net)


def e_with(changes, nets=3, limit=2, more=()):
    cells = cells_e()
    for q, cell in changes.items():
        cells[q] = cell
    return encode(cells + list(more), nets, limit)


def poke(file, changes, reseal=True):
    out = bytearray(file)
    for at, value in changes.items():
        out[at] = value
    return resealed(out) if reseal else bytes(out)


def drivers(*per_net):
    """Net i with per_net[i] drivers, each with a control cell of its own."""
    cells = []
    for net, k in enumerate(per_net):
        for x in range(k):
            cells += [C(x % 2), T(len(cells), net)]
    return encode(cells, len(per_net), 1)


def sets(*controls, filler=0):
    """Control cells with the given net sets in this order, each followed by
    its outputs; `filler` internal cells in front.  Nets are 0 to the highest."""
    cells = [X()] * filler
    places = []
    for s in controls:
        places.append(len(cells))
        c = len(cells)
        cells.append(C(len(places) % 2))
        cells += [T(c, net) for net in s]
    return encode(cells, 1 + max(max(s) for s in controls if s), 2), places


def crossed(first, second, *controls, filler=0):
    """Control cells with these net sets, refused 10 at two of them, which are
    counted from 0."""
    file, places = sets(*controls, filler=filler)
    return file, 10, places[first], places[second]


def far(first, second):
    """Sets {0, 1} and {1, 2} of control cells at these positions, the second
    being the last; the outputs stand at the lowest positions that are left."""
    cells = [X()] * second + [C(0)]
    cells[first] = C()
    left = (q for q in range(second) if q != first)
    for output in (T(first, 0), T(first, 1), T(second, 1), T(second, 2)):
        cells[next(left)] = output
    return encode(cells, 3, 2), 10, first, second


def document_01(case, more):
    e = board_e()
    case("board E", e, 0, 0)
    more("board E, SSOL 1,024", board_e(1024), 0, 0)
    case("E, position 7 on net 0", e_with({7: W(0)}), 7, 2)
    case("table 3", table3(), 0, 0)
    big = full(random.Random(20), share=0)
    assert len(big) == 7168
    case("1,024 cells, 256 nets, degree 16", big, 0, 0)
    case("one cell", encode([W(0)], 1, 1), 0, 0)
    more("84 cells", encode([W(0)] + [X()] * 83, 1, 1), 0, 0)
    case("85 cells", encode([X()] * 84 + [W(0)], 1, 1), 0, 0)
    case("idle control cells", encode([C(0), C(1), C(1), T(2, 0), C(0)], 1, 1), 0, 0)

    # 1
    case("empty", b"", 1, 0)
    case("511 bytes", e[:511], 1, 0)
    case("513 bytes", e[:513], 1, 0)
    more("1,023 bytes", e[:1023], 1, 0)
    case("15 blocks of zeros", bytes(7680), 1, 0)
    case("full board and one block more, sums right", big + sealed(bytes(508)), 1, 0)

    # 2
    case("14 blocks of zeros", bytes(7168), 2, 0)
    more("wrong byte in block 1", poke(e, {512 + 300: 1}, reseal=False), 2, 1)
    more("a's high byte wrong in block 1", poke(e, {512 + 509: e[512 + 509] ^ 1}, False), 2, 1)
    more("b's low byte wrong in block 0", poke(e, {510: e[510] ^ 128}, False), 2, 0)
    case("two bytes changed places: only b wrong", poke(e, {4: e[5], 5: e[4]}, False), 2, 0)
    case("sums wrong in blocks 0 and 1", poke(e, {20: 1, 512 + 300: 1}, False), 2, 0)
    case("block 1's sum wrong, and block 0's layout with right sums",
         poke(poke(e, {8: 2}), {512 + 300: 1}, False), 2, 1)
    case("full board, sum wrong in block 13", poke(big, {7167: big[7167] ^ 255}, False), 2, 13)

    # 3
    case("one block of zeros, sums right", sealed(bytes(508)), 3, 0)
    more("version 2", poke(e, {8: 2}), 3, 0)
    case("byte 9 not zero", poke(e, {9: 1}), 3, 0)
    case("byte 507 of block 0 not zero", poke(e, {507: 1}), 3, 0)
    more("byte 16 of block 0 not zero", poke(e, {16: 255}), 3, 0)
    case("block 0 counts a record", poke(e, {3: 1}), 3, 0)
    more("block 0's number is 256", poke(e, {1: 1}), 3, 0)
    case("block 0's layout, C, number of blocks and a record at fault",
         poke(e, {7: 110, 10: 0, 514: 3, 516: 9}), 3, 0)

    # 4
    more("C 0", poke(e, {10: 0}), 4, 0)
    case("C 1,025", poke(big, {10: 1, 11: 4}), 4, 0)
    more("N 0", poke(e, {12: 0}), 4, 0)
    case("N 257", poke(big, {12: 1, 13: 1}), 4, 0)
    more("SSOL 0", poke(e, {14: 0}), 4, 0)
    case("SSOL 1,025", poke(e, {14: 1, 15: 4}), 4, 0)
    case("SSOL 0, block 1's number and record 0 at fault", poke(e, {14: 0, 512: 2, 516: 5}), 4, 0)

    # 5
    three = encode([X()] * 84 + [W(0), I(0)], 1, 1)  # blocks 0, 1, 2
    case("cell block missing", three[:1024], 5, 0)
    more("no cell block", e[:512], 5, 0)
    more("one block too many", e + sealed(bytes([2, 0, 2, 0]) + bytes(504)), 5, 0)
    case("one block too many, and block 1's kind", poke(e, {514: 1}) + sealed(bytes(508)), 5, 0)
    case("block 2's number is 1", poke(three, {1024: 1}), 5, 2)
    more("kind of block 1, number of block 2", poke(three, {514: 0, 1024: 3}), 5, 1)
    case("count byte of block 2", poke(three, {1024 + 3: 84}), 5, 2)
    more("full block that counts 0", poke(three, {512 + 3: 0}), 5, 1)
    case("C one less than the records", poke(three, {10: 85}), 5, 2)
    more("a byte behind the last record", poke(e, {512 + 4 + 66: 1}), 5, 1)
    more("byte 507 of block 2", poke(three, {1024 + 507: 1}), 5, 2)
    case("rest of block 2 and a record of block 1", poke(three, {1024 + 507: 1, 516: 7}), 5, 2)

    # 6
    case("kind 6 at the last position", e_with({10: (6, 0, NONE, 2)}), 6, 10)
    case("on value 2 of a control cell", e_with({3: (2, 2, NONE, NONE)}), 6, 3)
    case("on value 1 of a three-state output", e_with({6: (3, 1, 5, 1)}), 6, 6)
    more("three-state output without control", e_with({2: T(NONE, 1)}), 6, 2)
    case("control position C", e_with({4: T(11, 0)}), 6, 4)
    more("control position of an output", e_with({4: T(1, 0)}), 6, 4)
    more("control cell is the output itself", e_with({4: T(4, 0)}), 6, 4)
    case("net N", e_with({9: I(3)}), 6, 9)
    more("input without net", e_with({9: I(NONE)}), 6, 9)
    more("two-state output with control", e_with({7: (4, 0, 0, 2)}), 6, 7)
    more("internal cell with net", e_with({8: (0, 0, NONE, 0)}), 6, 8)
    more("control cell with net", e_with({5: (2, 1, NONE, 1)}), 6, 5)
    case("control cell made internal: its output breaks", e_with({3: X()}), 6, 4)
    case("control cell of kind 9 above its output",
         encode([W(0), T(4, 1), I(1), X(), (9, 1, NONE, NONE)], 2, 1), 6, 1)
    case("control cell with a bad on value above its output",
         encode([W(0), T(4, 1), I(1), X(), (2, 7, NONE, NONE)], 2, 1), 6, 4)
    case("two broken records", e_with({9: I(300), 6: T(5, 65534)}), 6, 6)
    more("first record of block 2", encode([W(0)] + [X()] * 83 + [(1, 0, 0, 0)], 1, 1), 6, 84)
    case("broken record and a net without output", e_with({7: W(0), 10: I(3)}), 6, 10)

    # 7
    case("two nets without output", encode([W(0), I(1), W(2), I(3)], 4, 1), 7, 1)
    case("net 3 without output, net 0 with two", encode([W(0), W(0), W(1), W(2)], 4, 1), 7, 3)

    # 8
    case("two two-state outputs", e_with({}, more=[W(2)]), 8, 2)
    more("two-state and three-state", e_with({}, more=[W(1)]), 8, 1)
    case("two outputs of one control cell", e_with({}, more=[T(5, 1)]), 8, 1)
    case("nets 2 and 0 both", e_with({}, more=[W(2), T(3, 0)]), 8, 0)
    case("17 outputs of one control cell on net 1",
         encode([W(0), C()] + [T(1, 1)] * 17, 2, 1), 8, 1)
    clash = [C(), T(0, 0), T(0, 1), C(), T(3, 1), T(3, 2), W(3), W(3)]
    case("clash on net 3 and crossing sets", encode(clash, 4, 2), 8, 3)

    # 9
    case("16 drivers", drivers(16), 0, 0)
    case("17 drivers", drivers(17), 9, 0)
    case("17 drivers on nets 1 and 2, 16 on net 0", drivers(16, 17, 17), 9, 1)
    cells = [C(), T(0, 0), T(0, 1), C(), T(3, 1), T(3, 2)]
    for x in range(16):
        cells += [C(), T(len(cells), 2)]
    case("17 drivers on net 2 and crossing sets", encode(cells, 3, 2), 9, 2)

    # 10
    case("sets {0, 1} and {1, 2}", *crossed(0, 1, [0, 1], [1, 2], filler=5))
    more("sets {1, 2} and {0, 1}, drivers equal", *crossed(1, 2, [0], [1, 2], [0, 1], [2]))
    case("two crossing pairs, the inner one found first from the end",
         *crossed(0, 3, [0, 1], [3, 4], [4, 5], [1, 2]))
    more("one cell crosses two lower ones",
         *crossed(1, 3, [6], [0, 1], [2, 3], [1, 2], [4, 5], [5, 6]))
    case("unequal drivers below, crossing above", *crossed(2, 3, [0, 1], [0], [2, 3], [3, 4]))
    case("an uneven cell that crosses none is lower than the pair, idle cells around",
         *crossed(3, 5, [], [0, 1, 2], [1], [3, 5], [], [4, 5], []))
    more("equal sets, nested sets",
         sets([0, 1, 2, 3], [0, 1], [2, 3], [0, 1, 2, 3], [0], [1], [3], [2])[0], 0, 0)
    case("nested with unequal parts, all drivers 3",
         sets([2], [0, 1, 2, 3], [0, 3], [1, 2], [1], [0, 3])[0], 0, 0)

    # 11
    case("sets {0} and {0, 1}", *(lambda f, p: (f, 11, p[1]))(*sets([0], [0, 1])))
    case("two uneven cells",
         *(lambda f, p: (f, 11, p[2]))(*sets([4], [0], [0, 1], [2, 3], [3])))
    more("drivers 2 and 3 under one cell",
         *(lambda f, p: (f, 11, p[3]))(*sets([0], [0], [1], [1, 0], [2])))


def open_drain_records(case, more):
    """Request [3]: 6 knows the new kind."""
    line = [D(0), C(), T(1, 0), D(0), I(0)]
    broken = lambda *record: encode(line[:3] + [record] + line[4:], 1, 1)
    case("two open-drain cells and a three-state output", mixed_line(), 0, 0)
    case("open-drain cell with on value 1", broken(5, 1, NONE, 0), 6, 3)
    case("open-drain cell with a control cell's position", broken(5, 0, 1, 0), 6, 3)
    more("open-drain cell with its own position as control", broken(5, 0, 3, 0), 6, 3)
    more("open-drain cell with control 65,534", broken(5, 0, 65534, 0), 6, 3)
    case("open-drain cell without net", broken(5, 0, NONE, NONE), 6, 3)
    case("open-drain cell on net N", broken(5, 0, NONE, 1), 6, 3)
    case("three-state output whose control is an open-drain cell", broken(3, 0, 0, 0), 6, 3)
    case("the same, with the open-drain cell above it",
         encode([T(1, 0), D(0), I(0)], 1, 1), 6, 0)
    case("control cell made open-drain without net: its output breaks first",
         e_with({5: T(6, 1), 6: (5, 1, NONE, NONE)}), 6, 5)
    more("control cell made open-drain: only its output breaks",
         encode([T(1, 0), D(0), W(1)], 2, 1), 6, 0)
    more("kind 6 in place of an open-drain cell", broken(6, 0, NONE, 0), 6, 3)


def open_drain_outputs(case, more):
    """Request [3]: 7 and 8 count it as an output, 9 as a controlled driver."""
    case("a lone open-drain cell", encode([D(0)], 1, 1), 0, 0)
    case("E, position 7 open-drain", e_with({7: D(2)}), 0, 0)
    more("two open-drain lines", two_lines(), 0, 0)
    case("open-drain nets 0 and 2, net 1 only with an input",
         encode([D(0), I(1), D(2)], 3, 1), 7, 1)
    case("two open-drain cells on one net", encode([D(0), D(0)], 1, 1), 0, 0)
    case("two-state output, and an open-drain cell above it", e_with({10: D(2)}), 8, 2)
    case("open-drain cell, and a two-state output above it",
         encode([W(0), D(1), D(1), W(1)], 2, 1), 8, 1)
    more("two-state output among 17 open-drain cells", encode([D(0)] * 17 + [W(0)], 1, 1), 8, 0)
    case("two outputs of one control cell among open-drain cells",
         encode([D(0), D(1), C(), T(2, 1), D(1), T(2, 1)], 2, 1), 8, 1)
    both = []
    for x in range(8):
        both += [D(0), C(x % 2), T(3 * x + 1, 0)]
    case("16 drivers of both kinds", encode(both, 1, 1), 0, 0)
    case("17 drivers, nine of them open-drain", encode(both + [D(0)], 1, 1), 9, 0)
    case("17 drivers, nine of them three-state", encode(both + [C(), T(24, 0)], 1, 1), 9, 0)
    more("16 open-drain cells", encode([D(0)] * 16, 1, 1), 0, 0)
    case("17 open-drain cells on net 2, 16 on net 1",
         encode([D(0)] + [D(1), D(2)] * 16 + [D(2)], 3, 1), 9, 2)


def open_drain_controls(case, more):
    """Request [3]: 10 and 11 count it as a control cell, 11 as a controlled driver."""
    crossing = [C(), T(1, 0), T(1, 1), C(0), T(4, 1), T(4, 2)]
    case("sets {0, 1} and {1, 2}, an open-drain cell on net 1 below both",
         encode([D(1)] + crossing, 3, 2), 10, 1, 4)
    case("the same, with open-drain cells on all nets below, between and above",
         encode([D(0), C(), T(1, 0), T(1, 1), D(1), C(0), T(5, 1), T(5, 2), D(2)], 3, 2), 10, 1, 5)
    case("nested sets, with open-drain cells for the single nets",
         encode([D(1), C(), T(1, 0), T(1, 1), T(1, 2), C(0), T(5, 0), T(5, 2), D(0), D(2), D(1)],
                3, 2), 0, 0)
    pair = [C(), T(1, 0), T(1, 1)]
    case("set {0, 1}, an open-drain cell on net 0", encode([D(0)] + pair, 2, 1), 11, 1)
    more("set {0, 1}, an open-drain cell on net 1 above it",
         encode([X()] + pair + [D(1)], 2, 1), 11, 1)
    case("set {0, 1}, an open-drain cell on each of the nets",
         encode([D(0)] + pair + [D(1)], 2, 1), 0, 0)
    case("set {0, 1}, an open-drain cell on net 0, a three-state output on net 1",
         encode([D(0)] + pair + [C(0), T(4, 1)], 2, 1), 0, 0)
    case("set {0, 1}, two open-drain cells on net 0, one on net 1",
         encode([D(0)] + pair + [D(1), D(0)], 2, 1), 11, 1)
    case("two uneven cells, the higher one with the lower open-drain cell",
         encode([D(2), X(), C(), T(2, 0), T(2, 1), D(1), C(), T(6, 2), T(6, 3)], 4, 1), 11, 2)
    for nets in (64, 256):
        case("1,024 open-drain cells on %d nets" % nets, all_open_drain(nets), 0, 0)
    # position 1,023 moves from net 63 to net 40, which then has 17
    case("1,024 open-drain cells on 64 nets, the last on net 40",
         poke(all_open_drain(64), {512 * 13 + 4 + 6 * 15 + 4: 40}), 9, 40)


def both_cells(case, more):
    """Request [1]: the smallest larger position that crosses the first is named too."""
    case("the first of the pair at position 0", *crossed(0, 1, [0, 1], [1, 2]))
    more("pair after pair", *crossed(0, 1, [3, 4], [4, 5], [0, 1], [1, 2]))
    case("two pairs that overlap", *crossed(0, 2, [0, 1], [3, 4], [1, 2], [4, 5]))
    case("the inner of two pairs has the lower nets, idle cells above it",
         *crossed(0, 8, [3, 4], [0, 1], [1, 2], [], [], [], [], [], [4, 5]))
    case("the pair inside the first ends lower", *crossed(0, 3, [0, 1, 2], [0, 1], [1, 2], [2, 3]))

    # several cross the first
    case("two cross it, the smaller by the lower net", *crossed(0, 1, [0, 1], [0, 2], [1, 3]))
    case("two cross it, the smaller by the higher net", *crossed(0, 1, [0, 1], [1, 2], [0, 3]))
    case("each crosses each", *crossed(0, 1, [0, 1, 2], [2, 3], [1, 3]))
    case("three cross it, the smallest by its highest net",
         *crossed(1, 4, [4], [0, 1, 2, 3], [0, 1], [5, 6], [3, 4], [2, 5], [0, 6]))
    case("two equal sets cross it", *crossed(0, 2, [0, 1], [], [1, 2], [1, 2]))
    case("two equal sets are crossed", *crossed(0, 2, [0, 1], [0, 1], [1, 2]))

    # others meet it and do not cross it
    case("one inside it and one around it are lower", *crossed(2, 3, [0], [0, 1, 2], [0, 1], [1, 2]))
    case("equal, inside and around it, between it and the one that crosses it",
         *crossed(0, 5, [0, 1], [0, 1], [1], [0], [0, 1, 2], [1, 3]))
    more("the one around it crosses the same one", *crossed(0, 2, [1, 2], [0, 1, 2, 3], [2, 4]))
    case("idle control cells and open-drain cells between, two cross it",
         encode([D(1), C(), T(1, 0), T(1, 1), C(), D(1), C(0), D(0), C(), T(8, 1), T(8, 2), C(),
                 T(11, 0), T(11, 2)], 3, 2), 10, 1, 8)
    case("outputs below their control cells, the highest one's first",
         encode([T(7, 3), T(7, 0), T(6, 2), T(6, 1), T(5, 1), C(), C(0), C(), T(5, 0)], 4, 2),
         10, 5, 6)
    wide = [C(), T(0, 0), T(0, 255), C(), T(3, 0), C(), T(5, 64), T(5, 255), C(), T(8, 0), T(8, 128)]
    case("256 nets, crossed by the last one",
         encode(wide + [W(net) for net in range(256) if net not in (0, 64, 128, 255)], 256, 2),
         10, 0, 5)

    # both bytes of each place
    for first, second in ((0, 1023), (255, 256), (256, 512), (300, 700), (1022, 1023)):
        case("places %d and %d" % (first, second), *far(first, second))

    # other refusals have no second place, whatever crosses
    pair = [C(), T(0, 0), T(0, 1), C(), T(3, 1), T(3, 2)]
    case("crossing sets, and a net without output", encode(pair, 4, 2), 7, 3)
    more("crossing sets, and a broken record", encode(pair + [I(3)], 3, 2), 6, 6)


def made(everything):
    out = []

    def case(name, file, number, place, second=0):
        out.append((name, bytes(file), (number, place, second)))

    def more(*parts):
        if everything:
            case(*parts)

    document_01(case, more)
    open_drain_records(case, more)
    open_drain_outputs(case, more)
    open_drain_controls(case, more)
    both_cells(case, more)
    return out


def main(folder, everything):
    os.makedirs(folder, exist_ok=True)
    data, lines, names = b"", "", ""
    cases = made(everything)
    for name, file, expected in cases:
        found = document01.board_verdict(file)
        if found != expected:
            raise SystemExit("%s: by hand %r, document01 %r" % (name, expected, found))
        if found == (0, 0, 0) and document01.verdict(file) != (0, 0, 0):
            raise SystemExit("%s: over 4,096 vectors" % name)
        data += len(file).to_bytes(2, "little") + file
        lines += "%d %d %d\n" % found
        names += name + "\n"
    for kind, content in (("stdin", data), ("stdout", lines.encode()), ("names", names.encode())):
        with open(os.path.join(folder, kind), "wb") as out:
            out.write(content)
    print("%d cases, %d bytes" % (len(cases), len(data)))


if __name__ == "__main__":
    main(sys.argv[1], sys.argv[2:] == ["all"])
