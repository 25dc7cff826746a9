"""A maker of board files, damaged board files and captures, from a seed.

    encode(cells, nets, limit)      a file with right sums from (kind, on, control, net)
    board_e(limit), table3()        the named boards
    mixed_line(), two_lines()       two small boards with open-drain cells
    all_open_drain(nets)            1,024 open-drain cells, equally many on each net
    accepted(rng, size)             a random board of at most `size` cells that is accepted
    full(rng)                       accepted, 1,024 cells, 256 nets, degree 16
    mixed(rng, size)                accepted, open-drain cells beside control cells of many nets
    crowded(rng, size)              accepted, hardly anything but drivers on single nets
    near_limit(rng, over)           a board whose vector total is close to 4,096
    damaged(rng, number)            Damaged(label, file, expected)
    traps(file)                     what is hard about the second place of a crossing
    capture(rng, file, fault)       a capture for an accepted board; FAULTS names the faults

    python3 boards.py COUNT SEED    runs COUNT boards of each sort through document01

Of the drivers that stand alone on their control cell, a random board has a
share that are open-drain cells: one of SHARES, or `share` where it is given.

`expected` of damage is worked out here from how the damage was made, not by
asking document01, so that the two check each other.
"""

import functools
import random
import sys
from collections import namedtuple

import document01

NONE = 65535
SHARES = (0, 0, 0.2, 0.5, 0.8, 1)
Damaged = namedtuple("Damaged", "label file expected")  # expected: (number, place, second) or None


# --------------------------------------------------------------------------
# Files
# --------------------------------------------------------------------------

def sealed(body):
    """508 bytes with their sums behind them.  (a is 1 + all bytes; in b byte
    k counts once for itself and once for every later step, and the starting
    1 counts 508 times.)"""
    assert len(body) == 508
    a = 1 + sum(body)
    b = 508 + sum((508 - k) * byte for k, byte in enumerate(body))
    return bytes(body) + (a % 65536).to_bytes(2, "little") + (b % 65536).to_bytes(2, "little")


def resealed(file, only=None):
    """The file with right sums in all whole blocks (or in those of `only`)."""
    out = bytearray(file)
    for k in range(len(file) // 512):
        if only is None or k in only:
            out[512 * k:512 * k + 512] = sealed(out[512 * k:512 * k + 508])
    return bytes(out)


def encode(cells, nets, limit):
    """A board file with right sums from a list of (kind, on, control, net)."""
    w = lambda x: int(x).to_bytes(2, "little")
    head = w(0) + bytes([1, 0]) + b"BSIN" + bytes([1, 0]) + w(len(cells)) + w(nets) + w(limit)
    file = sealed(head + bytes(508 - len(head)))
    for k in range(0, len(cells), 84):
        part = cells[k:k + 84]
        body = w(1 + k // 84) + bytes([2, len(part)])
        for kind, on, control, net in part:
            body += bytes([kind, on]) + w(control) + w(net)
        file += sealed(body + bytes(508 - len(body)))
    return file


def cells_e():
    return [(2, 1, NONE, NONE),   # 0 control on 1
            (3, 0, 0, 0),         # 1 and 2 three-state, nets 0 and 1, control 0
            (3, 0, 0, 1),
            (2, 0, NONE, NONE),   # 3 control on 0
            (3, 0, 3, 0),         # 4 three-state net 0, control 3
            (2, 1, NONE, NONE),   # 5 control on 1
            (3, 0, 5, 1),         # 6 three-state net 1, control 5
            (4, 0, NONE, 2),      # 7 two-state net 2
            (1, 0, NONE, 0),      # 8, 9, 10 inputs of nets 0, 1, 2
            (1, 0, NONE, 1),
            (1, 0, NONE, 2)]


def board_e(limit=2):
    return encode(cells_e(), 3, limit)


def cells_table3(on=1):
    """Source 000, table 3, with the correction of document 01."""
    outputs = "1 1 0 1 1 0 0 1 0 1 1 0 1 0 1 1 0 0 0 0 0 1 1 0 1 1 1 1 0".split()
    control = "26 26 - 23 23 - - 22 - 20 17 - 15 - 12 12 - - - - - 5 5 - 0 0 0 0 -".split()
    nets = "3 2 - 4 5 - - 0 - 2 3 - 1 - 5 4 - 3 2 1 0 1 0 - 3 2 1 0 -".split()
    assert len(outputs) == len(control) == len(nets) == 29
    cells = [None] * 29
    for column in range(29):
        q = 28 - column
        assert (outputs[column] == "1") == (control[column] != "-")
        if outputs[column] == "1":
            cells[q] = (3, 0, int(control[column]), int(nets[column]))
        elif nets[column] != "-":
            cells[q] = (1, 0, NONE, int(nets[column]))
        else:
            cells[q] = (2, on, NONE, NONE)
    assert sorted({c[2] for c in cells if c[0] == 3}) == [q for q in range(29) if cells[q][0] == 2]
    return cells


def table3(limit=6, on=1):
    return encode(cells_table3(on), 6, limit)


def mixed_line(limit=1):
    """One line with two open-drain cells and a three-state driver."""
    return encode([(5, 0, NONE, 0),       # 0 open-drain net 0
                   (2, 1, NONE, NONE),    # 1 control on 1
                   (3, 0, 1, 0),          # 2 three-state net 0, control 1
                   (5, 0, NONE, 0),       # 3 open-drain net 0
                   (1, 0, NONE, 0)],      # 4 input of net 0
                  1, limit)


def two_lines(limit=1):
    """Two lines: open-drain cells 0 and 1 on net 0, 2 on net 1; an input of each."""
    return encode([(5, 0, NONE, 0), (5, 0, NONE, 0), (5, 0, NONE, 1),
                   (1, 0, NONE, 0), (1, 0, NONE, 1)], 2, limit)


def all_open_drain(nets, limit=1024):
    """1,024 open-drain cells, equally many on each net, one net after the other."""
    return encode([(5, 0, NONE, q * nets // 1024) for q in range(1024)], nets, limit)


# --------------------------------------------------------------------------
# Drafts: boards before positions and net numbers are given out
# --------------------------------------------------------------------------

class Draft:
    """cells: [kind, on, control, net]; control is an index into cells."""

    def __init__(self, share):
        self.cells = []
        self.nets = 0
        self.share = share

    def net(self):
        self.nets += 1
        return self.nets - 1

    def add(self, kind, on=0, control=None, net=None):
        self.cells.append([kind, on, control, net])
        return len(self.cells) - 1

    def driver_set(self, rng, nets):
        """A control cell with one output on each of these nets.  On a single
        net it is, by the draft's share, an open-drain cell."""
        if len(nets) == 1 and self.share and rng.random() < self.share:
            return self.add(5, net=nets[0])
        c = self.add(2, on=rng.randint(0, 1))
        for net in nets:
            self.add(3, control=c, net=net)
        return c

    def outputs(self, net):
        return [q for q, cell in enumerate(self.cells) if cell[0] in (3, 4, 5) and cell[3] == net]

    def masks(self):
        """Control cell -> its net set as a number; an open-drain cell has its one net."""
        found = {q: 0 for q, cell in enumerate(self.cells) if cell[0] == 2}
        for q, cell in enumerate(self.cells):
            if cell[0] == 3:
                found[cell[2]] |= 1 << cell[3]
            elif cell[0] == 5:
                found[q] = 1 << cell[3]
        return found

    def drivers(self):
        found = [0] * self.nets
        for cell in self.cells:
            if cell[0] in (3, 5):
                found[cell[3]] += 1
        return found

    def arrange(self, rng):
        """-> cells as tuples, place of each draft cell, number of each draft net."""
        order = list(range(len(self.cells)))
        style = rng.randrange(5)
        if style <= 2:
            rng.shuffle(order)
        elif style == 3:
            order.reverse()
        number = list(range(self.nets))
        if rng.random() < 0.7:
            rng.shuffle(number)
        place = [0] * len(order)
        for at, q in enumerate(order):
            place[q] = at
        cells = []
        for q in order:
            kind, on, control, net = self.cells[q]
            cells.append((kind, on, NONE if control is None else place[control],
                          NONE if net is None else number[net]))
        return cells, place, number


def laminar(rng, nets, degree):
    """Net sets, nested or apart, that cover each of `nets` exactly `degree`
    times.  Every such family can come out."""
    out = []

    def go(part, left):
        if left == 0:
            return
        if len(part) == 1:
            out.extend([list(part)] * left)
            return
        k = rng.choice([0, rng.randint(0, left), rng.randint(0, left), min(1, left)])
        out.extend([list(part)] * k)
        if left == k:
            return
        if rng.random() < 0.25:
            pieces = [[net] for net in part]
        else:
            shuffled = list(part)
            rng.shuffle(shuffled)
            cuts = sorted(rng.sample(range(1, len(part)), rng.randint(1, min(3, len(part) - 1))))
            pieces = [shuffled[a:b] for a, b in zip([0] + cuts, cuts + [len(part)])]
        for piece in pieces:
            go(piece, left - k)

    go(list(nets), degree)
    rng.shuffle(out)
    return out


def cells_for(family, share):
    """At most so many cells take these net sets."""
    return sum(1 if share == 1 and len(s) == 1 else 1 + len(s) for s in family)


def draft(rng, size, nets=None, degree=None, fill=None, share=None):
    """A draft that will be accepted, of at most `size` cells (exactly `size`
    with fill); with exactly `nets` nets and largest degree `degree` if given."""
    if share is None:
        share = rng.choice(SHARES)
    d = Draft(share)
    if nets is None:
        most = min(256, size)
        nets = rng.randint(1, rng.choice([most, most, max(1, most // 2), max(1, most // 4),
                                          max(1, most // 8)]))
    top = degree if degree is not None else rng.choice([1, 2, 2, 3, 4, 6, 10, 16])
    need_first = 2 * degree if degree else 0
    room = min(size, max(nets + need_first, int(size * rng.uniform(0.4, 1.0))))
    left = nets
    first = degree is not None
    while left > 0:
        m = min(left, rng.choice([1, 1, 2, 3, 4, 8, 16, 32]))
        deg = top if first else rng.randint(0 if rng.random() < 0.5 else min(1, top), top)
        spare = room - len(d.cells) - (left - m)
        if first and (m + 1) * deg > spare:
            m, spare = 1, room - len(d.cells) - (left - 1)
        family = laminar(rng, range(m), deg) if deg else []
        if share and rng.random() < share / 4:
            family = [[i] for i in range(m)] * deg
        if first and cells_for(family, share) > spare:
            family = [list(range(m))] * deg
        if not first and cells_for(family, share) > spare:
            deg = 0
        new = [d.net() for _ in range(m)]
        if deg == 0:
            for net in new:
                d.add(5 if share and rng.random() < share / 2 else 4, net=net)
        for s in family if deg else []:
            d.driver_set(rng, [new[i] for i in s])
        left -= m
        first = False
    assert len(d.cells) <= size
    # inputs: several on a net, or none
    style = rng.choice([(1,), (0, 1), (0, 1, 1, 2, 3), (1, 1, 1, 2), (0, 0, 0, 1)])
    for net in rng.sample(range(d.nets), d.nets):
        for _ in range(rng.choice(style)):
            if len(d.cells) < size:
                d.add(1, net=net)
    # internal cells, control cells that switch nothing, more inputs
    if fill is None:
        fill = rng.random() < 0.5
    extra = size - len(d.cells) if fill else rng.randint(0, min(10, size - len(d.cells)))
    for _ in range(extra):
        what = rng.randrange(4)
        if what == 0:
            d.add(2, on=rng.randint(0, 1))
        elif what == 1:
            d.add(1, net=rng.randrange(d.nets))
        else:
            d.add(0)
    return d


def crowd(rng, size, share):
    """A draft of exactly `size` cells (2 to 1,024) that will be accepted: each
    net has drivers on itself alone, and few cells are anything else."""
    d = Draft(share)
    need = cells_for([[0]], share)
    most = rng.choice([2, 4, 16, 16])
    least = rng.choice([1, most])
    seen = rng.choice([0, 0, 0.1, 0.5])
    while len(d.cells) + need <= size and d.nets < 256:
        net = d.net()
        for _ in range(rng.randint(least, most)):
            if len(d.cells) + need <= size:
                d.driver_set(rng, [net])
        if len(d.cells) < size and rng.random() < seen:
            d.add(1, net=net)
    while len(d.cells) < size:
        d.add(1, net=rng.randrange(d.nets))
    return d


def some_draft(rng, size):
    """A draft of either sort, with open-drain cells in any share."""
    if size >= 2 and rng.random() < 0.08:
        return crowd(rng, size, rng.choice([0.5, 0.9, 1, 1]))
    return draft(rng, size)


def limit_for(rng, nets, turns):
    """A random SSOL with which the total stays within 4,096."""
    limit = rng.choice([1, 1, 2, 3, rng.randint(1, nets), rng.randint(1, nets), nets,
                        min(1024, nets + 1), 1024, rng.randint(1, 1024)])
    while document01.total(nets, turns, limit) > 4096:
        limit += 1
    return limit


def placed(rng, d, limit):
    """The draft as a file, with a random SSOL where limit is None."""
    cells, _, _ = d.arrange(rng)
    if limit is None:
        limit = limit_for(rng, d.nets, max([1] + d.drivers()))
    return encode(cells, d.nets, limit)


def accepted(rng, size, limit=None, share=None):
    """A random accepted board of at most `size` cells (1 to 1,024)."""
    d = some_draft(rng, size) if share is None else draft(rng, size, share=share)
    return placed(rng, d, limit)


def full(rng, limit=None, share=None):
    """1,024 cells, 256 nets, largest degree 16."""
    return placed(rng, draft(rng, 1024, nets=256, degree=16, fill=True, share=share), limit)


def mixed(rng, size, limit=None):
    """Bundles of nets with two drivers or more each, as many as fit: control
    cells of several nets and, in most bundles, open-drain cells besides."""
    d = Draft(rng.choice([0.3, 0.6, 1]))
    d.add(5, net=d.net())
    for _ in range(size):
        m, degree = rng.choice([1, 2, 2, 3, 4, 8]), rng.randint(2, rng.choice([2, 3, 4, 16]))
        family = laminar(rng, range(m), degree)
        if len(d.cells) + cells_for(family, d.share) + m <= size and d.nets + m <= 256:
            new = [d.net() for _ in range(m)]
            for s in family:
                d.driver_set(rng, [new[i] for i in s])
            for net in rng.sample(new, rng.randint(0, m)):
                d.add(1, net=net)
    return placed(rng, d, limit)


def crowded(rng, size, limit=None, share=1):
    """A crowd that is accepted, of exactly `size` cells."""
    return placed(rng, crowd(rng, size, share), limit)


@functools.lru_cache(maxsize=1)
def around_limit():
    """All (N, G, SSOL) with 4,050 to 4,096 vectors, and with 4,097 to 4,150."""
    below, above = [], []
    for nets in range(1, 257):
        p = (nets + 1).bit_length()
        masks = [sum(((i + 1) >> (p - k) & 1) << i for i in range(nets)) for k in range(1, p + 1)]
        steps = [bin(a ^ b).count("1") for a, b in zip(masks, masks[1:])]
        across = bin(masks[-1] ^ masks[0]).count("1")
        for limit in range(1, 257):
            more = lambda h: max(0, -(-h // limit) - 1)
            inner = p + sum(more(h) for h in steps)
            for turns in range(1, 17):
                made = turns * inner + (turns - 1) * more(across)
                if 4050 <= made <= 4096:
                    below.append((nets, turns, limit))
                elif 4097 <= made <= 4150:
                    above.append((nets, turns, limit))
    return below, above


def near_limit(rng, over=None, exact=None, share=None):
    """A board whose total is at most 4,096 but close to it, or a little above
    it with `over` (refused 12).  exact = (N, G, SSOL) to have those."""
    if over is None:
        over = rng.random() < 0.5
    if exact is None:
        exact = rng.choice(around_limit()[1 if over else 0])
    nets, turns, limit = exact
    d = draft(rng, rng.randint(nets + 2 * turns, 1024), nets=nets, degree=turns, share=share)
    cells, _, _ = d.arrange(rng)
    return encode(cells, nets, limit)


AT_LIMIT = (128, 16, 2)    # 4,096 vectors
PAST_LIMIT = (183, 16, 3)  # 4,098 vectors


# --------------------------------------------------------------------------
# Damage.  Structure faults work on a draft and give the bad draft nets;
# record faults on placed cells; the others on bytes.
# --------------------------------------------------------------------------

def free_nets(d):
    """Nets with controlled drivers, but under 16."""
    return [net for net, k in enumerate(d.drivers()) if 1 <= k < 16]


def fault_7(rng, d):
    bad = set()
    for _ in range(rng.choice([1, 1, 2, 3])):
        if rng.random() < 0.3 and d.nets < 256:
            net = d.net()
            if rng.random() < 0.5:
                d.add(1, net=net)
        else:
            net = rng.randrange(d.nets)
            for q in d.outputs(net):
                d.cells[q] = [1, 0, None, net] if rng.random() < 0.5 else [0, 0, None, None]
        bad.add(net)
    return bad


def fault_8(rng, d):
    bad = set()
    for net in rng.sample(range(d.nets), min(d.nets, rng.choice([1, 1, 2, 3]))):
        outputs = d.outputs(net)
        q = rng.choice(outputs)
        controls = [c for c, cell in enumerate(d.cells) if cell[0] == 2]
        if d.cells[q][0] == 4:
            if rng.random() < 0.5:
                d.add(4, net=net)
            elif controls and rng.random() < 0.7:
                d.add(3, control=rng.choice(controls), net=net)
            else:
                d.driver_set(rng, [net])
        elif d.cells[q][0] == 5 or rng.random() < 0.3:
            # beside an open-drain cell only a kind 4 output clashes
            d.add(4, net=net)
        else:
            for _ in range(rng.choice([1, 1, 2, 16])):
                d.add(3, control=d.cells[q][2], net=net)
        bad.add(net)
    return bad


def fault_9(rng, d):
    bad = set()
    for _ in range(rng.choice([1, 1, 2])):
        nets = [net for net, k in enumerate(d.drivers()) if k >= 1]
        if nets and rng.random() < 0.9:
            net = rng.choice(nets)
        elif d.nets < 256:
            net = d.net()
        elif nets:
            net = rng.choice(nets)
        else:
            continue
        while d.drivers()[net] < 17 or rng.random() < 0.3:
            d.driver_set(rng, [net])
        bad.add(net)
    return bad


def fault_10(rng, d):
    for _ in range(rng.choice([1, 1, 2])):
        style = rng.randrange(5)
        wide = [s for s in d.masks().values() if bin(s).count("1") >= 2
                and max(d.drivers()[n] for n in bits(s)) < 15]
        if style == 0 and wide and len(free_nets(d)) >= 3:
            # across a set that is already there
            inside = bits(rng.choice(wide))
            outside = [net for net in free_nets(d) if net not in inside]
            if outside:
                some = rng.sample(inside, rng.randint(1, len(inside) - 1))
                some += rng.sample(outside, rng.randint(1, min(3, len(outside))))
                d.driver_set(rng, some)
                continue
        m = rng.randint(3, 8)
        if d.nets + m > 256:
            continue
        new = [d.net() for _ in range(m)]
        if style == 1:
            sets = [new[i:i + 2] for i in range(m - 1)]
        elif style == 2:
            a = rng.randint(1, m - 2)
            b = rng.randint(a + 1, m - 1)
            sets = [new[:b]] * rng.choice([1, 1, 2]) + [new[a:]] * rng.choice([1, 1, 2])
        elif style == 3:
            # one that several cross, and several inside it or equal to it
            a = rng.randint(2, m - 1)
            part = lambda nets, most: rng.sample(nets, rng.randint(1, most))
            sets = [new[:a]] + [part(new[:a], a) for _ in range(rng.randint(0, 3))]
            sets += [part(new[:a], a - 1) + part(new[a:], m - a) for _ in range(rng.randint(2, 4))]
        else:
            sets = [rng.sample(new, rng.randint(1, m)) for _ in range(rng.randint(2, 6))]
        rng.shuffle(sets)
        for s in sets:
            d.driver_set(rng, s)
        for net in new:  # an output on every net
            if d.drivers()[net] == 0:
                d.driver_set(rng, [net])
        if rng.random() < 0.5:  # equal drivers, so that 11 does not apply
            top = max(d.drivers()[net] for net in new)
            for net in new:
                while d.drivers()[net] < top:
                    d.driver_set(rng, [net])


def fault_11(rng, d):
    for _ in range(rng.choice([1, 1, 2, 3])):
        masks = d.masks()
        drivers = d.drivers()
        wide = [c for c, s in masks.items() if bin(s).count("1") >= 2]
        if (not wide or rng.random() < 0.2) and d.nets <= 248:
            new = [d.net() for _ in range(rng.randint(2, 4))]
            for s in laminar(rng, range(len(new)), rng.randint(1, 4)) + [list(range(len(new)))]:
                d.driver_set(rng, [new[i] for i in s])
            continue_with = new
            masks, drivers = d.masks(), d.drivers()
        elif wide:
            continue_with = bits(masks[rng.choice(wide)])
        else:
            continue
        net = rng.choice(continue_with)
        if rng.random() < 0.6 and drivers[net] < 16:
            d.driver_set(rng, [net])
        elif drivers[net] >= 2:
            # take the net away from an innermost set, so that none cross
            inner = min((c for c, s in masks.items() if s >> net & 1),
                        key=lambda c: bin(masks[c]).count("1"))
            for q, cell in enumerate(d.cells):
                if q == inner and cell[0] == 5 or cell[0] == 3 and (cell[2], cell[3]) == (inner, net):
                    d.cells[q] = [0, 0, None, None]


def bits(mask):
    return [i for i in range(mask.bit_length()) if mask >> i & 1]


def crossing_pairs(d):
    masks = d.masks()
    controls = sorted(masks)
    return [(c, e) for x, c in enumerate(controls) for e in controls[x + 1:]
            if masks[c] & masks[e] and masks[c] & ~masks[e] and masks[e] & ~masks[c]]


TRAPS = ("several cross the first", "one between meets the first and does not cross it",
         "another pair ends lower", "the second place is above 255")


def traps(file):
    """Those of TRAPS that a file refused 10 has: what a search for its second place
    may fall for."""
    _, first, second = document01.board_verdict(file)
    sets = document01.net_sets(document01.read(file))
    met = [q for q in sets if q > first and sets[q] & sets[first]]
    held = [q for q in met if sets[q] <= sets[first] or sets[first] <= sets[q]]
    lower = [q for q in sets if first < q < second]
    there = (len(met) - len(held) > 1, any(q < second for q in held),
             any(document01.cross(sets[c], sets[e]) for c in lower for e in lower), second > 255)
    return [trap for trap, is_there in zip(TRAPS, there) if is_there]


def uneven(d):
    drivers = d.drivers()
    return [c for c, s in d.masks().items() if len({drivers[net] for net in bits(s)}) >= 2]


def other_byte(rng, *good):
    while True:
        x = rng.choice([rng.randrange(256), rng.randrange(6), 255])
        if x not in good:
            return x


def fault_6(rng, cells, nets):
    """-> cells, broken positions"""
    cells = [list(cell) for cell in cells]
    before = [tuple(cell) for cell in cells]
    broken = set()
    count = len(cells)
    word = lambda low: rng.choice([low, rng.randint(low, 65535), 65535, min(65535, low + 1), 65534])
    faults = min(count, rng.choice([1, 1, 1, 2, 3]))
    threes, lines = ([q for q in range(count) if before[q][0] == kind] for kind in (3, 5))
    if threes and lines and rng.random() < 0.25:
        # a three-state output with an open-drain cell for its control cell
        q = rng.choice(threes)
        cells[q][2] = rng.choice(lines)
        broken.add(q)
        faults -= 1
    for q in rng.sample(range(count), faults):
        kind = before[q][0]
        field = rng.randrange(4)
        if field == 0:
            # kind 5 breaks where the record has no net, or a control position
            cells[q][0] = rng.choice([6, 255, rng.randint(6, 255)] + [5] * (kind in (0, 2, 3)))
            if kind == 2:
                broken |= {r for r in range(count) if before[r][0] == 3 and before[r][2] == q}
        elif field == 1:
            cells[q][1] = other_byte(rng, 0, 1) if kind == 2 else other_byte(rng, 0)
        elif field == 2:
            if kind == 3:
                wrong = [r for r in range(count) if before[r][0] != 2]
                cells[q][2] = rng.choice([NONE, word(count), rng.choice(wrong), q])
            else:
                cells[q][2] = rng.choice([0, rng.randrange(count), 65534, count, rng.randrange(65535)])
        else:
            if kind in (0, 2):
                cells[q][3] = rng.choice([0, rng.randrange(nets), 65534, nets, rng.randrange(65535)])
            else:
                cells[q][3] = word(nets)
        broken.add(q)
    return [tuple(cell) for cell in cells], broken


def fault_5(rng, file):
    """-> file, place"""
    out = bytearray(file)
    blocks = len(out) // 512
    count = out[10] + 256 * out[11]
    place = None
    style = rng.randrange(4)
    if style != 1:
        for k in rng.sample(range(1, blocks), min(blocks - 1, rng.choice([1, 1, 2, 3]))):
            at = 512 * k
            rest = 4 + 6 * min(84, count - 84 * (k - 1))
            what = rng.randrange(5)
            if what == 0:
                out[at + rng.randrange(2)] ^= rng.randint(1, 255)
            elif what == 1:
                out[at + 2] = other_byte(rng, 2)
            elif what == 2 or rest == 508:
                out[at + 3] = other_byte(rng, out[at + 3])
            else:
                out[at + rng.choice([rest, 507, rng.randint(rest, 507)])] = rng.randint(1, 255)
            place = k if place is None else min(place, k)
    if style == 2 and count % 84 != 0:
        # another C that needs the same blocks: the last block's count, changed above or not, is wrong
        low = 84 * ((count - 1) // 84) + 1
        said = low - 1 + out[512 * (blocks - 1) + 3]
        new = rng.choice([c for c in range(low, min(low + 84, 1025)) if c not in (count, said)])
        out[10:12] = new.to_bytes(2, "little")
        place = min(place, blocks - 1)
    if style in (1, 3):
        what = rng.randrange(3)
        if what == 0 and blocks < 14:
            extra = rng.randint(1, 14 - blocks)
            for k in range(extra):
                body = (blocks + k).to_bytes(2, "little") + bytes([2, 0]) + bytes(504)
                out += rng.choice([sealed(body), sealed(bytes(508)), bytes(out[512:1024])])
        elif what == 1:
            del out[512 * rng.randint(1, blocks - 1):]
        else:
            wrong = [c for c in range(1, 1025) if 1 + -(-c // 84) != blocks]
            out[10:12] = rng.choice([rng.choice(wrong), min(wrong, key=lambda c: abs(c - count))]
                                    ).to_bytes(2, "little")
        place = 0
    return resealed(out), place


def fault_4(rng, file):
    out = bytearray(file)
    for at, top in rng.sample([(10, 1024), (12, 256), (14, 1024)], rng.choice([1, 1, 1, 2, 3])):
        value = rng.choice([0, top + 1, 65535, rng.randint(top + 1, 65535)])
        out[at:at + 2] = value.to_bytes(2, "little")
    return resealed(out), 0


def fault_3(rng, file):
    out = bytearray(file)
    if rng.random() < 0.1 and len(out) >= 1024:
        out[0:512], out[512:1024] = out[512:1024], out[0:512]
        return bytes(out), 0
    spots = [0, 1, 2, 3, 4, 5, 6, 7, 8, 9, 16, 507, rng.randint(16, 507)]
    for at in rng.sample(sorted(set(spots)), rng.choice([1, 1, 1, 2])):
        out[at] = other_byte(rng, out[at])
    return resealed(out), 0


def fault_2(rng, file):
    out = bytearray(file)
    blocks = len(out) // 512
    chosen = rng.sample(range(blocks), min(blocks, rng.choice([1, 1, 2, 3, 14])))
    for k in chosen:
        at = 512 * k
        what = rng.randrange(4)
        if what == 0 or len(set(out[at:at + 508])) == 1:
            out[at + rng.randrange(508)] ^= rng.randint(1, 255)
        elif what == 1:
            out[at + 508 + rng.randrange(2)] ^= rng.randint(1, 255)
        elif what == 2:
            out[at + 510 + rng.randrange(2)] ^= rng.randint(1, 255)
        else:
            # two unequal bytes change places: a stays right, b does not
            while True:
                x, y = rng.randrange(508), rng.randrange(508)
                if out[at + x] != out[at + y]:
                    break
            out[at + x], out[at + y] = out[at + y], out[at + x]
    return bytes(out), min(chosen)


def fault_1(rng, file):
    what = rng.randrange(6)
    if what == 0:
        return b"", 0
    if what == 1:
        return bytes(rng.choice([511, 513, 7680])), 0
    if what == 2:
        cut = rng.choice([1, 511, rng.randint(1, len(file))])
        if cut % 512 != 0:
            return file[:-cut], 0
        return file[:-1], 0
    if what == 3:
        return file + bytes(rng.choice([1, 511, 513])), 0
    if what == 4:
        more = rng.choice([0, 1, 3])
        return file + sealed(bytes(508)) * (15 + more - len(file) // 512), 0
    return rng.randbytes(512 * rng.randint(15, 20) + rng.choice([0, 0, 1])), 0


def loose(rng, size):
    """Damage whose verdict is not known beforehand."""
    if rng.random() < 0.7:
        d = some_draft(rng, size)
        cells, _, _ = d.arrange(rng)
        nets = d.nets
    else:
        board = document01.read(rng.choice([board_e, mixed_line, two_lines])())
        cells, nets = board.cells, board.nets
    limit = rng.choice([1, 2, rng.randint(1, nets), 1024])
    what = rng.randrange(7)
    if what == 0:
        out = bytearray(encode(cells, nets, limit))
        for _ in range(rng.choice([1, 1, 2, 5])):
            out[rng.randrange(len(out))] ^= 1 << rng.randrange(8)
        return Damaged("flips", bytes(out), None)
    if what == 1:
        out = bytearray(encode(cells, nets, limit))
        for _ in range(rng.choice([1, 1, 2, 5])):
            out[rng.randrange(len(out))] ^= 1 << rng.randrange(8)
        return Damaged("flips, sums repaired", resealed(out), None)
    if what == 2:
        # flips in the records only, sums repaired
        out = bytearray(encode(cells, nets, limit))
        for _ in range(rng.choice([1, 1, 2, 5])):
            q = rng.randrange(len(cells))
            at = 512 * (1 + q // 84) + 4 + 6 * (q % 84) + rng.randrange(6)
            out[at] ^= 1 << rng.randrange(8)
        return Damaged("record flips, sums repaired", resealed(out), None)
    if what == 3:
        # fields set to telling values
        cells = [list(cell) for cell in cells]
        for _ in range(rng.choice([1, 1, 2, 4, 10])):
            cell = rng.choice(cells)
            field = rng.randrange(4)
            if field == 0:
                cell[0] = rng.randrange(7)
            elif field == 1:
                cell[1] = rng.randrange(3)
            else:
                cell[field] = rng.choice([0, nets - 1, nets, len(cells) - 1, len(cells), NONE, 65534,
                                          rng.randrange(nets), rng.randrange(len(cells))])
        return Damaged("fields", encode(cells, nets, limit), None)
    if what == 4:
        # valid records, random structure
        controls = [q for q, cell in enumerate(cells) if cell[0] == 2]
        cells = [list(cell) for cell in cells]
        for _ in range(rng.choice([1, 2, 4, 10])):
            cell = rng.choice(cells)
            if cell[0] in (1, 3, 4, 5):
                cell[3] = rng.randrange(nets)
            if cell[0] == 3 and rng.random() < 0.5:
                cell[2] = rng.choice(controls)
            if cell[0] in (1, 4, 5) and rng.random() < 0.3:
                cell[0] = rng.choice([1, 4, 5])
            if cell[0] in (1, 4, 5) and controls and rng.random() < 0.3:
                cell[0], cell[2] = 3, rng.choice(controls)
            elif cell[0] == 3 and rng.random() < 0.3:
                cell[0], cell[2] = 5, NONE
        return Damaged("structure", encode(cells, nets, limit), None)
    if what == 5:
        # one of the header's numbers changed a little
        out = bytearray(encode(cells, nets, limit))
        at = rng.choice([10, 12, 14])
        value = out[at] + 256 * out[at + 1]
        value = (value + rng.choice([-1, 1, 84, -84, 2])) % 65536
        out[at:at + 2] = value.to_bytes(2, "little")
        return Damaged("header number", resealed(out), None)
    size = rng.choice([512, 1024, 1536, 7168])
    return Damaged("random bytes, sums right", resealed(rng.randbytes(size)), None)


def damaged(rng, number=None, size=None):
    """A damaged board.  number: 1 to 11 wants that refusal as the first, "loose"
    wants damage with unknown verdict; None chooses.  Later faults are often
    added, so that the order of the checks decides."""
    if size is None:
        size = rng.choice([1, 3, 12, 40, 40, 120, 120, 300, 700, 1000])
    if number is None:
        number = rng.choice(list(range(1, 12)) + ["length", "loose", "loose", "loose"])
    if number == "loose":
        return loose(rng, size)
    if number == "length":
        n = rng.choice([0, 511, 513, 7168, 7680])
        style = rng.randrange(3)
        data = bytes(n) if style == 0 else rng.randbytes(n)
        if style == 2:
            data = resealed(data)
            return Damaged("length %d, sums right" % n, data, (1, 0, 0) if n != 7168 else None)
        return Damaged("length %d" % n, data,
                       (1, 0, 0) if n != 7168 else (2, 0, 0) if style == 0 else None)

    stages = {number}
    if rng.random() < 0.5:
        stages |= set(rng.sample(range(number, 12), rng.randint(1, min(4, 12 - number))))

    while True:
        d = some_draft(rng, size)
        bad = {}
        for stage, fault in ((11, fault_11), (10, fault_10), (9, fault_9), (8, fault_8), (7, fault_7)):
            if stage in stages:
                bad[stage] = fault(rng, d)
        if 11 in stages:
            bad[11] = uneven(d)
        if 10 in stages:
            bad[10] = crossing_pairs(d)
        if number >= 7 and not bad[number]:
            continue
        if len(d.cells) <= 1024 and d.nets <= 256:
            break
    cells, place, net_number = d.arrange(rng)
    nets = d.nets
    if number in (7, 8, 9):
        expected = number, min(net_number[net] for net in bad[number]), 0
    elif number == 10:
        expected = 10, *min(sorted((place[c], place[e])) for c, e in bad[10])
    elif number == 11:
        expected = 11, min(place[c] for c in bad[11]), 0
    if 6 in stages:
        cells, broken = fault_6(rng, cells, nets)
        if number == 6:
            expected = 6, min(broken), 0
    limit = rng.choice([1, 2, 3, rng.randint(1, nets), 1024])
    file = encode(cells, nets, limit)
    for stage, fault in ((5, fault_5), (4, fault_4), (3, fault_3), (2, fault_2), (1, fault_1)):
        if stage in stages:
            file, at = fault(rng, file)
            if number == stage:
                expected = stage, at, 0
    return Damaged("first of " + " ".join(str(s) for s in sorted(stages)), file, expected)


# --------------------------------------------------------------------------
# Captures
# --------------------------------------------------------------------------

FAULTS = ("healthy", "and", "or", "wins", "stuck0", "stuck1", "open", "swap", "copy", "almost",
          "flip", "mixed", "noise", "random", "short", "long", "empty")


def packed(file, readings, noise=None):
    """Rows from readings (input position -> bit in each vector); the other
    bits are 0, or noise from an rng."""
    board = document01.read(file)
    size = (len(board.cells) + 7) // 8
    total = document01.kept(file).total
    out = bytearray(size * total) if noise is None else bytearray(noise.randbytes(size * total))
    for q, word in readings.items():
        bit = 1 << (q % 8)
        for v in range(total):
            at = v * size + q // 8
            if word[v]:
                out[at] |= bit
            else:
                out[at] &= 255 - bit
    return bytes(out)


def words(file):
    """For each net its value in each vector."""
    vectors = document01.kept(file).vectors
    nets = len(vectors[0].values)
    return [[one.values[net] for one in vectors] for net in range(nets)]


def tied(net_words, how, nets):
    """What is read on each net when `nets` are tied: "and", "or", or "wins"
    (the first of `nets` wins)."""
    read = [list(word) for word in net_words]
    if how == "healthy" or not nets:
        return read
    columns = list(zip(*(net_words[net] for net in nets)))
    if how == "and":
        one = [min(column) for column in columns]
    elif how == "or":
        one = [max(column) for column in columns]
    else:
        one = list(net_words[nets[0]])
    for net in nets:
        read[net] = list(one)
    return read


def input_positions(file):
    return {q: cell.net for q, cell in enumerate(document01.read(file).cells) if cell.kind == 1}


def tied_capture(file, how, nets):
    """The capture with the given nets tied, and zeros at all other cells."""
    read = tied(words(file), how, nets)
    return packed(file, {q: read[net] for q, net in input_positions(file).items()})


def capture(rng, file, fault, noise=None):
    """A capture for an accepted board (refusals 1 to 12 passed).  With noise
    the bits that are not input cells are random; by default one time in two."""
    file = bytes(file)
    board = document01.read(file)
    size = (len(board.cells) + 7) // 8
    total = document01.kept(file).total
    if fault == "random":
        return rng.randbytes(size * total)
    if fault == "empty":
        return b""
    if fault == "short":
        return bytes(rng.choice([size * total - 1, size * (total - 1), rng.randrange(size * total)]))
    if fault == "long":
        return bytes(size * total + rng.choice([1, size, rng.randint(1, 600)]))
    nets = board.nets
    own = words(file)
    read = [list(word) for word in own]
    inputs = input_positions(file)
    some = lambda most: rng.sample(range(nets), min(nets, rng.randint(2, most)))
    kinds = [fault]
    if fault == "mixed":
        kinds = [rng.choice(["and", "or", "wins", "stuck0", "stuck1", "swap"])
                 for _ in range(rng.randint(2, 4))]
    for kind in kinds:
        if kind in ("and", "or", "wins"):
            chosen = some(rng.choice([2, 2, 3, 6]))
            after = tied(own, kind, chosen)
            for net in chosen:
                read[net] = after[net]
        elif kind in ("stuck0", "stuck1"):
            read[rng.randrange(nets)] = [int(kind[-1])] * total
        elif kind == "swap" and nets >= 2:
            a, b = rng.sample(range(nets), 2)
            read[a], read[b] = list(own[b]), list(own[a])
    readings = {q: read[net] for q, net in inputs.items()}
    if inputs:
        q = rng.choice(sorted(inputs))
        if fault == "open":  # one input cell only
            readings[q] = [rng.randint(0, 1)] * total
        elif fault == "copy":  # one input cell only
            readings[q] = list(rng.choice(own))
        elif fault == "almost":  # another net's word but for one vector
            readings[q] = list(rng.choice(own))
            readings[q][rng.choice([0, total - 1, rng.randrange(total)])] ^= 1
        elif fault == "flip":  # one bit only
            readings[q] = list(readings[q])
            readings[q][rng.choice([0, total - 1, rng.randrange(total)])] ^= 1
    if noise is None:
        noise = fault == "noise" or rng.random() < 0.5
    return packed(file, readings, rng if noise else None)


# --------------------------------------------------------------------------
# Run
# --------------------------------------------------------------------------

def groups_000(board):
    """Source 000, figures 3 and 4, as printed ("For each cell" downward); an
    open-drain cell is an output cell whose control cell stands at its own position."""
    outputs = [(cell.net, cell.control if cell.kind == 3 else q)
               for q, cell in enumerate(board.cells) if cell.kind in (3, 5)][::-1]
    array = [set() for _ in range(board.nets)]  # net vs control cell
    for net, c in outputs:
        array[net].add(c)
    degree = [len(row) for row in array]
    output = []
    for group in range(1, max([1] + degree) + 1):
        active, net_done, cell_done = set(), set(), set()

        def activate(c):
            active.add(c)
            for net in range(board.nets):
                if c in array[net]:
                    net_done.add(net)
                    cell_done.update(array[net])

        for net, c in outputs:
            if (degree[net] >= group and net not in net_done and c not in cell_done
                    and not any(c in earlier for earlier in output)):
                activate(c)
        for net, c in outputs:
            if net not in net_done and c not in cell_done:
                activate(c)
        output.append(sorted(active))
    return output


def check_structure(file):
    """What source 000 promises of the groups of an accepted board, and what
    document 01 promises of its vectors; not part of document01."""
    board = document01.read(file)
    sets = document01.net_sets(board)
    groups = document01.group_lists(file)
    for on in groups:
        driven = [net for c in on for net in sets[c]]
        assert len(driven) == len(set(driven)), "a net driven twice"
        wanted = {cell.net for cell in board.cells if cell.kind in (3, 5)}
        assert set(driven) == wanted, "a net not driven"
    assert groups == groups_000(board), "not the groups of source 000's pseudo code"
    used = {c for on in groups for c in on}
    assert used == {c for c, s in sets.items() if s}, "a control cell never on"
    vectors = document01.vector_list(file)
    for (_, old), (_, new) in zip(vectors, vectors[1:]):
        assert sum(x != y for x, y in zip(old, new)) <= board.limit, "over SSOL"


def main(count, seed):
    import collections
    import time
    start = time.time()
    seen = collections.Counter()
    marks_seen = collections.Counter()
    biggest = [0, 0, 0, 0]
    for i in range(count):
        rng = random.Random("accepted %d %d" % (seed, i))
        size = rng.choice([1, 2, 3, 5, 8, 9, 16, 30, 84, 85, 100, 168, 200, 300, 600])
        if i % 20 == 0:
            size = rng.choice([1008, 1009, 1023, 1024])
        file = accepted(rng, size)
        assert document01.verdict(file) == (0, 0, 0), (seed, i, document01.verdict(file))
        board = document01.read(file)
        k = document01.kept(file)
        biggest = [max(x) for x in zip(biggest, (len(board.cells), board.nets, len(k.groups), k.total))]
        if k.total <= 600 or i % 20 == 0:
            check_structure(file)
            fault = rng.choice(FAULTS)
            given = capture(rng, file, fault)
            bits_, after = document01.marks(file, given, b"\xEE" * (board.nets + 3))
            assert after[board.nets:] == b"\xEE" * 3 or bits_ & 255 == 14
            if fault in ("short", "long", "empty"):
                assert bits_ == 14 and after == b"\xEE" * (board.nets + 3)
            else:
                assert bits_ & 255 == 0
                marks_seen.update(after[:board.nets])
            if fault in ("healthy", "noise"):
                assert set(after[:board.nets]) <= {0, 2}
    print("accepted: %d boards, largest C %d N %d G %d total %d, marks %s, %.1f s"
          % (count, *biggest, dict(sorted(marks_seen.items())), time.time() - start))

    start = time.time()
    wrong = 0
    for i in range(count):
        rng = random.Random("damaged %d %d" % (seed, i))
        made = damaged(rng)
        found = document01.board_verdict(made.file)
        seen[found[0]] += 1
        if made.expected is not None and made.expected != found:
            wrong += 1
            print("DIFFERENT", seed, i, made.label, "expected", made.expected, "found", found)
        if len(made.file) <= 7680:
            for question in (lambda: document01.count(made.file),
                             lambda: document01.groups(made.file, b"\x55" * 7)[0],
                             lambda: document01.vector(made.file, 1, b"\x55")[0],
                             lambda: document01.marks(made.file, b"", b"")[0]):
                answer = question()
                if found != (0, 0, 0):
                    assert answer == found[0] | found[1] << 8 | found[2] << 24
    print("damaged: %d boards, %d different, verdicts %s, %.1f s"
          % (count, wrong, dict(sorted(seen.items())), time.time() - start))

    start = time.time()
    seen = collections.Counter()
    for i in range(count):
        made = damaged(random.Random("crossing %d %d" % (seed, i)), 10)
        found = document01.board_verdict(made.file)
        if made.expected != found:
            wrong += 1
            print("DIFFERENT", seed, i, made.label, "expected", made.expected, "found", found)
        seen.update(traps(made.file))
    print("crossing: %d boards, %s, %.1f s"
          % (count, ", ".join("%d where %s" % (seen[trap], trap) for trap in TRAPS), time.time() - start))
    assert min(seen[trap] for trap in TRAPS) >= count // 50

    start = time.time()
    totals = []
    for i in range(max(2, count // 50)):
        rng = random.Random("limit %d %d" % (seed, i))
        over = i % 2 == 1
        exact = None if i >= 4 else PAST_LIMIT if over else AT_LIMIT
        file = near_limit(rng, over, exact)
        board = document01.read(file)
        totals.append(document01.total(board.nets, document01.turns(board), board.limit))
        assert document01.board_verdict(file) == (0, 0, 0)
        assert document01.verdict(file) == ((12, 0, 0) if over else (0, 0, 0)), (seed, i)
        if i < 4:
            assert totals[-1] == (4098 if over else 4096)
        assert (totals[-1] > 4096) == over
    below = [t for t in totals if t <= 4096]
    above = [t for t in totals if t > 4096]
    print("limit: %d boards, below %d to %d, above %d to %d, %.1f s"
          % (len(totals), min(below), max(below), min(above), max(above), time.time() - start))
    start = time.time()
    file = near_limit(random.Random(seed), False, AT_LIMIT)
    given = capture(random.Random(seed), file, "mixed")
    made = time.time()
    answer = document01.marks(file, given, bytes(256))
    marked = time.time()
    document01.listing(file)
    print("one board at the limit: capture %.1f s, marks %.1f s (%s), listing %.1f s"
          % (made - start, marked - made, document01.unpacked("marks", answer[0]), time.time() - marked))
    return wrong


if __name__ == "__main__":
    numbers = [int(x) for x in sys.argv[1:]] + [1000, 1][len(sys.argv) - 1:]
    sys.exit(1 if main(*numbers) else 0)
