"""simulate against the model of coverage.py, on random accepted boards with random faults, by number and by name; and its wrong usage.

    python3 simulate.py PROGRAM [BOARDS]

Healthy boards and single bridges are also held against tests/reference. The seed is printed; RIGCANDLE_SEED=n sets it.
"""

import os
import random
import re
import subprocess
import sys
import tempfile

sys.dont_write_bytecode = True
import coverage
from coverage import CONTROL, INPUT, OPEN_DRAIN, THREE_STATE, TWO_STATE, boards, document01

FIGHTS, FLOATS = ("low", "high"), ("0", "1", "keep")
WRONG = ("--and 0", "--and 2,2", "--and 0,3", "--and 0,,1", "--and A,B", "--or x", "--wins 2", "--wins 2:2", "--wins 3:0,1", "--wins :0,1",
         "--and 0,1 --or 1,2", "--stuck 8=1", "--stuck 0=1", "--stuck 11=1", "--stuck 4=2", "--stuck 4", "--stuck =1", "--stuck 4=0 --stuck 4=1",
         "--open 0=1", "--open 9=", "--open 9=01", "--open 9=0 --open 9=1", "--open 1=0 --open 4=1", "--on 1", "--off 7", "--on -1", "--on +0",
         "--on 0 --off 0", "--on 4294967296", "--on 18446744073709551616", "--fight mid", "--float 2", "--during 3", "--during 3-2",
         "--during 0-6", "--during 0-", "--during 1-2-3", "--during -1-2", "--no-resistor 0", "--no-resistor 3", "--no-resistor x", "--no-resistor 0,1")
# On the I2C board: an open-drain output is no control cell that could be stuck, and only nets that have one have a resistor.
WRONG_I2C = ("--on 0", "--off 19", "--stuck 1=0", "--stuck 15=1", "--no-resistor 0", "--no-resistor 4", "--no-resistor 6", "--no-resistor SCL",
             "--no-resistor 1,2", "--stuck 0=0 --stuck 0=1", "--open 0=0 --open 8=1")


def some(rng, those):
    return rng.sample(those, min(len(those), rng.choice([0, 0, 1, 1, 2, 3, len(those) // 3])))


def random_bridges(rng, nets):
    free = rng.sample(range(nets), nets)
    while len(free) >= 2 and rng.random() < 0.7:
        part = [free.pop() for _ in range(min(len(free), rng.choice([2, 2, 3, 5])))]
        how = rng.choice(["--and", "--or", "--wins"])
        if how == "--wins":
            yield [how, "%d:%s" % (part[0], ",".join(map(str, rng.sample(part, len(part)) if rng.random() < 0.5 else part[1:])))]
        else:
            yield [how, ",".join(map(str, part + part[:rng.randint(0, 1)]))]


def random_faults(rng, board):
    """Options, each with its value; the two open outputs of a net agree."""
    outputs, floats = board.positions(THREE_STATE, TWO_STATE, OPEN_DRAIN), {net: rng.randint(0, 1) for net in range(board.nets)}
    made = [["--stuck", "%d=%d" % (q, rng.randint(0, 1))] for q in some(rng, outputs)]
    made += [["--open", "%d=%d" % (q, floats[board.net(q)])] for q in some(rng, outputs)]
    made += [["--open", "%d=%d" % (q, rng.randint(0, 1))] for q in some(rng, board.positions(INPUT))]
    made += [[rng.choice(["--on", "--off"]), str(q)] for q in some(rng, board.positions(CONTROL))]
    made += [["--no-resistor", str(net)] for net in some(rng, board.open_drain)]
    made += random_bridges(rng, board.nets)
    made += rng.sample([["--fight", rng.choice(FIGHTS)], ["--float", rng.choice(FLOATS)]], rng.randint(0, 2))
    if rng.random() < 0.3:
        made.append(["--during", "%d-%d" % tuple(sorted(rng.randrange(board.total) for _ in range(2)))])
    rng.shuffle(made)
    return [word for option in made[:250] for word in option]


def named(words):
    """The same options, nets and cells by name."""
    out = []
    for option, value in zip(words[::2], words[1::2]):
        if option in ("--and", "--or", "--wins", "--no-resistor"):
            value = re.sub(r"\d+", r"N\g<0>", value)
        elif option in ("--stuck", "--open", "--on", "--off"):
            value = re.sub(r"^\d+", r"U1.\g<0>", value)
        out += [option, value]
    return out


def description(board, limit):
    """The board's text description, with a name for each net and cell."""
    lines = ["limit %d" % limit] + ["net N%d" % net for net in range(board.nets)]
    forms = ("internal", "input net %d", "control on %d", "three-state net %d control %d", "two-state net %d", "open-drain net %d")
    for q, cell in enumerate(board.cells):
        values = ((), (cell.net,), (cell.on,), (cell.net, cell.control), (cell.net,), (cell.net,))[cell.kind]
        lines.append("U1.%d: %s" % (q, forms[cell.kind] % values))
    return "".join(line + "\n" for line in lines)


def same(what, found, expected):
    if found != expected:
        raise SystemExit("simulate: not as expected: %s" % (what,))


def try_board(rng, command, file, folder):
    path, text = os.path.join(folder, "board.bsin"), os.path.join(folder, "board.txt")
    with open(path, "wb") as out:
        out.write(file)
    board = coverage.Board(path)
    with open(text, "w") as out:
        out.write(description(board, document01.read(file).limit))
    same("healthy", command.simulate(board, []), boards.tied_capture(file, "healthy", []))
    for how in ("and", "or", "wins"):
        # who pulls an open-drain line wins over its resistor's 1, however it is tied
        free = [net for net in range(board.nets) if how == "and" or net not in board.open_drain]
        if len(free) < 2:
            continue
        nets = rng.sample(free, min(len(free), rng.choice([2, 2, 3, 6])))
        listed = ",".join(map(str, nets))
        words = ["--" + how, "%d:%s" % (nets[0], listed) if how == "wins" else listed]
        same(words, command.simulate(board, words), boards.tied_capture(file, how, nets))
    for _ in range(4):
        words = random_faults(rng, board)
        same(words, command.simulate(board, words), coverage.model(board, words))
        same(named(words), command.simulate(board, named(words) + ["--names", text]), coverage.model(board, words))


def try_wrong(program, folder):
    """Status 3, a line that tells of it, and nothing written."""
    capture = os.path.join(folder, "capture")
    for board, words in [("board-e.bsin", words) for words in WRONG] + [("board-i2c.bsin", words) for words in WRONG_I2C]:
        done = subprocess.run([program, "simulate", os.path.join(coverage.EXAMPLES, board), capture] + words.split(),
                              stdin=subprocess.DEVNULL, capture_output=True)
        told = done.stderr.decode().startswith("rigcandle: --")
        same((words, done), (done.returncode, told, done.stdout, os.path.exists(capture)), (3, True, b"", False))


def main(program, number=300):
    seed = os.environ.get("RIGCANDLE_SEED") or str(random.randrange(10 ** 9))
    print("simulate: seed %s" % seed, flush=True)
    command = coverage.Command(os.path.abspath(program))
    with tempfile.TemporaryDirectory() as folder:
        try_wrong(program, folder)
        for i in range(int(number)):
            rng = random.Random("%s %d" % (seed, i))
            file = boards.accepted(rng, rng.choice([1, 2, 3, 5, 8, 9, 12, 16, 20, 30, 40, 60, 100 if i % 10 == 0 else 12]))
            if document01.kept(file).total <= 300:
                try_board(rng, command, file, folder)
    print("simulate: %s boards as the model says, %d wrong usages told" % (number, len(WRONG) + len(WRONG_I2C)))


if __name__ == "__main__":
    main(*sys.argv[1:])
