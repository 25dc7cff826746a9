"""The command against tests/reference, as people type it.

    python3 command.py PROGRAM..               every part; PROGRAM.. are the words that start the command
    python3 command.py --sanitized PROGRAM..   a good part of it, and the fuzz: for a program compiled with sanitizers

RIGCANDLE_SEED=n draws the same boards, captures and texts again; RIGCANDLE_LISTING=file is the listing program, unless it is
crates/listing/out/listing.
"""

import os
import random
import sys
import tempfile
import time

sys.dont_write_bytecode = True
import answers
import crossing
import fuzz
import open_drain
import pages
import statuses
import texts
from expected import ROOT
from program import Program


def parts(sanitized):
    """Name -> function of program and rng."""
    share = 0.1 if sanitized else 1
    made = {"statuses": lambda p, rng: statuses.run(p, rng, ROOT, 1 if sanitized else 2), "answers": lambda p, rng: answers.run(p, rng, share),
            "texts": lambda p, rng: texts.run(p, rng, share), "pages": lambda p, rng: pages.run(p, rng, share), "lines": lambda p, rng: open_drain.run(p),
            "crossing": lambda p, rng: crossing.run(p)}
    return {**made, "fuzz": fuzz.run} if sanitized else made


def one_part(program, name, part, seed):
    start, before = time.time(), sum(program.runs.values())
    with tempfile.TemporaryDirectory() as folder:
        program.folder = folder
        part(program, random.Random("%d %s" % (seed, name)))
    print("command: %-9s %6d runs, %3.0f s" % (name, sum(program.runs.values()) - before, time.time() - start), flush=True)


def tell(program):
    """How often each subcommand ended with each status."""
    for name in statuses.NAMES:
        numbers = ", ".join("%d: %d" % (status, number) for (one, status), number in sorted(program.runs.items(), key=str) if one == name)
        print("command: %-9s status %s" % (name, numbers))


def main(words):
    sanitized = words[:1] == ["--sanitized"]
    seed = int(os.environ.get("RIGCANDLE_SEED") or random.SystemRandom().randrange(10 ** 9))
    print("command: seed %d (RIGCANDLE_SEED=%d draws the same again)%s" % (seed, seed, ", with sanitizers" if sanitized else ""), flush=True)
    program = Program(words[1 if sanitized else 0:], None)
    for name, part in parts(sanitized).items():
        one_part(program, name, part, seed)
    tell(program)
    absent = list(statuses.missing(program))
    for what in absent:
        print("command: did not occur: " + what)
    print("command: %d runs, %d faults, seed %d" % (sum(program.runs.values()), program.faults, seed))
    return 1 if program.faults or absent else 0


if __name__ == "__main__":
    sys.exit(main(sys.argv[1:]))
