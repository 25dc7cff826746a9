"""What a page shows of the command: in its blocks ```text the lines `$ ./rigcandle ..`, each with what is printed."""

import os
import re

from answers import EXAMPLES
from expected import ROOT


def page(name):
    with open(os.path.join(ROOT, name), encoding="utf-8") as file:
        return file.read()


def runs(text):
    """(words of a command, what it prints)"""
    for block in re.findall(r"^```text\n(.*?)^```$", text, re.S | re.M):
        for words, printed in re.findall(r"^\$ \./rigcandle (.*)\n((?:(?!\$ ).*\n)*)", block, re.M):
            yield words.split(), printed.encode()


def check(program, name, number):
    """The page shows so many runs, and each prints what it shows, typed one after the other where examples/ is."""
    found = list(runs(page(name)))
    program.check((name,), len(found) == number, "shows %d runs" % len(found))
    os.symlink(EXAMPLES, os.path.join(program.folder, "examples"))
    for words, printed in found:
        ran = program.run(*words)
        program.check(words, ran.out == printed, "printed %r, and %s shows %r" % (ran.out, name, printed))
