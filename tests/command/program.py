"""The command as a child process: runs it, and holds every run against what is true of all of them.

    program.run("check", "board.bsin")                          what it did, as Ran
    program.expect(2, "list", "-", given=data, out=b"..")       the same, and a fault unless status and output are these
    program.fault(words, "what is wrong")                       counts a fault; the first are printed

True of all runs: the status is 0 to 4; no sanitizer speaks; a run ends soon; where the status is 3 or 4 nothing stands on standard
output and something on standard error; where it is 0 or 1 nothing stands on standard error; where it is 2 a refusal is told by number
and place, on one of the two.
"""

import collections
import os
import re
import signal
import subprocess

SLOW = 60          # seconds that no run may take, on a slow machine too
MOST_SHOWN = 15    # faults printed

Ran = collections.namedtuple("Ran", "words status out err")

REFUSED = re.compile(rb"refused (\d+) (\d+)\b")

# A sanitizer's own status is no status of the command.
ENVIRONMENT = {"PATH": os.environ["PATH"], "LC_ALL": "C", "ASAN_OPTIONS": "detect_leaks=0:exitcode=99", "UBSAN_OPTIONS": "exitcode=99"}


class TooSlow(Exception):
    """A run took longer than any may."""


def too_slow(*_):
    raise TooSlow


signal.signal(signal.SIGALRM, too_slow)


def shown(data, most=300):
    text = data.decode("utf-8", "backslashreplace") if isinstance(data, bytes) else str(data)
    return text if len(text) <= most else "%s .. (%d characters)" % (text[:most], len(text))


class Program:
    def __init__(self, start, folder):
        self.start = list(start)              # the words that start the command
        self.folder = folder                  # where it runs
        self.runs = collections.Counter()     # (subcommand, status) -> how often
        self.refusals = set()                 # (subcommand, refusal) that were told
        self.faults = 0

    # ---------------------------------------------------------------- faults

    def fault(self, words, text):
        self.faults += 1
        if self.faults <= MOST_SHOWN:
            print("command: FAULT: rigcandle %s\n  %s" % (shown(" ".join(map(str, words))), text), flush=True)

    def check(self, words, true, text):
        if not true:
            self.fault(words, text)

    # ---------------------------------------------------------------- running

    def run(self, *words, given=None, through=(), **how):
        """`given` comes through a pipe as standard input; `through` are words before the command's own; `how` goes to subprocess."""
        how.setdefault("stdout", subprocess.PIPE)
        how.setdefault("stderr", subprocess.PIPE)
        how.update({"stdin": subprocess.DEVNULL} if given is None and "stdin" not in how else {})
        how.update({"input": given} if given is not None else {})
        try:
            signal.alarm(SLOW)  # quicker than subprocess's own timeout, which polls
            done = subprocess.run([*through, *self.start, *words], cwd=self.folder, env=ENVIRONMENT, **how)
        except TooSlow:
            self.fault(words, "did not end within %d seconds" % SLOW)
            return Ran(words, None, b"", b"")
        finally:
            signal.alarm(0)
        ran = Ran(words, done.returncode, done.stdout, done.stderr)
        self.look(ran)
        return ran

    def look(self, ran):
        """What is true of all runs.  A stream that was not caught is None, and nothing is said of it."""
        out, err = ran.out, ran.err
        name = ran.words[0] if ran.words else None
        self.runs[name, ran.status] += 1
        self.check(ran.words, ran.status in range(5), "status %s; %s" % (ran.status, shown(err or b"")))
        self.check(ran.words, b"Sanitizer" not in (err or b"") and b"runtime error" not in (err or b""), shown(err or b"", 3000))
        if ran.status in (3, 4):
            self.check(ran.words, not out, "status %d, and on standard output: %s" % (ran.status, shown(out or b"")))
            self.check(ran.words, err is None or err.endswith(b"\n"), "status %d without a message" % ran.status)
        if ran.status in (0, 1):
            self.check(ran.words, not err, "status %d, and on standard error: %s" % (ran.status, shown(err or b"")))
        if ran.status == 2 and out is not None and err is not None:
            self.look_at_refusal(ran)

    def look_at_refusal(self, ran):
        told = refusal_told(ran)
        self.check(ran.words, told is not None, "status 2 without number and place: %s %s" % (shown(ran.out), shown(ran.err)))
        if told is not None:
            self.refusals.add((ran.words[0], told[0]))

    def expect(self, status, *words, out=None, err=None, refusal=None, **how):
        """`out` and `refusal` (number, place) exactly; `err` must contain this."""
        ran = self.run(*words, **how)
        self.check(words, ran.status == status, "status %s, expected %d; %s" % (ran.status, status, shown(ran.err or b"")))
        if out is not None and ran.out != out:
            self.fault(words, "printed    %s\n  expected   %s" % first_difference(ran.out, out))
        if err is not None:
            self.check(words, err in ran.err, "told %s, expected to find %s" % (shown(ran.err), shown(err)))
        if refusal is not None:
            self.check(words, refusal_told(ran) == refusal, "refusal %s, expected %s" % (refusal_told(ran), refusal))
        return ran


def refusal_told(ran):
    """(number, place), the first that is told."""
    found = REFUSED.search(ran.out or b"") or REFUSED.search(ran.err or b"")
    return found and (int(found[1]), int(found[2]))


def first_difference(got, wanted):
    """Both from the first line on in which they differ."""
    for one, other in zip(got.split(b"\n"), wanted.split(b"\n")):
        if one != other:
            return shown(one), shown(other)
    return "%d bytes" % len(got), "%d bytes" % len(wanted)
