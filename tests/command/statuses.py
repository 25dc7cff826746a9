"""Every subcommand on every kind of input and output: good, refused, missing, unreadable, empty, cut, huge, standard input, links and
pipes, full disks and closed pipes; wrong usage; help.  The status is checked each time, and that a run that fails leaves nothing behind.
"""

import contextlib
import os
import random
import resource
import stat
import subprocess
import threading

from expected import boards

# The subcommands as they are typed; words in capitals are files.
COMMANDS = tuple(line.split() for line in (
    "check BOARD",
    "check BOARD --names NAMES --clock 2MHz",
    "list BOARD",
    "groups BOARD",
    "vector BOARD 1",
    "marks BOARD CAPTURE",
    "marks BOARD CAPTURE --all --names NAMES",
    "make TEXT OUT",
    "show BOARD",
    "show BOARD --names NAMES",
    "simulate BOARD OUT --force",
    "simulate BOARD OUT --force --names NAMES --and DATA,2 --open 9=1",
    "report BOARD CAPTURE -o OUT --date today",
    "report BOARD CAPTURE -o OUT --date today --names NAMES --serial 7"))

NAMES = ("check", "list", "groups", "vector", "marks", "make", "show", "simulate", "report")
GOOD = {"BOARD": "good.bsin", "CAPTURE": "good.capture", "NAMES": "good.txt", "TEXT": "good.txt", "OUT": "out/new"}
INPUTS = ("BOARD", "CAPTURE", "NAMES", "TEXT")

TEXT_OF_E = b"""\
limit 2
nets 3
net DATA   # net 0; the others have no names
CPU: control on 1
     three-state net DATA control CPU
     three-state net 1 control 0
     control on 0
     three-state net DATA control 3
     control on 1
     three-state net 1 control 5
     two-state net 2
     input net 0
     input net 1
     input net 2
"""

UNUSABLE_INPUTS = ("missing", "good.bsin/x", "folder", "missing/x", "", "x" * 300)
# A full disk stands here as a link and as a node of its own: a command that is wrong about devices must not get at those of the machine.
UNUSABLE_OUTPUTS = ("folder", "missing/x", "good.bsin/x", "full-link", "full-node", "", "x" * 300)

# What each file may be instead: its name, the status, and the refusal where that is 2.
WRONG = {
    "BOARD": (("empty", 2, (1, 0)), ("cut.bsin", 2, (1, 0)), ("half.bsin", 2, (5, 0)), ("huge", 2, (1, 0)), ("/dev/zero", 2, (1, 0)),
              ("/dev/null", 2, (1, 0)), ("good.txt", 2, (1, 0)), ("good.capture", 2, (1, 0)), ("flipped.bsin", 2, (2, 1))),
    "CAPTURE": (("empty", 2, (14, 0)), ("cut.capture", 2, (14, 0)), ("long.capture", 2, (14, 0)), ("huge", 2, (14, 0)),
                ("/dev/zero", 2, (14, 0)), ("/dev/null", 2, (14, 0)), ("good.bsin", 2, (14, 0))),
    "TEXT": (("empty", 3, None), ("cut.txt", 3, None), ("huge", 3, None), ("/dev/zero", 3, None), ("/dev/null", 3, None),
             ("good.bsin", 3, None)),
    "NAMES": (("empty", 3, None), ("cut.txt", 3, None), ("huge", 3, None), ("/dev/zero", 3, None), ("/dev/null", 3, None),
              ("good.bsin", 3, None), ("other.txt", 3, None))}


# --------------------------------------------------------------------------
# Files
# --------------------------------------------------------------------------

def write(folder, name, data):
    """A new file in place of an old one: quicker than writing over it, which some file systems answer with a flush."""
    path = os.path.join(folder, name)
    with contextlib.suppress(FileNotFoundError):
        os.remove(path)
    with open(path, "wb") as out:
        out.write(data)
    return name


def read(folder, name):
    with open(os.path.join(folder, name), "rb") as file:
        return file.read()


def make_files(folder):
    e = boards.board_e()
    capture = boards.tied_capture(e, "healthy", [])
    flipped = bytearray(e)
    flipped[700] ^= 1
    for name, data in (("good.bsin", e), ("cut.bsin", e[:1000]), ("half.bsin", e[:512]), ("flipped.bsin", bytes(flipped)),
                       ("good.capture", capture), ("cut.capture", capture[:-1]), ("long.capture", capture + b"\0"),
                       ("good.txt", TEXT_OF_E), ("other.txt", TEXT_OF_E.replace(b"limit 2", b"limit 3")),
                       ("cut.txt", TEXT_OF_E[:TEXT_OF_E.rindex(b"trol 5")]), ("empty", b""), ("-dashed.bsin", e),
                       ("long.bsin", boards.near_limit(random.Random(1), False, boards.AT_LIMIT))):
        write(folder, name, data)
    for name in ("folder", "out"):
        os.mkdir(os.path.join(folder, name))
    with open(os.path.join(folder, "huge"), "wb") as huge:
        huge.truncate(100 << 20)  # sparse
    for name in ("good.bsin", "good.capture", "good.txt"):
        os.symlink(name, os.path.join(folder, "link-" + name))
    make_full_disks(folder)


def make_full_disks(folder):
    """/dev/full by a link, and a device like it, where one may be made; else another link."""
    os.symlink("/dev/full", os.path.join(folder, "full-link"))
    try:
        os.mknod(os.path.join(folder, "full-node"), 0o666 | stat.S_IFCHR, os.makedev(1, 7))
    except PermissionError:
        os.symlink("/dev/full", os.path.join(folder, "full-node"))


def words(command, **other):
    """The command with good files, but for those given."""
    return [{**GOOD, **other}.get(word, word) for word in command]


# --------------------------------------------------------------------------
# Nothing is left behind
# --------------------------------------------------------------------------

@contextlib.contextmanager
def unchanged(program, typed, old=None):
    """out/ is afterwards what it was: empty, or one file with the bytes `old`."""
    folder = os.path.join(program.folder, "out")
    if old is not None:
        write(folder, "new", old)
    there = sorted(os.listdir(program.folder))
    yield
    left = {name: read(folder, name) for name in os.listdir(folder)}
    program.check(typed, left == ({} if old is None else {"new": old}), "left behind in out: %s" % sorted(left))
    program.check(typed, sorted(os.listdir(program.folder)) == there, "left behind: %s" % (set(os.listdir(program.folder)) - set(there)))
    for name in left:
        os.remove(os.path.join(folder, name))


def expect_nothing(program, status, typed, **how):
    """Fails with this status, and leaves no file where there was none and an old one as it was."""
    for old in (None, b"old\n"):
        with unchanged(program, typed, old):
            ran = program.expect(status, *typed, **how)
    return ran


def taken(program, name="out/new"):
    """The file that a run has written, alone in its folder; it is removed."""
    folder = os.path.join(program.folder, "out")
    there = os.listdir(folder)
    data = read(program.folder, name) if os.path.basename(name) in there else None
    for one in there:
        os.remove(os.path.join(folder, one))
    return data if len(there) == 1 else None


def result(program, typed, **how):
    """Status, standard output, and the bytes written to OUT where there is one."""
    ran = program.run(*typed, **how)
    return ran.status, ran.out, taken(program)


# --------------------------------------------------------------------------
# Inputs
# --------------------------------------------------------------------------

def inputs_of(command):
    return [word for word in command if word in INPUTS]


def good(program):
    """What each command gives for good files; the others are held against it."""
    found = {}
    for command in COMMANDS:
        status, out, file = found[tuple(command)] = result(program, words(command))
        program.check(words(command), status == 0, "status %s of good files" % status)
        program.check(words(command), bool(file) == ("OUT" in command), "the file to write")
        program.check(words(command), out == said(command) if "OUT" in command else bool(out), "printed %r" % out)
    return found


def said(command):
    """What a command prints of good files that writes a file: report the verdict, the others nothing."""
    return b"RELEASE\n" if command[0] == "report" else b""


def unusable_inputs(program):
    for command in COMMANDS:
        for which in inputs_of(command):
            for name in UNUSABLE_INPUTS:
                typed = words(command, **{which: name})
                expect_nothing(program, 4, typed, err=name.encode() + b": cannot be read")


def wrong_inputs(program):
    for command in COMMANDS:
        for which in inputs_of(command):
            for name, status, refusal in WRONG[which]:
                typed = words(command, **{which: name})
                ran = expect_nothing(program, status, typed, refusal=refusal)
                spoken = command[0] in ("check", "list") and which == "BOARD"
                program.check(typed, spoken or not ran.out, "printed %r" % ran.out)


def refused_board(rng, number):
    """A board with this refusal, and the number and place it was made to have."""
    if number == 12:
        return boards.near_limit(rng, True), (12, 0)
    while True:
        made = boards.damaged(rng, number)
        if made.expected is not None:
            return made.file, made.expected[:2]


def refused_boards(program, rng, rounds):
    """Each refusal, by each subcommand, with the place that the damage was made to have."""
    for number in range(1, 13):
        for _ in range(rounds):
            file, verdict = refused_board(rng, number)
            write(program.folder, "refused.bsin", file)
            line = b"refused %d %d\n" % verdict
            for command in COMMANDS:
                if "BOARD" not in command or "NAMES" in command:
                    continue
                typed = words(command, BOARD="refused.bsin")
                ran = expect_nothing(program, 2, typed, refusal=verdict, out=line if command[0] == "list" else None)
                told = ran.out if command[0] in ("list", "check") else ran.err
                program.check(typed, told.startswith((line, b"rigcandle: refused.bsin: " + line[:-1] + b":")), "told %r" % told[:100])
                may_print = command[0] in ("list", "check") or (command[0] == "show" and number > 5)
                program.check(typed, may_print or not ran.out, "printed %r" % ran.out[:100])


def standard_input(program, wanted):
    """Through a pipe and from a file, and by the names /dev/stdin, of a link and of a named pipe: all the same."""
    for command in COMMANDS:
        for which in inputs_of(command):
            name = GOOD[which]
            with open(os.path.join(program.folder, name), "rb") as file:
                data = file.read()
                file.seek(0)
                ways = {"-": {"stdin": file}, "- ": {"given": data}, "/dev/stdin": {"given": data}, "link-" + name: {}, "pipe": {}}
                for way, how in ways.items():
                    typed = words(command, **{which: way.strip()})
                    with fed(program.folder, data) if way == "pipe" else contextlib.nullcontext():
                        found = result(program, typed, **how)
                    same(program, typed, found, wanted[tuple(command)])


@contextlib.contextmanager
def fed(folder, data):
    """A named pipe through which these bytes come once."""
    name = os.path.join(folder, "pipe")
    os.mkfifo(name)
    feeder = threading.Thread(target=feed, args=(name, data), daemon=True)
    feeder.start()
    yield
    feeder.join(5)
    os.remove(name)


def feed(name, data):
    with contextlib.suppress(BrokenPipeError), open(name, "wb") as out:
        out.write(data)


def same(program, typed, found, wanted):
    """A page has its files' names in it, which differ; everything else is the same to the byte."""
    program.check(typed, found[:2] == wanted[:2], "status %s and printed %r, expected %s and %r" % (*found[:2], *wanted[:2]))
    if typed[0] == "report":
        program.check(typed, found[2] is not None and abs(len(found[2]) - len(wanted[2])) < 200, "another page")
    else:
        program.check(typed, found[2] == wanted[2], "another file")


# --------------------------------------------------------------------------
# Outputs
# --------------------------------------------------------------------------

def unusable_outputs(program):
    for command in COMMANDS:
        for name in UNUSABLE_OUTPUTS if "OUT" in command else ():
            sort = file_sort(program, name)
            ran = expect_nothing(program, 4, words(command, OUT=name), err=name.encode() + b": cannot be written")
            program.check(ran.words, len(ran.err.splitlines()) == 1, "told more than once: %r" % ran.err)
            program.check(ran.words, file_sort(program, name) == sort, "%s is no longer what it was" % name)


def file_sort(program, name):
    """Whether it is a file, folder, link or device; None where it is none."""
    with contextlib.suppress(OSError):
        return stat.S_IFMT(os.lstat(os.path.join(program.folder, name)).st_mode)


def disk_full_while_writing(program):
    """A file that may not grow fails in the middle of being written, as on a full disk."""
    small = lambda: resource.setrlimit(resource.RLIMIT_FSIZE, (5, 5))
    for command in COMMANDS:
        if "OUT" in command:
            # the signal of the limit stays ignored, as it is in Python: the write fails
            expect_nothing(program, 4, words(command), err=b"out/new: cannot be written", preexec_fn=small, restore_signals=False)


def whole_files(program, wanted):
    """A new file, in place of an old one, as - on standard output, through a link and into a named pipe: the same bytes each time."""
    for command in COMMANDS:
        if "OUT" not in command:
            continue
        typed, (_, _, file) = words(command), wanted[tuple(command)]
        write(program.folder, "out/new", b"old " * 5000)
        same_file(program, typed, result(program, typed)[2], file)
        program.expect(0, *words(command, OUT="-"), out=file)
        write(program.folder, "target", b"old " * 5000)
        os.symlink("target", os.path.join(program.folder, "link"))
        program.expect(0, *words(command, OUT="link"), out=said(command))
        program.check(typed, os.path.islink(os.path.join(program.folder, "link")), "the link is gone")
        same_file(program, typed, read(program.folder, "target"), file)
        same_file(program, typed, drained(program, words(command, OUT="pipe")), file)
        for name in ("link", "target"):
            os.remove(os.path.join(program.folder, name))


def same_file(program, typed, found, wanted):
    program.check(typed, found == wanted, "wrote %s bytes that are not the %d expected" % (found and len(found), len(wanted)))


def drained(program, typed):
    """What the command writes into a named pipe."""
    name, found = os.path.join(program.folder, "pipe"), []
    os.mkfifo(name)
    drain = threading.Thread(target=lambda: found.append(read(program.folder, "pipe")), daemon=True)
    drain.start()
    program.expect(0, *typed, out=said(typed))
    drain.join(5)
    os.remove(name)
    return found[0] if found else None


def overwritten_inputs(program):
    """No command writes over a file that it reads, whatever that is called."""
    for command in COMMANDS:
        for which in inputs_of(command) if "OUT" in command else ():
            name = GOOD[which]
            for other in (name, "./" + name, "link-" + name, os.path.join(program.folder, name)):
                before = read(program.folder, name)
                typed = words(command, OUT=other)
                ran = program.run(*typed)
                program.check(typed, ran.status == 3, "status %s where the output is an input" % ran.status)
                program.check(typed, read(program.folder, name) == before, "wrote over its own input")
                write(program.folder, name, before)
            typed = words(command, **{which: "-", "OUT": name})
            ran = program.run(*typed, through=("bash", "-c", 'exec "$@" <"$0"', name))
            program.check(typed, ran.status == 3, "status %s where the output is standard input" % ran.status)
            program.check(typed, read(program.folder, name) == before, "wrote over its own standard input")
            write(program.folder, name, before)


def scanned_captures(program):
    """simulate leaves a capture alone that is there already, unless it is told to write over it."""
    write(program.folder, "out/new", b"scanned")
    typed = words("simulate BOARD OUT".split())
    ran = program.run(*typed)
    program.check(typed, ran.status == 3 and b"--force" in ran.err, "status %s where a capture is there" % ran.status)
    program.check(typed, read(program.folder, "out/new") == b"scanned", "wrote over a capture")
    os.remove(os.path.join(program.folder, "out/new"))
    program.expect(0, *typed, out=b"")
    os.remove(os.path.join(program.folder, "out/new"))


def earlier_pages(program):
    """Where report is refused, a page that is there already stays, and is said to be of an earlier run."""
    write(program.folder, "out/new", b"RELEASE of yesterday")
    typed = words("report BOARD CAPTURE -o OUT".split(), CAPTURE="empty")
    ran = program.run(*typed)
    program.check(typed, ran.status == 2 and b"out/new is of an earlier run" in ran.err, "told %r of an earlier page" % ran.err)
    program.check(typed, b"nothing was tested" in ran.err and not ran.out, "nothing was tested, but told %r" % ran.err)
    program.check(typed, read(program.folder, "out/new") == b"RELEASE of yesterday", "wrote over a page")
    os.remove(os.path.join(program.folder, "out/new"))


PRINTING = (*(command for command in COMMANDS if "OUT" not in command), *(words(command, OUT="-") for command in COMMANDS if "OUT" in command),
            ["--help"], ["--version"], *([name, "--help"] for name in NAMES), ["check", "cut.bsin"], ["list", "cut.bsin"], ["list", "long.bsin"])


def lost_outputs(program):
    """Standard output on a full disk, closed before the start, or a pipe whose reader is gone: status 4, and a message, once."""
    for command in PRINTING:
        typed = words(command)
        with open("/dev/full", "wb") as full:
            lost(program, program.run(*typed, stdout=full), "a full disk")
        lost(program, program.run(*typed, through=("bash", "-c", 'exec "$@" >&-', "closed"), stdout=subprocess.DEVNULL), "closed output")
        ends = os.pipe()
        os.close(ends[0])
        lost(program, program.run(*typed, stdout=ends[1]), "a pipe without a reader")
        os.close(ends[1])


def lost(program, ran, how):
    program.check(ran.words, ran.status == 4, "status %s with %s" % (ran.status, how))
    program.check(ran.words, ran.err.count(b"standard output: cannot be written") == 1, "told with %s: %r" % (how, ran.err))


def reader_that_leaves(program):
    """A reader takes the first bytes and goes away."""
    child = subprocess.Popen([*program.start, "list", "long.bsin"], cwd=program.folder, stdout=subprocess.PIPE, stderr=subprocess.PIPE)
    child.stdout.read(20)
    child.stdout.close()
    said = child.stderr.read()
    child.stderr.close()
    program.check(("list",), child.wait(10) == 4 and b"cannot be written" in said, "status %s when the reader left: %r" % (child.returncode, said))


def closed_streams(program, wanted):
    """Without standard input or standard error all is the same; and what prints nothing does not need standard output."""
    for command in COMMANDS:
        typed = words(command)
        for closing in ("<&-", "2>&-", "<&- 2>&-"):
            found = result(program, typed, through=("bash", "-c", 'exec "$@" ' + closing, "closed"))
            program.check(typed, found == wanted[tuple(command)], "status %s with %s" % (found[0], closing))
        if "OUT" in command and not said(command):
            for closing in (">&-", ">/dev/full", ">&- 2>&-", "<&- >&- 2>&-"):
                status, _, file = result(program, typed, through=("bash", "-c", 'exec "$@" ' + closing, "closed"))
                program.check(typed, (status, file) == (0, wanted[tuple(command)][2]), "status %s with %s" % (status, closing))
    for typed, status in ((["check", "missing"], 4), (["marks", "good.bsin", "empty"], 2), (["make", "empty", "out/new"], 3), (["nonsense"], 3)):
        found = result(program, typed, through=("bash", "-c", 'exec "$@" 2>&-', "closed"), stderr=None)
        program.check(typed, found == (status, b"", None), "%s without standard error" % (found,))
    program.expect(4, "check", "-", through=("bash", "-c", 'exec "$@" <&-', "closed"))


# --------------------------------------------------------------------------
# Usage
# --------------------------------------------------------------------------

WRONG_USAGE = (
    [], ["nonsense"], ["--nonsense"], ["-v"], [""], ["Check", "BOARD"], ["check "], ["good.bsin"], ["-"], ["--"],
    *([name] for name in NAMES), *([name, "--nonsense"] for name in NAMES), *([name, "--help=x"] for name in NAMES),
    *([*command, "more"] for command in COMMANDS), *([*command, "-x"] for command in COMMANDS), *([*command, "--clok", "1"] for command in COMMANDS),
    *([*command, "--names"] for command in COMMANDS), *([*command, "--", "--help"] for command in COMMANDS),
    ["marks", "BOARD"], ["make", "TEXT"], ["simulate", "BOARD"], ["vector", "BOARD"], ["report", "BOARD", "-o", "OUT"],
    ["report", "BOARD", "CAPTURE"], ["report", "BOARD", "CAPTURE", "-o"], ["report", "BOARD", "CAPTURE", "OUT"],
    ["marks", "-", "-"], ["report", "-", "-", "-o", "OUT"], ["check", "-", "--names", "-"], ["show", "-", "--names=-"],
    ["marks", "BOARD", "-", "--names", "-"], ["simulate", "-", "OUT", "--names", "-"], ["report", "BOARD", "-", "--names", "-", "-o", "OUT"],
    ["list", "BOARD", "--names", "NAMES"], ["groups", "BOARD", "--names", "NAMES"], ["make", "TEXT", "OUT", "--names", "NAMES"],
    ["marks", "BOARD", "CAPTURE", "--all=1"], ["marks", "BOARD", "CAPTURE", "--clock", "1"], ["check", "BOARD", "--clock"],
    ["check", "BOARD", "--serial", "1"], ["list", "BOARD", "--all"],
    *(["check", "BOARD", "--clock", rate] for rate in (
        "", "x", "0", "0.0", "-1", "+1", "1e6", "0x10", "inf", "nan", "1.2.3", ".", "10mhz", "10GHz", "10 MHz x", "MHz", " 1", "1,5", "10MHz ",
        "9" * 400, "9" * 307 + "MHz")),
    *(["vector", "BOARD", number] for number in (
        "", "x", "-1", "+1", " 1", "1 ", "1.0", "0x1", "1e0", "18446744073709551616", "99999999999999999999999")),
    *(["simulate", "BOARD", "OUT", *wrong] for wrong in (
        ["--and"], ["--and", ""], ["--and", "0"], ["--and", "0,0"], ["--and", "0,3"], ["--and", "0,"], ["--and", "0,1,"], ["--and", "0;1"],
        ["--and", "0,x"],
        ["--or", "65536,1"], ["--or", "4294967296,1"], ["--or", "0,1", "--and", "1,2"], ["--or", "-1,1"], ["--wins", "0,1"], ["--wins", "3:0,1"],
        ["--wins", "0:0"], ["--wins", ":0,1"], ["--wins", "0:"], ["--open", "9"], ["--open", "9=2"], ["--open", "9="], ["--open", "=1"],
        ["--open", "0=1"], ["--open", "11=1"], ["--open", "9=1", "--open", "9=0"], ["--stuck", "8=1"], ["--stuck", "0=1"], ["--stuck", "1"],
        ["--stuck", "1=1", "--stuck", "1=0"], ["--no-resistor"], ["--no-resistor", ""], ["--no-resistor", "0"], ["--no-resistor", "3"],
        ["--on", "1"], ["--on", "11"], ["--on", "CPU"], ["--off", "-1"], ["--on", "0", "--off", "0"],
        ["--fight", "both"], ["--fight", ""], ["--float", "2"], ["--float", "kept"], ["--during", "1"], ["--during", "2-1"], ["--during", "0-6"],
        ["--during", "-1-2"], ["--during", "1-"], ["--during", "-"], ["--all"], ["--names", "good.txt", "--and", "DATA,NOISE"])),
    ["simulate", "BOARD", "OUT", *["--on=0"] * 300])

# Ways of saying what COMMANDS say, and what they stand for.
OTHER_WAYS = (
    *((["check", "--clock", rate, "good.bsin", "--names", "good.txt"], 1) for rate in ("2000kHz", "2 MHz", "2000000Hz", "2.0MHz")),
    (["check", "--clock=2MHz", "--names=good.txt", "good.bsin"], 1),
    (["check", "--names", "good.txt", "--clock", "2000000", "--", "good.bsin"], 1),
    (["check", "--", "-dashed.bsin"], 0), (["check", "./-dashed.bsin"], 0), (["check", "--clock", "10MHz", "good.bsin"], 0),
    (["list", "--", "good.bsin"], 2), (["vector", "good.bsin", "0001"], 4), (["vector", "--", "good.bsin", "1"], 4),
    (["marks", "--names=good.txt", "--all", "good.bsin", "good.capture"], 6),
    (["marks", "good.bsin", "--all", "good.capture", "--names", "good.txt"], 6))


def wrong_usage(program):
    for command in WRONG_USAGE:
        typed = words(command)
        ran = expect_nothing(program, 3, typed)
        program.check(typed, b"rigcandle" in ran.err, "told %r" % ran.err)


def other_ways(program, wanted):
    for typed, which in OTHER_WAYS:
        found = result(program, typed)
        program.check(typed, found == wanted[tuple(COMMANDS[which])], "not what %s gives" % " ".join(COMMANDS[which]))
    program.expect(2, "vector", "good.bsin", "6", refusal=(13, 0), out=b"")
    program.expect(2, "vector", "good.bsin", "18446744073709551615", refusal=(13, 0), out=b"")


def version(root):
    with open(os.path.join(root, "include", "rigcandle.h")) as header:
        return [line.split('"')[1] for line in header if line.startswith("#define RIGCANDLE_VERSION")][0]


def help_of_all(program, root):
    program.expect(0, "--version", out=b"rigcandle %s\n" % version(root).encode())
    whole = program.expect(0, "--help").out
    for word in ("-h", "help"):
        program.expect(0, word, out=whole)
    for name in NAMES:
        program.check(("--help",), b"\n  %s " % name.encode() in whole, "no word of " + name)
        ran = program.expect(0, name, "--help")
        program.check(ran.words, ran.out.startswith(b"usage: rigcandle %s" % name.encode()), "printed %r" % ran.out)
        program.expect(0, name, "good.bsin", "--help", out=ran.out)
        for command in COMMANDS:
            for option in (word for word in command if word.startswith("-") and command[0] == name):
                program.check(ran.words, b"\n  %s " % option.encode() in ran.out, "no word of " + option)


# --------------------------------------------------------------------------
# All
# --------------------------------------------------------------------------

def quick_enough(program):
    """An input without end, as each file of each command, was refused long ago: SLOW holds for all runs.  So is a text of a million errors."""
    lines = b"three-state net x control y\n" * 1024
    program.expect(3, "make", "-", "out/new", given=lines + b"x\n" * ((1 << 19) - len(lines)))
    program.expect(3, "make", "-", "out/new", given=b"x " * (1 << 19))
    program.expect(3, "make", "-", "out/new", given=b"\n" * (1 << 20))
    program.expect(3, "make", "-", "out/new", given=b"x" * (1 << 20))


def run(program, rng, root, rounds):
    make_files(program.folder)
    wanted = good(program)
    unusable_inputs(program)
    wrong_inputs(program)
    refused_boards(program, rng, rounds)
    standard_input(program, wanted)
    unusable_outputs(program)
    disk_full_while_writing(program)
    whole_files(program, wanted)
    overwritten_inputs(program)
    scanned_captures(program)
    earlier_pages(program)
    lost_outputs(program)
    reader_that_leaves(program)
    closed_streams(program, wanted)
    wrong_usage(program)
    other_ways(program, wanted)
    help_of_all(program, root)
    quick_enough(program)


def missing(program):
    """What had to occur and did not."""
    for name in NAMES:
        for status in (0, 1, 2, 3, 4) if name in ("marks", "report") else (0, 2, 3, 4):
            if not program.runs[name, status]:
                yield "%s with status %d" % (name, status)
        for number in range(1, 13):
            if name != "make" and (name, number) not in program.refusals:
                yield "refusal %d of %s" % (number, name)
    for name, number in (("vector", 13), ("marks", 14), ("report", 14)):
        if (name, number) not in program.refusals:
            yield "refusal %d of %s" % (number, name)
