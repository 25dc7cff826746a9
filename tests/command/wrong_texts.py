"""Wrong text descriptions, and what make should tell of each: for every error its line and a word of the message, in this order.

Each text is whole but for what is wrong with it; GOOD is one with nothing wrong.
"""

HEAD = "limit 2\nnets 2\n"
CELLS = "two-state net 0\ntwo-state net 1\ncontrol on 1\n"
GOOD = HEAD + CELLS

LONG = "n" * 63


def cell(line):
    """A text whose sixth line is this one."""
    return GOOD + line + "\n"


ONE_LINE = [
    # (the sixth line, a word of each message)
    ("inputs net 0", "inputs"), ("Input net 0", "Input"), ("net: foo", "foo"), ("x y", "x"), ("A : internal", "A"), ("A:", "nothing"), ("input:", "nothing"),
    ("\x0cinternal", "internal"), ("internal;", "internal;"), ("=", "="), ("'internal'", "'internal'"),
    ("internal x", "x"), ("internal net 0", "net"), ("internal internal", "internal"), ("internal on 0", "on"),
    ("input", "net"), ("input net", "net"), ("input 0", "0"), ("input net 2", "below 2"), ("input net -1", "-1"), ("input net none", "none"),
    ("input net X", "X"), ("input net 0 net 1", "twice"), ("input net 0 net", "net"), ("input net 0 1", "1"), ("input net 0 on 0", "on"),
    ("input net 65535", "65535"), ("input net 4294967296", "4294967296"), ("input net 18446744073709551616", "18446744073709551616"),
    ("input control 2", "control"), ("input net 0 control 2", "control"), ("input net 0x0", "0x0"), ("input net 0.", "0."),
    ("control", "on"), ("control on", "on"), ("control on 2", "0 to 1"), ("control on -0", "-0"), ("control on x", "x"), ("control on none", "none"),
    ("control 1", "1"), ("control on 1 on 1", "twice"), ("control on 1 net 0", "net"), ("control on 1 kind 2", "kind"),
    ("three-state", "control"), ("three-state net 0", "control"), ("three-state control 2", "net"), ("three-state net 0 control", "control"),
    ("three-state net 0 control 4", "below 4"), ("three-state net 0 control 0", "two-state in line 3"), ("three-state net 0 control 3", "three-state in line 6"),
    ("three-state net 0 control none", "none"), ("three-state net 0 control C", "C"), ("three-state net 9 control 2", "9"),
    ("three-state net 0 control 2 on 1", "on"), ("three-state net 0 control 2 control 2", "twice"), ("three-state net control 2", "2 does not belong", "a net"),
    ("two-state", "net"), ("two-state net 2", "2"), ("two-state net 0 control 2", "control"), ("two-state net 0 kind 4", "kind"),
    ("open-drain", "net"), ("open-drain net", "net"), ("open-drain 0", "0"), ("open-drain net 2", "below 2"), ("open-drain net none", "none"),
    ("open-drain net X", "X"), ("open-drain net 0 control 2", "control"), ("open-drain net 0 on 0", "on"), ("open-drain net 0 kind 5", "kind"),
    ("open-drain net 0 net 0", "twice"), ("open drain net 0", "found open"), ("Open-Drain net 0", "Open-Drain"), ("open_drain net 0", "open_drain"),
    ("open-drain: net 0", "found net"), ("A open-drain net 0", "a colon"),
    ("record", "on"), ("record kind 0 on 0 control none", "net"), ("record kind 0 on 0 net none", "control"), ("record kind 0 control none net none", "on"),
    ("record on 0 control none net none", "kind"), ("record kind 256 on 0 control none net none", "0 to 255"),
    ("record kind 0 on 256 control none net none", "0 to 255"), ("record kind 0 on 0 control 65536 net none", "65536"),
    ("record kind 0 on 0 control none net 65536", "65536"), ("record kind none on 0 control none net none", "none"),
    ("record kind 0 on none control none net none", "none"), ("record kind 0 on 0 control none net NONE", "NONE"),
    ("record kind 0 on 0 control None net none", "None"), ("record kind 0 kind 1 on 0 control none net none", "twice"),
    ("record 0 0 none none", "0", "0", "none", "none"), ("5: internal", "5"), ("none: internal", "none"), (": internal", "name"), ("a,b: internal", "a,b"), ("a=b: internal", "a=b"),
    ("a:b: internal", "a:b"), ("a\x7fb: internal", "name"), ("a\x1bb: internal", "name"), (LONG + "n: internal", LONG), ("::", "name", "nothing"),
    ("net", "NAME"), ("net 0", "NAME"), ("net A B", "NAME"), ("net 0 A B", "NAME"), ("net 256 A", "256"), ("net 2 A", "below"), ("net 1 5", "5"),
    ("net none", "none"), ("net a,b", "a,b"), ("net 0 a:", "a:"), ("net a=", "a="), ("net 99999999999999999999 A", "99999999999999999999"),
    ("net " + LONG + "n", LONG), ("limit 2", "twice"), ("nets 2", "twice"), ("a b c d e f g h i j k l m n o p q", "16 words"),
    ("input net 0 a b c d e f g h i j k l m n", "16 words"), ("input net 0 " + " ".join("abcdefghijklm"), *(letter + " does" for letter in "abcdefghijklm")),
]

SEVERAL = [
    # (the whole text, [(line, word), ..])
    ("", [(1, "nets"), (1, "limit"), (1, "cell")]),
    ("\n\n\n", [(3, "nets"), (3, "limit"), (3, "cell")]),
    ("# limit 2\n  # nets 2", [(2, "nets"), (2, "limit"), (2, "cell")]),
    (HEAD, [(2, "cell")]),
    ("nets 2\n" + CELLS, [(4, "limit")]),
    ("limit 2\n" + "internal\n" * 3, [(4, "nets")]),
    ("limit 2\ntwo-state net A\n", [(2, "nets")]),
    ("limit 0\nnets 2\n" + CELLS, [(1, "1 to 1024")]),
    ("limit 1025\nnets 2\n" + CELLS, [(1, "1025")]),
    ("limit -1\nnets 2\n" + CELLS, [(1, "-1")]),
    ("limit x\nnets 2\n" + CELLS, [(1, "x")]),
    ("limit 2.0\nnets 2\n" + CELLS, [(1, "2.0")]),
    ("limit\nnets 2\n" + CELLS, [(1, "one number")]),
    ("limit 2 3\nnets 2\n" + CELLS, [(1, "one number")]),
    ("limit 99999999999999999999\nnets 2\n" + CELLS, [(1, "99999999999999999999")]),
    ("Limit 2\nnets 2\n" + CELLS, [(1, "Limit"), (5, "limit")]),
    ("limit 2\nnets 0\n" + CELLS, [(2, "1 to 256")]),
    ("limit 2\nnets 257\n" + CELLS, [(2, "257")]),
    ("limit 2\nnets\n" + CELLS, [(2, "one number")]),
    ("limit 2\nnets 300\nnet A\ntwo-state net A\ninput net A\n", [(2, "300")]),
    ("limit 2\nnet A\ncontrl on 1\nthree-state net A control 0\ninput net A\n", [(3, "contrl")]),
    (HEAD + "net A\nnet A\n" + CELLS, [(4, "A is a name already, in line 3")]),
    (HEAD + "net 1 A\nnet 0 A\n" + CELLS, [(3, "in line 4")]),
    (HEAD + "net 0 A\nnet 0 B\n" + CELLS, [(4, "net 0 has a name already, in line 3")]),
    (HEAD + "net 1 B\nnet C\n" + CELLS, [(4, "net 2 is not below")]),
    (GOOD + "A: internal\nB: internal\nA: internal\nA: internal\n", [(8, "in line 6"), (9, "in line 6")]),
    # an open-drain output is a control cell of its own, and of no other output
    (GOOD + "A: open-drain net 0\nthree-state net 1 control A\n", [(7, "which is open-drain in line 6")]),
    ("limit 2\n" + "".join("net N%d\n" % i for i in range(257)) + CELLS, [(258, "256 nets")]),
    (HEAD + "internal\n" * 1025, [(1027, "1024 cells")]),
    (HEAD + "internal\n" * 1030, [(1027, "1024 cells")]),
    # all of them, in the order of the lines, whatever pass finds them
    ("limit 0\ninput net 9\nnets 2\nfoo\nA: three-state net 0 control 0\nA: control on 2\nlimit 3\nnet B\nnet C\nnet D\ninput net E\n",
     [(1, "limit"), (2, "9"), (4, "foo"), (5, "input in line 2"), (6, "A is a name already"), (6, "0 to 1"), (7, "twice"), (10, "net 2"), (11, "E")]),
    ("three-state net 7 control 8\nnets 2\nlimit 2\nthree-state control 1 net 2 on 3\n", [(1, "7"), (1, "8"), (4, "on"), (4, "found 2"), (4, "which is three-state in line 4")]),
    ("limit 2\r\nnets 2\r\nfoo\r\n\r\nbar\r\n", [(3, "foo"), (5, "bar")]),
    ("limit 2\nnets 2\nfoo", [(3, "foo")]),
    (GOOD + "input net 0\0", [(1, "zero bytes")]),
    ("\0", [(1, "zero bytes")]),
    (GOOD + "#" * (1 << 20), [(1, "1048576 bytes")]),
]


def all_of_them():
    """(text, [(line, word), ..])"""
    yield from ((cell(line), [(6, word) for word in words]) for line, *words in ONE_LINE)
    yield from SEVERAL
