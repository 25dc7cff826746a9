"""A report's page, looked at from outside, against tests/reference.

    python3 page.py PAGE BOARD CAPTURE

Exit 0 and no output where all is right, else a line that says what is wrong and exit 1. What is looked at: the page is well formed and
loads nothing; verdict, numbers, tiles, figures, sizes and sums are those of the two files; each net has its own word, and each input
cell that misreads has what it read, where that is wrong, and whose word it is. Names are looked at only for being the same everywhere.
"""

import collections
import hashlib
import os
import re
import sys
from html.parser import HTMLParser

HERE = os.path.dirname(os.path.abspath(__file__))
HEADER = os.path.join(HERE, "..", "..", "include", "rigcandle.h")
sys.path.insert(0, os.path.join(HERE, "..", "reference"))
sys.dont_write_bytecode = True
import document01

WORDS = {0: "pass", 1: "fail", 2: "unsure, not seen", 3: "unsure, read twice"}
CLASSES = {0: "pass", 1: "fail", 2: "not-seen", 3: "read-twice"}
SIGNS = {0: "\u2713", 1: "\u2717", 2: "?", 3: "2\u00d7"}
ORDER = (1, 3, 2)  # of the nets that do not pass
SHOWN = 64         # vectors in a row
ALIKE = 3          # other positions named that read the same
IN_TITLE = 3       # input cells that a tile's title tells of

VOID = {"meta"}
ELEMENTS = VOID | set("""html head title style body main header section h1 h2 p dl div dt dd ul li a span bdi b strong em abbr cite code
                         pre table thead tbody tr th td details summary""".split())
ATTRIBUTES = set("lang charset name content http-equiv class id href title aria-label aria-hidden scope rowspan data-position".split())
FROM_OUTSIDE = ("title", "aria-label")  # attributes that may have text from outside
LOADS = ("http:", "https:", "src=", "url(", "@import", "<script", "javascript:")


class Wrong(Exception):
    pass


def same(what, found, wanted):
    if found != wanted:
        raise Wrong("%s: the page has %s, expected %s" % (what, shown(found), shown(wanted)))


def shown(value):
    text = repr(value)
    return text if len(text) <= 160 else text[:100] + " .. " + text[-40:]


# --------------------------------------------------------------------------
# The page as a tree
# --------------------------------------------------------------------------

class Element:
    def __init__(self, tag, attributes):
        self.tag = tag
        self.attributes = attributes
        self.children = []  # elements and strings

    def get(self, name):
        return self.attributes.get(name)

    def classes(self):
        return (self.get("class") or "").split()

    def all(self, tag=None, of=None):
        """The elements within, in order, of this tag and class."""
        for child in self.children:
            if isinstance(child, Element):
                if tag in (None, child.tag) and (of is None or of in child.classes()):
                    yield child
                yield from child.all(tag, of)

    def one(self, tag, of=None):
        found = list(self.all(tag, of))
        if len(found) != 1:
            raise Wrong("expected one <%s> of class %s within <%s>, found %d" % (tag, of, self.tag, len(found)))
        return found[0]

    def text(self, without=None):
        """All text within, but that of elements of the class `without`."""
        texts = (child if isinstance(child, str) else child.text(without) for child in self.children
                 if isinstance(child, str) or without not in child.classes())
        return "".join(texts)

    def said(self):
        """The text without names, with single blanks."""
        return re.sub(r" ([,;.]|'s)", r"\1", " ".join(self.text(without="name").split()))


class Tree(HTMLParser):
    """Every element closed in order, none unknown; what may load something is not there."""

    def __init__(self):
        super().__init__(convert_charrefs=True)
        self.root = Element("page", {})
        self.open = [self.root]
        self.declared = None

    def handle_starttag(self, tag, attributes):
        at = "line %d: <%s>" % (self.getpos()[0], tag)
        if tag not in ELEMENTS:
            raise Wrong(at + " does not belong on the page")
        names = [name for name, _ in attributes]
        for name, value in attributes:
            if name not in ATTRIBUTES or value is None or names.count(name) != 1:
                raise Wrong("%s has the attribute %s" % (at, name))
            if name == "href" and not value.startswith("#"):
                raise Wrong("%s leads to %s" % (at, value))
        made = Element(tag, dict(attributes))
        self.open[-1].children.append(made)
        if tag not in VOID:
            self.open.append(made)

    def handle_startendtag(self, tag, attributes):
        raise Wrong("line %d: <%s/> is no HTML" % (self.getpos()[0], tag))

    def handle_endtag(self, tag):
        if self.open[-1].tag != tag:
            raise Wrong("line %d: </%s> closes <%s>" % (self.getpos()[0], tag, self.open[-1].tag))
        self.open.pop()

    def handle_data(self, data):
        self.open[-1].children.append(data)

    def handle_decl(self, decl):
        self.declared = decl

    def handle_comment(self, data):
        raise Wrong("line %d: a comment" % self.getpos()[0])

    handle_pi = unknown_decl = handle_comment


def tree(text):
    parser = Tree()
    parser.feed(text)
    parser.close()
    if len(parser.open) != 1:
        raise Wrong("<%s> is not closed" % parser.open[-1].tag)
    same("the declaration", (parser.declared, text.startswith("<!DOCTYPE html>\n")), ("DOCTYPE html", True))
    return parser.root


def check_text(data):
    """Valid UTF-8, and no character that HTML does not let stand."""
    try:
        text = data.decode("utf-8")
    except UnicodeDecodeError as fault:
        raise Wrong("not UTF-8: %s" % fault)
    for character in text:
        point = ord(character)
        if (point < 32 and character != "\n") or 127 <= point < 160 or point & 0xFFFE == 0xFFFE or 0xFDD0 <= point <= 0xFDEF:
            raise Wrong("the character U+%04X" % point)
    if not text.endswith("</html>\n"):
        raise Wrong("the page does not end with </html>")
    return text


def check_loads(text):
    """Nothing from outside but text that is shown: that stands in <bdi>, <title>, or an attribute that is only read."""
    for tag in ("bdi", "title"):
        text = re.sub(r"<%s>[^<]*</%s>" % (tag, tag), "", text)
    for name in FROM_OUTSIDE:
        text = re.sub(r' %s="[^"<>]*"' % name, "", text)
    for load in LOADS:
        if load in text.lower():
            raise Wrong("%s stands in the page" % load)


def check_head(root):
    html = root.one("html")
    head = html.one("head")
    metas = [meta.attributes for meta in head.all("meta")]
    same("the language", html.get("lang"), "en")
    same("the first meta", metas[0], {"charset": "utf-8"})
    if not any(meta.get("name") == "viewport" for meta in metas):
        raise Wrong("no viewport")
    policy = [meta["content"] for meta in metas if meta.get("http-equiv") == "Content-Security-Policy"]
    same("what the page may load", policy, ["default-src 'none'; style-src 'unsafe-inline'"])


def check_links(root):
    names = [element.get("id") for element in root.all() if element.get("id")]
    if len(names) != len(set(names)):
        raise Wrong("an id stands twice")
    for link in root.all("a"):
        if link.get("href")[1:] not in names:
            raise Wrong("a link leads to %s, which is not there" % link.get("href"))
        net = re.match(r"net (\d+)", link.text())
        if net:
            same("the link to net " + net.group(1), link.get("href"), "#net-" + net.group(1))


def check_names(root):
    """A net and a cell have the same name wherever one stands behind the number."""
    known = {}
    for element in root.all():
        for before, name in zip(element.children, element.children[1:]):
            if not isinstance(before, str) or isinstance(name, str) or "name" not in name.classes():
                continue
            number = re.search(r"(\d+) $", before)
            if number:
                what = ("net " if element.tag in ("a", "th") else "position ") + number.group(1)
                same("the name of " + what, name.text(), known.setdefault(what, name.text()))


def check_tables(root):
    """Every row of a table has as many cells as its head, those counted that reach down from rows above."""
    for table in root.all("table"):
        wide = len(list(table.one("thead").all("th")))
        for body in table.all("tbody"):
            below = collections.Counter()
            rows = list(body.all("tr"))
            for at, row in enumerate(rows):
                cells = [cell for cell in row.children if isinstance(cell, Element)]
                for cell in cells:
                    for further in range(1, int(cell.get("rowspan") or 1)):
                        below[at + further] += 1
                same("cells in a row", len(cells) + below[at], wide)
            if below and max(below) >= len(rows):
                raise Wrong("a cell reaches below its rows")
        for head in table.all("th"):
            if head.get("scope") not in ("col", "row", "rowgroup"):
                raise Wrong("a table's head without scope")


# --------------------------------------------------------------------------
# What should stand there, from the reference
# --------------------------------------------------------------------------

class Expected:
    def __init__(self, file, capture):
        self.file, self.capture = file, capture
        if document01.verdict(file)[0] != 0:
            raise Wrong("the board is refused, so that there is no page of it")
        self.kept = document01.kept(file)
        self.cells, self.nets, self.limit = self.kept.board
        answer, marks = document01.marks(file, capture, bytes([255]) * 256)
        if answer & 255:
            raise Wrong("the capture is refused, so that there is no page of it")
        self.marks = list(marks[:self.nets])
        self.numbers = document01.unpacked("marks", answer)
        self.release = set(self.marks) == {0}
        self.total, self.size = self.kept.total, self.kept.size
        self.own = ["".join(str(one.values[net]) for one in self.kept.vectors) for net in range(self.nets)]
        self.read = {q: self.column(q) for q, cell in enumerate(self.cells) if cell.kind == document01.INPUT}
        self.net_of_word = {word: net for net, word in enumerate(self.own)}
        self.readers = collections.defaultdict(list)  # word -> positions that read it
        for q, word in self.read.items():
            self.readers[word].append(q)

    def column(self, q):
        return "".join("01"[byte >> q % 8 & 1] for byte in self.capture[q // 8::self.size])

    def inputs(self, net):
        return [q for q in self.read if self.cells[q].net == net]

    def wrong_at(self, q):
        own = self.own[self.cells[q].net]
        return [v for v in range(self.total) if self.read[q][v] != own[v]]

    def misreading(self, net):
        return [q for q in self.inputs(net) if self.read[q] != self.own[net]]

    def from_outside(self, net):
        return [q for q in self.readers[self.own[net]] if self.cells[q].net != net]

    def place(self, q):
        return "position %d of net %d" % (q, self.cells[q].net)

    def whose(self, q):
        """Whose word the cell at q read: "" where it is nobody's, else as a tile says it."""
        word = self.read[q]
        if len(set(word)) == 1:
            return "always " + word[0]
        return "net %d's word" % self.net_of_word[word] if word in self.net_of_word else ""

    def told(self, q):
        """What the table says of a cell that misreads."""
        whose, wrong = self.whose(q), self.wrong_at(q)
        if whose:
            says = "read " + whose + (" in every vector" if whose.startswith("net") else "")
        else:
            says = "read no net's word"
            alike = [r for r in self.readers[self.read[q]] if self.cells[r].net != self.cells[q].net]
            if alike:
                says += ", but the same as " + ", ".join(self.place(r) for r in alike[:ALIKE])
            if len(alike) > ALIKE:
                says += " and %d more" % (len(alike) - ALIKE)
        return says + "; wrong in %d of %d vectors, first in vector %d" % (len(wrong), self.total, wrong[0])

    def reason(self):
        fail, unsure = self.numbers["fail"], self.numbers["unsure"]
        if self.release:
            return "all %d nets pass" % self.nets if self.nets > 1 else "the board's one net passes"
        parts = ["%d net%s" % (fail, " fails" if fail == 1 else "s fail")] if fail else []
        if unsure:
            nets = "" if fail else "net " if unsure == 1 else "nets "
            parts.append("%d %s%s unsure" % (unsure, nets, "is" if unsure == 1 else "are"))
        return ", ".join(parts)


def grouped(word):
    return " ".join(word[at:at + 8] for at in range(0, len(word), 8))


# --------------------------------------------------------------------------
# The page's parts
# --------------------------------------------------------------------------

def check_verdict(root, ids, wanted):
    word = "RELEASE" if wanted.release else "HOLD"
    same("the verdict", ids["verdict"].text(), word)
    same("the verdict's class", root.one("section", "verdict").classes(), ["verdict", word.lower()])
    same("the title's verdict", root.one("title").text().split(":")[0], word)
    same("the reason", root.one("p", "reason").text(), wanted.reason())
    for name, number in wanted.numbers.items():
        same("the number of " + name, ids[name].text(), str(number))
    same("the numbers", root.one("dl", "numbers").text().split("\n")[1:-1], ["%s%d" % one for one in wanted.numbers.items()])
    unseen = wanted.marks.count(2)
    nets = "One net of this board file has" if unseen == 1 else "%d nets of this board file have" % unseen
    same("of nets not seen", [one.text() for one in root.one("div", "why").all("p")][2:],
         [nets + " no input cell: no capture of it is a RELEASE."] if unseen else [])


def version():
    with open(HEADER) as header:
        return re.search(r'#define RIGCANDLE_VERSION "(.*)"', header.read()).group(1)


def check_record(root, ids, wanted):
    said = [(one.one("dt").text(), one.one("dd").text()) for one in root.one("dl", "said").all("div")]
    same("what is said", [what for what, _ in said], ["Serial", "Date", "Program"])
    same("the program", said[2][1], "rigcandle " + version())
    same("the generator", [meta.get("content") for meta in root.all("meta") if meta.get("name") == "generator"], [said[2][1]])
    figures = {"cells": len(wanted.cells), "nets": wanted.nets, "limit": wanted.limit, "groups": len(wanted.kept.groups),
               "patterns": wanted.kept.patterns, "vectors": wanted.total}
    for name, number in figures.items():
        same(name, ids[name].text(), str(number))
    for name, data in (("board", wanted.file), ("capture", wanted.capture)):
        same("the bytes of the " + name, ids[name + "-bytes"].text(), str(len(data)))
        same("the SHA-256 of the " + name, ids[name + "-sha256"].text(), hashlib.sha256(data).hexdigest())


def title_lines(wanted, net):
    """The lines of a tile's title, behind the first; names are left out."""
    begun = lambda word: grouped(word[:SHOWN]) + (" .." if wanted.total > SHOWN else "")
    wrong = wanted.misreading(net)
    yield "own word " + begun(wanted.own[net])
    for q in wrong[:IN_TITLE]:
        whose = wanted.whose(q)
        yield "position %d read %s%s" % (q, begun(wanted.read[q]), ", " + whose if whose else "")
    if len(wrong) > IN_TITLE:
        yield "and %d more misread" % (len(wrong) - IN_TITLE)
    for q in wanted.from_outside(net)[:1]:
        yield "read, too, at " + wanted.place(q)


def without_name(line):
    """A title's line without the name of the cell at a position."""
    return re.sub(r"(position \d+) .*?( read [01]| of net \d)", r"\1\2", line)


def names_in(element):
    """The names within, each behind a blank."""
    return "".join(" " + name.text() for name in element.all("span", "name"))


def check_tiles(root, wanted):
    tiles = [item.one("a", "tile") for item in root.one("ul", "tiles").all("li")]
    said = [one.text() for one in root.all("h2") if one.text().startswith("Nets ") and "pass" not in one.text()]
    same("the number of tiles", (len(tiles), said), (wanted.nets, ["Nets %d" % wanted.nets]))
    for net, tile in enumerate(tiles):
        mark, at = wanted.marks[net], "the tile of net %d" % net
        same(at, (tile.classes(), tile.get("href")), (["tile", CLASSES[mark]], "#net-%d" % net))
        same(at, (tile.one("span", "sign").text(), tile.one("span", "number").text()), (SIGNS[mark], str(net)))
        named = names_in(tile)
        lines = tile.get("title").split("\n")
        same(at, tile.get("aria-label"), "net %d%s, %s" % (net, named, WORDS[mark]))
        same(at, lines[0], "net %d%s: %s" % (net, named, WORDS[mark]))
        same(at, [without_name(line) for line in lines[1:]], list(title_lines(wanted, net)))


def check_legend(root, wanted):
    entries = [(entry.one("dt").text().split(), entry.one("span", "tile").classes()) for entry in root.one("dl", "legend").all("div")]
    for mark in WORDS:
        entry = (SIGNS[mark] + " " + WORDS[mark] + " " + str(wanted.marks.count(mark))).split()
        if (entry, ["tile", CLASSES[mark]]) not in entries:
            raise Wrong("the legend has not: " + " ".join(entry))
    same("the legend", len(entries), len(WORDS))


def check_whole(at, cell, word, own):
    """The whole of a long word, in rows with their numbers, and * where one differs from the net's own."""
    if word is None or len(word) <= SHOWN:
        same(at + ", opened", len(list(cell.all("details"))), 0)
        return
    rows = []
    for first in range(0, len(word), SHOWN):
        row, right = word[first:first + SHOWN], own[first:first + SHOWN]
        rows.append("%4d%s %s\n" % (first, " " if row == right else "*", grouped(row)))
    same(at + ", opened", cell.one("details").one("summary").text(), "all %d vectors" % len(word))
    same(at + ", opened", cell.one("pre").text(), "".join(rows))


def check_own(at, row, wanted, net):
    cells = list(row.all("td"))[1:]
    right = [q for q in wanted.inputs(net) if wanted.read[q] == wanted.own[net]]
    readers = ", ".join(map(str, right)) or ("nowhere" if wanted.inputs(net) else "no input cell")
    outside = ", at ".join(wanted.place(q) for q in wanted.from_outside(net))
    same(at + ", read at", cells[0].said(), readers)
    same(at + ", own word", cells[1].one("code").text(), grouped(wanted.own[net][:SHOWN]))
    same(at + ", own word standing out", len(list(cells[1].one("code").all())), 0)
    check_whole(at, cells[1], wanted.own[net], wanted.own[net])
    same(at + ", of its own word", cells[2].said(), "own word" + ("; read, too, at " + outside if outside else ""))


def standing_out(code):
    """The word in a <code>, and the places in it that stand out."""
    word, places = "", []
    for part in code.children:
        bits = (part if isinstance(part, str) else part.text()).replace(" ", "")
        if not isinstance(part, str):
            places += range(len(word), len(word) + len(bits))
        word += bits
    return word, places


def check_misread(at, row, wanted, q):
    at += ", position %d" % q
    net, word, wrong = wanted.cells[q].net, wanted.read[q], wanted.wrong_at(q)
    cells = list(row.all("td"))
    first = wrong[0] // SHOWN * SHOWN
    same(at, (row.classes(), row.get("data-position"), cells[0].said()), (["misread"], str(q), str(q)))
    same(at, [one.text() for one in cells[1].all("span", "from")], ["from vector %d on" % first] if first else [])
    same(at + ", what it read", cells[1].one("code").text(), grouped(word[first:first + SHOWN]))
    same(at + ", where that is wrong", standing_out(cells[1].one("code")),
         (word[first:first + SHOWN], [v - first for v in wrong if first <= v < first + SHOWN]))
    check_whole(at, cells[1], None if wanted.whose(q) else word, wanted.own[net])
    same(at + ", whose word it read", cells[2].said(), wanted.told(q))


def check_net(body, named, wanted, net):
    mark, at = wanted.marks[net], "the table of net %d" % net
    rows = list(body.all("tr"))
    wrong = wanted.misreading(net)
    head, marked = rows[0].one("th"), rows[0].one("td", "mark")
    same(at, (body.classes(), head.text(), marked.one("span", "tile").classes()),
         ([CLASSES[mark]], str(net) + named, ["tile", CLASSES[mark]]))
    same(at, marked.text(), SIGNS[mark] + " " + WORDS[mark])
    same(at + ", rows", [len(rows), int(head.get("rowspan")), int(marked.get("rowspan"))], [1 + len(wrong)] * 3)
    check_own(at, rows[0], wanted, net)
    for row, q in zip(rows[1:], wrong):
        check_misread(at, row, wanted, q)


def check_nets(root, wanted):
    order = [net for mark in ORDER for net in range(wanted.nets) if wanted.marks[net] == mark]
    bodies = {}
    for name, nets in (("not-passing", order), ("passing", [net for net in range(wanted.nets) if wanted.marks[net] == 0])):
        sections = [section for section in root.all("section") if section.get("id") == name]
        same("the table " + name, len(sections), 1 if nets else 0)
        same("the number of nets of the table " + name, [section.one("h2").one("span", "of").text() for section in sections],
             [str(len(nets))] if nets else [])
        found = {body.get("id"): body for section in sections for body in section.one("table").all("tbody")}
        same("the nets of the table " + name, list(found), ["net-%d" % net for net in nets])
        bodies.update(found)
    for net, tile in enumerate(root.one("ul", "tiles").all("li")):
        check_net(bodies["net-%d" % net], names_in(tile), wanted, net)


def check(page, file, capture):
    text = check_text(page)
    check_loads(text)
    root = tree(text)
    check_head(root)
    check_links(root)
    check_names(root)
    check_tables(root)
    wanted = Expected(file, capture)
    ids = collections.defaultdict(lambda: Element("nothing", {}), {one.get("id"): one for one in root.all() if one.get("id")})
    check_verdict(root, ids, wanted)
    check_record(root, ids, wanted)
    check_tiles(root, wanted)
    check_legend(root, wanted)
    check_nets(root, wanted)
    if "docs/OPERATING.md" not in ids["limits"].text():
        raise Wrong("what a pass does not cover does not name docs/OPERATING.md")


def contents(name):
    with open(name, "rb") as file:
        return file.read()


def main(names):
    if len(names) != 3:
        print("usage: page.py PAGE BOARD CAPTURE")
        return 1
    try:
        check(*map(contents, names))
    except (Wrong, OSError) as fault:
        print("%s: %s" % (names[0], fault))
        return 1
    return 0


if __name__ == "__main__":
    sys.exit(main(sys.argv[1:]))
