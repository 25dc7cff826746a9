"""What the documents say that can be held against files.

    python3 documents.py

docs/FILE.md: board E's bytes, all of them, and its text description. Every page: links to files that are there. README: every crate and
folder is on its map. Prints what is wrong and ends with status 1, or prints nothing.
"""

import glob
import os
import re
import sys

ROOT = os.path.abspath(os.path.join(os.path.dirname(os.path.abspath(__file__)), "..", ".."))
PAGES = ["README.md", "examples/README.md"] + sorted(os.path.relpath(p, ROOT) for p in glob.glob(os.path.join(ROOT, "docs", "*.md")))


def read(name):
    with open(os.path.join(ROOT, name), encoding="utf-8") as page:
        return page.read()


def board_bytes():
    """Rows `| at | bytes | say |`: each stands in the file, and every other byte is 0."""
    with open(os.path.join(ROOT, "examples/board-e.bsin"), "rb") as board:
        file = board.read()
    said = bytearray(len(file))
    rows = re.findall(r"^\| (\d+) \| ((?:`[0-9a-f ]+` ?)+) \|", read("docs/FILE.md"), re.M)
    if not rows:
        yield "docs/FILE.md has no bytes of board E"
    for at, words in rows:
        at, stand = int(at), bytes.fromhex(words.replace("`", ""))
        said[at:at + len(stand)] = stand
    if said != file:
        at = next(i for i in range(len(file)) if said[i] != file[i])
        yield "docs/FILE.md: byte %d of board E is %02x, not %02x" % (at, file[at], said[at])


def lines_without_comments(text):
    return [line for line in (re.sub(r"(^|\s)#.*", "", line).rstrip() for line in text.splitlines()) if line]


def text_of_e():
    shown = re.search(r"```text\n(.*?)```", read("docs/FILE.md"), re.S)
    if not shown or lines_without_comments(shown.group(1)) != lines_without_comments(read("examples/board-e.txt")):
        yield "docs/FILE.md does not show examples/board-e.txt"


def links(page):
    for target in re.findall(r"\]\(([^)#]+)\)", read(page)):
        if not os.path.exists(os.path.join(ROOT, os.path.dirname(page), target)):
            yield "%s: there is no %s" % (page, target)


def map_of_the_house():
    page = read("README.md")
    folders = ["crates/" + os.path.basename(p) for p in glob.glob(os.path.join(ROOT, "crates", "*"))]
    for folder in folders + ["include/", "cli/", "examples/", "bench/"]:
        if "`%s`" % folder not in page:
            yield "README.md: %s is not on the map" % folder


def main():
    wrong = list(board_bytes()) + list(text_of_e()) + [w for page in PAGES for w in links(page)] + list(map_of_the_house())
    for line in wrong:
        print("tests/command: " + line)
    return 1 if wrong else 0


if __name__ == "__main__":
    sys.exit(main())
