"""What the program check_plans writes: N, p, G, SSOL and total of some plans, then
every vector of two of them, its group and its net values from net 0 on.

    python3 plans.py FILE
"""

import sys

from document01 import base, patterns, total, woven

TOTALS = ((1, 1, 1), (3, 2, 2), (3, 2, 1), (254, 1, 1024), (255, 1, 1024),
          (128, 16, 2), (183, 16, 3), (256, 16, 1))
VECTORS = ((3, 2, 1), (70, 3, 9))

# By hand, from document 01: one two-state net, E, E with SSOL 1, and the two
# totals nearest to 4,097.
BY_HAND = {(1, 1, 1): 2, (3, 2, 2): 6, (3, 2, 1): 11, (128, 16, 2): 4096, (183, 16, 3): 4098}


def lines():
    for nets, groups, limit in TOTALS:
        found = total(nets, groups, limit)
        if BY_HAND.get((nets, groups, limit), found) != found:
            raise SystemExit("total of %r: %d" % ((nets, groups, limit), found))
        yield "%d %d %d %d %d" % (nets, patterns(nets), groups, limit, found)
    for nets, groups, limit in VECTORS:
        for one in woven(base(nets, groups), limit):
            yield "%d %s" % (one.group, "".join(map(str, one.values)))


if __name__ == "__main__":
    with open(sys.argv[1], "w") as out:
        out.writelines(line + "\n" for line in lines())
