#!/usr/bin/env python3
"""Turns a crate's old Proof.antt files, which gave each goal to `tie.spec` by place, into Invariants.antt and Answers.antt.

usage: python3 tools/answers.py CRATE NAMES.json      at the top of the repository

NAMES.json is what `rt check --generated DIR --old-names` writes in the crate's folder. A goal whose old proof was a bare tactic gets no answer: the
check tries its own tactics there. Steps of the code are fields of one record now, so `c.before.before.loop.inv` is `c.loop-j.invariant`; a helper
that takes an earlier place is passed it by its `.before`s. What this cannot turn is printed.
"""

import json
import os
import re
import sys

IDENT = r"[A-Za-zα-ωΑ-Ω_κ][A-Za-z0-9_'₀₁₂₃α-ωκ]*(?:-[A-Za-z0-9_'₀₁₂₃]+)*"
ID = re.compile(IDENT)
FIELD = re.compile(r"\.([A-Za-z0-9_'-]*[A-Za-z0-9_'])")
TESTS = {"taken": "true", "left": "false"}


def norm(s):
    return s.replace("_", "-")


class Info:
    def __init__(self, d):
        self.places = {}
        self.parent = {}
        self.step = {}
        self.new = {}
        self.callee = {}
        self.clauses = {}
        self.typed = {}
        self.arms = {}
        self.renamed = {}
        names = list(d["places_by_name"])
        old = d["places"]
        real = [p for p in old if p[0] != "Untold"] if len(names) == len(old) - 1 or any(p[0] == "Untold" for p in old) else old
        untold = [p for p in old if p[0] == "Untold"]
        i = 0
        for k, p in enumerate(old):
            new = names[k] if len(names) == len(old) else (names[i] if p not in untold else "Untold")
            if p not in untold:
                i += 1
            o = norm(p[0])
            self.new[o] = new
            self.parent[o] = norm(p[1]) if p[1] else None
            self.step[o] = (norm(p[2][0]), p[2][1])
            self.callee[o] = p[3]
            cl = d["clauses"][k] if k < len(d["clauses"]) else None
            self.clauses[o] = cl["fields"] if isinstance(cl, dict) else cl
            self.arms[o] = d["arms"][k] if k < len(d["arms"]) else None
            self.renamed[o] = {norm(a): b for a, b in p[4]} if len(p) > 4 and p[4] else {}
            self.typed[o] = d["typed"][k] if k < len(d["typed"]) else []
        self.needs = [(norm(a), b) for a, b in d["needs"]]
        self.at = [norm(a[0]) for a in d["asked_at"]]
        self.asked = {norm(k): v for k, v in d["asked"].items()}
        self.loops = [(norm(l[0][0]), l[0][1], l[1], ch) for l, ch in zip(d["loops"], d["changed"])]
        self.pre = d["pre"]["fields"] if d["pre"] else None
        self.raw = d

    def chain(self, a, b):
        n = 0
        while a is not None and a != b:
            a = self.parent.get(a)
            n += 1
        return n if a == b else None

    def find(self, place, field):
        """The step with the old name `field` seen from `place`, and the place that has it."""
        for f in (field, field[:1].lower() + field[1:]):
            p = place
            while p is not None:
                if self.step[p][0] == f:
                    return p
                p = self.parent.get(p)
        return None


def split_top(s, sep):
    parts, depth, cur, i = [], 0, "", 0
    while i < len(s):
        ch = s[i]
        if ch in "([{":
            depth += 1
        elif ch in ")]}":
            depth -= 1
        if depth == 0 and s.startswith(sep, i):
            parts.append(cur)
            cur = ""
            i += len(sep)
            continue
        cur += ch
        i += 1
    parts.append(cur)
    return parts


def split_args(s):
    """The arguments of an application, at depth 0, split at white space."""
    args, depth, cur = [], 0, ""
    for ch in s:
        if ch in "([{":
            depth += 1
        elif ch in ")]}":
            depth -= 1
        if depth == 0 and ch.isspace():
            if cur:
                args.append(cur)
            cur = ""
        else:
            cur += ch
    if cur:
        args.append(cur)
    return args


class Alias:
    def __init__(self, root, place=None, text=None, kind=None, step=None):
        self.root, self.place, self.text, self.kind, self.step = root, place, text, kind, step


class File:
    def __init__(self, text, info, said):
        self.info = info
        self.said = said
        self.navs = {}
        self.seen_places = set()
        self.goal = None
        self.helpers = {}
        self.copies = {}
        self.text = text

    # ---- expressions

    def fields(self, place, root, fs, frm=None):
        """The new text of root.f1.f2.. for old fields from `place`, and what the result is."""
        inf = self.info
        while fs and fs[0] == "before":
            place = inf.parent.get(place) or place
            fs = fs[1:]
        if not fs:
            return ("place", place)
        f = norm(fs[0])
        if f in ("pre", "requires"):
            return ("text",) + self.requires(root + ".requires", fs[1:])
        if f == "args":
            return ("text", root + ".args" + "".join("." + x for x in fs[1:]), None, [])
        if f in ("ranges", "well-formed", "lifetimes"):
            return ("text", root + "." + fs[0] + "".join("." + x for x in fs[1:]), None, [])
        for suffix in ("",):
            p = inf.find(place, f) or (frm and inf.find(frm, f))
            if p:
                new = inf.step[p][1]
                return ("text",) + self.step_fields(p, root + "." + new, fs[1:])
            # a step whose fields went to an arm below it
        # typed facts
        self.said(f"no step {fs[0]} seen from {place}")
        return ("text", root + "." + ".".join(fs), None, [])

    def requires(self, text, fs):
        names = self.info.pre
        if not names or len(names) < 2:
            return text + "".join("." + x for x in fs), "pre", []
        k = 0
        while fs and k < len(names) - 1:
            if fs[0] == "0":
                return text + "." + names[k] + "".join("." + x for x in fs[1:]), None, []
            if fs[0] == "1":
                k += 1
                fs = fs[1:]
                continue
            return text + "".join("." + x for x in fs), None, []
        if k == 0:
            return text, "pre", []
        if k < len(names) - 1:
            return text, ("pre", k), []
        return text + "." + names[k] + "".join("." + x for x in fs), None, []

    def step_fields(self, p, text, fs):
        inf = self.info
        if not fs:
            return text, ("step", p), []
        arm = inf.arms.get(p)
        if arm:
            best = None
            for newf, olds, sub in arm[2]:
                if norm(olds) == inf.step[p][0] and fs[: len(sub)] == sub and sub and (best is None or len(sub) > len(best[1])):
                    best = (newf, sub)
            if best:
                root = text[: text.rindex("." + inf.step[p][1])]
                return root + "." + arm[0] + "." + best[0] + "".join("." + x for x in fs[len(best[1]) :]), None, []
        if norm(fs[0]) in inf.renamed.get(p, {}):
            return text + "." + inf.renamed[p][norm(fs[0])] + "".join("." + x for x in fs[1:]), None, []
        f = fs[0]
        loop = next((l for l in inf.loops if l[0] == inf.step[p][0]), None)
        if loop:
            if f in ("inv", "invariant"):
                return text + ".invariant" + "".join("." + x for x in fs[1:]), None, []
            if f == "auto" and "kept" in loop[2]:
                f = "kept"
            if f == "false" and "left" in loop[2]:
                f = "left"
            return text + "." + f + "".join("." + x for x in fs[1:]), None, []
        if f in TESTS and inf.step[p][0].startswith(("if", "loop", "match")):
            f = TESTS[f]
        if f == "ensures":
            cl = inf.clauses.get(p)
            if cl and len(cl) == 1:
                return text + ".ensures." + cl[0] + "".join("." + x for x in fs[1:]), None, []
            if cl and len(cl) > 1:
                k = 0
                rest = fs[1:]
                while rest and k < len(cl) - 1:
                    if rest[0] == "0":
                        return text + ".ensures." + cl[k] + "".join("." + x for x in rest[1:]), None, []
                    if rest[0] == "1":
                        k += 1
                        rest = rest[1:]
                        continue
                    break
                if k == 0:
                    return text + ".ensures", None, []
                return text + ".ensures." + cl[k] + "".join("." + x for x in rest), None, []
        return text + "." + f + "".join("." + x for x in fs[1:]), None, []

    def atom(self, s, i, env):
        """A place expression at s[i:], as (end, root, place, text for a bare use), else None."""
        if s[i] == "(":
            m = ID.match(s, i + 1)
            if not m or m.group() not in self.navs:
                return None
            nav = m.group()
            j = m.end()
            while j < len(s) and s[j] == " ":
                j += 1
            if j >= len(s):
                return None
            a = self.place_expr(s, j, env)
            if not a or a[0] >= len(s) or s[a[0]] != ")":
                return None
            return (a[0] + 1, a[1], self.navs[nav], None, a[4])
        m = ID.match(s, i)
        if not m or m.group() not in env or (i and (s[i - 1].isalnum() or s[i - 1] in "_.'-")):
            return None
        al = env[m.group()]
        if al.place is None:
            return None
        return (m.end(), al.root, al.place, None, al)

    def bare(self, a):
        """An earlier place passed on whole."""
        frm = a[4].frm
        if frm == a[2]:
            return a[1]
        if self.info.chain(frm, a[2]) is None:
            self.said(f"no way from {frm} to {a[2]}")
        self.seen_places.add(self.info.new[a[2]])
        if self.goal:
            return f"(goal.at.{self.goal} {a[1]}).{self.info.new[a[2]]}"
        self.said(f"a helper passes on {self.info.new[a[2]]} from {self.info.new[frm]}")
        return a[1]

    def place_expr(self, s, i, env):
        """A place expression with its .befores."""
        a = self.atom(s, i, env)
        if not a:
            m = ID.match(s, i)
            if m and m.group() in self.navs and m.group() not in env and s[m.end() : m.end() + 1] == " " and (i == 0 or not (s[i - 1].isalnum() or s[i - 1] in "_.'-")):
                b = self.place_expr(s, m.end() + 1, env)
                if b and not FIELD.match(s, b[0]):
                    return (b[0], b[1], self.navs[m.group()], None, b[4])
        if not a:
            return None
        end, root, place, text, al = a
        while s.startswith(".before", end) and not re.match(r"[A-Za-z0-9_'-]", s[end + 7 : end + 8] or " "):
            end += 7
            place = self.info.parent.get(place) or place
        return (end, root, place, text, al)

    def rewrite(self, s, env):
        out, i = [], 0
        env = dict(env)
        while i < len(s):
            if s.startswith("--", i) and (i == 0 or s[i - 1] in " \n"):
                j = s.find("\n", i)
                j = len(s) if j < 0 else j
                out.append(s[i:j])
                i = j
                continue
            prev = s[i - 1] if i else " "
            if prev.isalnum() or prev in "_.'-₀":
                out.append(s[i])
                i += 1
                continue
            # let alias
            m = re.compile(r"let (" + IDENT + r") = ").match(s, i)
            if m:
                j = m.end()
                e = self.place_expr(s, j, env)
                if e:
                    k = e[0]
                    fs = []
                    while True:
                        f = FIELD.match(s, k)
                        if not f:
                            break
                        fs.append(f.group(1))
                        k = f.end()
                    t = re.compile(r"\s+in\b").match(s, k)
                    if t and not fs:
                        al = Alias(e[1], e[2])
                        al.frm = e[4].frm
                        env[m.group(1)] = al
                        i = t.end()
                        i = self.drop_space(s, i, out)
                        continue
                    if t and fs:
                        r = self.fields(e[2], e[1], fs, e[4].frm)
                        if r and r[0] == "text" and r[2] is not None:
                            al = Alias(e[1])
                            al.text, al.kind = r[1], r[2]
                            env[m.group(1)] = al
                            i = t.end()
                            i = self.drop_space(s, i, out)
                            continue
            m = ID.match(s, i)
            if m and m.group() in self.helpers and m.group() not in env and s[m.end() : m.end() + 1] == " ":
                e = self.place_expr(s, m.end() + 1, env)
                if e and not FIELD.match(s, e[0]):
                    place, path, _ = self.helpers[m.group()]
                    e = (e[0], e[1], place, None, e[4])
                    if path is not None:
                        out.append(e[1] + path)
                    elif e[4].frm == place or self.goal:
                        out.append(m.group() + " " + self.bare(e))
                    else:
                        self.copies.setdefault(m.group(), set()).add(e[4].frm)
                        out.append(m.group() + "-" + self.info.new[e[4].frm] + " " + e[1])
                    i = e[0]
                    continue
            e = self.place_expr(s, i, env) if (s[i] == "(" or ID.match(s, i)) else None
            if e:
                k = e[0]
                fs = []
                while True:
                    f = FIELD.match(s, k)
                    if not f:
                        break
                    fs.append(f.group(1))
                    k = f.end()
                if fs:
                    r = self.fields(e[2], e[1], fs, e[4].frm)
                    if r and r[0] == "text":
                        out.append(r[1])
                        i = k
                        continue
                out.append(self.bare_use(e))
                i = e[0]
                continue
            m = ID.match(s, i)
            if m and m.group() in env and env[m.group()].kind is not None:
                al = env[m.group()]
                k = m.end()
                fs = []
                while True:
                    f = FIELD.match(s, k)
                    if not f:
                        break
                    fs.append(f.group(1))
                    k = f.end()
                if al.kind == "pre":
                    out.append(self.requires(al.text, fs)[0])
                elif isinstance(al.kind, tuple) and al.kind[0] == "pre":
                    out.append(self.requires(al.text, ["1"] * al.kind[1] + fs)[0])
                elif isinstance(al.kind, tuple) and al.kind[0] == "step":
                    out.append(self.step_fields(al.kind[1], al.text, fs)[0])
                i = k
                continue
            if m:
                # a local binder of the same name hides an alias
                out.append(m.group())
                i = m.end()
                continue
            out.append(s[i])
            i += 1
        return "".join(out)

    def drop_space(self, s, i, out):
        """After a dropped let: the next line takes its place."""
        m = re.compile(r"[ \n]*").match(s, i)
        return m.end()

    def bare_use(self, e):
        return self.bare(e)

    # ---- types

    def types(self, s):
        def need(m):
            k = self.need_index(m.group(1))
            if k is None:
                self.said(f"no need {m.group(1)}")
                return m.group()
            return "goal." + self.info.needs[k][1]

        tail = r"((?:\s+(?:invariant|decreases)[A-Za-z0-9_-]*)*)"
        s = re.sub(r"tie\.Need-([A-Za-z0-9_-]+)" + tail, need, s)

        def place(m):
            n = norm(m.group(1))
            if n in self.info.new:
                self.seen_places.add(self.info.new[n])
                return self.info.new[n]
            self.said(f"no place {m.group(1)}")
            return m.group()

        return re.sub(r"tie\.([A-Z][A-Za-z0-9_-]*)" + tail, place, s)

    def place_of(self, t):
        m = re.search(r"tie\.(?!Need-)([A-Z][A-Za-z0-9_-]*)", t)
        return norm(m.group(1)) if m and norm(m.group(1)) in self.info.new else None

    def need_of(self, t):
        m = re.search(r"tie\.Need-([A-Za-z0-9_-]+)", t)
        if not m:
            return None
        return self.need_index(m.group(1))

    def need_index(self, name):
        n = norm(name)
        for x in (n, re.sub(r"^(?:overflow|nonzero)-", "", n)):
            k = next((j for j, (a, _) in enumerate(self.info.needs) if a == x), None)
            if k is not None:
                return k
        return next((j for j, (_, b) in enumerate(self.info.needs) if norm(b) == n), None)


def binder_places(f, sig):
    """For the explicit arguments of a signature: the place of each, or None; and the place of the result."""
    parts = split_top(sig, "→")
    places = []
    for p in parts[:-1]:
        t = p.strip()
        if re.match(r"^[({]", t):
            for g in re.finditer(r"\(([^():]*):|\{([^{}:]*):", t):
                pass
            for g in split_args(t):
                m = re.match(r"^\(([^:]*?)\s*:\s*(.*)\)$", g, re.S)
                if m:
                    pl = f.place_of(m.group(2))
                    for _ in m.group(1).split():
                        places.append(pl)
                elif g.startswith("{"):
                    continue
                else:
                    places.append(f.place_of(g))
        else:
            places.append(f.place_of(t))
    return places, f.place_of(parts[-1]) if len(parts) > 1 else None


def to_record(body, names):
    """A tuple at the end of body becomes a record with these names."""
    depth = 0
    # find the tail expression: last top-level " in" or start
    k = 0
    for m in re.finditer(r"\bin\b", body):
        if body[: m.start()].count("(") == body[: m.start()].count(")"):
            k = m.end()
    head, tail = body[:k], body[k:]
    t = tail.strip()
    if not (t.startswith("(") and t.endswith(")")):
        return None
    lead = tail[: len(tail) - len(tail.lstrip())]
    parts = [p.strip() for p in split_top(t[1:-1], ",")]
    parts = [p for p in parts if p]
    while len(parts) < len(names) and parts and parts[-1].startswith("(") and parts[-1].endswith(")"):
        inner = [p.strip() for p in split_top(parts[-1][1:-1], ",") if p.strip()]
        if len(inner) < 2:
            break
        parts = parts[:-1] + inner
    if len(parts) > len(names) and len(names) > 0:
        extra = parts[len(names) - 1 :]
        parts = parts[: len(names) - 1] + ["(" + ", ".join(extra) + ")"]
    if len(parts) != len(names):
        return None
    return head + lead + "record { " + "; ".join(f"{n} = {p}" for n, p in zip(names, parts)) + " }"


def trivial(body):
    return re.fullmatch(r"\s*\(?(search rules|omega arith|refl|tt)\)?\s*", body) is not None


def convert(path, info, said):
    with open(path, encoding="utf-8") as fh:
        text = fh.read()
    f = File(text, info, said)
    lines = text.split("\n")
    blocks, cur = [], []
    for n, line in enumerate(lines):
        if line.strip() == "" and (n + 1 >= len(lines) or (lines[n + 1] and not lines[n + 1].startswith(" "))):
            if cur:
                blocks.append("\n".join(cur))
            cur = []
        else:
            cur.append(line)
    if any(cur):
        blocks.append("\n".join(cur))
    head = blocks[0]
    header = [l for l in head.split("\n") if not re.search(r"\.(Statement\.\{statement\}|Tie as tie)", l)]
    module = re.search(r"use (Rattle\.\S*)\.Tie as tie", head)
    if not module:
        said("no Tie")
        return None
    module = module.group(1)
    decls = blocks[1:]
    spec = next((b for b in decls if "tie.spec" in b), None)
    if spec is None:
        said("no tie.spec")
        return None
    m = re.search(r"tie\.close\s*\(tie\.spec(.*)\)\s*$", spec, re.S)
    if not m:
        said("spec not read")
        return None
    args = split_args(m.group(1))
    nl = len(info.loops)
    invs, args = args[: 2 * nl], args[2 * nl :]
    if len(args) != len(info.needs):
        said(f"{len(args)} proofs for {len(info.needs)} goals: {[a for a, _ in info.needs]}")
    # navigators and helpers
    named = {}
    for b in decls:
        if b is spec:
            continue
        body = "\n".join(l for l in b.split("\n") if not l.startswith("--"))
        mm = re.match(r"(?:(?:abbrev|pub|unfoldable|record) )*(" + IDENT + r")\s*:", body)
        if mm:
            named[mm.group(1)] = b
            eq = re.search(r"^" + re.escape(mm.group(1)) + r"(?: |$)(?!:)", body[mm.end() :], re.M)
            sig = body[mm.end() : mm.end() + eq.start()] if eq else body[mm.end() :]
            sig = re.sub(r"^unfolding.*$", "", sig, flags=re.M)
            pl, res = binder_places(f, sig)
            if res:
                f.navs[mm.group(1)] = res
            elif pl and pl[0] and f.need_of(sig) is None:
                f.helpers[mm.group(1)] = [pl[0], None, b]
    for name, h in f.helpers.items():
        body = "\n".join(l for l in h[2].split("\n") if not l.startswith("--"))
        eq = re.search(r"^" + re.escape(name) + r" (" + IDENT + r") =(.*)$", body, re.M | re.S)
        if eq and not re.search(r"^unfolding", body, re.M):
            al = Alias(eq.group(1), h[0])
            al.frm = h[0]
            quiet, f.said = f.said, lambda t: None
            text = f.rewrite(eq.group(2), {eq.group(1): al}).strip()
            f.said = quiet
            mm = re.fullmatch(re.escape(eq.group(1)) + r"((?:\.[A-Za-z0-9_'-]+)+)", text)
            if mm:
                h[1] = mm.group(1)
    f.copies = {}
    inv_out, ans_out = [], []
    used = {}
    for k, a in enumerate(args[: len(info.needs)]):
        if re.fullmatch(IDENT, a):
            used.setdefault(a, []).append(k)
    # invariants
    for j, (oldl, newl, vars_, ch) in enumerate(info.loops):
        for kind, a in (("invariant", invs[2 * j] if 2 * j < len(invs) else None), ("decreases", invs[2 * j + 1] if 2 * j + 1 < len(invs) else None)):
            if a is None:
                continue
            if a in named:
                b = named[a]
                com = [l for l in b.split("\n") if l.startswith("--")]
                body = "\n".join(l for l in b.split("\n") if not l.startswith("--"))
                unf = [l for l in body.split("\n") if l.startswith("unfolding")]
                eq = re.search(r"^" + re.escape(a) + r" ([^=]*?)=(.*)$", body, re.M | re.S)
                binders, rhs = eq.group(1).split(), eq.group(2)
            else:
                com, unf = [], []
                eq = re.match(r"\(λ ([^.]*)\.(.*)\)$", a, re.S)
                if not eq:
                    said(f"loop argument {a}")
                    continue
                binders, rhs = eq.group(1).split(), eq.group(2)
            first = [(v, True) for v in vars_] + [(v, False) for v, c in zip(vars_, ch) if c]
            changed = {v for v, c in zip(vars_, ch) if c}
            if len(binders) != len(first):
                said(f"{len(binders)} binders for {first}")
                continue
            sub = {}
            for name, (v, initial) in zip(binders, first):
                sub[name] = f"l.initial.{v}" if initial and v in changed else f"l.{v}"
            rhs = re.sub(r"(?<![A-Za-z0-9_.'-])(" + "|".join(re.escape(x) for x in sorted(sub, key=len, reverse=True)) + r")(?![A-Za-z0-9_'₀-])(?! =)", lambda m: sub[m.group(1)], rhs)
            new = f"{kind}-{newl}"
            x = "at" if re.search(r"(?<![A-Za-z0-9_.'-])l(?![A-Za-z0-9_.'-])", rhs) else "l"
            if x != "l":
                rhs = re.sub(r"(?<![A-Za-z0-9_.'-])l\.(?=[a-z])", "at.", rhs)
            inv_out.append("\n".join(com + [f"abbrev pub {new} : goal.{new}"] + unf + [f"{new} {x} ={rhs}"]))
    # answers, in the order of the old file, then the inline ones
    done = set()
    helper_out = []

    def answer(k, com, unf, binder, body, more=""):
        extra = more.split()
        if info.needs[k][0].endswith("requires") or re.search(r"requires-\d+$", info.needs[k][0]):
            extra = extra[1:]
        extra = [x for x in extra if x != "κs"]
        place = info.at[k]
        new = info.needs[k][1]
        f.goal = new
        al = Alias(binder, place)
        al.frm = place
        text = f.types(f.rewrite(body, {binder: al}))
        f.goal = None
        names = info.asked.get(info.needs[k][0])
        if names and len(names) > 1:
            r = to_record(text, names)
            if r is None:
                if not trivial(text):
                    said(f"{new}: not a tuple for {names}")
            else:
                text = r
        if trivial(text) and not unf and not extra:
            return
        ans_out.append("\n".join(com + [f"pub {new} : goal.{new}"] + unf + [f"{' '.join([new, binder] + extra)} ={text}"]))

    for b in decls:
        if b is spec:
            continue
        com = [l for l in b.split("\n") if l.startswith("--")]
        body = "\n".join(l for l in b.split("\n") if not l.startswith("--"))
        mm = re.match(r"(?:(?:abbrev|pub|unfoldable|record) )*(" + IDENT + r")\s*:", body)
        name = mm.group(1) if mm else None
        if name and (name.startswith("invariant-") or name.startswith("decreases-")) and "tie." in body.split("\n")[0]:
            continue
        if name and name in used and f.need_of(body) is not None:
            eq = re.search(r"^" + re.escape(name) + r" (" + IDENT + r")((?: [^ =\n]+)*) =(.*)$", body, re.M | re.S)
            unf = [l for l in body.split("\n") if l.startswith("unfolding")]
            if not eq:
                said(f"answer {name} not read")
                continue
            for n, k in enumerate(used[name]):
                done.add(k)
                answer(k, com if n == 0 else [], unf, eq.group(1), eq.group(3), eq.group(2))
            continue
        if name and name in used:
            for k in used[name]:
                done.add(k)
        # a helper: rewrite with the places of its arguments
        env = {}
        if mm:
            eq0 = re.search(r"^" + re.escape(name) + r"((?: [^=\n]*)?) =", body[mm.end() :], re.M)
            sig = body[mm.end() : mm.end() + eq0.start()] if eq0 else ""
            sig = re.sub(r"^unfolding.*$", "", sig, flags=re.M)
            pl, _ = binder_places(f, sig)
            if f.need_of(sig) is not None and not pl:
                pl = [info.at[f.need_of(sig)]]
            if eq0:
                binders = split_args(eq0.group(1))
                binders = [x for x in binders if not x.startswith("{")]
                for x, p in zip(binders, pl):
                    if p and re.fullmatch(IDENT, x):
                        al = Alias(x, p)
                        al.frm = p
                        env[x] = al
                # binders named in the signature too
                for g in re.finditer(r"\((" + IDENT + r"(?: " + IDENT + r")*) : (tie\.[^()]*)\)", sig):
                    p = f.place_of(g.group(2))
                    for x in g.group(1).split():
                        if p and x not in env:
                            al = Alias(x, p)
                            al.frm = p
                            env[x] = al
        if name and name in f.navs:
            continue
        if name and name in f.helpers and f.helpers[name][1] is not None:
            continue
        helper_out.append((name, len(ans_out), body, env, com))
        ans_out.append("\n".join(com + [f.types(f.rewrite(body, env))]))
    spec_unf = [l for l in spec.split("\n") if l.startswith("unfolding")]
    for k, a in enumerate(args[: len(info.needs)]):
        if k in done:
            continue
        if re.fullmatch(IDENT, a):
            said(f"{info.needs[k][1]}: {a} is not declared here")
            continue
        eq = re.match(r"\(λ (" + IDENT + r")((?: [^ .()]+)*)\.(.*)\)$", a, re.S)
        if not eq:
            if trivial(a):
                continue
            said(f"{info.needs[k][1]}: {a[:80]}")
            continue
        if re.fullmatch(r"\s*search rules\s*", eq.group(3)):
            continue
        answer(k, [], spec_unf, eq.group(1), " " + eq.group(3).strip(), eq.group(2))
    for name, ks in used.items():
        if name in named and f.need_of(named[name]) is None:
            for k in ks:
                new = info.needs[k][1]
                ans_out.append(f"pub {new} : goal.{new}\n{new} c = {name} c")
    made = {}
    more = True
    while more:
        more = False
        for name, froms in list(f.copies.items()):
            for frm in sorted(froms):
                if (name, frm) in made:
                    continue
                more = True
                _, _, body, env, com = next(h for h in helper_out if h[0] == name)
                copy = name + "-" + info.new[frm]
                env2 = {}
                for x, al in env.items():
                    a2 = Alias(x, al.place)
                    a2.frm = frm if al.place == f.helpers[name][0] else al.frm
                    env2[x] = a2
                text = f.rewrite(body, env2)
                text = re.sub(r"^((?:(?:abbrev|pub) )*)" + re.escape(name) + r"(?= )", lambda m: m.group(1) + copy, text, flags=re.M)
                old = info.new[f.helpers[name][0]]
                f.seen_places.add(info.new[frm])
                text = re.sub(r"(?<![A-Za-z0-9_'.-])" + re.escape(old) + r"(?![A-Za-z0-9_'-])", info.new[frm], f.types(text), count=1)
                made[(name, frm)] = text
    for (name, frm), text in made.items():
        k = next((k for k, b in enumerate(ans_out) if re.search(r"^(?:(?:abbrev|pub) )*" + re.escape(name) + r" ", b, re.M)), None)
        ans_out[k] += "\n\n" + text
    # a helper that only its copies are cited of goes
    gone = True
    while gone:
        gone = False
        for k, b in enumerate(list(ans_out)):
            parts = b.split("\n\n")
            keep = []
            for part in parts:
                body = "\n".join(l for l in part.split("\n") if not l.startswith("--"))
                mm = re.match(r"(?:abbrev )?(" + IDENT + r")\s*:", body)
                others = "\n".join(inv_out + [x for j, x in enumerate(ans_out) if j != k] + [x for x in parts if x is not part])
                if mm and f.copies and mm.group(1) in f.helpers and not re.search(r"(?<![A-Za-z0-9_'.-])" + re.escape(mm.group(1)) + r"(?![A-Za-z0-9_'-])", others):
                    gone = True
                    com = "\n".join(l for l in part.split("\n") if l.startswith("--"))
                    if com and parts.index(part) + 1 < len(parts):
                        parts[parts.index(part) + 1] = com + "\n" + parts[parts.index(part) + 1]
                    continue
                keep.append(part)
            ans_out[k] = "\n\n".join(keep)
        ans_out[:] = [b for b in ans_out if b.strip()]
    # the two ways to a join
    def ways(b):
        pos = b.find("⊎_elim")
        while pos >= 0:
            rest = b[pos + len("⊎_elim") :]
            args_, i_ = [], 0
            while len(args_) < 3 and i_ < len(rest):
                if rest[i_].isspace():
                    i_ += 1
                    continue
                if rest[i_] == "(":
                    d_, j_ = 0, i_
                    while True:
                        d_ += rest[j_] == "("
                        d_ -= rest[j_] == ")"
                        j_ += 1
                        if d_ == 0:
                            break
                else:
                    m_ = re.match(r"[^\s)]+", rest[i_:])
                    if not m_:
                        break
                    j_ = i_ + m_.end()
                args_.append(rest[i_:j_])
                i_ = j_
            m_ = re.fullmatch(r"(.*)\.if-(\S+)\.branch", args_[2]) if len(args_) == 3 else None
            if m_:
                step = m_.group(2)
                arms_ = []
                for a_, way, yes in ((args_[0], "then", "true"), (args_[1], "else", "false")):
                    l_ = re.fullmatch(r"\(λ (\S+)\. (.*)\)", a_, re.S)
                    w_ = l_.group(1)
                    x_ = re.sub(r"\b" + w_ + r"\.0\.(taken|true|left|false)", w_ + ".if-" + step + "." + yes, l_.group(2))
                    x_ = re.sub(r"\b" + w_ + r"\.(2|1)(?!\.)", w_ + ".value-is", x_)
                    arms_.append(f"{way}-{step} {w_} ↦ {x_}")
                    f.seen_places.add(f"{way}-{step}")
                b = b[:pos] + "elim " + args_[2] + " [ " + " | ".join(arms_) + " ]" + rest[i_:]
            pos = b.find("⊎_elim", pos + 1)
        return b
    ans_out[:] = [ways(b) for b in ans_out]
    f.seen_places = {p for p in f.seen_places if re.search(r"(?<![A-Za-z0-9_'.-])" + re.escape(p) + r"(?![A-Za-z0-9_'-])|\)\." + re.escape(p) + r"(?![A-Za-z0-9_'-])", "\n".join(ans_out))}
    # what an invariant says by a definition of the file goes with it
    moved = True
    shared = []
    while moved:
        moved = False
        for b in list(ans_out):
            body = "\n".join(l for l in b.split("\n") if not l.startswith("--"))
            mm = re.match(r"(?:(?:abbrev|pub|unfoldable|record) )*(" + IDENT + r")\b", body)
            name = mm.group(1) if mm else None
            if name and re.search(r"(?<![A-Za-z0-9_.'-])" + re.escape(name) + r"(?![A-Za-z0-9_'-])", "\n".join(inv_out)) and "goal." not in body:
                ans_out.remove(b)
                lines_ = b.split("\n")
                for i_, l_ in enumerate(lines_):
                    if not l_.startswith("--"):
                        if not re.match(r"(abbrev |unfoldable )*pub ", l_):
                            m2 = re.match(r"((?:abbrev |unfoldable )*)(.*)$", l_)
                            lines_[i_] = m2.group(1) + "pub " + m2.group(2)
                        break
                if any("record " in l_ for l_ in lines_ if not l_.startswith("--")):
                    lines_ = [re.sub(r"^  (?=" + IDENT + r" :)", "  pub ", l_) for l_ in lines_]
                inv_out.insert(0, "\n".join(lines_))
                shared.insert(0, name)
                moved = True
    return header, module, inv_out, ans_out, sorted(f.seen_places), shared


def imports(header, body):
    """The use lines of the header that the body needs."""
    out = []
    for l in header:
        m = re.match(r"use (.*)\.\{(.*)\}$", l)
        if not m:
            out.append(l)
            continue
        keep = []
        for n in [x.strip() for x in split_top(m.group(2), ",")]:
            word = n.split(" as ")[-1].strip()
            if "◌" in word:
                core = [w for w in word.split("◌") if w]
                if all(c in body for c in core):
                    keep.append(n)
            elif re.search(r"(?<![A-Za-z0-9_'-])" + re.escape(word) + r"(?![A-Za-z0-9_'-])", body):
                keep.append(n)
        if keep:
            out.append(f"use {m.group(1)}.{{{', '.join(keep)}}}")
    return out


def main():
    crate, names = sys.argv[1:3]
    only = set(sys.argv[3:])
    with open(names) as fh:
        d = json.load(fh)
    for folder, _, files in sorted(os.walk(f"crates/{crate}/proofs")):
        if "Proof.antt" not in files:
            continue
        rel = os.path.relpath(folder, f"crates/{crate}/proofs").replace("/", ".")
        if only and rel not in only:
            continue
        key = f"Rattle-{crate}-proofs.{rel}.Lts"
        if key not in d:
            print(f"{rel}: not in the names")
            continue
        said = lambda t: print(f"{rel}: {t}")
        try:
            r = convert(os.path.join(folder, "Proof.antt"), Info(d[key]), said)
        except Exception as e:
            print(f"{rel}: {type(e).__name__}: {e}")
            continue
        if r is None:
            continue
        header, module, inv, ans, places, shared = r
        os.remove(os.path.join(folder, "Proof.antt"))
        if inv:
            body = "\n\n".join(inv)
            com = [l for l in header if l.startswith("--")]
            uses = [l for l in imports([l for l in header if not l.startswith("--")], body) if l.startswith("use")]
            with open(os.path.join(folder, "Invariants.antt"), "w") as fh:
                fh.write("\n".join(com + uses + [f"use {module}.Given as goal"]) + "\n\n" + body + "\n")
        if ans:
            body = "\n\n".join(ans)
            com = [l for l in header if l.startswith("--")]
            uses = [l for l in imports([l for l in header if not l.startswith("--")], body) if l.startswith("use")]
            with open(os.path.join(folder, "Answers.antt"), "w") as fh:
                more = [f"use {module}.Goals.{{{', '.join(places)}}}"] if places else []
                shared = [s for s in shared if re.search(r"(?<![A-Za-z0-9_.'-])" + re.escape(s) + r"(?![A-Za-z0-9_'-])", body)]
                more += [f"use {module}.Invariants.{{{', '.join(shared)}}}"] if shared else []
                fh.write("\n".join(com + uses + [f"use {module}.Goals as goal"] + more) + "\n\n" + body + "\n")


if __name__ == "__main__":
    main()
