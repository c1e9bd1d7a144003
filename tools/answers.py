#!/usr/bin/env python3
"""Turns the walks of before, proofs/F/Proof.antt, into Invariants.antt and Answers.antt, by the names that `rt names OUT` lists.

usage: python3 tools/answers.py OUT CRATE..

Goals that only said `search rules` or `omega arith` are left to the check. What it cannot turn stands in the file as it was, and the check says so.
"""

import json
import os
import re
import sys

SEG = r"[\w'«»₀-₉]+(?:-[\w'₀-₉]+)*"
PATH = re.compile(rf"(?<![\w'.«-])([A-Za-z_][\w'₀-₉]*(?:-[\w'₀-₉]+)*)((?:\.{SEG})*)")


def norm(s):
    return s.replace("-", "_")


def need_key(s):
    s = norm(s)
    for a, b in (("overflow_", ""), ("slice_bounds_", "part_"), ("offset_bounds_", "mul_"), ("bounds_", "")):
        if s.startswith(a):
            s = b + s[len(a):]
            break
    return s


class Fn:
    def __init__(self, v):
        self.v = v
        self.old = {p[0]: i for i, p in enumerate(v["places"])}
        self.normed = {norm(p[0]): i for i, p in enumerate(v["places"])}
        self.parent = [None if p[1] is None else self.old[p[1]] for p in v["places"]]
        self.needs = [(n[0], n[1], self.old[a[0]]) for n, a in zip(v["needs"], v["asked_at"])]

    def need(self, word, used):
        k = norm(word)
        for exact in (True, False):
            for j, (o, n, at) in enumerate(self.needs):
                if j in used:
                    continue
                if (norm(o) == k) if exact else (need_key(o) == need_key(word)):
                    return j
        return None

    def inner(self, i):
        p = self.v["places"][i]
        return p[0].startswith("After-") and p[3] is None and self.v["arms"][i] is None and re.search(r"-\d+$", p[2][1]) and i != 0

    def shown(self, i):
        while self.inner(i):
            i = self.parent[i]
        return i

    def place_name(self, i):
        i = self.shown(i)
        p = self.v["places"][i]
        return self.v["places_by_name"][i] if len(self.v["places_by_name"]) > i else p[0]


def tuple_parts(t):
    t = t.strip()
    if not (t.startswith("(") and t.endswith(")")):
        return None
    depth, parts, start = 0, [], 1
    for i, ch in enumerate(t):
        if ch in "([{":
            depth += 1
        elif ch in ")]}":
            depth -= 1
            if depth == 0 and i != len(t) - 1:
                return None
        elif ch == "," and depth == 1:
            parts.append(t[start:i])
            start = i + 1
    parts.append(t[start:-1])
    parts = [p.strip() for p in parts if p.strip()]
    return parts if len(parts) > 1 else None


def fields_of(text, names):
    """The clauses' fields from the nested pairs of before; None where the term is no pair."""
    out, rest = [], text
    for k in range(len(names) - 1):
        parts = tuple_parts(rest)
        if not parts:
            return None
        out.append(parts[0])
        rest = parts[1] if len(parts) == 2 else "(" + ", ".join(parts[1:]) + ")"
    return out + [rest]


class Turn:
    def __init__(self, fn, own_goal, at):
        self.fn, self.goal, self.at = fn, own_goal, at
        self.roots = {}
        self.raw = {}

    def step(self, i, segs, at):
        """The new path of the old one `segs` at place i, on the way from the goal's place `at` to the start."""
        way = []
        j = at
        while j is not None:
            way.append(j)
            j = self.fn.parent[j]
        here = way.index(i) if i in way else 0
        head = norm(segs[0])
        if head in ("args", "requires", "pre", "ranges", "lifetimes", "well_formed"):
            head = "requires" if head == "pre" else head
            rest = segs[1:]
            if head == "requires" and self.fn.v.get("pre"):
                rest = self.index(self.fn.v["pre"]["fields"], rest)
            return [head] + rest
        # the walk may have a step more or fewer than before: the nearest place with a step of that name
        for exact in (True, False):
            for k in sorted(range(len(way)), key=lambda k: abs(k - here)):
                got = self.own(way[k], head, segs, exact and k == here or not exact)
                if got:
                    return got
        return None

    def own(self, j, head, segs, loose):
        v = self.fn.v
        arm = v["arms"][j]
        if arm:
            best = None
            for field, oldstep, oldpath in arm[2]:
                if norm(oldstep) == head and segs[1:1 + len(oldpath)] == oldpath and not field.endswith("-own"):
                    if best is None or len(oldpath) > len(best[1]):
                        best = (field, oldpath)
            if best:
                return [arm[0], best[0]] + segs[1 + len(best[1]):]
        own = v["places"][j][2]
        bare = re.sub(r"\d+$", "", head)
        if not own[0] or not (norm(own[0]) == head or (loose and norm(own[0]) == bare)):
            return None
        rest = segs[1:]
        for var, known in v["typed"][j]:
            if norm(known) == norm(own[0]) and v["places"][j][3] is None:
                return ["type_inv", var] + (rest[1:] if rest[:1] == ["given"] else rest)
        swap = dict((a, b) for a, b in v["places"][j][4])
        if rest and rest[0] in swap:
            rest = [swap[rest[0]]] + rest[1:]
        if rest[:1] == ["ensures"] and v["clauses"][j]:
            rest = ["ensures"] + self.index(v["clauses"][j]["fields"], rest[1:])
        if rest[:1] == ["inv"]:
            rest = ["invariant"] + rest[1:]
        return [own[1]] + rest

    def index(self, names, rest):
        if rest and rest[0].isdigit():
            n = int(rest[0])
            if n < len(names) - 1:
                return [names[n]] + rest[1:]
            if n == len(names) - 1:
                return [names[-1]] + rest[1:]
            return [names[-1], str(n - len(names) + 1)] + rest[1:]
        return rest

    def resolve(self, var, segs):
        i, root = self.roots[var]
        while segs and segs[0] == "before":
            i, segs = (i if self.fn.parent[i] is None else self.fn.parent[i]), segs[1:]
        return i, root, segs

    def text(self, t):
        # a `let` that only names a place goes
        while True:
            again = False
            for m in re.finditer(rf"let ({SEG}) = ({SEG})((?:\.before)*) in\s*", t):
                if m.group(2) in self.roots:
                    r = self.resolve(m.group(2), [s for s in m.group(3).split(".") if s])
                    if r and not r[2]:
                        self.roots[m.group(1)] = (r[0], r[1])
                        t = t[:m.start()] + t[m.end():]
                        again = True
                        break
            if not again:
                break

        def one(m):
            if m.group(1) not in self.roots:
                return m.group(0)
            r = self.resolve(m.group(1), [s for s in m.group(2).split(".") if s])
            if not r:
                return m.group(0)
            i, (var, at, goal), segs = r
            if not segs:
                if self.fn.shown(i) == self.fn.shown(at) and not self.fn.inner(at):
                    return var
                self.uses = True
                return f"(goal.at.{goal} {var}).{self.fn.place_name(i)}"
            s = self.step(i, segs, self.raw.get(var, at))
            return m.group(0) if s is None else ".".join([var] + s)

        return PATH.sub(one, t)


def blocks(text):
    out = []
    for b in re.split(r"\n\s*\n", text.strip("\n")):
        out.append(b)
    return out


def name_of(block):
    m = re.match(r"(?:abbrev |unfoldable |pub |record |data )*([^\s:]+)", re.sub(r"^--.*\n", "", block, flags=re.M))
    return m.group(1) if m else None


def named_in(block, body):
    name = name_of(block)
    return bool(name) and bool(re.search(rf"(?<![\w'.-]){re.escape(name)}(?![\w'-])", body))


def turn(path, v, crate, dotted, requires):
    fn = Fn(v)
    text = open(path, encoding="utf-8").read()
    head, rest = [], []
    for line in text.split("\n"):
        (head if not rest and (line.startswith("--") or line.startswith("use ") or not line.strip()) else rest).append(line)
    # a comment that stands right above the first declaration belongs to it
    tail = []
    while head and not head[-1].strip():
        head.pop()
    comments = [l for l in head if l.startswith("--")]
    uses = [l for l in head if l.startswith("use ") and not re.search(r"\.(Tie as tie|Statement\.\{statement\})$", l)]
    used, answers, invariants, helpers, named = set(), [], [], [], set()
    renamed, easy, taken = {}, {}, set()
    for m in re.finditer(r"^(\S+) : tie\.Need-(\S+)", "\n".join(rest), re.M):
        j = fn.need(m.group(2), taken)
        if j is not None:
            taken.add(j)
            renamed[m.group(1)] = fn.needs[j][1]
    swapped = {a: b for a, b in renamed.items() if a != b}

    def cite(t):
        return PATH.sub(lambda q: (swapped[q.group(1)] + q.group(2)) if q.group(1) in swapped else q.group(0), t)

    for b in blocks("\n".join(rest)):
        lines = b.split("\n")
        k = 0
        while k < len(lines) and lines[k].startswith("--"):
            k += 1
        above, lines = lines[:k], lines[k:]
        if not lines:
            helpers.append("\n".join(above))
            continue
        sig = lines[0]
        m = re.match(r"(?:abbrev )?(?:pub )?(\S+) : tie\.(invariant|decreases)-(\S+)", sig)
        if m:
            body = "\n".join(lines[1:])
            n = re.match(rf"{re.escape(m.group(1))}((?: {SEG})*) =(.*)$", body, re.S)
            loop = m.group(3)
            hit = None
            for j, (names, vars_) in enumerate(v["loops"]):
                if norm(names[0]) == norm(loop):
                    hit = j
            if hit is None or not n:
                invariants.append("\n".join(above + lines))
                continue
            names, vars_ = v["loops"][hit]
            changed = v["changed"][hit]
            moved = [x for x, c in zip(vars_, changed) if c]
            expected = list(zip(vars_, changed)) + [(x, False) for x in moved]
            args = n.group(1).split()
            term = n.group(2)
            if len(args) == len(expected):
                env = {}
                for a, (x, initial) in zip(args, expected):
                    env[a] = ("l.initial." if initial else "l.") + x
                term = PATH.sub(lambda t: (env[t.group(1)] + t.group(2)) if t.group(1) in env else t.group(0), term)
                left = f"{m.group(2)}-{names[1]} l ="
            else:
                left = f"{m.group(2)}-{names[1]} {' '.join(args)} ="
            invariants.append("\n".join(above + [f"abbrev pub {m.group(2)}-{names[1]} : goal.{m.group(2)}-{names[1]}", left + term]))
            continue
        m = re.match(r"(\S+) : tie\.Need-(\S+)((?: \S+)*)$", sig)
        if m:
            j = fn.need(m.group(2), used)
            if j is None and re.match(r"nonzero-|slice-aggregate-|array-aggregate-", m.group(2)):
                continue  # today's check settles such a goal without asking
            if j is None:
                answers.append("\n".join(above + ["-- NOT TURNED"] + lines))
                continue
            used.add(j)
            new, at = fn.needs[j][1], fn.needs[j][2]
            body = "\n".join(lines[1:])
            unfolding = re.match(r"unfolding [^\n]*\n", body)
            opened = unfolding.group(0) if unfolding else ""
            body = body[len(opened):]
            n = re.match(rf"{re.escape(m.group(1))} (\S+)( κs)? =(.*)$", body, re.S)
            if not n:
                answers.append("\n".join(above + ["-- NOT TURNED"] + lines))
                continue
            term = n.group(3).strip()
            plain = not opened and re.fullmatch(r"search rules|omega arith", term)
            if re.fullmatch(r"record \{.*\}", term, re.S) is None and new in v["asked"] and len(v["asked"][new]) > 1:
                for cut in [0] + [q.end() for q in re.finditer(r"\bin\s+(?=\()", term)]:
                    fs = fields_of(term[cut:], v["asked"][new])
                    if fs:
                        term = term[:cut] + "record {\n" + "".join(f"  {a} = {x};\n" for a, x in zip(v["asked"][new], fs)) + "}"
                        break
            t = Turn(fn, new, at)
            t.roots[n.group(1)] = (at, (n.group(1), at, new))
            t.raw[n.group(1)] = at
            term = t.text(cite(term))
            nl = n.group(3).startswith("\n")
            answers.append("\n".join(above + [f"pub {new} : goal.{new}"]) + "\n" + opened + f"{new} {n.group(1)} =" + ("\n    " if nl else " ") + term)
            if plain:
                easy[new] = answers[-1]
            continue
        if re.match(r"pub \S+ : \{M : Type 1\} → statement M", sig):
            continue
        # a lemma of the file's own, maybe over a place
        b = "\n".join(lines)

        def place(mm):
            i = fn.normed.get(norm(mm.group(1)))
            if i is None:
                return mm.group(0)
            named.add(fn.place_name(i))
            return fn.place_name(i)

        roots = {}
        for mm in re.finditer(rf"\(({SEG}) : tie\.([A-Za-z][\w-]*)[^)]*\)", b):
            i = fn.normed.get(norm(mm.group(2)))
            if i is not None:
                roots[mm.group(1)] = i
        mm = re.match(rf"(?:abbrev )?(?:pub )?({SEG}) : tie\.([A-Za-z][\w-]*)[^→]*→", b)
        if mm and fn.normed.get(norm(mm.group(2))) is not None:
            dd = re.search(rf"^{re.escape(mm.group(1))} ({SEG})", b, re.M)
            if dd:
                roots[dd.group(1)] = fn.normed[norm(mm.group(2))]
        b = re.sub(r"tie\.([A-Z][\w-]*)((?: invariant-[\w-]+| decreases-[\w-]+)*)", place, b)
        for var, i in roots.items():
            t = Turn(fn, None, i)
            t.roots[var] = (i, (var, fn.shown(i), fn.place_name(i)))
            t.raw[var] = i
            b = t.text(b)
        helpers.append("\n".join(above + [b]))
    # an easy answer stays only where another one cites it
    helpers = [cite(h) for h in helpers]
    everything = "\n".join(helpers + [a for a in answers if a not in easy.values()])
    answers = [a for a in answers if a not in easy.values() or re.search(rf"(?<![\w'.-]){re.escape([k for k, t in easy.items() if t == a][0])}(?![\w'-])", everything)]
    folder = os.path.dirname(path)
    where = f"Rattle.{crate}.proofs.{dotted}"

    def needed(body):
        kept = []
        for l in uses:
            m = re.match(r"use (.*)\.\{(.*)\}$", l)
            if not m:
                kept.append(l)
                continue
            words = []
            for w in m.group(2).split(", "):
                name = w.split(" as ")[-1].strip()
                parts = [q for q in name.split("◌") if q]
                if all(re.search(rf"(?<![\w'.-]){re.escape(q)}(?![\w'-])" if re.match(r"\w", q) else re.escape(q), body) for q in parts):
                    words.append(w)
            if words:
                kept.append(f"use {m.group(1)}.{{{', '.join(words)}}}")
        return kept

    wrote = []
    if invariants:
        # helpers that an invariant names go along
        body = "\n\n".join(invariants)
        along, asked = [], body
        while True:
            more = [h for h in helpers if h not in along and not h.startswith((" ", "module")) and named_in(h, asked)]
            if not more:
                break
            along += more
            asked = "\n".join([asked] + more)
        along = [h for h in helpers if h in along]
        for h in along:
            helpers.remove(h)
        shared = []
        for h in along:
            lines_ = h.split("\n")
            k = next(n for n, l in enumerate(lines_) if not l.startswith("--"))
            l = lines_[k]
            if not l.startswith("pub ") and " pub " not in l.split(":")[0]:
                lines_[k] = ("pub " + l) if l.startswith(("record ", "data ")) else l.replace("abbrev ", "abbrev pub ", 1) if l.startswith("abbrev ") else "unfoldable pub " + l
            shared.append("\n".join(lines_))
        body = "\n\n".join(shared + invariants)
        lines = comments + needed(body) + [f"use {where}.Given as goal", "", body]
        open(os.path.join(folder, "Invariants.antt"), "w", encoding="utf-8").write("\n".join(lines) + "\n")
        wrote.append("Invariants")
        names = [name_of(s) for s in shared if name_of(s)]
        if names:
            uses.append(f"use {where}.Invariants.{{{', '.join(names)}}}")
    if answers:
        body = "\n\n".join(helpers + answers)
        lines = comments + needed(body) + [f"use {where}.Goals as goal"]
        places = sorted(p for p in named if re.search(rf"(?<![\w'.-]){re.escape(p)}(?![\w'-])", body))
        if places:
            lines.append(f"use {where}.Goals.{{{', '.join(places)}}}")
        open(os.path.join(folder, "Answers.antt"), "w", encoding="utf-8").write("\n".join(lines + ["", body]) + "\n")
        wrote.append("Answers")
    os.remove(path)
    if not os.listdir(folder):
        os.rmdir(folder)
    return wrote


def main(argv):
    out = argv[0]
    for crate in argv[1:]:
        d = json.load(open(os.path.join(out, "crates", crate, "names.json"), encoding="utf-8"))
        for key, v in d.items():
            if not (isinstance(v, dict) and "needs" in v and key.endswith(".Lts")):
                continue
            dotted = key[len(f"Rattle-{crate}-proofs."):-len(".Lts")]
            path = os.path.join("crates", crate, "proofs", *dotted.split("."), "Proof.antt")
            if os.path.exists(path):
                try:
                    turn(path, v, crate, dotted, None)
                except Exception as e:
                    print(path, "not turned:", repr(e))
        for folder, _, files in os.walk(os.path.join("crates", crate, "proofs")):
            if "Proof.antt" in files:
                print(os.path.join(folder, "Proof.antt"), "is left")


main(sys.argv[1:])
