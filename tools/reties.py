#!/usr/bin/env python3
"""Turns the proof files that assemble a function's goals (`tie.spec`) to the names that today's check gives goals, places and steps.

usage: reties.py NAMES CRATE

NAMES is the names.json that `rt check --generated DIR --old-names` writes in the crate's folder, CRATE that folder.
It rewrites CRATE/proofs/**/Proof.antt in place, and prints what it did not find.
"""

import json
import os
import re
import sys

WORD = r"[^\s(){}.;,@\"«»\[\]\\]+"
PATH = re.compile(rf"(?<![\w.'\-])({WORD}|\((?:[^()\n]*)\))((?:\.{WORD})+)")


def plain(name):
    return re.sub("-+", "-", name.replace("_", "-")).lower()


class Index(dict):
    """Places by name; where the check makes fewer places for a call's arguments, the one that is left stands for them."""

    def find(self, name):
        if dict.__contains__(self, name):
            return name
        short = re.sub(r"-arg\d+$", "-arg", name)
        return short if dict.__contains__(self, short) else None

    def __contains__(self, name):
        return self.find(name) is not None

    def __getitem__(self, name):
        return dict.__getitem__(self, self.find(name) or name)


class Places:
    """The places of a function: where each stands in the old chain of records and in the new one."""

    def __init__(self, it):
        self.it = it
        self.old = [p[0] for p in it["places"]]
        self.new = it["places_by_name"]
        self.index = Index((plain(n), i) for i, n in enumerate(self.old))
        self.parent = [None if p[1] is None else self.index[plain(p[1])] for p in it["places"]]
        self.step_old = [plain(p[2][0]) for p in it["places"]]
        self.arms = it["arms"]
        self.args = {plain(o.split(".")[-1]): n.split(".")[-1] for o, n in it["args"] if o.startswith(".args")}
        for o, n in it["args"]:
            self.args.setdefault(plain(o.split(".")[-1]), n.split(".")[-1])
        self.asked = {}
        for (old, new), (place, _) in zip(it["needs"], it["asked_at"]):
            self.asked[new] = self.index[plain(place)]
        self.goals = {plain(o): n for o, n in it["needs"]}
        self.loops = {plain(o): n for (o, n), _ in it["loops"]}
        self.params = it.get("params", {})
        self.by_step = {}
        for i, s in enumerate(self.step_old):
            if s:
                self.by_step.setdefault(s, set()).add(self.step_new(i))

    def named(self, i, fields):
        """`auto.1.0` and `new.1.0` of a call, by the name of the parameter."""
        names = self.params.get(self.it["places"][i][3] or "")
        if not names or len(fields) < 2 or fields[0] not in ("auto", "new") or fields[1] not in ("0", "1"):
            return fields
        k = 0
        while 1 + k < len(fields) and fields[1 + k] == "1":
            k += 1
        if 1 + k >= len(fields) or fields[1 + k] != "0" or k >= len(names):
            return fields
        return [fields[0], names[k]] + fields[2 + k :]

    def swallows(self, i):
        """How many old places the new record of place i stands for, where it is that of an arm."""
        arm = self.arms[i]
        if arm is None:
            return 0
        return arm[1] if self.new[i] == "I" + arm[0][1:] else 0

    def step_new(self, i):
        n = self.new[i]
        if self.arms[i] is not None or n.startswith("In"):
            if n.startswith("In") and self.it["places"][i][2][0] in ("match",):
                return "i" + n[1:]
        return self.it["places"][i][2][1]

    def up(self, i, n):
        for _ in range(n):
            if i is None:
                return None
            i = self.parent[i]
        return i

    def chain(self, i):
        """The places of the new records from that of place i up, and how many each stands for."""
        while i is not None:
            d = self.swallows(i)
            yield i, d
            i = self.up(i, max(d, 1))

    def field(self, p, a, rest):
        """The new fields of old step a, seen from place p."""
        for b, d in self.chain(p):
            inside = [self.up(b, k) for k in range(max(d, 1))]
            if a not in inside:
                continue
            if not d:
                return [self.step_new(a)] + rest
            best = None
            for new, old, path in self.arms[b][2]:
                if plain(old) == self.step_old[a] and rest[: len(path)] == path and (best is None or len(path) > len(best[1])):
                    best = (new, path)
            if best is None:
                return None
            return [self.arms[b][0], best[0]] + rest[len(best[1]):]
        return None

    def befores(self, p, t):
        """How many new records stand between those of places p and t."""
        for n, (b, _) in enumerate(self.chain(p)):
            if b == t:
                return n
        return None


def spec_parts(text):
    at = text.find("tie.spec")
    if at < 0:
        return None
    head, tail = text[:at], text[at + len("tie.spec"):]
    depth, i = 0, 0
    while i < len(tail):
        if tail[i] == "(":
            depth += 1
        elif tail[i] == ")":
            if depth == 0:
                break
            depth -= 1
        i += 1
    return head, tail[:i], tail[i:]


def walk(pl, kind, fields, said):
    """The fields of a path from a record of that kind in the new names, and the kind where it ends.

    A record shows the fields of those before it, so a step is named from where the path begins.
    A kind is ("place", i), ("args",), ("step",) or None where it is not known."""
    if kind and kind[0] == "place":
        i, n = kind[1], 0
        while n < len(fields) and fields[n] == "before":
            n += 1
        rest = fields[n:]
        if not rest:
            return fields, ("before", i, n)
        f = rest[0]
        if f == "pre":
            return ["requires"] + rest[1:], ("step",)
        if f == "good":
            return ["well_formed"] + rest[1:], ("step",)
        if f == "fits" and "fits" not in pl.by_step and len(rest) > 1:
            return ["ranges", pl.args.get(plain(rest[1]), rest[1]), "fits"] + rest[2:], ("step",)
        if f in ("args", "ranges"):
            if len(rest) == 1:
                return [f], ("args",)
            return [f, pl.args.get(plain(rest[1]), rest[1])] + rest[2:], ("step",)
        a = i
        while a is not None and pl.step_old[a] != plain(f):
            a = pl.parent[a]
        if a is not None:
            got = pl.field(i, a, pl.named(a, rest[1:]))
            if got is None:
                said.append("swallowed " + ".".join(fields))
                return fields, ("step",)
            if len(rest) >= 2 and rest[1] in ("auto", "new") and all(x == "1" for x in rest[2:]) and pl.params.get(pl.it["places"][a][3] or ""):
                return got[: len(got) - len(rest[2:])] if rest[2:] else got, ("new", a, len(rest[2:]))
            return got, (("step", a) if len(rest) == 1 else ("step",))
        return rest, ("step",)
    if kind and kind[0] == "args":
        return [pl.args.get(plain(fields[0]), fields[0])] + fields[1:], ("step",)
    if kind and kind[0] == "step":
        if len(kind) == 2:
            fields = pl.named(kind[1], fields)
        return fields, ("step",)
    if kind and kind[0] == "new":
        return pl.named(kind[1], ["new"] + ["1"] * kind[2] + fields)[1:], ("step",)
    out, done = [], False
    for k, f in enumerate(fields):
        if done:
            out.append(f)
        elif f == "before":
            out.append(f)
        elif f in ("args", "ranges", "fits"):
            out.append(f)
            if k + 1 < len(fields):
                out.append(pl.args.get(plain(fields[k + 1]), fields[k + 1]))
                out += fields[k + 2 :]
            return out, ("step",)
        else:
            names = pl.by_step.get(plain(f), set())
            if len(names) == 1:
                out.append(next(iter(names)))
            else:
                out.append(f)
                if names:
                    said.append("which " + f)
            done = True
    return out, None


def argument(pl, root, i, p, said):
    """From a record of place i, bound to root, the record of place p, which a helper takes."""
    k = pl.befores(i, p)
    if k is not None:
        return ".".join([root] + ["before"] * k)
    if pl.old[p].endswith("-unread"):
        twin = pl.index.get(plain(pl.old[p][: -len("-unread")]))
        k = pl.befores(i, twin)
        if k is not None:
            step = pl.step_new(twin)
            up = ".".join([root] + ["before"] * (k + 1))
            return f"(record {{ before = {up}; {step} = record {{ given = {root}.{step}.given }} }})"
    said.append(f"argument {pl.new[i]} to {pl.new[p]}")
    return None


def turn(path, it, name):
    text = open(path, encoding="utf-8").read()
    if "tie.spec" not in text:
        return "no tie.spec"
    pl = Places(it)
    said = []
    lemma_goal, lemma_args = {}, {}

    def need(m):
        lemma, old, rest = m.group(1), m.group(2), m.group(3)
        new = pl.goals.get(plain(lemma)) or pl.goals.get(plain(old))
        if new is None:
            for v in pl.goals.values():
                if plain(old) == plain(v):
                    new = v
        if new is None:
            said.append(f"goal {lemma} ({old})")
            return m.group(0)
        lemma_goal[new] = lemma
        lemma_args[new] = rest
        return f"{lemma} : tie.Need-{new}{rest}"

    # steps of calls whose names respell.py took for those of definitions
    for w in ("cells_clear", "chip_is", "in_neither", "marks_clear", "outputs_after", "readings_after", "refused_run"):
        text = re.sub(rf"(?<=\.){w}_of\b", w, text)
    head, given, tail = spec_parts(text)
    head = re.sub(rf"(?m)^({WORD}) : tie\.Need-({WORD})(.*)$", need, head)
    for l in given.split():
        if l not in lemma_goal.values() and not l.startswith(("invariant-", "decreases-")):
            said.append(f"gone {l}")
    goal_of = {v: k for k, v in lemma_goal.items()}
    head = re.sub(r"\.pre(?=\.\d)", ".requires", head)
    head = re.sub(rf"\.type-inv\b", ".type_inv", head)
    head = re.sub(rf"\.well-formed\b", ".well_formed", head)
    # a goal that is no longer asked: its lemma goes
    for l in given.split():
        if l not in goal_of and not l.startswith(("invariant-", "decreases-")):
            block = re.search(rf"(?m)^{re.escape(l)} : tie\.Need-.*\n(?:(?!\n).*\n)*\n", head)
            rest = head[: block.start()] + head[block.end() :] if block else head
            if block and not re.search(rf"(?<![\w.'\-]){re.escape(l)}(?![\w'\-])", rest):
                head = rest
    returns = {}
    seen_from = {}
    for m in re.finditer(rf"(?m)^(?:abbrev )?({WORD}) : tie\.({WORD})([^→\n]*) → tie\.({WORD})[^→\n]*$", head):
        if plain(m.group(4)) in pl.index and plain(m.group(2)) in pl.index:
            returns[m.group(1)] = pl.index[plain(m.group(4))]
            seen_from[m.group(1)] = pl.index[plain(m.group(2))]
    # a record of an earlier place, seen from a later one
    for helper, far in seen_from.items():
        m = re.search(rf"(?m)^{re.escape(helper)} ({WORD}) = (.*)$", head)
        if m:
            got = argument(pl, m.group(1), far, returns[helper], said)
            if got:
                head = head[: m.start(2)] + got + head[m.end(2) :]
    whole = {}
    for m in re.finditer(rf"(?m)^module _ .*\(({WORD}) : tie\.({WORD})[^()]*\)", head):
        if plain(m.group(2)) in pl.index:
            whole[m.group(1)] = ("place", pl.index[plain(m.group(2))])

    takes = {l: pl.asked[g] for l, g in goal_of.items() if g in pl.asked}
    takes.update(seen_from)
    for m in re.finditer(rf"(?m)^\s*(?:pub |abbrev )*({WORD}) : (?:\{{[^}}\n]*\}} )*\({WORD} : tie\.({WORD})", head):
        if plain(m.group(2)) in pl.index:
            takes[m.group(1)] = pl.index[plain(m.group(2))]
    for m in re.finditer(rf"(?m)^\s*(?:pub |abbrev )*({WORD}) : tie\.({WORD})[^→\n]* →", head):
        if plain(m.group(2)) in pl.index:
            takes[m.group(1)] = pl.index[plain(m.group(2))]

    blocks = re.split(r"(\n\n+)", head)
    for i, block in enumerate(blocks):
        if block.startswith("\n") or not block:
            continue
        kinds = dict(whole)
        for l, g in goal_of.items():
            m = re.search(rf"(?m)^\s*{re.escape(l)} (.*?)=", block)
            if m and g in pl.asked:
                words = m.group(1).split()
                if words:
                    kinds["c" if "c" in words else words[0]] = ("place", pl.asked[g])
        for m in re.finditer(rf"\(({WORD}) : tie\.({WORD})[^()]*\)", block):
            if plain(m.group(2)) in pl.index:
                kinds[m.group(1)] = ("place", pl.index[plain(m.group(2))])
        m = re.search(rf"(?m)^(?:abbrev )?({WORD}) : tie\.({WORD})[^→\n]* →.*\n(?:.*\n)*?\1 ({WORD}) ", block)
        if m and plain(m.group(2)) in pl.index:
            kinds[m.group(3)] = ("place", pl.index[plain(m.group(2))])
        for l in seen_from:
            if re.search(rf"(?m)^{re.escape(l)} {WORD} =", block):
                kinds = {}
        out, last = [], 0
        lets = {}
        for m in re.finditer(rf"let ({WORD}) = ({WORD}) ({WORD})((?:\.{WORD})*)\s+in\b", block):
            if m.group(2) in returns:
                lets[m.start()] = (m.group(1), ("place", returns[m.group(2)]))
        for m in PATH.finditer(block):
            for at in [a for a in lets if a < m.start()]:
                v, k = lets.pop(at)
                kinds[v] = k
            root, fields = m.group(1), m.group(2)[1:].split(".")
            line = block[block.rfind("\n", 0, m.start()) + 1 : m.start()]
            if line.startswith(("use ", "pub use ", "--")) or root in ("tie", "Rattle", "lib", "mir", "native", "borrow", "mathlib"):
                continue
            if root.startswith("("):
                words = root[1:-1].split()
                kind = ("place", returns[words[0]]) if words and words[0] in returns else None
                inner = re.match(rf"\(({WORD}) ({WORD})((?:\.{WORD})*)\)$", root)
                if inner and inner.group(1) in takes and (kinds.get(inner.group(2)) or (0,))[0] == "place":
                    got = argument(pl, inner.group(2), kinds[inner.group(2)][1], takes[inner.group(1)], said)
                    if got:
                        root = f"({inner.group(1)} {got})"
                    kind = kind or ("step",)
                elif kind is None:
                    kind = ("step",)

                    def inside(w):
                        if w.group(1).startswith("("):
                            return w.group(0)
                        got, end = walk(pl, kinds.get(w.group(1)), w.group(2)[1:].split("."), said)
                        return ".".join([w.group(1)] + got)

                    root = "(" + PATH.sub(inside, root[1:-1]) + ")"
            else:
                kind = kinds.get(root)
            renamed, end = walk(pl, kind, fields, said)
            whole_path = ".".join([root] + renamed)
            bound = re.search(rf"let ({WORD}) = $", block[: m.start()])
            bound = bound if bound and re.match(r"\s+in\b", block[m.end() :]) else None
            if end and end[0] == "before":
                if bound:
                    whole_path, end = root, ("place", end[1])
                else:
                    caller = re.search(rf"({WORD})\s+$", block[: m.start()])
                    if caller and caller.group(1) in takes:
                        whole_path = argument(pl, root, end[1], takes[caller.group(1)], said) or whole_path
                    else:
                        said.append("bare " + whole_path)
            out.append(block[last : m.start()] + whole_path)
            last = m.end()
            if bound:
                kinds[bound.group(1)] = end
        block = "".join(out) + block[last:]

        # a variable that stands for a record further on than the one that a helper takes
        def bare(m):
            helper, v = m.group(1), m.group(2)
            kind = kinds.get(v)
            if helper in takes and kind and kind[0] == "place" and kind[1] != takes[helper]:
                got = argument(pl, v, kind[1], takes[helper], said)
                if got:
                    return f"{helper} {got}"
            return m.group(0)

        block = re.sub(rf"(?<![\w.'\-])({WORD}) ({WORD})(?![\w.'\-])(?! =)", bare, block)
        blocks[i] = block
    head = "".join(blocks)

    def place(m):
        w = m.group(1)
        for label in ("invariant-", "decreases-"):
            if w.startswith(label) and plain(w[len(label) :]) in pl.loops:
                return "tie." + label + pl.loops[plain(w[len(label) :])]
        if plain(w) in pl.index:
            return "tie." + pl.new[pl.index[plain(w)]]
        if not w.startswith("Need-") and w not in ("close", "spec"):
            said.append(f"place {w}")
        return m.group(0)

    head = re.sub(rf"(?<![\w.])tie\.({WORD})", place, head)
    # a test of `!b` says now what b is: where the old fact was taken apart, that, and elsewhere the old fact is made of it
    of_not = r"((?:\([^()]*\))?[\w.'\-₀₁₂]*\.if-not-[\w\-]*\.(?:true|false))"
    head = re.sub(rf"\(not-(?:true|false) (?:\([^()]*\)|[^\s()]+) {of_not}\)", r"\1!", head)
    head = re.sub(rf"\bnot-(?:true|false) (?:\([^()]*\)|[^\s()]+) {of_not}", r"\1!", head)
    wrapped = re.sub(rf"{of_not}(?!!)", r"(ap not \1)", head)
    if wrapped != head:
        missing = [w for w in ("ap", "not") if not re.search(rf"(?m)^use .*[{{ ]{w}[,}}]", head)]
        if missing:
            wrapped = re.sub(r"(?m)^use ", "use Rattle.std.proofs.Common.{" + ", ".join(missing) + "}\nuse ", wrapped, count=1)
    head = re.sub(r"(\.if-not-[\w\-]*\.(?:true|false))!", r"\1", wrapped)
    order, extra = [l for l in given.split() if l.startswith(("invariant-", "decreases-"))], []
    for _, new in it["needs"]:
        if new in lemma_goal:
            order.append(lemma_goal[new])
        else:
            l = "new-" + new
            extra.append(f"{l} : tie.Need-{new}{next(iter(lemma_args.values()), '')}\n{l} c = search rules\n")
            order.append(l)
            said.append(f"new {new}")
    if extra:
        at = re.search(rf"(?m)^pub {WORD} : .*statement", head)
        if at is None:
            return "no statement"
        head = head[: at.start()] + "\n".join(extra) + "\n" + head[at.start() :]
        if not re.search(r"(?m)^use .*\brules\b", head):
            head = re.sub(r"(?m)^use ", "use borrow.Author.Rules.{rules}\nuse ", head, count=1)
    head = re.sub(rf"(?m)^(pub )?({WORD})-spec( :.*statement)", lambda m: f"{m.group(1) or ''}{name}_spec{m.group(3)}", head)
    head = re.sub(rf"(?m)^({WORD})-spec( =|$| )", lambda m: (f"{name}_spec{m.group(2)}" if plain(m.group(1)) == plain(name) else m.group(0)), head)
    sep = " " if given.strip().count("\n") == 0 else "\n    "
    open(path, "w", encoding="utf-8").write(head + "tie.spec" + sep + sep.join(order) + tail)
    return "; ".join(said)


def main(names, crate):
    it = json.load(open(names))
    for key, value in it.items():
        m = re.match(r"Rattle-[^.]*-proofs\.(.*)\.Lts", key)
        if not m:
            continue
        path = os.path.join(crate, "proofs", *m.group(1).split("."), "Proof.antt")
        if not os.path.exists(path):
            print(f"{m.group(1)}: no Proof.antt")
            continue
        said = turn(path, value, m.group(1).split(".")[-1])
        if said:
            print(f"{m.group(1)}: {said}")


if __name__ == "__main__":
    main(*sys.argv[1:3])
