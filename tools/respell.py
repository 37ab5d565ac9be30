#!/usr/bin/env python3
"""Brings this repository's own definitions, fields and constructors to snake case, as port.py leaves them to do.

usage: respell.py [FOLDER]      at the top of the repository, once, after the kit's port.py

A definition in mixed case, as `addOf`, and a field or a constructor with dashes, as `as-left`, become `add_of` and `as_left`
wherever they stand: in crates/ (sources, specs, proofs, edits), README.md and docs/. Where a function or another
definition has that name already, the definition takes `_of` behind it: `mayDef` is `may_def_of`. Names of functions,
exported names, strings and lemmas (whose dashes join two names) stay. Prints each name with its new one.
"""

import collections
import os
import re
import sys

TOKEN = re.compile(r"[^\s(){}\[\].,;:\"`⌜⌝]+")
HEAD = re.compile(r"^\s*(?:(?:abbrev|unfoldable|pub)\s+)*([^\s(){}.:,]+)\s*(?:\(.*?\)\s*|\{.*?\}\s*)*:\s")
# where `_of` behind the plain name would read twice
OWN = {"ownerOf": "owner_of_plan", "deOf": "de_of_set", "roOf": "ro_of_set", "rightOf": "right_of_flow", "saveOf": "save_of_one", "in-getD": "in-get_or"}


def files(root):
    for folder, dirs, names in os.walk(os.path.join(root, "crates")):
        dirs[:] = sorted(d for d in dirs if d not in ("out", "target"))
        for n in sorted(names):
            if n.endswith((".antt", ".rt", ".edit")):
                yield os.path.join(folder, n)


def read(p):
    with open(p, encoding="utf-8") as f:
        return f.read()


def snake(n):
    return re.sub(r"(?<=[a-z0-9])([A-Z])", lambda m: "_" + m.group(1).lower(), n)


def members(text):
    """The fields and the constructors: what is declared below a line that ends with 'where'."""
    inside = None
    for line in text.split("\n"):
        if not line.strip():
            continue
        depth = len(line) - len(line.lstrip())
        if re.match(r"\s*(pub )?(data|record) ", line) and line.rstrip().endswith("where"):
            inside = depth
            continue
        if inside is not None:
            if depth <= inside:
                inside = None
            else:
                m = HEAD.match(line)
                if m:
                    yield m.group(1)


def table(root):
    used, camel, dashed = collections.Counter(), set(), set()
    for p in files(root):
        text = read(p)
        if not p.endswith(".edit"):
            used.update(TOKEN.findall(text))
        if p.endswith(".antt"):
            for line in text.split("\n"):
                m = HEAD.match(line)
                if m and re.match(r"[a-z].*[A-Z]", m.group(1)):
                    camel.add(m.group(1))
                if m and "/specs/" in p and "-" in m.group(1):
                    dashed.add(m.group(1))
            dashed |= {n for n in members(text) if "-" in n}
    new = {}
    for n in sorted(camel):
        s = OWN.get(n) or snake(n)
        if n not in OWN and (s in used or s in new.values()):
            s = s + "_of"
        if s in used or s in new.values():
            sys.exit(f"{n}: {s} is taken")
        new[n] = s
    for n in sorted(dashed - set(new)):
        s = n.replace("-", "_")
        if s in used or s in new.values():
            s = s + "_of"
        if s in used or s in new.values():
            sys.exit(f"{n}: {s} is taken")
        new[n] = s
    return new


def main(root):
    new = table(root)
    swap = lambda m: new.get(m.group(0), m.group(0))
    camel = {k: v for k, v in new.items() if re.match(r"[a-z].*[A-Z]", k)}
    few = lambda m: camel.get(m.group(0), m.group(0))
    for p in files(root):
        old = read(p)
        of_code = p.endswith(".rt") or (p.endswith(".edit") and "file: src/" in old)
        text = TOKEN.sub(few if of_code else swap, old)
        if text != old:
            with open(p, "w", encoding="utf-8") as f:
                f.write(text)
    pages = [os.path.join(root, "README.md")]
    for folder, _, names in os.walk(os.path.join(root, "docs")):
        pages += [os.path.join(folder, n) for n in names if n.endswith(".md") and not n.startswith("PORT")]
    for p in sorted(pages):
        old = read(p)
        text = re.sub(r"`[^`\n]*`", lambda m: TOKEN.sub(swap, m.group(0)), old)
        if text != old:
            with open(p, "w", encoding="utf-8") as f:
                f.write(text)
    for k in sorted(new):
        print(f"{k} {new[k]}")


if __name__ == "__main__":
    main(sys.argv[1] if len(sys.argv) > 1 else ".")
