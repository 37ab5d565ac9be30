#!/usr/bin/env python3
"""Names the parts of a loop's or a call's kept lengths, which proof files cite by number, as today's check names them.

usage: name_fields.py LOG CRATE

LOG is what `rt check` printed in CRATE: where it says that a record has no field `0` or `1` and lists the fields,
the digits at that place become the field's name.
"""

import collections
import os
import re
import sys


def main(log, crate):
    text = open(log, encoding="utf-8").read()
    found = collections.defaultdict(list)
    for m in re.finditer(r"(?m)^(\./[^:\n]*):(\d+):(\d+): error: .*?has no field `([01])`[^\n]*?(?:fields? that can be named here (?:are|is) ([^\n]*)|\n\s+the fields? that can be named here (?:are|is) ([^\n]*))", text):
        names = re.findall(r"`([^`]+)`", (m.group(5) or m.group(6)).split("(nearest")[0])
        found[m.group(1)].append((int(m.group(2)), int(m.group(3)), names))
    for path, places in found.items():
        p = os.path.join(crate, path)
        lines = open(p, encoding="utf-8").read().split("\n")
        for line, col, names in sorted(set((a, b, tuple(c)) for a, b, c in places), reverse=True):
            s = lines[line - 1]
            at = col - 1
            m = re.match(r"((?:\.[01])+)", s[at:]) or re.match(r"((?:\.[01])+)", s[at - 1 :])
            if not m:
                print("not at", path, line, col, s[at : at + 20])
                continue
            if not s[at:].startswith("."):
                at -= 1
            digits = m.group(1)[1:].split(".")
            k = 0
            while k < len(digits) and digits[k] == "1":
                k += 1
            rest = digits[k + 1 :] if k < len(digits) else []
            if k >= len(names):
                print("which", path, line, col, s[at : at + 20], names)
                continue
            lines[line - 1] = s[:at] + "." + ".".join([names[k]] + rest) + s[at + len(m.group(1)) :]
        open(p, "w", encoding="utf-8").write("\n".join(lines))
        print(p, len(places))


if __name__ == "__main__":
    main(*sys.argv[1:3])
