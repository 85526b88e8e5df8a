#!/usr/bin/env python3
"""Writes what a reference points to as today's contracts do, once, after tools/port_names.py: `x.old` and `x.new` of a
`&mut`, `x.now` of a `&`.

usage: tools/port_values.py [ROOT]
"""
import re
import sys

from port_files import rewrite

ROOT = sys.argv[1] if len(sys.argv) > 1 else "."
FN = re.compile(r"\bfn\s+\w+")


def kind_of(head, name):
    m = re.search(r"(?<![\w])" + re.escape(name.strip("«»")) + r"\s*:\s*(&\s*(?:'\w+\s+)?(?:mut\b)?)", head)
    return None if not m else "mut" if "mut" in m.group(1) else "shared"


def turn(text, path):
    starts = [m.start() for m in FN.finditer(text)]
    parts, last = [], 0
    for i, start in enumerate(starts):
        end = starts[i + 1] if i + 1 < len(starts) else len(text)
        head = text[start:end]
        parts.append(text[last:start])

        def put(m):
            name, when = m.group("a") or m.group("b"), m.group("c") or m.group("d")
            kind = kind_of(head, name)
            if kind == "mut":
                return name + (".old" if when == "entry" else ".new")
            if kind == "shared":
                return name + ".now"
            print(f"left: {path}: {m.group(0)}")
            return m.group(0)

        of_arrow = r"\(λ x\. x\.now\) (?P<a>[\w«»]+)\.(?P<c>entry|exit)\b"
        parts.append(re.sub(of_arrow + r"|(?P<b>[\w«»]+)\.(?P<d>entry|exit)\.now\b", put, head))
        last = end
    parts.append(text[last:])
    return "".join(parts)


rewrite(ROOT, None, ".rt", turn)
