#!/usr/bin/env python3
"""Imports the library's operators from the library itself, since the gate refuses them by way of a crate's own files.

usage: tools/port_operators.py ROOT CRATE..
"""
import os
import re
import sys

from port_files import rewrite

KIT = os.path.realpath(os.path.join(os.path.dirname(os.path.realpath(os.popen("command -v rt").read().strip())), ".."))
with open(os.path.join(KIT, "rattle/std/specs/Prelude.antt"), encoding="utf-8") as f:
    SYMBOLS = {it for it in re.findall(r"[^\s{},]+", f.read()) if "◌" in it}
root = sys.argv[1]
OURS = set(os.listdir(os.path.join(root, "crates")))
ITEM = re.compile(r"(?m)^((?:(?:pub|unfoldable)\s+)*use\s+)([\w.+'«»-]+)\.\{([^}]*)\}$")


def turn(text, path):
    wanted = []

    def put(m):
        head, module, names = m.groups()
        parts = module.split(".")
        if parts[0] != "Rattle" or parts[1] not in OURS:
            return m.group(0)
        names = [n.strip() for n in names.split(",") if n.strip()]
        ops = [n for n in names if n in SYMBOLS]
        if not ops:
            return m.group(0)
        rest = [n for n in names if n not in SYMBOLS]
        if "pub" in head:
            print(f"look: {path}: passes on {ops}")
        wanted.extend(o for o in ops if o not in wanted)
        return head + module + ".{" + ", ".join(rest) + "}" if rest else "\0"

    text = ITEM.sub(put, text)
    if not wanted:
        return text.replace("\0\n", "")
    line = re.compile(r"(?m)^use Rattle\.std\.specs\.Prelude\.\{([^}]*)\}$")
    m = line.search(text)
    if m:
        have = [n.strip() for n in m.group(1).split(",")]
        names = ", ".join(have + [o for o in wanted if o not in have])
        text = text[: m.start()] + "use Rattle.std.specs.Prelude.{" + names + "}" + text[m.end() :]
        return text.replace("\0\n", "")
    at = re.search(r"(?m)^(?:(?:pub|unfoldable)\s+)*use\s|\0", text).start()
    text = text[:at] + "use Rattle.std.specs.Prelude.{" + ", ".join(wanted) + "}\n" + text[at:]
    return text.replace("\0\n", "")


rewrite(root, sys.argv[2:], ".antt", turn)
