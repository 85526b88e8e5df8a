#!/usr/bin/env python3
"""Brings the texts of must-fail edits to the spelling of the files that they change, once, after the other scripts.

usage: tools/port_edits.py [ROOT]        prints each `old:` text that does not stand once in its file
"""
import glob
import os
import re
import sys

ROOT = sys.argv[1] if len(sys.argv) > 1 else "."
TOKEN = re.compile(r"(?<![\w'◌])[a-z][\w'′₀-₉-]*")


def read(path):
    with open(path, encoding="utf-8") as f:
        return f.read()


def snake(name):
    return re.sub(r"(?<=[a-z0-9])([A-Z])", lambda m: "_" + m.group(1).lower(), name).replace("-", "_").replace("′", "'")


words = set()
KINDS = "crates/*/specs/**/*.antt", "crates/*/src/**/*.rt"
for p in [p for kind in KINDS for p in glob.glob(os.path.join(ROOT, kind), recursive=True)]:
    words.update(re.findall(r"[a-z][\w']*", read(p)))


def spelled(text):
    is_turned = lambda name: snake(name) in words and not re.search(r"\d-\d", name)
    text = TOKEN.sub(lambda m: snake(m.group(0)) if is_turned(m.group(0)) else m.group(0), text)
    text = re.sub(r"(?<=[\w)'»]) \.(?=[a-z0-9«])", ".", text)
    text = re.sub(r"Rattle·(\w+)·(specs|proofs)\.\2\.", r"Rattle.\1.\2.", text)
    text = re.sub(r"Rattle·(\w+)\.", r"Rattle.\1.", text)
    if "use " in text:
        holed = lambda m: "{" + re.sub(r"(?<![\w◌])_([^\s\w,]+)_(?!\w)", r"◌\1◌", m.group(1)) + "}"
        text = re.sub(r"\{([^{}]*)\}", holed, text)
    text = text.replace("getD", "get_or")
    text = text.replace("λ r. ⌜ ", "").replace("λ _. ⌜ ", "").replace("⌜ ", "").replace(" ⌝", "")
    text = re.sub(r"now \((\w+)\.exit\)", r"\1.new", text)
    text = re.sub(r"now \((\w+)\.entry\)", r"\1.old", text)
    return text


bad = 0
for path in sorted(glob.glob(os.path.join(ROOT, "crates/*/must-fail/*.edit"))):
    crate = os.path.dirname(os.path.dirname(path))
    out, target = [], ""
    held = {}
    for line in read(path).split("\n"):
        m = re.match(r"(file|old|new): ?(.*)$", line)
        if not m:
            out.append(line)
            continue
        kind, text = m.groups()
        if kind == "file":
            target = text.strip()
            name = os.path.join(crate, target)
            if target not in held:
                held[target] = read(name) if os.path.exists(name) else ""
            out.append(line)
            continue
        if kind == "old":
            tight = re.sub(r"\(([\w'«»]+(?:\.[\w'«»]+)+)\)", r"\1", spelled(text))
            holes = re.sub(r"(?<![\w◌])_([^\s\w,]+)_(?!\w)", r"◌\1◌", tight)
            tries = (text, spelled(text), tight, holes)
            turned = [t for t in tries if held[target].count(t) == 1]
            as_tight, as_holes = turned and turned[0] in (tight, holes), turned and turned[0] == holes
            if not turned:
                bad += 1
                times = held[target].count(spelled(text))
                print(f"{os.path.relpath(path, ROOT)}: {target}: {times} times: {spelled(text)}")
            old = turned[0] if turned else spelled(text)
            out.append("old: " + old)
        else:
            new = spelled(text)
            if as_tight:
                new = re.sub(r"\(([\w'«»]+(?:\.[\w'«»]+)+)\)", r"\1", new)
            if as_holes:
                new = re.sub(r"(?<![\w◌])_([^\s\w,]+)_(?!\w)", r"◌\1◌", new)
            out.append("new: " + new)
            held[target] = held[target].replace(old, new, 1)
    with open(path, "w", encoding="utf-8") as f:
        f.write("\n".join(out))
print(f"{bad} texts do not stand once")
