#!/usr/bin/env python3
"""Brings the names of definitions, lemmas, fields and constructors to snake case, once, after the kit's port script.

usage: tools/port_names.py [ROOT]
It rewrites crates/**/*.antt, *.rt, *.edit and the names between backquotes in pages.

A name is turned if some .antt file below crates/ declares it, and no module outside the repository has it. Functions of
src/ keep their names. Where two names fall together, the lemma (with dashes) gets `_lem`. Prints each name that it
leaves.
"""
import collections
import os
import re
import sys

ROOT = sys.argv[1] if len(sys.argv) > 1 else "."
WORD = r"[^\s(){}\[\]:;,.=\"`«»⌜⌝⟦⟧]+"
TOKEN = re.compile(r"(?<![\w'◌-])[a-z][\w'₀-₉κ-]*")
# an answer or an invariant of a Proof.antt: the kit made its name
MADE = re.compile(r"^\s*(?:(?:abbrev|pub)\s+)*([a-z][\w'₀-₉-]*)\s*:\s*tie\.", re.M)


def files(*endings):
    for folder, dirs, names in os.walk(os.path.join(ROOT, "crates")):
        dirs[:] = sorted(d for d in dirs if d not in ("out", ".git"))
        for name in sorted(names):
            if name.endswith(endings):
                yield os.path.join(folder, name)


def read(path):
    with open(path, encoding="utf-8") as f:
        return f.read()


def snake(name):
    return re.sub(r"(?<=[a-z0-9])([A-Z])", lambda m: "_" + m.group(1).lower(), name).replace("-", "_")


def code_of(line):
    return line.split("--", 1)[0]


def declared(text):
    head = re.compile(
        r"\s*(?:(?:abbrev|pub|unfoldable|ruleset|let|cons)\s+)*"
        r"([a-z][\w'₀-₉◌-]*(?:\s+[a-z][\w'₀-₉-]*)*)\s*:(?:\s|$)"
    )
    for line in text.split("\n"):
        m = head.match(code_of(line))
        if m:
            yield from m.group(1).split()
        m = re.match(r"\s*(?:pub\s+)?ruleset\s+([a-z][\w'-]*)", line)
        if m:
            yield m.group(1)
        # definitions and lemmas with no signature of their own
        m = re.match(r"\s*(?:(?:abbrev|pub|unfoldable)\s+)+([a-z][\w'-]*)\b", line)
        if m:
            yield m.group(1)


def imported(text, crates):
    for m in re.finditer(r"use\s+([\w·.+'-]+)\.\{([^}]*)\}", text):
        parts = re.split("[.·]", m.group(1))
        if parts[0] == "Rattle" and len(parts) > 1 and parts[1] in crates:
            continue
        for name in m.group(2).split(","):
            yield name.strip().split(" as ")[0].strip()


def main():
    crates = set(os.listdir(os.path.join(ROOT, "crates")))
    antt = {p: read(p) for p in files(".antt")}
    other = {p: read(p) for p in files(".rt", ".edit")}
    ours, theirs, tokens, made = set(), set(), set(), set()
    for text in antt.values():
        ours.update(declared(text))
        made.update(MADE.findall(text))
        theirs.update(imported(text, crates))
    for text in other.values():
        theirs.update(imported(text, crates))
    for text in list(antt.values()):
        for line in text.split("\n"):
            tokens.update(TOKEN.findall(code_of(line)))
    turned = {n: snake(n) for n in ours if "◌" not in n and snake(n) != n and n not in theirs | made}
    both, plain = collections.defaultdict(list), set()
    for name, new in turned.items():
        both[new].append(name)
    for new, names in sorted(both.items()):
        dashed = [n for n in names if "-" in n]
        if len(names) > 1 or (new in ours | theirs):
            if new in ours and not dashed:
                # the snake-case one was a lemma that port.py turned
                turned[new] = new + "_lem"
                plain.add(new)
                print(f"both: {new} and {names}: {new}_lem")
            else:
                for n in dashed:
                    turned[n] = new + "_lem"
                print(f"both: {names}, {new if new in ours | theirs else '-'}: {dashed} get _lem")
    for n in sorted(ours - set(turned)):
        if ("-" in n or re.search("[a-z][A-Z]", n)) and "◌" not in n:
            print(f"kept: {n}" + (" (a library's)" if n in theirs else " (made by the kit)"))
    for p, text in antt.items():
        have = set()
        for line in text.split("\n"):
            have.update(TOKEN.findall(code_of(line)))
        for n in sorted(have & set(turned)):
            if turned[n] in have and turned[n] not in turned:
                print(f"look: {p}: {n} becomes {turned[n]}, which the file has")
    for p, text in other.items():
        if p.endswith(".rt"):
            for n in sorted(set(TOKEN.findall(text)) & set(turned)):
                if re.search(r"\b" + re.escape(turned[n]) + r"\b", text):
                    print(f"look: {p}: {n} becomes {turned[n]}, which the file has")

    def one(m, source):
        name = m.group(0)
        # a name in snake case that is a lemma's may be a function's too: after a dot, and in src/
        if name in plain and (source or m.string[: m.start()].endswith((".", "mod "))):
            return name
        # after a dot stands a function's step, and no lemma
        if m.string[: m.start()].endswith(".") and turned.get(name, "").endswith("_lem"):
            return snake(name)
        return turned.get(name, name)

    put = lambda s, source=False: TOKEN.sub(lambda m: one(m, source), s)
    quoted = lambda s: re.sub(r"`[^`\n]*`", lambda m: put(m.group(0), True), s)
    for p, text in antt.items():
        lines = []
        for line in text.split("\n"):
            code, dash, note = line.partition("--")
            lines.append(put(code) + dash + quoted(note))
        new = "\n".join(lines)
        if new != text:
            with open(p, "w", encoding="utf-8") as f:
                f.write(new)
    for p, text in other.items():
        lines = []
        for line in text.split("\n"):
            code, dash, note = line.partition("//")
            lines.append(put(code, True) + dash + quoted(note))
        new = "\n".join(lines)
        if new != text:
            with open(p, "w", encoding="utf-8") as f:
                f.write(new)
    docs = os.path.join(ROOT, "docs")
    pages = [os.path.join(docs, f) for f in os.listdir(docs) if f.endswith(".md") and f != "PORT.md"]
    pages += [os.path.join(ROOT, f) for f in ("README.md", "CONTRIBUTING.md")]
    for p in pages:
        text = read(p)
        new = quoted(text)
        if new != text:
            with open(p, "w", encoding="utf-8") as f:
                f.write(new)
    print(f"turned: {len(turned)} names")


main()
