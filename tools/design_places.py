#!/usr/bin/env python3
"""Lists the places in src/ that docs/DESIGN-PASS.md speaks of, by its points 1 to 8.

    python3 tools/design_places.py            counts, a line for each point and kind
    python3 tools/design_places.py 3          every place of point 3
    python3 tools/design_places.py --crates   counts by crate

crates/export_c is left out, since it is made from crates/export. It reads text alone, and proves nothing.
"""
import pathlib
import re
import sys
from collections import Counter, defaultdict

TOP = pathlib.Path(__file__).resolve().parent.parent / "crates"
FUNCTION = re.compile(r"^( *)((?:pub(?:\([a-z]+\))? )?(?:unsafe )?(?:extern \"C\" )?fn (\w+))", re.M)
FOR_RANGE = re.compile(r"^\s*for (\w+) in [^{]*\.\.[^{]*\{", re.M)
REFUSES = r"return [1-9]\d*;|return fault|Refused\(\d+\)|return refused;|return number;"
REFUSING = r"u32|Reply|Step|Reading|Found|Computed|Answer"
SWITCH = r"match (which|layer|call|way|kind|activation)\b|if (call|which|way|j|r) == \d"
OWN_ENUM_WORDS = {"Refused", "Nothing", "Misread", "None", "Unread"}


class Function:
    """A function: its crate, file, line, name, signature, clauses and body."""

    def __init__(self, crate, file, line, name, head, body):
        self.crate, self.file, self.line, self.name = crate, file, line, name
        self.head, self.body = head, body
        # the clauses come after the result's type
        cut = re.search(r"\n\s*(?:requires|ensures)\b", head)
        self.signature = head[: cut.start()] if cut else head
        self.clauses = head[cut.start() :] if cut else ""
        self.parameters = re.findall(r"(?:^|[(,])\s*(?:mut )?(\w+): ([^,()]+(?:\([^)]*\))?)", self.signature)
        self.result = (re.search(r"->\s*([^\n{]+)", self.signature) or [None, ""])[1].strip()
        self.exported = 'extern "C"' in head

    def place(self):
        return f"{self.file}:{self.line} {self.name}"


def without_comments(text):
    return "\n".join("" if line.lstrip().startswith("//") else line for line in text.split("\n"))


def functions(crate, path, text):
    for found in FUNCTION.finditer(text):
        indent = found.group(1)
        opening = re.compile(rf"^{indent}\{{|\) (?:-> [^\n]*)?\{{$", re.M).search(text, found.end())
        if not opening:
            continue
        end = text.find(f"\n{indent}}}", opening.start())
        head, body = text[found.start() : opening.start()], text[opening.start() : end]
        line = text.count("\n", 0, found.start()) + 1
        yield Function(crate, path.relative_to(TOP), line, found.group(3), head, body)


def files():
    for path in sorted(TOP.glob("*/src/**/*.rt")):
        crate = path.relative_to(TOP).parts[0]
        if crate != "export_c":
            yield crate, path, without_comments(path.read_text())


def is_table(function):
    return len(re.findall(r"=>", function.body)) > 20


def enums(crate, path, text):
    for found in re.finditer(r"enum (\w+)(?:<[^>]*>)? \{(.*?)\n\}", text, re.S):
        variants = re.findall(r"^\s+(\w+)(\(|\s*\{|,|\s*=)", found.group(2), re.M)
        names = {name for name, _ in variants}
        full = [name for name, after in variants if after.strip().startswith(("(", "{"))]
        shaped = names & OWN_ENUM_WORDS or (len(variants) == 2 and len(full) == 1)
        line = text.count("\n", 0, found.start()) + 1
        yield shaped, f"{path.relative_to(TOP)}:{line} {found.group(1)}"


def structs(crate, path, text):
    for found in re.finditer(r"struct (\w+)(?:<[^>]*>)? \{(.*?)\n\}", text, re.S):
        fields = re.findall(r"^\s+(?:pub(?:\([a-z]+\))? )?(\w+): ([^,\n]+)", found.group(2), re.M)
        line = text.count("\n", 0, found.start()) + 1
        yield fields, f"{path.relative_to(TOP)}:{line} {found.group(1)}"


def shape(function):
    """The body with its numbers, and names that follow no point, made alike."""
    body = re.sub(r"\b\d[\w.]*\b", "0", function.body)
    body = re.sub(r"\b[a-z_]\w*\b(?!\()", "x", body)
    body = re.sub(r"\s+", " ", body)
    return body if len(body) > 60 else None


def facts(function):
    """The facts of a function's clauses about one value each, its name left in."""
    if function.exported:
        return
    requires = re.findall(r"requires\s*\w*\s*\{(.*?)\}\s*(?=\n|$)", function.clauses, re.S)
    for clause in requires:
        for part in re.split(r"×", clause):
            part = re.sub(r"[()\s]+", " ", part).strip()
            if re.match(r"^(length )?[\w.«»]+ (≡|≤|<) [\w ]+$", part):
                yield part


def places():
    found = defaultdict(list)
    everything = [(crate, path, text, list(functions(crate, path, text))) for crate, path, text in files()]
    for crate, path, text, own in everything:
        found["1 own enums shaped like Option or Result"] += [at for shaped, at in enums(crate, path, text) if shaped]
        for fields, at in structs(crate, path, text):
            if ("number", "u32") in fields:
                found["1 a refusal's number beside a value"].append(at)
            kinds = Counter(kind for _, kind in fields)
            if len(fields) >= 2 and len(kinds) == 1 and all(len(name) <= 2 for name, _ in fields):
                found["6 structs of fields a, b, c of one type"].append(at)
        for function in own:
            if is_table(function):
                continue
            refuses = re.search(REFUSES, function.body)
            if refuses and not function.exported and re.match(REFUSING, function.result):
                found["1 functions that give a refusal as a number"].append(function.place())
            for parameter, kind in function.parameters:
                if parameter in ("format", "call", "which", "kind", "layer") and kind.strip() in ("u32", "usize"):
                    if not function.exported:
                        found["1 a parameter that is a number for a kind"].append(f"{function.place()} {parameter}")
            for loop in FOR_RANGE.finditer(function.body):
                found["3 loops over a range"].append(f"{function.place()} {loop.group(1)}")
            if re.search(r"^\s*while ", function.body, re.M):
                found["3 while loops"].append(function.place())
            if re.search(r"^\s*match .*\{(\s*[A-Z]\w*::\w+ => \d+[\w.]*,?)+\s*\}\s*$", function.body, re.S | re.M):
                found["4 an enum turned into a number by hand"].append(function.place())
            if re.search(r"== \d+ \{\s*return [A-Z]\w+::\w+(\([A-Z]\w+::\w+\))?;", function.body):
                found["4 a number turned into an enum by hand"].append(function.place())
            if re.search(r"/ (256|65536|16777216)\b", function.body) and function.body.count("/ 256") >= 1:
                if re.search(r"/ 65536|/ 16777216", function.body):
                    found["4 bytes of a number by hand"].append(function.place())
            if re.search(r"\* (256|65536|16777216)\b|(256|65536|16777216) \* ", function.body):
                found["4 bytes of a number by hand"].append(function.place())
            if re.match(r"\{\s*if (\w+) < (\w+) \{ \1 \} else \{ \2 \}\s*$", function.body):
                found["4 order by hand"].append(function.place())
            if len(re.findall(r"return false;", function.body)) >= 2 and "for " not in function.body:
                found["4 a conjunction by returns"].append(function.place())
            if re.search(SWITCH, function.body):
                found["7 a switch on a number or a way"].append(function.place())
    shapes = defaultdict(list)
    held = defaultdict(lambda: defaultdict(list))
    together = defaultdict(lambda: defaultdict(list))
    for crate, path, text, own in everything:
        for function in own:
            if is_table(function) or function.exported:
                continue
            if shape(function):
                shapes[shape(function)].append(function.place())
            for fact in set(facts(function)):
                held[crate][fact].append(function.place())
            names = tuple(sorted(f"{name}: {kind.strip()}" for name, kind in function.parameters))
            for size in (4,):
                if len(names) >= size:
                    together[crate][names].append(function.place())
    for same in shapes.values():
        if len(same) > 1:
            found["2 functions of one shape"].append(" ~ ".join(same))
    for crate, by_fact in held.items():
        for fact, where in by_fact.items():
            if len(where) >= 3:
                found["5 a fact in three contracts or more"].append(f"{crate}: {fact} ({len(where)})")
    for crate, by_names in together.items():
        for names, where in by_names.items():
            if len(where) >= 3:
                place = f"{crate}: {', '.join(names)} ({len(where)})"
                found["5 four parameters or more, the same in three functions"].append(place)
    for crate in sorted({path.relative_to(TOP).parts[0] for path in TOP.glob("*/proofs/**/Answers.antt")}):
        for path in sorted((TOP / crate / "proofs").glob("**/Answers.antt")):
            found["8 functions with answers by hand"].append(str(path.relative_to(TOP)))
    return found


def crate_of(place):
    return re.split(r"[/:]", place)[0]


def main():
    found = places()
    wanted = [word for word in sys.argv[1:] if not word.startswith("-")]
    for name in sorted(found):
        if wanted and not any(name.startswith(word) for word in wanted):
            continue
        print(f"{name}: {len(found[name])}")
        if wanted:
            for place in found[name]:
                print(f"    {place}")
        elif "--crates" in sys.argv:
            by_crate = sorted(Counter(map(crate_of, found[name])).items())
            print("    " + ", ".join(f"{crate} {n}" for crate, n in by_crate))


main()
