#!/usr/bin/env python3
"""Lists the places in src/ that today's forms of the language may make plainer, a list for each kind (docs/DESIGN-PASS.md).

  python3 tools/places.py              the count of each list
  python3 tools/places.py --list [N]   the places themselves, of all lists or of list N

Reads crates/*/src/*.rt alone, by the shape of the text: a place that it lists may be right as it stands, and then has a
line beside it that begins with '// Stays:'. Assumes Python 3.9.
"""

import collections
import os
import re
import sys

ROOT = os.path.dirname(os.path.dirname(os.path.abspath(__file__)))
TOKEN = re.compile(r'"(?:\\.|[^"\\])*"|[A-Za-z_][A-Za-z0-9_]*|0x[0-9A-Fa-f_]+|[0-9][0-9_.]*|[^\sA-Za-z0-9_]')
WORDS = {"if", "else", "while", "for", "in", "loop", "return", "break", "let", "mut", "match", "fn", "as", "true", "false", "struct"}


def sources():
    for crate in sorted(os.listdir(os.path.join(ROOT, "crates"))):
        folder = os.path.join(ROOT, "crates", crate, "src")
        for name in sorted(os.listdir(folder)) if os.path.isdir(folder) else ():
            if name.endswith(".rt"):
                with open(os.path.join(folder, name), encoding="utf-8") as file:
                    yield f"{crate}/{name}", file.read()


def plain(text):
    """The text without comments and ghost lines, line for line."""
    return "\n".join("" if line.lstrip().startswith(("//", "ghost use")) else line for line in text.split("\n"))


class Function:
    def __init__(self, file, line, name, params, clauses, body):
        self.place, self.name, self.params, self.clauses, self.body = f"{file}:{line}", name, params, clauses, body


def functions(file, text):
    for found in re.finditer(r"\bfn (\w+)(?:<[^(]*>)?\(([^)]*)\)", text):
        at = found.end()
        head = re.compile(r"[^\n{]*\{\n").match(text, at) or re.compile(r"\n\s*\{\n").search(text, at)
        if not head:
            continue
        start = head.end()
        depth, i = 1, start
        while depth and 0 < start and i < len(text):
            depth += {"{": 1, "}": -1}.get(text[i], 0)
            i += 1
        params = [p.split(":")[0].replace("mut ", "").strip() for p in found.group(2).split(",") if ":" in p]
        yield Function(file, text.count("\n", 0, found.start()) + 1, found.group(1), params, text[at:start], text[start:i])


def shape(body):
    """The body's tokens, names and numbers alike: what two twins share."""
    return " ".join(t if t in WORDS or not re.match(r'[A-Za-z_0-9"]', t) else "_" for t in TOKEN.findall(body))


def by_line(pattern, every):
    for file, text in every:
        for n, line in enumerate(text.split("\n"), 1):
            if re.search(pattern, line):
                yield f"{file}:{n}: {line.strip()}"


def groups(pairs, least):
    """Of (key, place) the keys with so many places."""
    kept = collections.defaultdict(list)
    for key, place in pairs:
        if place not in kept[key]:
            kept[key].append(place)
    return [f"{key}: {len(places)}: {', '.join(places)}" for key, places in sorted(kept.items()) if least <= len(places)]


def facts(clauses):
    """The heads of the facts that the `requires` clauses join."""
    for clause in re.findall(r"requires[^{]*\{(.*)\}", clauses):
        for part in re.split(r"[×()]|→", clause):
            head = re.match(r"\s*([A-Za-z][A-Za-z_]+)\s+[A-Za-z]", part)
            if head and head.group(1) not in ("suc", "length", "ends"):
                yield head.group(1)


def lists():
    every = [(file, plain(text)) for file, text in sources()]
    all_functions = [f for file, text in every for f in functions(file, text)]
    enums = list(by_line(r"^(pub )?enum ", every))
    yield "1a", "enums of the repository's own", enums
    yield "1b", "numbers for a kind, a width, a choice or an operation, by name", groups(
        ((name, line.split(": ", 1)[0]) for line in by_line(r": u64\b", every)
         for name in re.findall(r"\b(kind|operation|width|choice|from|to): u64\b", line)), 1)
    yield "1c", "functions that answer 0 or false for none", list(
        by_line(r"\b(return 0;|break 0;|else \{ 0 \}|Err\(_\) => 0|=> 0,)|^\s*0$", every))
    twins = groups(((shape(f.body), f"{f.place} {f.name}") for f in all_functions if 12 < len(TOKEN.findall(f.body))), 2)
    yield "2", "groups of functions of one shape", [t.rsplit(": ", 2)[1] + ": " + t.rsplit(": ", 1)[1] for t in twins]
    yield "3", "loops that are no `for`", list(by_line(r"\b(while .*\{|loop \{)", every))
    yield "4a", "conditions written out by hand", list(by_line(r"(\} else \{ false \}|\{ true \} else|^\s*(return )?(true|false);?$)", every_else(every)))
    yield "4b", "smaller, larger, widened and blank values by hand", list(
        by_line(r"fn (\w*wide|flag|one_where|sign|larger|lesser|greater|at_most|above|zero|none|blanks?|no_rows|no_ends|double|number|place)\b|neg: false,$", every))
    yield "5a", "facts that three and more functions require", groups(
        ((head, f"{f.place} {f.name}") for f in all_functions for head in facts(f.clauses)), 3)
    yield "5b", "neighbouring parameters, of names of some length, that three and more functions have", groups(
        ((f"{a}, {b}", f"{f.place} {f.name}") for f in all_functions for a, b in zip(f.params, f.params[1:]) if 1 < min(len(a), len(b))), 3)
    yield "6", "fixed arrays in signatures and structs", list(by_line(r"(: |-> |&mut |&)\[\w+; \w+\]", every))
    yield "7", "a number or an enum that says which step to run", list(by_line(r"(operation ==|kind == [0-4]\b|r\[1\] ==|match (pick|question)|kind < 3)", every))


def every_else(every):
    """Each `else {` joined with the line below it, so that a lone `false` shows."""
    for file, text in every:
        yield file, re.sub(r"else \{\n\s*false\n", "} else { false }\n\n", text)


def main():
    wanted = sys.argv[2] if 2 < len(sys.argv) else None
    for key, what, places in lists():
        if wanted in (None, key):
            print(f"{key}: {len(places)}: {what}")
            if "--list" in sys.argv:
                print("".join(f"    {place}\n" for place in places), end="")


main()
