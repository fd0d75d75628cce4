#!/usr/bin/env python3
"""Brings the repository's own definitions and lemmas to today's spelling: words in snake case, a dash only behind the name of a definition.

usage: python3 tools/respell.py [--list]      at the top of the repository, right after port.py; --list prints old and new names and writes nothing

A name is turned if a file of specs/ or proofs/ declares it (the proof of one function, in proofs/F/Proof.antt, declares none that others cite).
Functions of src/, exported C names, strings, inputs and outputs keep their names. A name keeps its dashes where its new spelling stands
somewhere already, so that no two names fall together. docs/PORT.md has the list.
"""

import collections
import os
import re
import sys

NAME = r"[A-Za-zμκλΦ][\w'\-≃≈≺≼⊕⊖⊗⊘]*"
TOKEN = re.compile(r"(?<![\w'≃≈≺≼⊕⊖⊗⊘-])" + NAME)
DECLARED = re.compile(r"^(\s*)((?:unfoldable |abbrev |pub )*)([^\s:(){}]+)(?: [({].*?)? : ")
OPENED = re.compile(r"^(\s*)(?:pub )?(?:record|data) ")
# Bound variables and names given by `as`, which nothing declares.
BOUND = "cardAccepted cardAnswer cardInputs cardSteps exactTerm gibbsTolerance powerAt pressureTolerance".split()
OF_A_FUNCTION = ("Proof.antt", "Answers.antt", "Invariants.antt")


def files(top):
    for folder, dirs, names in os.walk(top):
        dirs[:] = sorted(d for d in dirs if d not in ("out", "must-fail"))
        for n in sorted(names):
            if n.endswith((".antt", ".rt")):
                yield os.path.join(folder, n)


def snake(word):
    while True:
        new = re.sub(r"(?<=[a-z0-9])([A-Z])", lambda m: "_" + m[1].lower(), word, count=1)
        if new == word:
            return word
        word = new


def declared(texts):
    """The names that specs/ and proofs/ declare, and which of them are fields of a record or constructors."""
    names, fields = set(), set()
    for path, text in texts.items():
        if not path.endswith(".antt") or os.path.basename(path) in OF_A_FUNCTION:
            continue
        inside = None
        for line in text.split("\n"):
            opened = OPENED.match(line)
            if opened:
                inside = len(opened[1])
                continue
            found = DECLARED.match(line)
            if line.strip() and inside is not None and len(line) - len(line.lstrip()) <= inside:
                inside = None
            if found and re.fullmatch(NAME, found[3]):
                (fields if inside is not None else names).add(found[3])
    return names, fields


def of_others(texts):
    """The names that a `use` line takes from the library."""
    own = set(os.listdir("crates"))
    found = set()
    for text in texts.values():
        for m in re.finditer(r"(?m)^(?:ghost )?use ([\w.+-]+?)\.\{([^}]*)\}", text):
            parts = m[1].split(".")
            if parts[0] != "Rattle" or parts[1] not in own:
                found |= {n.split(" as ")[0].strip() for n in m[2].split(",")}
    return found


def turned(texts):
    names, fields = declared(texts)
    others = of_others(texts)
    names, fields = names - others, fields - others
    stand = collections.Counter(m[0] for t in texts.values() for m in TOKEN.finditer(t))
    words = {n for n in names if "-" not in n}
    heads = {snake(w) for w in words if w[0].islower()}
    to = {}
    for n in sorted(names | fields | set(BOUND)):
        if not (n[0].islower() or n[0] in "μκλ"):
            continue
        parts = [snake(p) for p in n.split("-")]
        new = parts[0]
        for k, p in enumerate(parts[1:], 1):
            new += ("-" if n not in fields and "_".join(parts[:k]) in heads else "_") + p
        if new != n:
            to[n] = new
    # where a new name stands somewhere already, or another name comes to it too, the old dashes stay
    kept = {}
    times = collections.Counter(to.values())
    for n, new in list(to.items()):
        if "-" in n and (new in stand or times[new] > 1):
            plain = "-".join(snake(p) for p in n.split("-"))
            kept[n] = new
            if plain == n:
                del to[n]
            else:
                to[n] = plain
    back = collections.defaultdict(list)
    for n, new in to.items():
        back[new].append(n)
    for new, olds in back.items():
        if len(olds) > 1:
            raise SystemExit(f"respell: {' and '.join(olds)} would both be {new}")
    return to, fields, kept


def respelled(text, to, fields):
    def one(m):
        n, at = m[0], m.start()
        if n not in to:
            return n
        if at and text[at - 1] == "." and "-" in n and n not in fields:
            return n
        return to[n]

    return TOKEN.sub(one, text)


def main(argv):
    texts = {}
    for path in files("crates"):
        with open(path, encoding="utf-8") as f:
            texts[path] = f.read()
    to, fields, kept = turned(texts)
    if argv == ["--list"]:
        for n in sorted(to):
            print(n, to[n])
        print("kept:", *sorted(kept.items()))
        return
    for path, text in texts.items():
        new = respelled(text, to, fields)
        if new != text:
            with open(path, "w", encoding="utf-8") as f:
                f.write(new)


if __name__ == "__main__":
    main(sys.argv[1:])
