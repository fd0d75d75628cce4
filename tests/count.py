#!/usr/bin/env python3
"""Makes the table of docs/BASE.md: the size of each crate, and how long its check took.

  python3 tests/count.py                        the sizes; the times stay as the table has them
  bash .ci/run && python3 tests/count.py --time the times too, in a new clone: proves each crate once more

Counts the lines that are neither empty nor a comment: code in src/ (its contracts included), statements in specs/ and
proofs in proofs/.  The time is one check of the crate from nothing, with one job, over the libraries that `rt ci` left
(tests/left).  Assumes Python 3.9.
"""

import os
import re
import subprocess
import sys
import time

HERE = os.path.dirname(os.path.abspath(__file__))
ROOT = os.path.dirname(HERE)
PAGE = os.path.join(ROOT, "docs", "BASE.md")
OPENS, CLOSES = "<!-- table: tests/count.py writes it -->\n", "<!-- end of the table -->\n"
PARTS = (("src", ".rt", "//"), ("specs", ".antt", "--"), ("proofs", ".antt", "--"))


def crates():
    """The crates' names in the order of crates.txt."""
    with open(os.path.join(ROOT, "crates.txt")) as file:
        return [line.split(":")[0].split()[0] for line in file if ":" in line and not line.startswith("#")]


def files(folder, ending):
    for place, _, names in os.walk(folder):
        yield from (os.path.join(place, name) for name in names if name.endswith(ending))


def lines_of(path, comment):
    with open(path, encoding="utf-8") as file:
        return sum(1 for line in file if line.strip() and not line.strip().startswith(comment))


def counts(crate):
    """Lines of code, statement and proof, and how many must-fail edits there are."""
    folder = os.path.join(ROOT, "crates", crate)
    sizes = [sum(lines_of(path, comment) for path in files(os.path.join(folder, part), ending))
             for part, ending, comment in PARTS]
    return sizes + [sum(1 for _ in files(os.path.join(folder, "must-fail"), ".edit"))]


def seconds(crate):
    """None where the crate is not proved."""
    begun = time.monotonic()
    done = subprocess.run(["sh", os.path.join(HERE, "left"), "check", crate, "--jobs", "1"], stdout=subprocess.DEVNULL)
    return None if done.returncode else round(time.monotonic() - begun)


def seconds_before(page):
    """The times that the page's table has, by crate."""
    rows = re.findall(r"^\| `(\w+)` \|.* \| ([\d,]+) \|$", page, re.MULTILINE)
    return {name: int(took.replace(",", "")) for name, took in rows}


def row(name, numbers):
    return "| %s |\n" % " | ".join([name] + ["–" if n is None else "{:,}".format(n) for n in numbers])


def table(took):
    rows = [(crate, counts(crate) + [took(crate)]) for crate in crates()]
    total = [sum(n or 0 for n in column) for column in zip(*(numbers for _, numbers in rows))]
    head = "| crate | code | statement | proof | must-fail edits | check, s |\n|---|---|---|---|---|---|\n"
    return head + "".join(row("`%s`" % name, numbers) for name, numbers in rows) + row("all", total)


def main():
    with open(PAGE, encoding="utf-8") as file:
        before, rest = file.read().split(OPENS)
    made = table(seconds if sys.argv[1:] == ["--time"] else seconds_before(rest.split(CLOSES)[0]).get)
    with open(PAGE, "w", encoding="utf-8", newline="\n") as file:
        file.write(before + OPENS + "\n" + made + "\n" + CLOSES + rest.split(CLOSES)[1])
    print(made, end="")


if __name__ == "__main__":
    main()
