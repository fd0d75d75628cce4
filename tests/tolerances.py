#!/usr/bin/env python3
"""Makes the tables of docs/TOLERANCES.md and the pictures docs/tolerances.svg and docs/tolerances58.svg: how wide the
gaps' brackets are, at each count of bits, for Table 5 and for Table 4.

  tests/tolerances.py               by the second program
  tests/tolerances.py COMMAND...    by another program that answers proposals, such as: tests/run bench

The width and the kind are the command's last words.  At each temperature the rough search's pair is proposed twice,
with no tolerance at all, and with none for the Gibbs gap only: the refusals 9 and 10 carry the brackets of the two gaps.
By Table 4 at 32 bits cold pairs are refused with 21 before that, and have none.
Assumes data/terms.bin, data/terms58.bin and Python 3.9.
"""

import math
import os
import struct
import subprocess
import sys
import tempfile

HERE = os.path.dirname(os.path.abspath(__file__))
ROOT = os.path.dirname(HERE)
sys.path.insert(0, HERE)

import rough_search  # noqa: E402

PAGE = os.path.join(ROOT, "docs", "TOLERANCES.md")
PICTURES = {38: "tolerances.svg", 58: "tolerances58.svg"}
PAPER = {38: "Table 5", 58: "Table 4"}
OPENS = {38: "<!-- table: tests/tolerances.py writes it -->\n", 58: "<!-- table 4: tests/tolerances.py writes it -->\n"}
CLOSES = {38: "<!-- end of the table -->\n", 58: "<!-- end of table 4 -->\n"}
FIRST, LAST, STEPS = 273.16, 645.0, 240  # of the picture
LISTED = [273.16, 280, 290, 298.15, 300, 310, 320, 340, 360, 373.15, 394.15, 407.15, 420, 440, 460, 480, 500, 520, 540,
          560, 580, 600, 620, 630, 640, 645]
WIDTHS = (32, 53)
COLD = 300  # K: here the fine width has to be this many times narrower
NARROWER = 10 ** 6


# the program's answers

def proposals(T, kind):
    liquid, vapour = rough_search.pair(T, kind)
    return struct.pack(">5d", T, liquid, vapour, 0, 0) + struct.pack(">5d", T, liquid, vapour, 1e6, 0)


def answered(command, bits, kind, temperatures):
    """The brackets of pressure gap and Gibbs gap at each temperature, as pairs of floats; None twice where 21 is all
    that there is."""
    with open(os.path.join(ROOT, "data", rough_search.FILES[kind]), "rb") as file:
        table = file.read()
    asked = b"".join(proposals(T, kind) for T in temperatures)
    with tempfile.TemporaryDirectory() as folder:
        with open(os.path.join(folder, "terms.bin"), "wb") as file:
            file.write(table)
        done = subprocess.run(command + [str(bits), str(kind)], cwd=folder, input=asked, stdout=subprocess.PIPE,
                              check=True)
    lines = [line.split() for line in done.stdout.decode("ascii").splitlines()]
    numbers = [(first[1], second[1]) for first, second in zip(lines[::2], lines[1::2])]
    pulled = numbers.count(("21", "21"))  # the coldest, if any
    assert numbers == [("21", "21")] * pulled + [("9", "10")] * (len(temperatures) - pulled), "a gap did not come back"
    assert pulled == 0 or (bits, kind) == (32, 58)
    ends = [None if line[1] == "21" else tuple(struct.unpack(">d", bytes.fromhex(word))[0] for word in line[3:])
            for line in lines]
    return list(zip(ends[::2], ends[1::2]))


def width(bracket):
    lower, upper = bracket
    return upper - lower


def least_tolerance(bracket):
    """The larger end by size: with this tolerance the proposal passes, with any smaller one it does not."""
    lower, upper = bracket
    return max(-lower, upper)


# the table

def short(x):
    """Three digits, rounded up, so that what is printed is enough; what is small by its power of ten."""
    power = math.floor(math.log10(x))
    digits = math.ceil(x / 10.0 ** (power - 2) * (1 - 1e-12))
    if digits == 1000:  # rounded up to the next power of ten
        digits, power = 100, power + 1
    if power < -2:
        return "%.2fe%d" % (digits / 100, power)
    return "{:,.{}f}".format(digits * 10.0 ** (power - 2), max(0, 2 - power))


def row(*cells):
    return "| %s |" % " | ".join(cells)


def numbers(bracket):
    """A gap's two columns at one count of bits."""
    return (short(width(bracket)), short(least_tolerance(bracket))) if bracket else ("–", "–")


def rows(kind, coarse, fine):
    """One row a temperature, from the brackets of both gaps at 32 bits and at 53."""
    yield row("T, K", "°C", "vapour pressure, about, Pa",
              "pressure gap at 32 bits: width, Pa", "passes from, Pa", "at 53 bits: width, Pa", "passes from, Pa",
              "Gibbs gap at 32 bits: width, J/kg", "passes from, J/kg", "at 53 bits: width, J/kg", "passes from, J/kg")
    yield "|" + "---|" * 11
    for T, (p32, g32), (p53, g53) in zip(LISTED, coarse, fine):
        if p32 is not None:
            assert least_tolerance(p53) < least_tolerance(p32) and least_tolerance(g53) < least_tolerance(g32), T
        vapour = rough_search.pair(T, kind)[1]
        yield row("%g" % T, "%g" % round(T - 273.15, 2), "{:,.0f}".format(rough_search.pressure(T, vapour, kind)),
                  *numbers(p32), *numbers(p53), *numbers(g32), *numbers(g53))


def narrower(coarse, fine):
    """The sentence on cold water, its number rounded down."""
    place = LISTED.index(COLD)
    times = math.floor(width(coarse[place][0]) / width(fine[place][0]) / 10 ** 4) * 10 ** 4
    assert times > NARROWER, times
    return "At {} K the pressure gap's bracket is more than {:,} times narrower at 53 bits.".format(COLD, times)


def from_when(coarse):
    """The sentence on pairs that have no gaps at 32 bits."""
    first = LISTED[[pressure for pressure, _ in coarse].index(next(p for p, _ in coarse if p is not None))]
    return "At 32 bits the pairs of this table are refused with 21 below {:g} K.".format(first)


def write_table(kind, lines):
    with open(PAGE, encoding="utf-8") as file:
        text = file.read()
    before, rest = text.split(OPENS[kind])
    after = rest.split(CLOSES[kind])[1]
    with open(PAGE, "w", encoding="utf-8", newline="\n") as file:
        file.write(before + OPENS[kind] + "\n" + "\n".join(lines) + "\n\n" + CLOSES[kind] + after)


# the picture: two panels, temperature to the right, width upward in decades, a curve a count of bits

LEFT, WIDE, HIGH, BETWEEN, TOP = 80, 600, 260, 70, 40


class Panel:
    def __init__(self, top, title, curves):
        """The curves are lists of temperature and value by the count of bits."""
        self.top, self.title, self.curves = top, title, curves
        values = [value for curve in curves.values() for _, value in curve]
        self.low = math.floor(math.log10(min(values)))
        self.high = math.ceil(math.log10(max(values)))

    def x(self, T):
        return LEFT + WIDE * (T - 270) / (650 - 270)

    def y(self, value):
        return self.top + HIGH * (self.high - math.log10(value)) / (self.high - self.low)

    def grid(self):
        bottom = self.top + HIGH
        for decade in range(self.low, self.high + 1):
            y = self.y(10.0 ** decade)
            yield '<line x1="%d" y1="%.1f" x2="%d" y2="%.1f" class="grid"/>' % (LEFT, y, LEFT + WIDE, y)
            yield '<text x="%d" y="%.1f" text-anchor="end">%g</text>' % (LEFT - 8, y + 4, 10.0 ** decade)
        for T in range(300, 650, 50):
            yield '<line x1="%.1f" y1="%d" x2="%.1f" y2="%d" class="grid"/>' % (self.x(T), self.top, self.x(T), bottom)
            yield '<text x="%.1f" y="%d" text-anchor="middle">%d</text>' % (self.x(T), bottom + 16, T)
        yield '<text x="%d" y="%d" text-anchor="end">K</text>' % (LEFT + WIDE, bottom + 16)

    def curve(self, bits):
        values = self.curves[bits]
        points = " ".join("%.1f,%.1f" % (self.x(T), self.y(value)) for T, value in values)
        yield '<polyline points="%s" class="bits%d"/>' % (points, bits)
        first, value = values[0]
        yield '<text x="%.1f" y="%.1f">%d bits</text>' % (self.x(math.floor(first) + 2), self.y(value) - 10, bits)

    def lines(self):
        yield '<text x="%d" y="%d" class="title">%s</text>' % (LEFT, self.top - 12, self.title)
        yield from self.grid()
        for bits in WIDTHS:
            yield from self.curve(bits)


def panels(temperatures, brackets):
    """Pressure gap above, Gibbs gap below, from the brackets by the count of bits."""
    titles = ("Width of the pressure gap's bracket, Pa", "Width of the Gibbs gap's bracket, J/kg")
    for place, title in enumerate(titles):
        curves = {bits: [(T, width(pair[place])) for T, pair in zip(temperatures, brackets[bits]) if pair[place]]
                  for bits in WIDTHS}
        yield Panel(TOP + place * (HIGH + BETWEEN), title, curves)


def write_picture(kind, temperatures, brackets):
    total = (LEFT + WIDE + 30, TOP + 2 * HIGH + BETWEEN + 40)
    with open(os.path.join(ROOT, "docs", PICTURES[kind]), "w") as file:
        size = 'width="%d" height="%d" viewBox="0 0 %d %d"' % (total * 2)
        file.write('<svg xmlns="http://www.w3.org/2000/svg" %s>\n' % size)
        file.write("<title>Widths of the gaps' brackets at saturation pairs of %s</title>\n" % PAPER[kind])
        file.write("<style>text { font: 12px sans-serif; fill: #222 } .title { font-size: 14px } "
                   ".grid { stroke: #ccc } polyline { fill: none; stroke-width: 1.5 } "
                   ".bits32 { stroke: #06a } .bits53 { stroke: #a40 }</style>\n")
        file.write('<rect width="100%" height="100%" fill="#fff"/>\n')
        for panel in panels(temperatures, brackets):
            file.writelines(line + "\n" for line in panel.lines())
        file.write("</svg>\n")


def main(arguments):
    command = arguments or [sys.executable, os.path.join(ROOT, "second")]
    command = [os.path.join(ROOT, word) if os.path.exists(os.path.join(ROOT, word)) else word for word in command]
    temperatures = [FIRST + (LAST - FIRST) * i / STEPS for i in range(STEPS + 1)]
    for kind in PAPER:
        both = [answered(command, bits, kind, LISTED) for bits in WIDTHS]
        sentence = narrower(*both) if kind == 38 else from_when(both[0])
        write_table(kind, [*rows(kind, *both), "", sentence])
        write_picture(kind, temperatures, {bits: answered(command, bits, kind, temperatures) for bits in WIDTHS})


if __name__ == "__main__":
    main(sys.argv[1:])
