"""Text tables: rows to packed terms and back, and what the program `tables` writes (02 c).  Assumes nothing of the
bytes.  Packed terms are nine-byte ones here.

A row is c, d, t and the coefficient, one space between: `3 5 15 -0.1216139400e-1`.  A text is 1 to 64 rows, each ended
by a line feed.  `room` is the length of the lent buffer.
"""

from .kind import MOST, NINE
from .output import fitted, refused
from .term import table_of, table_refusal, term38, terms_of

DIGITS = 10
LONGEST_ROW = len(b"3 15 24 -0.9999999999e-6\n")
USAGE = b"usage: tables read <text >terms, or tables write <terms >text\n"


def spellings(numbers):
    """Whole numbers by their one spelling: no leading zeros, a minus only where needed, no plus."""
    return {b"%d" % number: number for number in numbers}


# What a row may say: the numbers that the packed term's rules allow, and the powers.
C, D, T, POWERS = map(spellings, (range(4), range(1, 16), range(NINE.largest_t + 1), range(-6, 2)))


def scale(power):
    """0 point ten digits times ten to the power is the ten digits times this, in units of 10^-16."""
    return 10 ** (power + 16 - DIGITS)


# reading

def coefficient_of(word):
    """Sign and magnitude of: an optional minus, 0 point ten digits, the first not zero, e, and a power.  None for any
    other word."""
    negative = word.startswith(b"-")
    front, _, power = word[negative:].partition(b"e")
    point, digits = front[:2], front[2:]
    ten_digits = len(digits) == DIGITS and digits.isdigit() and not digits.startswith(b"0")
    if point != b"0." or not ten_digits or power not in POWERS:
        return None
    return int(negative), int(digits) * scale(POWERS[power])


def term_of(line):
    """The term that a row says, given without its line feed; None if the line is no row."""
    fields = line.split(b" ")  # a second space, or one at an end, would give an empty field
    if len(fields) != 4:
        return None
    c, d, t, coefficient = C.get(fields[0]), D.get(fields[1]), T.get(fields[2]), coefficient_of(fields[3])
    if None in (c, d, t, coefficient):
        return None
    return term38(c, d, t, *coefficient)


def read_text(text, room):
    """The packed terms of a text: 16 with the line of the first bad row or the 65th, then 18."""
    *lines, rest = text.split(b"\n")
    terms = []
    for place, line in enumerate(lines, 1):
        term = term_of(line) if place <= MOST else None
        if term is None:
            return refused(16, place)
        terms.append(term)
    if rest or not lines:  # text behind the last line feed, or no text at all
        return refused(16, len(lines) + 1)
    return fitted(table_of(NINE, terms), room)


# writing

def row_of(term):
    """The row that says a sound term, with its line feed; None if its magnitude has no spelling."""
    for power in POWERS.values():
        digits, rest = divmod(term.magnitude, scale(power))
        if rest == 0 and len(str(digits)) == DIGITS:
            minus = b"-" if term.negative else b""
            return b"%d %d %d %s0.%de%d\n" % (term.c, term.d, term.t, minus, digits, power)
    return None


def write_text(table, room):
    """The text of packed terms: 1, 2 with the place, 17 with the place of the first term with no spelling, then 18."""
    early = table_refusal(NINE, table)
    if early:
        return refused(*early)
    rows = [row_of(term) for term in terms_of(NINE, table)]
    if None in rows:
        return refused(17, rows.index(None) + 1)
    return fitted(b"".join(rows), room)


# the program

def reason(number, place):
    if number == 1:
        return b"a table has 9 to 576 bytes, in nines"
    if number == 2:
        return b"term %d breaks a rule" % place
    if number == 17:
        return b"term %d has no spelling" % place
    return (b"line %d is no row of a table" if place <= MOST else b"line %d is more than a table has") % place


def tables(words, stdin):
    """Standard output and standard error of the program with these words; its buffers have room for any table."""
    if words == ["read"]:
        answer = read_text(stdin, MOST * NINE.size)
    elif words == ["write"]:
        answer = write_text(stdin, MOST * LONGEST_ROW)
    else:
        return b"", USAGE
    if answer.number:
        return b"", b"refused, %d, %s\n" % (answer.number, reason(answer.number, answer.place))
    return answer.output, b""
