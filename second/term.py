"""The packed term of either kind: fields, rules, and the first broken place (01, "The packed term"; 02 h).  Assumes
nothing of the bytes.

A nine-byte term has no factor of its own: it is 1, and none (0) without c.
"""

from typing import NamedTuple

from .kind import MOST

UNIT = 10 ** 16  # a magnitude of this much is the coefficient 1
LARGEST_MAGNITUDE = 10 ** 17
HUNDRED = 100  # a factor of this much is 1


class Term(NamedTuple):
    c: int
    factor: int  # in hundredths
    d: int
    t: int
    negative: int
    magnitude: int
    spare: int = 0

    def numerator(self):
        """The coefficient in units of 10^-16."""
        return -self.magnitude if self.negative else self.magnitude


def old_factor(c):
    return HUNDRED if c else 0


def term38(c, d, t, negative, magnitude):
    """A term by the fields of nine bytes."""
    return Term(c, old_factor(c), d, t, negative, magnitude)


def unpacked(kind, piece):
    """The fields of one term's bytes, taken off from the last one."""
    number, fields = int.from_bytes(piece, "big"), {}
    for name, width in reversed(kind.fields):
        fields[name] = number & ((1 << width) - 1)
        number >>= width
    fields.setdefault("factor", old_factor(fields["c"]))
    return Term(**fields)


def packed(kind, term):
    """The bytes of a term whose fields fit their widths; those that have no field are as a nine-byte term has them."""
    assert kind.number == 58 or (term.factor, term.spare) == (old_factor(term.c), 0)
    number = 0
    for name, width in kind.fields:
        field = getattr(term, name)
        assert 0 <= field < 1 << width
        number = number << width | field
    return number.to_bytes(kind.size, "big")


def breaks_a_rule(kind, term):
    magnitude = 1 <= term.magnitude <= LARGEST_MAGNITUDE
    factor = (term.factor == 0) == (term.c == 0)
    return term.d == 0 or term.t > kind.largest_t or not magnitude or not factor or term.spare != 0


def sound_length(kind, table):
    return kind.size <= len(table) <= MOST * kind.size and len(table) % kind.size == 0


def terms_of(kind, table):
    """All whole terms of a table, broken ones too."""
    return [unpacked(kind, table[i:i + kind.size]) for i in range(0, len(table) - kind.size + 1, kind.size)]


def table_of(kind, terms):
    return b"".join(packed(kind, term) for term in terms)


def first_broken(kind, table):
    """The place, counted from 1, of the first term that breaks a rule; 0 if none does."""
    for place, term in enumerate(terms_of(kind, table), 1):
        if breaks_a_rule(kind, term):
            return place
    return 0


def table_refusal(kind, table):
    """Numbers 1 and 2, as (number, place); None for a sound table."""
    if not sound_length(kind, table):
        return 1, 0
    place = first_broken(kind, table)
    return (2, place) if place else None
