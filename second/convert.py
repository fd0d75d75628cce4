"""Old tables to the new record, and back (02 h).  Assumes nothing of the bytes.

`room` is the length of the lent buffer.  Lengthening makes twelve-byte terms of nine-byte ones, shortening the other
way round.
"""

from .kind import NINE, TWELVE
from .output import fitted, refused
from .term import old_factor, table_of, table_refusal, terms_of


def has_an_old_form(term):
    """Asked of a term that breaks no rule of the new record: d is 1 or more."""
    return term.c <= 3 and term.factor == old_factor(term.c) and term.d <= 15 and term.t <= 24


def lengthen(table, room):
    """1, 2 with the place, then 18."""
    early = table_refusal(NINE, table)
    if early:
        return refused(*early)
    return fitted(table_of(TWELVE, terms_of(NINE, table)), room)


def shorten(table, room):
    """1 and 2 by the new record's rules, 22 with the place of the first term that has no old form, then 18."""
    early = table_refusal(TWELVE, table)
    if early:
        return refused(*early)
    terms = terms_of(TWELVE, table)
    for place, term in enumerate(terms, 1):
        if not has_an_old_form(term):
            return refused(22, place)
    return fitted(table_of(NINE, terms), room)
