"""The three calls that are lent a slice for the table's terms: their answers, and the slice afterwards (02 e).  Assumes
nothing of the bytes, and nothing of what the slice holds before.

But for 20 they answer as the plain calls do.  A slice is a list; a term stands in it as the six fields of a place.
"""

from typing import Any, Callable, List, NamedTuple

from .kind import KINDS
from .term import terms_of
from .verdict import Answer, density_check, first_refusal, pair_check, refused, state_sheet


class Call(NamedTuple):
    plain: Callable[..., Answer]
    ends: int  # of its answers


STATE, DENSITY, PAIR = Call(state_sheet, 4), Call(density_check, 2), Call(pair_check, 2)


class Lent(NamedTuple):
    answer: Answer
    places: List[Any]  # of the slice, afterwards


def fields(term):
    """c, factor, d, t, negative, magnitude.  The spare bits of a sound term are zeros, and no field."""
    return tuple(term)[:6]


def lent(call, width, kind, table, places, *numbers):
    """19, 29, 1 and 2, then 20; up to there the slice is not touched, behind it the terms stand at its front."""
    early = first_refusal(width, kind, table)
    if early:
        return Lent(refused(*early, ends=call.ends), places)
    terms = [fields(term) for term in terms_of(KINDS[kind], table)]
    if len(places) < len(terms):
        return Lent(refused(20, ends=call.ends), places)
    return Lent(call.plain(width, kind, table, *numbers), terms + places[len(terms):])
