"""The rows of 01's "Both sides of the line", and those of 02 b, d, f and h, through the three public functions, as the
program both_sides writes them.

    python3 -m second.tests.test_both_sides >crates/both_sides/stdout

makes that program's stored output, from this file and the second program alone; the test holds the file to it, and rt
holds the program to the file.  A line is the width, who is asked, the case's label (with the bits of the f64 that it is
about), the number, the place, and the ends' bits; behind the width stands the kind where it is not 38.  All groups come
at 32 bits, then all of them at 53, then the wrong widths, then the groups of kind 58 at 32 bits and at 53, and the wrong
kinds.  The order of the groups:

    temperatures            state sheet, density check, pair check
    densities               state sheet, density check, pair check as liquid, as vapour
    tables by length        state sheet, density check, pair check
    terms                   the same three
    the ceiling             the same three
    an empty table, T NaN   the same three
    targets                 density check
    tolerances              density check, pair check as pressure tolerance, as Gibbs tolerance
    sides of 322            pair check
    least gaps              density check
    stiffness about zero    density check
    vapour about zero       pair check
    the odd table           state sheet at both densities, pair check

and at each wrong width

    a sound table           state sheet, density check, pair check
    an empty table, T NaN   the same three

and for kind 58 temperatures, densities (without the pair check), tables by length, terms, the ceiling and targets as
above, and at each wrong kind the same as at a wrong width.

Each row also says which numbers the documents allow it, so that the second program can't be wrong alone.  Assumes
nothing.
"""

import os

from second import f64
from second.kind import NINE, TWELVE
from second.tests.samples import INFINITY, NAN, NEGATIVE, ROOT, WRONG_KINDS, WRONG_WIDTHS, above, odd_table, under
from second.term import Term, packed, table_of, term38
from second.verdict import WIDTHS, density_check, pair_check, state_sheet

W = f64.word
LEAST = 1  # the bits of 2^-1074
WIDE = W(1e6)
T, RHO, LIQUID, VAPOUR = W(300.0), W(1.0), W(322.125), W(321.875)  # accepted with EASY, all of them

EASY = packed(NINE, term38(0, 1, 0, 0, 10 ** 13))  # small and positive
NONE = packed(NINE, term38(0, 1, 0, 1, 10 ** 16))  # coefficient -1: no pressure at density 322
STIFF = table_of(NINE, (term38(0, 1, 0, 1, 3 * 10 ** 16), term38(0, 2, 0, 0, 10 ** 16)))  # nor here, but it pushes back
CEILING = bytes.fromhex("040003124af21a859a")  # at 1250 K and 1288 kg/m3 the upper end of pressure is 10^9 at 32 bits
OVER = bytes.fromhex("040003124af21a859b")  # there it is the next sheet number
FINE_CEILING = bytes.fromhex("040028ec62df053562")  # the same two for 53 bits, at 300 K
FINE_OVER = bytes.fromhex("040028ec62df053563")

ANSWERED = (0, 9, 10, 11)  # the equation was worked out


def line(width, who, label, answer, allowed):
    assert answer.number in allowed, (width, who, label, answer)
    ends = " ".join("%016x" % end for end in answer.ends)
    return "%d %s, %s: %d %d %s" % (width, who, label, answer.number, answer.place, ends)


def valued(label, word):
    return "%s (%016x)" % (label, word)


def temperatures(width):
    """The pair check starts at 273.16, by the fraction, which lies just below that f64 (02 b)."""
    for label, t, number, pair in (
            ("T 273", W(273.0), 0, 3),
            ("T next under 273", under(W(273.0)), 3, 3),
            ("T 273.05", W(273.05), 0, 3),
            ("T 273.16", W(273.16), 0, 0),
            ("T next under 273.16", under(W(273.16)), 0, 3),
            ("T -273.16", W(-273.16), 3, 3),
            ("T 1273", W(1273.0), 0, 0),
            ("T next above 1273", above(W(1273.0)), 3, 3),
            ("T NaN", NAN, 3, 3),
            ("T infinity", INFINITY, 3, 3),
            ("T -infinity", INFINITY | NEGATIVE, 3, 3)):
        label = valued(label, t)
        yield line(width, "state sheet", label, state_sheet(width, 38, EASY, t, RHO), (number,))
        yield line(width, "density check", label, density_check(width, 38, EASY, t, RHO, 0, WIDE), (number,))
        yield line(width, "pair check", label, pair_check(width, 38, EASY, t, LIQUID, VAPOUR, WIDE, WIDE), (pair,))


def densities(width):
    for label, rho, allowed, liquid, vapour in (
            ("density 1/1024", W(2.0 ** -10), ANSWERED, (7,), ANSWERED),
            ("density next under 1/1024", under(W(2.0 ** -10)), (4,), (4,), (4,)),
            ("density 1288", W(1288.0), ANSWERED, ANSWERED, (7,)),
            ("density next above 1288", above(W(1288.0)), (4,), (4,), (4,)),
            ("density NaN", NAN, (4,), (4,), (4,)),
            ("density infinity", INFINITY, (4,), (4,), (4,)),
            ("density -infinity", INFINITY | NEGATIVE, (4,), (4,), (4,))):
        label = valued(label, rho)
        yield line(width, "state sheet", label, state_sheet(width, 38, EASY, T, rho), allowed)
        yield line(width, "density check", label, density_check(width, 38, EASY, T, rho, 0, WIDE), allowed)
        yield line(width, "pair check's liquid", label, pair_check(width, 38, EASY, T, rho, VAPOUR, WIDE, WIDE), liquid)
        yield line(width, "pair check's vapour", label, pair_check(width, 38, EASY, T, LIQUID, rho, WIDE, WIDE), vapour)


def three(width, label, table, allowed, t=T, rho=RHO, target=0, liquid=LIQUID, vapour=VAPOUR, pair=None):
    yield line(width, "state sheet", label, state_sheet(width, 38, table, t, rho), allowed)
    yield line(width, "density check", label, density_check(width, 38, table, t, rho, target, WIDE), allowed)
    yield line(width, "pair check", label, pair_check(width, 38, table, t, liquid, vapour, WIDE, WIDE), pair or allowed)


def tables(width):
    for size, number in ((9, 0), (576, 0), (0, 1), (8, 1), (10, 1), (577, 1), (585, 1)):
        yield from three(width, "table of %d bytes" % size, (EASY * 65)[:size], (number,))


def terms(width):
    least = term38(0, 1, 0, 0, 1)
    for label, term, number in (
            ("t 24", least._replace(t=24), 0),
            ("t 25", least._replace(t=25), 2),
            ("magnitude 10^17", least._replace(magnitude=10 ** 17), 0),
            ("magnitude 10^17 + 1", least._replace(magnitude=10 ** 17 + 1), 2),
            ("magnitude 1", least, 0),
            ("magnitude 0", least._replace(magnitude=0), 2),
            ("d 0", least._replace(d=0), 2)):
        yield from three(width, label, packed(NINE, term), (number,))
    broken = packed(NINE, least._replace(d=0)) + packed(NINE, least._replace(magnitude=0))
    yield from three(width, "terms 2 and 3 broken", packed(NINE, least) + broken, (2,))


def ceilings(width):
    """Each width's own table meets the limit, and the next one is above it by a unit of that width's last place."""
    state = dict(rho=W(1288.0), target=W(1e9), liquid=W(1288.0), vapour=RHO)
    under, over = ((0,), (9,)), ((8,), (8,))  # of the state sheet and the density check; of the pair check
    for label, table, t, coarse, fine in (
            ("up to 10^9 at 32", CEILING, W(1250.0), under, under),
            ("up to 10^9 + 1/4 at 32", OVER, W(1250.0), over, under),
            ("up to 10^9 at 53", FINE_CEILING, T, over, under),
            ("up to 10^9 + 2^-23 at 53", FINE_OVER, T, over, over)):
        allowed, pair = coarse if width == 32 else fine
        yield from three(width, label, table, allowed, t=t, **state, pair=pair)


def empty(width):
    yield from three(width, "empty table, T NaN", b"", (1,), t=NAN)


def targets(width):
    for label, target, allowed in (
            ("target 0", W(0.0), (0,)),
            ("target -0", NEGATIVE, (0,)),
            ("target next above 0", LEAST, (9,)),
            ("target next under 0", NEGATIVE | LEAST, (5,)),
            ("target -1", W(-1.0), (5,)),
            ("target 10^9", W(1e9), (9,)),
            ("target next above 10^9", above(W(1e9)), (5,)),
            ("target NaN", NAN, (5,)),
            ("target infinity", INFINITY, (5,)),
            ("target -infinity", INFINITY | NEGATIVE, (5,))):
        answer = density_check(width, 38, STIFF, T, W(322.0), target, 0)
        yield line(width, "density check", valued(label, target), answer, allowed)


def tolerances(width):
    for label, tolerance, numbers in (
            ("tolerance 0", W(0.0), (0, 9, 10)),
            ("tolerance -0", NEGATIVE, (0, 9, 10)),
            ("tolerance next above 0", LEAST, (0, 9, 10)),
            ("tolerance next under 0", NEGATIVE | LEAST, (6, 6, 6)),
            ("tolerance -1", W(-1.0), (6, 6, 6)),
            ("tolerance 10^6", WIDE, (0, 0, 0)),
            ("tolerance next above 10^6", above(WIDE), (6, 6, 6)),
            ("tolerance NaN", NAN, (6, 6, 6)),
            ("tolerance infinity", INFINITY, (6, 6, 6)),
            ("tolerance -infinity", INFINITY | NEGATIVE, (6, 6, 6))):
        label = valued(label, tolerance)
        answers = (density_check(width, 38, STIFF, T, W(322.0), 0, tolerance),
                   pair_check(width, 38, EASY, T, LIQUID, VAPOUR, tolerance, WIDE),
                   pair_check(width, 38, EASY, T, LIQUID, VAPOUR, WIDE, tolerance))
        for who, answer, number in zip(("density check", "pair check's pressure", "pair check's Gibbs energy"),
                                       answers, numbers):
            yield line(width, who, label, answer, (number,))


def sides(width):
    edge = W(322.0)
    for label, rho, number in (("liquid 322", edge, 7), ("liquid next above 322", above(edge), 0)):
        answer = pair_check(width, 38, EASY, T, rho, VAPOUR, WIDE, WIDE)
        yield line(width, "pair check", valued(label, rho), answer, (number,))
    for label, rho, number in (("vapour 322", edge, 7), ("vapour next under 322", under(edge), 0)):
        answer = pair_check(width, 38, EASY, T, LIQUID, rho, WIDE, WIDE)
        yield line(width, "pair check", valued(label, rho), answer, (number,))


def least_gaps(width):
    for label, target, tolerance, number in (
            ("gap of 0, tolerance 0", 0, 0, 11),
            ("gap of -2^-1074, tolerance 0", LEAST, 0, 9),
            ("gap of -2^-1074, tolerance 2^-1074", LEAST, LEAST, 11)):
        answer = density_check(width, 38, NONE, T, W(322.0), target, tolerance)
        yield line(width, "density check", label, answer, (number,))


def stiffnesses(width):
    """About a coefficient of -1/2 at the critical density, for 32 bits, and one of -1 at half of it, for 53.  The last
    magnitude of each three is the greatest whose bracket does not reach that coefficient."""
    for label, rho, magnitude, coarse, fine in (
            ("stiffness 0", 322.0, 5 * 10 ** 15, 11, 11),
            ("stiffness down to 0 at 32", 322.0, 4999999998835847, 11, 0),
            ("stiffness above 0 at 32", 322.0, 4999999998835846, 0, 0),
            ("stiffness 0 at half the density", 161.0, 10 ** 16, 11, 11),
            ("stiffness down to 0 at 53", 161.0, 10 ** 16 - 1, 11, 11),
            ("stiffness above 0 at 53", 161.0, 10 ** 16 - 2, 11, 0)):
        table, number = packed(NINE, term38(0, 1, 0, 1, magnitude)), coarse if width == 32 else fine
        answer = density_check(width, 38, table, T, W(rho), W(22e6 * (rho / 322)), WIDE)
        yield line(width, "density check", label, answer, (number,))


def vapours(width):
    """About a coefficient of -2, with the vapour at half the critical density: 02 f.  As for stiffness."""
    for label, magnitude, coarse, fine in (
            ("vapour's pressure 0", 2 * 10 ** 16, 21, 21),
            ("vapour's pressure down to 0 at 32", 19999999995343388, 21, 9),
            ("vapour's pressure above 0 at 32", 19999999995343387, 9, 9),
            ("vapour's pressure down to 0 at 53", 19999999999999998, 21, 21),
            ("vapour's pressure above 0 at 53", 19999999999999997, 21, 9)):
        table, number = packed(NINE, term38(0, 1, 0, 1, magnitude)), coarse if width == 32 else fine
        yield line(width, "pair check", label, pair_check(width, 38, table, T, LIQUID, W(161.0), WIDE, WIDE), (number,))


def odd(width):
    """Two densities that the pair check accepted before 02 f, with both pressures below zero; and two that push."""
    table, t = odd_table(), W(394.15)
    for label, liquid, vapour, number in (
            ("below zero", W(476.11653), W(267.05587), 21),
            ("above zero", W(494.77736), W(7.668745), 0)):
        label = "odd table, " + label
        yield line(width, "state sheet's liquid", label, state_sheet(width, 38, table, t, liquid), (0,))
        yield line(width, "state sheet's vapour", label, state_sheet(width, 38, table, t, vapour), (0,))
        answer = pair_check(width, 38, table, t, liquid, vapour, W(1000.0), W(1.0))
        yield line(width, "pair check", label, answer, (number,))


def wrong_width(width):
    """19 comes first of all, whatever else is wrong."""
    yield from three(width, "sound table", EASY, (19,))
    yield from three(width, "empty table, T NaN", b"", (19,), t=NAN)


# ---- kind 58 (02 h)

EASIER = packed(TWELVE, Term(0, 0, 1, 0, 0, 10 ** 13))
HIGH = W(25e9)
CEILING_58 = bytes.fromhex("00002004c73a9eccf8a6d800")  # at 301 K and 2576 kg/m3: up to 25 x 10^9 at 32 bits
OVER_58 = bytes.fromhex("00002004c73a9eccf8a6dc00")  # there the next sheet number
FINE_CEILING_58 = bytes.fromhex("00002004c73a9ed44b04f400")  # the same two for 53 bits
FINE_OVER_58 = bytes.fromhex("00002004c73a9ed44b04f800")


def of_kind(width, kind, who, label, answer, allowed):
    return line(width, "%d %s" % (kind, who), label, answer, allowed)


def all_three(width, kind, label, table, allowed, t=T, rho=RHO, target=0, liquid=LIQUID, vapour=VAPOUR, pair=None):
    yield of_kind(width, kind, "state sheet", label, state_sheet(width, kind, table, t, rho), allowed)
    yield of_kind(width, kind, "density check", label, density_check(width, kind, table, t, rho, target, WIDE), allowed)
    yield of_kind(width, kind, "pair check", label, pair_check(width, kind, table, t, liquid, vapour, WIDE, WIDE), pair or allowed)


def temperatures_58(width):
    for label, t, number, pair in (
            ("T 252", W(252.0), 0, 3),
            ("T next under 252", under(W(252.0)), 3, 3),
            ("T next under 273.16", under(W(273.16)), 0, 3),
            ("T 273.16", W(273.16), 0, 0),
            ("T 1273", W(1273.0), 0, 0),
            ("T next above 1273", above(W(1273.0)), 3, 3),
            ("T NaN", NAN, 3, 3)):
        yield from all_three(width, 58, valued(label, t), EASIER, (number,), t=t, pair=(pair,))


def densities_58(width):
    for label, rho, allowed in (
            ("density 1/1024", W(2.0 ** -10), ANSWERED),
            ("density next under 1/1024", under(W(2.0 ** -10)), (4,)),
            ("density 2576", W(2576.0), ANSWERED),
            ("density next above 2576", above(W(2576.0)), (4,)),
            ("density NaN", NAN, (4,))):
        label = valued(label, rho)
        yield of_kind(width, 58, "state sheet", label, state_sheet(width, 58, EASIER, T, rho), allowed)
        yield of_kind(width, 58, "density check", label, density_check(width, 58, EASIER, T, rho, 0, WIDE), allowed)


def tables_58(width):
    for size, number in ((12, 0), (768, 0), (0, 1), (9, 1), (11, 1), (13, 1), (780, 1)):
        yield from all_three(width, 58, "table of %d bytes" % size, (EASIER * 65)[:size], (number,))


def terms_58(width):
    least = Term(1, 100, 1, 0, 0, 1)
    for label, term, allowed in (
            ("t 63", least._replace(t=63), ANSWERED),
            ("magnitude 10^17 + 1", least._replace(magnitude=10 ** 17 + 1), (2,)),
            ("d 0", least._replace(d=0), (2,)),
            ("factor 0 with c 1", least._replace(factor=0), (2,)),
            ("factor 100 with c 0", least._replace(c=0), (2,)),
            ("first spare bit", least._replace(spare=512), (2,)),
            ("last spare bit", least._replace(spare=1), (2,))):
        yield from all_three(width, 58, label, packed(TWELVE, term), allowed)


def ceilings_58(width):
    state = dict(t=W(301.0), rho=W(2576.0), target=HIGH, liquid=W(2576.0), vapour=RHO)
    meets, passes = ((0,), (9,)), ((8,), (8,))  # of the state sheet and the density check; of the pair check
    for label, table, coarse, fine in (
            ("up to 25 x 10^9 at 32", CEILING_58, meets, meets),
            ("up to 25 x 10^9 + 16 at 32", OVER_58, passes, meets),
            ("up to 25 x 10^9 at 53", FINE_CEILING_58, passes, meets),
            ("up to 25 x 10^9 + 2^-18 at 53", FINE_OVER_58, passes, passes)):
        allowed, pair = coarse if width == 32 else fine
        yield from all_three(width, 58, label, table, allowed, **state, pair=pair)


def targets_58(width):
    for label, target, allowed in (
            ("target next above 10^9", above(W(1e9)), (9,)),
            ("target 25 x 10^9", HIGH, (9,)),
            ("target next above 25 x 10^9", above(HIGH), (5,))):
        answer = density_check(width, 58, EASIER, T, RHO, target, WIDE)
        yield of_kind(width, 58, "density check", valued(label, target), answer, allowed)


def wrong_kind(width, kind):
    """29 comes right after 19, whatever else is wrong."""
    yield from all_three(width, kind, "sound table", EASY, (29,))
    yield from all_three(width, kind, "empty table, T NaN", b"", (29,), t=NAN)


GROUPS_58 = (temperatures_58, densities_58, tables_58, terms_58, ceilings_58, targets_58)

GROUPS = (temperatures, densities, tables, terms, ceilings, empty, targets, tolerances, sides, least_gaps, stiffnesses,
          vapours, odd)


def text():
    """The rows of every group at each width, then the wrong widths', then those of kind 58 and the wrong kinds'."""
    asked = [(group, (width,)) for width in WIDTHS for group in GROUPS]
    asked += [(wrong_width, (width,)) for width in WRONG_WIDTHS]
    asked += [(group, (width,)) for width in WIDTHS for group in GROUPS_58]
    asked += [(wrong_kind, (width, kind)) for width in WIDTHS for kind in WRONG_KINDS]
    return "".join(row + "\n" for group, inputs in asked for row in group(*inputs))


def test_stored_output():
    with open(os.path.join(ROOT, "crates", "both_sides", "stdout")) as file:
        assert file.read() == text()


if __name__ == "__main__":
    print(text(), end="")
