"""Conversions: both round trips, every field's way out of the old form, the order of the numbers, and room (02 h).

`new_only` is for the comparisons too.  Assumes nothing.
"""

import random as randoms

from second.convert import has_an_old_form, lengthen, shorten
from second.kind import MOST, NINE, TWELVE
from second.output import chosen
from second.term import Term, breaks_a_rule, packed, table_of, table_refusal, term38, terms_of
from second.tests import samples

ROW_38 = bytes.fromhex("D5F0006E9B73B18500")
LONG_38 = bytes.fromhex("3190a7c001ba6dcec6140000")
OLD, NEW = packed(NINE, term38(0, 1, 0, 0, 1)), packed(TWELVE, term38(0, 1, 0, 0, 1))
NO_OLD = packed(TWELVE, Term(6, 40, 1, 50, 1, 1))


def new_only(random, old):
    """A nine-byte term with one field, or more, that has no old form: each field of the longer record in turn is met.
    It breaks no rule."""
    c = random.randint(1, 3)
    ways = [{"c": random.randint(4, 15), "factor": random.choice([100, random.randint(1, 1023)])},
            {"c": c, "factor": random.choice([99, 101, 1, 1023, 40, 200])},
            {"d": random.choice([16, 17, 31, random.randint(16, 31)])},
            {"t": random.choice([25, 26, 31, 32, 63, random.randint(25, 63)])}]
    for way in random.sample(ways, random.choice([1, 1, 1, 2, 3])):
        old = old._replace(**way)
    return old


def test_row_38():
    assert lengthen(ROW_38, 12) == (0, 0, 12, LONG_38) and shorten(LONG_38, 9) == (0, 0, 9, ROW_38)


def test_round_trips():
    random = randoms.Random(51)
    for _ in range(400):
        table = samples.sound_table(random)
        longer = lengthen(table, 768)
        assert longer[:3] == (0, 0, len(table) // 9 * 12) and terms_of(TWELVE, longer.output) == terms_of(NINE, table)
        back = shorten(longer.output, 576)
        assert back == (0, 0, len(table), table)
        assert lengthen(back.output, 768) == longer


def test_the_old_form_exactly():
    """What goes back is what the nine bytes can say: 02's words, and a search over the fields."""
    for c in range(16):
        for factor in (0, 1, 40, 99, 100, 101, 200, 1023):
            for d in (1, 2, 14, 15, 16, 31):
                for t in (0, 1, 23, 24, 25, 31, 32, 63):
                    term = Term(c, factor, d, t, 1, 77)
                    if breaks_a_rule(TWELVE, term):
                        continue
                    old = c <= 3 and factor == (100 if c else 0) and 1 <= d <= 15 and t <= 24
                    assert has_an_old_form(term) == old
                    answer = shorten(packed(TWELVE, term), 9)
                    assert answer == ((0, 0, 9, packed(NINE, term)) if old else (22, 1, 0, b""))


def test_the_first_term_with_no_old_form():
    random = randoms.Random(52)
    for _ in range(300):
        terms = terms_of(NINE, samples.sound_table(random))
        places = sorted(random.sample(range(len(terms)), random.randint(1, min(3, len(terms)))))
        for place in places:
            terms[place] = new_only(random, terms[place])
        table = table_of(TWELVE, terms)
        assert table_refusal(TWELVE, table) is None
        assert shorten(table, random.choice([0, 576])) == (22, places[0] + 1, 0, b"")


def test_room():
    """18 on both sides of the line, with the place 0."""
    random = randoms.Random(53)
    for _ in range(50):
        table = samples.sound_table(random)
        longer = lengthen(table, 768).output
        for call, lent, output in ((lengthen, table, longer), (shorten, longer, table)):
            for room in (0, 1, len(output) - 1):
                assert call(lent, room) == (18, 0, 0, b"")
            for room in (len(output), len(output) + 1, 10 ** 6):
                assert call(lent, room) == (0, 0, len(output), output)


def test_order_of_the_refusals():
    """1, then 2, then 22, then 18; 1 and 2 by the rules of the record that is lent."""
    for room in (0, 1000):
        for table in (b"", ROW_38[:-1], ROW_38 + b"\0", ROW_38 * (MOST + 1), bytes(585), LONG_38):
            assert lengthen(table, room) == (1, 0, 0, b"")
        for table in (b"", ROW_38, LONG_38[:-1], LONG_38 + b"\0", NO_OLD * (MOST + 1), bytes(780)):
            assert shorten(table, room) == (1, 0, 0, b"")
        assert lengthen(OLD + bytes(9) * 2, room) == (2, 2, 0, b"")
        assert shorten(NEW + NO_OLD + bytes(12), room) == (2, 3, 0, b"")
        assert shorten(NEW + NO_OLD + NO_OLD, room) == (22, 2, 0, b"")
    assert lengthen(OLD, 11) == shorten(NEW, 8) == (18, 0, 0, b"")
    assert lengthen(packed(NINE, term38(0, 1, 25, 0, 1)), 99)[:2] == (2, 1)  # an old rule that the new record has not
    assert shorten(packed(TWELVE, Term(0, 0, 1, 25, 0, 1)), 99)[:2] == (22, 1)


def test_choices():
    for answer, values in ((lengthen(ROW_38, 12), [0, 0, 12]), (lengthen(ROW_38, 11), [18, 0, 0]),
                           (shorten(NEW + NO_OLD, 99), [22, 2, 0]), (shorten(LONG_38, 9), [0, 0, 9])):
        assert [chosen(answer, choice) for choice in (0, 1, 2, 3, 2 ** 64 - 1)] == values + [0, 0]
