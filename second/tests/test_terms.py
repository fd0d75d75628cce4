"""Packed terms of both kinds: P11, the fields, the rules, the first broken place, and the data that ships."""

import os
import random as randoms
import subprocess
import sys
import tempfile

from second.kind import KINDS, MOST, NINE, TWELVE
from second.term import (Term, breaks_a_rule, first_broken, packed, sound_length, table_of, term38, terms_of,
                         unpacked)
from second.tests import samples

ROW_38 = bytes.fromhex("D5F0006E9B73B18500")
SOUND = Term(0, 0, 1, 0, 0, 10 ** 16)  # in either kind


def test_P11():
    term = unpacked(NINE, ROW_38)
    assert term == Term(3, 100, 5, 15, 1, 121613940000000) and term.numerator() == -121613940000000
    assert packed(NINE, term) == ROW_38 and term == term38(3, 5, 15, 1, 121613940000000)


def test_twelve_bytes():
    """Rows 38 of Table 5 and 55 of Table 4, written out bit by bit: c, factor, d, t, sign, magnitude, ten zeros."""
    for term, head in ((unpacked(NINE, ROW_38), "0011 0001100100 00101 001111 1"),
                       (Term(6, 40, 1, 50, 1, 70931833800000), "0110 0000101000 00001 110010 1"),
                       (Term(15, 1023, 31, 63, 0, 10 ** 17), "1111 1111111111 11111 111111 0"),
                       (Term(0, 0, 1, 0, 1, 1), "0000 0000000000 00001 000000 1")):
        bits = head.replace(" ", "") + format(term.magnitude, "060b") + "0" * 10
        assert len(bits) == 96 and packed(TWELVE, term) == int(bits, 2).to_bytes(12, "big")
        for place in range(86, 96):
            spoiled = int(bits[:place] + "1" + bits[place + 1:], 2).to_bytes(12, "big")
            assert unpacked(TWELVE, spoiled) == term._replace(spare=1 << (95 - place))
            assert first_broken(TWELVE, packed(TWELVE, term) + spoiled) == 2
    assert packed(TWELVE, unpacked(NINE, ROW_38)).hex() == "3190a7c001ba6dcec6140000"


def test_packing_and_reading_back():
    random = randoms.Random(21)
    for kind in KINDS.values():
        for _ in range(2000):
            piece = random.getrandbits(8 * kind.size).to_bytes(kind.size, "big")
            assert packed(kind, unpacked(kind, piece)) == piece


def test_rules():
    for kind in KINDS.values():
        assert not breaks_a_rule(kind, SOUND)
        for good in ({"d": kind.widest("d")}, {"t": kind.largest_t}, {"magnitude": 1}, {"magnitude": 10 ** 17},
                     {"c": 3, "factor": 100}, {"negative": 1}):
            assert not breaks_a_rule(kind, SOUND._replace(**good)), good
        for bad in ({"d": 0}, {"magnitude": 0}, {"magnitude": 10 ** 17 + 1}):
            assert breaks_a_rule(kind, SOUND._replace(**bad)), bad
    assert (NINE.largest_t, NINE.widest("d"), TWELVE.largest_t, TWELVE.widest("d")) == (24, 15, 63, 31)
    for t in range(64):
        assert breaks_a_rule(NINE, SOUND._replace(t=t)) == (t > 24) and not breaks_a_rule(TWELVE, SOUND._replace(t=t))


def test_factor_and_c_are_none_together():
    for c in range(16):
        for factor in (0, 1, 99, 100, 101, 1023):
            term = SOUND._replace(c=c, factor=factor)
            assert breaks_a_rule(TWELVE, term) == ((c == 0) != (factor == 0))
            assert first_broken(TWELVE, packed(TWELVE, SOUND) + packed(TWELVE, term)) in (0, 2)


def test_lengths():
    for kind in KINDS.values():
        sizes = [kind.size * n for n in range(1, MOST + 1)]
        assert [n for n in range(900) if sound_length(kind, bytes(n))] == sizes
    assert (NINE.size * MOST, TWELVE.size * MOST) == (576, 768)


def test_first_broken_place():
    random = randoms.Random(22)
    for kind in KINDS.values():
        for _ in range(300):
            table = samples.sound_table(random, kind=kind)
            assert first_broken(kind, table) == 0
            terms = terms_of(kind, table)
            places = sorted(random.sample(range(len(terms)), random.randint(1, min(3, len(terms)))))
            for place in places:
                terms[place] = samples.broken_term(random, kind)
            assert first_broken(kind, table_of(kind, terms)) == places[0] + 1


def test_table5():
    """What it says is in data/table5.txt, read in test_text."""
    assert len(samples.table5()) == 38 * 9 and samples.table5()[-9:] == ROW_38
    assert first_broken(NINE, samples.table5()) == 0


def test_the_program_runs_from_any_directory():
    with tempfile.TemporaryDirectory() as folder:
        for words in ([], ["32"], ["53"], ["x"], [""], ["32", "38"], ["53", "58"], ["53", "x"], ["32", ""]):
            command = [sys.executable, os.path.join(samples.ROOT, "second"), *words]
            run = subprocess.run(command, cwd=folder, input=b"abc", stdout=subprocess.PIPE, check=True)
            assert run.stdout == b"1 12 0 0000000000000000 0000000000000000\n"
