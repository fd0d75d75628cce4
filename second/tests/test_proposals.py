"""The proposals and lines in data/ are what data/propose.py makes, and answer what the lab is told they answer."""

import propose
from second import f64
from second.tests.samples import data, table5
from second.verdict import pair_check


def test_files():
    for width, kind, proposals, answered, table, make in propose.FILES:
        assert data(proposals) == propose.packed(make())
        assert data(answered).decode() == propose.answers(width, kind, table, make())


def numbers(answered):
    return [int(line.split()[1]) for line in data(answered).decode().split("\n")[:-1]]


def test_numbers():
    """The plugs are accepted; each of the wrong ones is refused for what is wrong with it."""
    accepted = [0] * (2 + len(propose.CELSIUS))
    assert numbers("lines.txt") == accepted + [9, 10, 9, 7, 3, 3]
    assert numbers("lines53.txt") == accepted + [9, 10, 0, 7, 3, 3]
    cool, hot = [0] * len(propose.COOL), [0] * len(propose.HOT)
    assert numbers("lines58_53.txt") == cool + hot + [9, 10, 0, 7, 4, 9, 3]
    assert set(numbers("lines58.txt")[:len(cool)]) == {9, 21}
    assert numbers("lines58.txt")[len(cool):] == hot + [9, 10, 9, 7, 4, 9, 3]
    assert numbers("odd_lines.txt") == numbers("odd_lines53.txt") == [0, 21, 21, 9, 10, 11]


def test_densities_of_eight_digits():
    """What docs/TOLERANCES.md says of them: these tolerances are enough at 53 bits."""
    for i in range(41):
        proposal = propose.found(0.01 + 3.5 * i) + (20.0, 0.03)
        assert pair_check(53, 38, table5(), *map(f64.word, proposal)).number == 0, proposal
