"""Text tables: row 38, Table 5, the round trips, every kind of slip with its line, 17, and 18 on both sides.

The slips and the random rows are for the comparisons too.  Assumes nothing.
"""

import random as randoms

from second.kind import MOST, NINE
from second.output import chosen
from second.term import packed, table_of, term38, terms_of
from second.tests.samples import broken_term, data, odd_table, table5, term
from second.text import LONGEST_ROW, read_text, row_of, tables, term_of, write_text

ROW = b"3 5 15 -0.1216139400e-1\n"
ROW_38 = bytes.fromhex("D5F0006E9B73B18500")
PARTS = (b"3", b"5", b"15", b"-", b"1216139400", b"-1")  # of that row: c, d, t, sign, digits, power
ROOMY = MOST * LONGEST_ROW  # room for any output

# Wrong words for each part of a row; numbers past 2^8, 2^32 and 2^64 are there for those that wrap round.
WRAPPED = b"257 4294967297 18446744073709551617"
WRONG = (
    b"-0 +1 01 00 -1 4 5 9 10 256 1.0 1e0 x \xd9\xa3".split() + WRAPPED.split() + [b""],
    b"0 -0 +1 01 00 -1 16 17 32 010 1.0 x".split() + WRAPPED.split() + [b""],
    b"-0 +1 01 00 -1 25 26 31 32 012 100 1.0 x".split() + WRAPPED.split() + [b""],
    [b"+", b"--", b"-+", b"- ", b"0", b"\xe2\x88\x92"],
    b"0123456789 0000000000 123456789 12345678901 1 18446744074944119506 12345678900 +123456789 -123456789 123456789x "
    b"12345.7890 12345e7890 1234567_90 0x12345678".split() + [b"", b"12345 7890", b"123456789\xd9\xa3"],
    b"2 -7 -0 +1 +0 -+1 --1 01 -01 00 10 -10 - + 0x1 1.0 1e1 256 -256 4294967296 18446744073709551616 "
    b"-18446744073709551615".split() + [b"", b" 1", b"- 1", b"1\x00"])

# Wrong bytes before a row, in place of its line feed, of a space, of its `0.` and of its `e`.
FRONTS = (b"\n", b" ", b"\t", b"\r", b"\x00", b"\xef\xbb\xbf", b"0", b"+", b"-")
ENDS = (b"", b"\r", b"\r\n", b" \n", b"\t\n", b"\x00\n", b"\x0b\n", b"\x85\n", b" 0\n", b" # a note\n")
GAPS = (b"\t", b"  ", b" \t", b"\n", b"\r", b"\x00", b"\xa0", b"\xc2\xa0", b",", b"")
POINTS = (b".", b"0", b"0.0", b"00.", b"1.", b"0,", b"0..", b"0.-", b"-.", b"0. ", b"")
MIDDLES = (b"E", b"d", b"ee", b" e", b"e\n", b"*10^", b"\n", b"")
# What stands in place of a whole row.
LINES = (b"\n", b" \n", b"\r\n", b"\x00\n", b"3\n", b"3 5 15\n", b"3 5 15 \n", b"5 15 -0.1216139400e-1\n",
         b"-0.1216139400e-1\n", b"3 5 15 -0.1216139400\n", b"3 5 15 -0.0121613940\n", ROW[:-1] + b" " + ROW)


def line_of(parts):
    return b"%s %s %s %s0.%se%s\n" % tuple(parts)


def with_word(part, word, line):
    """The row with another word as this part."""
    c, d, t, coefficient = line[:-1].split(b" ")
    digits, power = coefficient.lstrip(b"-")[2:].split(b"e")
    parts = [c, d, t, b"-" if coefficient.startswith(b"-") else b"", digits, power]
    parts[part] = word
    return line_of(parts)


def slips(line):
    """What slips make of a row, given with its line feed: none is a row."""
    yield from (with_word(part, word, line) for part, words in enumerate(WRONG) for word in words)
    yield from (front + line for front in FRONTS)
    yield from (line[:-1] + end for end in ENDS)
    for gap in GAPS:
        yield line.replace(b" ", gap, 1)
        yield gap.join(line.rsplit(b" ", 1))
        yield line.replace(b" ", gap)
    yield from (line.replace(b"0.", point) for point in POINTS)
    yield from (line.replace(b"e", middle) for middle in MIDDLES)
    yield from LINES


# random rows

def spelled(random, term):
    """The term with a magnitude that has a spelling: any ten digits, few digits, the ends."""
    digits = random.choice([random.randint(10 ** 9, 10 ** 10 - 1), random.randint(1, 9) * 10 ** 9,
                            random.randint(10 ** 4, 10 ** 5 - 1) * 10 ** 5, 10 ** 9, 10 ** 10 - 1])
    return term._replace(magnitude=digits * 10 ** random.randint(0, 7))


def unspelled(random, term):
    """The term with a sound magnitude that has no spelling: too many digits, or outside the powers."""
    count = random.randint(11, 17)
    digits = random.randint(10 ** (count - 2), 10 ** (count - 1) - 1) * 10 + random.randint(1, 9)
    beside = random.randint(10 ** 9 + 1, 10 ** 10 - 1) * 10 ** random.randint(1, 7) + random.choice([1, -1])
    small, power = random.randint(1, 10 ** 9 - 1), random.randint(0, 8)
    return term._replace(magnitude=random.choice([
        digits, digits * 10 ** (17 - count), beside, small, 10 ** power, 10 ** 9 - 1, 10 ** 17 - 1, 10 ** 17]))


def spelled_table(random, most=MOST, least=1):
    return table_of(NINE, (spelled(random, term(random)) for _ in range(random.randint(least, most))))


def lines_of(table):
    """The lines of a table whose terms have spellings, each with its line feed."""
    return [row_of(term) for term in terms_of(NINE, table)]


# the tests

def test_row_38():
    assert read_text(ROW, 9) == (0, 0, 9, ROW_38)
    assert write_text(ROW_38, len(ROW)) == (0, 0, len(ROW), ROW)
    assert line_of(PARTS) == ROW and term_of(ROW[:-1]) == term38(3, 5, 15, 1, 121613940000000)


def test_the_tables_that_ship():
    for text, table in ((data("table5.txt"), table5()), (data("odd.txt"), odd_table())):
        assert read_text(text, len(table)) == (0, 0, len(table), table)
        assert write_text(table, len(text)) == (0, 0, len(text), text)


def test_every_number_and_power():
    """What each field takes, by its words one by one."""
    words = [b"%d" % n for n in range(-30, 300)]
    for part, good in ((0, range(4)), (1, range(1, 16)), (2, range(25)), (5, range(-6, 2))):
        taken = [word for word in words if read_text(line_of(PARTS[:part] + (word,) + PARTS[part + 1:]), 9).number == 0]
        assert taken == [b"%d" % n for n in good]
    for power in range(-6, 2):
        digits, word = b"9876543210", b"%d" % power
        for sign, negative in ((b"", 0), (b"-", 1)):
            term = term_of(b"0 1 0 %s0.%se%s" % (sign, digits, word))
            assert term == term38(0, 1, 0, negative, 9876543210 * 10 ** (power + 6))


def test_every_byte_of_row_38():
    """Another byte in each place: c, d, the last digit of t, the ten digits and the power take what they may."""
    taken = {0: b"0123", 2: b"123456789", 5: b"0123456789", 10: b"123456789", 22: b"123456"}
    taken.update((place, b"0123456789") for place in range(11, 20))
    for place, old in enumerate(ROW):
        for byte in set(range(256)) - {old}:
            answer = read_text(ROW[:place] + bytes([byte]) + ROW[place + 1:], 9)
            assert answer[:2] == ((0, 0) if byte in taken.get(place, b"") else (16, 1)), (place, byte)


def test_slips():
    """Each is refused with its line, behind good rows and before them, whatever the room."""
    random = randoms.Random(31)
    for _ in range(10):
        lines = lines_of(spelled_table(random, 6))
        place = random.randrange(len(lines))
        for slip in slips(lines[place]):
            text = b"".join(lines[:place] + [slip] + lines[place + 1:])
            for room in (0, ROOMY):
                assert read_text(text, room) == (16, place + 1, 0, b""), text


def test_texts_that_end_wrong():
    assert read_text(b"", 0) == read_text(b"", ROOMY) == (16, 1, 0, b"")
    assert read_text(b"\n", ROOMY) == (16, 1, 0, b"")
    assert read_text(ROW[:-1], ROOMY) == (16, 1, 0, b"")
    assert read_text(ROW + b"\n", ROOMY) == read_text(ROW + ROW[:-1], ROOMY) == (16, 2, 0, b"")
    assert read_text(ROW + b"3", 0) == (16, 2, 0, b"")
    assert read_text(ROW + b"\x00", ROOMY) == read_text(ROW + b"\x1a", ROOMY) == (16, 2, 0, b"")


def test_a_65th_row():
    """Line 65, whatever stands there; a bad row before it comes first."""
    assert read_text(ROW * 64, 576) == (0, 0, 576, ROW_38 * 64)
    for behind in (ROW, ROW * 2, b"\n", b"x", b"\x00", ROW[:-1], b"4 0 25\n", b"\n" * 1000, ROW * 1000):
        assert read_text(ROW * 64 + behind, 0) == read_text(ROW * 64 + behind, ROOMY) == (16, 65, 0, b"")
        assert read_text(ROW * 63 + b"3\n" + behind, ROOMY) == (16, 64, 0, b"")
        assert read_text(ROW * 40 + b"\n" + ROW * 40 + behind, ROOMY) == (16, 41, 0, b"")


def test_round_trips():
    random = randoms.Random(32)
    for _ in range(500):
        table = spelled_table(random)
        written = write_text(table, ROOMY)
        assert written == (0, 0, len(written.output), b"".join(lines_of(table)))
        read = read_text(written.output, len(table))
        assert read == (0, 0, len(table), table)
        assert write_text(read.output, len(written.output)) == written


def test_spellings():
    """Both sides of every line between the magnitudes that have one and those that do not."""
    first = [n * 10 ** power for power in range(8) for n in (10 ** 9, 10 ** 9 + 1, 10 ** 10 - 1)]
    for magnitude in first:
        table = packed(NINE, term38(1, 1, 0, 0, magnitude))
        assert read_text(write_text(table, ROOMY).output, 9) == (0, 0, 9, table)
    for magnitude in [1, 10 ** 8, 10 ** 9 - 1, 10 ** 10 + 1, 10 ** 17 - 1, 10 ** 17, 10 ** 17 - 10 ** 6] + [
            n + step for n in first for step in (1, -1) if n > 10 ** 10]:
        assert write_text(packed(NINE, term38(1, 1, 0, 0, magnitude)), ROOMY) == (17, 1, 0, b""), magnitude


def test_the_first_term_with_no_spelling():
    random = randoms.Random(33)
    for _ in range(300):
        terms = terms_of(NINE, spelled_table(random))
        places = sorted(random.sample(range(len(terms)), random.randint(1, min(3, len(terms)))))
        for place in places:
            terms[place] = unspelled(random, terms[place])
        assert write_text(table_of(NINE, terms), random.choice([0, ROOMY])) == (17, places[0] + 1, 0, b"")


def test_room():
    """18 on both sides of the line, with the place 0."""
    random = randoms.Random(34)
    for _ in range(50):
        table = spelled_table(random)
        text = b"".join(lines_of(table))
        for call, lent, output in ((read_text, text, table), (write_text, table, text)):
            for room in (0, 1, len(output) - 1):
                assert call(lent, room) == (18, 0, 0, b"")
            for room in (len(output), len(output) + 1, 10 ** 6):
                assert call(lent, room) == (0, 0, len(output), output)
    assert len(write_text(packed(NINE, term38(3, 15, 24, 1, 10 ** 9)) * 64, ROOMY).output) == ROOMY


def test_order_of_the_refusals():
    """16 before 18; 1, then 2, then 17, then 18."""
    good, no_spelling, broken = packed(NINE, term38(0, 1, 0, 0, 10 ** 9)), packed(NINE, term38(0, 1, 0, 0, 1)), bytes(9)
    assert read_text(ROW + b"x", 0)[:2] == (16, 2)
    for room in (0, ROOMY):
        assert write_text(b"", room) == write_text((no_spelling + broken)[:-1], room) == (1, 0, 0, b"")
        assert write_text(no_spelling * 65, room) == write_text(broken * 65, room) == (1, 0, 0, b"")
        assert write_text(no_spelling + broken + broken, room) == (2, 2, 0, b"")
        assert write_text(good + no_spelling + no_spelling, room) == (17, 2, 0, b"")
    random = randoms.Random(35)
    assert write_text(no_spelling + packed(NINE, broken_term(random)), 0) == (2, 2, 0, b"")


def test_choices():
    for answer, values in ((read_text(ROW, 9), [0, 0, 9]), (read_text(ROW, 8), [18, 0, 0]),
                           (read_text(ROW + b"x", 8), [16, 2, 0]), (write_text(ROW_38, 99), [0, 0, len(ROW)])):
        assert [chosen(answer, choice) for choice in (0, 1, 2, 3, 2 ** 64 - 1)] == values + [0, 0]


def test_the_program():
    assert tables(["read"], ROW) == (ROW_38, b"") and tables(["write"], ROW_38) == (ROW, b"")
    refusals = ((["read"], b"", b"refused, 16, line 1 is no row of a table\n"),
                (["read"], ROW * 63 + b"x", b"refused, 16, line 64 is no row of a table\n"),
                (["read"], ROW * 64 + b"x", b"refused, 16, line 65 is more than a table has\n"),
                (["write"], b"", b"refused, 1, a table has 9 to 576 bytes, in nines\n"),
                (["write"], ROW_38 + bytes(9), b"refused, 2, term 2 breaks a rule\n"),
                (["write"], ROW_38 * 63 + packed(NINE, term38(0, 1, 0, 0, 1)),
                 b"refused, 17, term 64 has no spelling\n"))
    for words, stdin, line in refusals:
        assert tables(words, stdin) == (b"", line)
    usage = b"usage: tables read <text >terms, or tables write <terms >text\n"
    for words in ([], [""], ["x"], ["read", "x"], ["write", "write"], ["Read"], ["read "]):
        assert tables(words, ROW) == (b"", usage)
