"""The answers of the calls that write into a lent buffer: text tables (02 c) and conversions (02 h).  Assumes nothing.

`room` is the length of the lent buffer.
"""

from typing import NamedTuple


class Answer(NamedTuple):
    number: int
    place: int  # of a term, or the line of a row
    written: int  # bytes
    output: bytes  # what is written at the buffer's front


def refused(number, place=0):
    return Answer(number, place, 0, b"")


def fitted(output, room):
    """The answer once all else is in order: 18 exactly if the output is longer than the lent buffer."""
    return refused(18) if len(output) > room else Answer(0, 0, len(output), output)


def chosen(answer, choice):
    """What a call hands back: 0 the number, 1 the place, 2 the bytes written; any other choice is 0."""
    return answer[choice] if choice in (0, 1, 2) else 0
