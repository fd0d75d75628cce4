"""The panel's calls: one value of an answer, by a choice (01, "What belongs to it").  Assumes nothing of the choice."""


def chosen(answer, choice):
    """0 the number, 1 the place, from 2 on the ends in order; anything that the answer does not have is 0."""
    values = (answer.number, answer.place) + answer.ends
    return values[choice] if 0 <= choice < len(values) else 0
