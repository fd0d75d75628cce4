"""f64s by their 64 bits: the exact value read from them, and the bits of an exact value.  Assumes 0 <= word < 2^64."""

import struct

ONES = 0x7FF  # the exponent field of NaN and the infinities
LOWEST = -1074  # every finite f64 is a multiple of 2^-1074


def exact(word):
    """The exact value as a triple of exact.py; None for NaN and the infinities.  -0.0 is zero."""
    field, rest = (word >> 52) & ONES, word & ((1 << 52) - 1)
    if field == ONES:
        return None
    m = rest if field == 0 else rest | 1 << 52
    return (-m if word >> 63 else m, 1, max(field, 1) - 1 + LOWEST)


def of_sheet(s):
    """The bits of the f64 of exactly the value of the sheet number s; zero is +0.0.  Refuses what no f64 is."""
    m, e = s
    if m == 0:
        return 0
    sign, size = (1 << 63 if m < 0 else 0), abs(m)
    # the unit of the f64's last place: 53 digits, or the subnormals' common unit
    unit = max(e + size.bit_length() - 53, LOWEST)
    if e < unit:
        size, rest = divmod(size, 1 << (unit - e))
        assert rest == 0, "digits below the f64's last place"
    else:
        size <<= e - unit
    field = unit - LOWEST + (size >> 52)  # a subnormal has no bit 52, so its field stays 0
    assert field < ONES, "too large for an f64"
    return sign | field << 52 | size & ((1 << 52) - 1)


def word(x):
    """The bits of a Python float: for inputs typed as decimals, never inside the arithmetic."""
    return struct.unpack(">Q", struct.pack(">d", x))[0]
