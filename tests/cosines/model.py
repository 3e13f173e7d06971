"""A customer's own cosine window: the loader and the low-pass with a loaded window, by the documents alone.

The loader is of whole numbers: every finite double is a whole multiple of 2^-1074, and Python's integers have no
largest. The taps are of Python's floats, which are doubles: each operation below is rounded once, in the order in which
the scope document has it, with the document's sine and cosine and not those of the C library. So they must be the
library's to the bit. Nothing here was taken from the library's code.
"""

import math
import struct
from functools import lru_cache
from typing import NamedTuple

# ---- What is answered


class Report(NamedTuple):
    """The fields of pel_report, in its order."""

    number: int = 0
    carries: int = 0
    smallest: float = 0.0
    largest: float = 0.0
    offered: float = 0.0
    expected: int = 0
    given: int = 0
    index: int = 0
    count: int = 0
    value: float = 0.0


NOTHING, RANGE, LENGTH = 0, 1, 2


def out_of_range(number, smallest, largest, offered):
    return Report(number, RANGE, smallest, largest, offered)


def wrong_length(given):
    """A length in bytes that isn't whole doubles."""
    return Report(8, LENGTH, expected=given - given % 8, given=given)


# ---- The loader

ONE = 2**1074
TOLERANCE = 2**1034
NO_WINDOW = (0.0,) * 5


def whole(x):
    """How many times 2^-1074 a finite double is."""
    above, below = x.as_integer_ratio()
    return above << (1075 - below.bit_length())


def load(source):
    """The five numbers and the report for the bytes of a list."""
    if len(source) % 8 != 0:
        return NO_WINDOW, wrong_length(len(source))
    count = len(source) // 8
    numbers = struct.unpack(f"<{count}d", source)
    if not 1 <= count <= 5:
        return NO_WINDOW, out_of_range(17, 1.0, 5.0, float(count))
    for x in numbers:
        if not abs(x) <= 1.0:  # so a NaN is bad too
            return NO_WINDOW, out_of_range(18, -1.0, 1.0, x)
    if abs(sum(map(whole, numbers)) - ONE) > TOLERANCE:
        return NO_WINDOW, Report(19)
    return numbers + (0.0,) * (5 - count), Report(count=count)


# ---- Sine and cosine

PI = float.fromhex("0x1.921FB54442D18p+1")
QUARTERS = 2.0 / PI
P1, P2, P3, P4 = 0x1921FB5 / 2**24, 0x4442D1 / 2**48, 0x846989 / 2**72, 0x8CC517 / 2**96


def fractions(first, last):
    """1/first! with the sign +, 1/(first + 2)! with the sign -, and so on, the last one in front."""
    return [(-1.0) ** k / math.factorial(first + 2 * k) for k in range((last - first) // 2 + 1)][::-1]


SINE = fractions(1, 17)
COSINE = fractions(0, 16)


def nested(z, terms):
    value = terms[0]
    for fraction in terms[1:]:
        value = fraction + z * value
    return value


def circular(x, ahead):
    """The sine, or with one quarter turn ahead the cosine."""
    if not abs(x) <= 2.0**25:
        return math.nan
    k = math.floor(x * QUARTERS + 0.5)
    f = float(k)
    r = x - f * P1 - f * P2 - f * P3 - f * P4
    z = r * r
    quadrant = (k + ahead) % 4
    value = r * nested(z, SINE) if quadrant % 2 == 0 else nested(z, COSINE)
    return value if quadrant < 2 else -value


def sine(x):
    return circular(x, 0)


def cosine(x):
    return circular(x, 1)


# ---- The low-pass

MOST_TAPS = 2**24


@lru_cache(maxsize=None)
def angles(n):
    """For each of n taps, two or more, the cosines of x, 2x, 3x and 4x."""
    xs = [2.0 * PI * i / (n - 1) for i in range(n)]
    return [(cosine(x), cosine(2.0 * x), cosine(3.0 * x), cosine(4.0 * x)) for x in xs]


def window(numbers, n):
    """The window of n taps."""
    if n == 1:
        return [1.0]
    c0, c1, c2, c3, c4 = numbers
    return [c0 - c1 * a + c2 * b - c3 * c + c4 * d for a, b, c, d in angles(n)]


def raw_tap(fraction, i, n, shape):
    """Tap i of n before the division; `shape` is the window there."""
    x = 2.0 * fraction * (i - (n - 1) / 2.0)
    sinc = 1.0 if x == 0.0 else sine(PI * x) / (PI * x)
    return 2.0 * fraction * sinc * shape


def lowpass(cutoff, rate, numbers, n):
    """The report of pel_lowpass_cosines_new, and the taps, which a refused ticket hasn't."""
    if not 0.0 < rate < math.inf:
        return Report(1), None
    fraction = cutoff / rate
    if not 0.0 < fraction < 0.5:
        return out_of_range(2, 0.0, rate / 2.0, cutoff), None
    if not 1 <= n <= MOST_TAPS:
        return Report(6), None
    raw = [raw_tap(fraction, i, n, shape) for i, shape in enumerate(window(numbers, n))]
    total = 0.0
    for tap in raw:
        total += tap
    if total == 0.0 or not math.isfinite(total):
        return Report(10), None
    return Report(count=n, value=total), [tap / total for tap in raw]


def lowpass_bytes(cutoff, rate, numbers, length):
    """The same for a buffer of so many bytes: the report of pel_lowpass_cosines."""
    if length % 8 != 0:
        return wrong_length(length), None
    return lowpass(cutoff, rate, numbers, length // 8)
