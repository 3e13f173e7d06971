"""The lists for the loader and the tickets for the low-pass, from a fixed seed.

Most lists lie about the border of 19, sums of 1 - 2^-40 and 1 + 2^-40: there a loader that rounds a sum, loses a carry
or takes < for <= shows. Only `random()` is drawn from Python's generator: it is the same in every version.
"""

import itertools
import math
import random
import struct

from model import ONE, TOLERANCE, load, whole

SMALLEST = 2.0**-1074
EDGE = 2.0**-40
ABOVE_ONE = math.nextafter(1.0, 2.0)
BELOW_ONE = math.nextafter(1.0, 0.0)
LARGEST = math.nextafter(math.inf, 0.0)

# The bits of NaNs: quiet and signalling ones of either sign.
NANS = [struct.unpack("<d", struct.pack("<Q", bits))[0]
        for bits in (0x7FF8000000000000, 0xFFF8000000000001, 0x7FF0000000000001, 0xFFFFFFFFFFFFFFFF)]
# Numbers that the loader can't take, and such as it just can.
BAD = [*NANS, math.inf, -math.inf, ABOVE_ONE, -ABOVE_ONE, 2.0, -2.0, 1.5, LARGEST, -LARGEST]
JUST = [1.0, -1.0, BELOW_ONE, -BELOW_ONE, 0.0, -0.0, SMALLEST, -SMALLEST, 2.0**-1022, 0.5, -0.5, EDGE, -EDGE]

HANN, HAMMING, BLACKMAN = (0.5, 0.5), (0.54, 0.46), (0.42, 0.5, 0.08)
WINDOWS = [
    HANN,
    HAMMING,
    BLACKMAN,
    (0.35875, 0.48829, 0.14128, 0.01168),  # Blackman-Harris
    (0.355768, 0.487396, 0.144232, 0.012604),  # Nuttall
    (0.3635819, 0.4891775, 0.1365995, 0.0106411),  # Blackman-Nuttall
    (0.21557895, 0.41663158, 0.277263158, 0.083578947, 0.006947365),  # a flat top, its sum mended
    (1.0,),
]

# Lists with the number that the request gives, by hand: they hold the model.
TOLD = [
    (0, HANN), (0, HAMMING), (0, BLACKMAN), (0, WINDOWS[3]), (0, WINDOWS[4]), (0, (1.0,)),
    (19, (0.21557895, 0.41663158, 0.277263158, 0.083578947, 0.006947368)),
    (0, (1.0, EDGE)), (19, (1.0, EDGE, SMALLEST)), (0, (1.0, EDGE, -SMALLEST)), (0, (1.0, EDGE, -0.0, 0.0, -0.0)),
    (0, (1.0, -EDGE)), (19, (1.0, -EDGE, -SMALLEST)), (0, (1.0, -EDGE, SMALLEST)), (0, (-EDGE, 1.0)),
    (19, (SMALLEST, 1.0, EDGE)), (0, (1.0, SMALLEST, EDGE, -SMALLEST)), (0, (SMALLEST, EDGE, 1.0, -SMALLEST, -0.0)),
    (0, (BELOW_ONE,)), (0, (1.0 - EDGE,)), (19, (math.nextafter(1.0 - EDGE, 0.0),)), (19, (0.0,)), (19, (-0.0,)),
    (0, (1.0, 1.0, -1.0)), (0, (1.0, 1.0, 1.0, -1.0, -1.0)), (19, (1.0,) * 5), (19, (-1.0,) * 5), (19, (-1.0, -EDGE)),
    (17, ()), (17, (1.0,) + (0.0,) * 5), (17, (math.nan,) * 6), (17, (0.125,) * 8),
    (18, (ABOVE_ONE,)), (18, (-ABOVE_ONE, 1.0, 1.0)), (18, (1.0, math.nan)), (18, (math.inf, -math.inf)),
    (18, (1.0, EDGE, SMALLEST, 0.0, -2.0)), (18, (0.0, math.nan, 2.0)), (18, (2.0, math.nan)),
]  # fmt: skip


def packed(numbers):
    return struct.pack(f"<{len(numbers)}d", *numbers)


class Draw:
    def __init__(self, seed):
        self.unit = random.Random(seed).random

    def below(self, n):
        return int(self.unit() * n)

    def one_of(self, things):
        return things[int(self.unit() * len(things))]

    def sign(self):
        return 1 if self.unit() < 0.5 else -1

    def mixed(self, things):
        """The things in any order."""
        things = list(things)
        for k in range(len(things) - 1, 0, -1):
            j = int(self.unit() * (k + 1))
            things[k], things[j] = things[j], things[k]
        return things

    def scaled(self, least, most):
        """A number of either sign and a size of about 2^-least to 2^-most: any bits, a power of two, or all ones."""
        size = self.one_of((1.0 + self.unit(), 1.0 + self.unit(), 1.0, 2.0 - 2.0**-52))
        return math.ldexp(self.sign() * size, -least - 1 - int(self.unit() * (most - least)))


# ---- Lists about the border


def beginning(draw, count):
    """The first numbers of a list: of full length, on a grid, of many scales, of a window, or ones that cancel."""
    style = draw.below(7)
    if style == 0:
        return [draw.sign() * math.ldexp(1.0 + draw.unit(), -1 - draw.below(4)) for _ in range(count)]
    if style == 1:
        grid = 2 ** (1 + draw.below(52))
        return [draw.sign() * draw.below(grid + 1) / grid for _ in range(count)]
    if style == 2:
        return [draw.scaled(0, 60) for _ in range(count)]
    if style == 3:
        return [draw.scaled(0, 1073) for _ in range(count)]
    if style == 4:
        return list(draw.one_of(WINDOWS)[:count])
    if style == 5:
        return [draw.one_of(JUST) for _ in range(count)]
    x = draw.scaled(0, draw.one_of((4, 60, 1073)))
    return [x, -draw.one_of((x, math.nextafter(x, 0.0), x / 2.0)), draw.unit(), draw.unit()][:count]


def about(draw, target):
    """A list of one to five numbers whose sum is about the target, a multiple of 2^-1074: on it, or as near as the
    last numbers, each the nearest double to what is missing, come to it, or a step from there."""
    size = draw.one_of((1, 2, 2, 3, 3, 3, 4, 4, 4, 4, 5, 5, 5, 5, 5, 5))
    numbers = beginning(draw, draw.below(size))
    missing = target - sum(map(whole, numbers))
    while len(numbers) < size:
        if missing == 0:
            # On the target: a tail, which the next number takes back.
            x = draw.scaled(40, 1073) if draw.unit() < 0.7 else draw.sign() * SMALLEST
        else:
            x = max(-1.0, min(1.0, missing / ONE))
        numbers.append(x)
        missing -= whole(x)
    then = draw.unit()
    if then < 0.4:
        # One of the numbers, or the smallest of them, goes a step up or down.
        k = draw.below(size) if then < 0.2 else min(range(size), key=lambda k: abs(numbers[k]) or 1.0)
        numbers[k] = math.nextafter(numbers[k], draw.sign() * 2.0)
    elif then < 0.55 and size < 5:
        numbers.append(draw.one_of((SMALLEST, -SMALLEST, SMALLEST, -SMALLEST, 0.0, -0.0)))
    return draw.mixed(numbers) if draw.unit() < 0.6 else numbers


def border(draw):
    return packed(about(draw, ONE + draw.sign() * TOLERANCE))


def in_doubles(numbers):
    """Whether a sum in doubles, from the left, is beyond the border."""
    total = 0.0
    for x in numbers:
        total += x
    return abs(total - 1.0) > EDGE


def inside(draw):
    """A list of long numbers next to the border and not beyond it; if twelve tries find one, such as a sum in doubles
    would refuse."""
    for _ in range(12):
        side = draw.one_of((1, -1, -1, -1))
        numbers = [draw.sign() * math.ldexp(1.0 + draw.unit(), -1 - draw.below(2)) for _ in range(3 + draw.below(2))]
        missing = ONE + side * TOLERANCE - sum(map(whole, numbers))
        last = max(-1.0, min(1.0, missing / ONE))
        if (missing - whole(last)) * side < 0:
            last = math.nextafter(last, -2.0 * side)
        numbers = draw.mixed([*numbers, last])
        if in_doubles(numbers) and abs(missing) <= ONE:
            break
    return packed(numbers)


def each_bit(draw):
    """Lists that are one bit beyond the border or inside, for every bit below it: by a number that is that bit, and by
    two long ones that cancel but for it."""
    for place in range(41, 1075):
        bit = 2.0**-place
        for edge, last in itertools.product((EDGE, -EDGE), (bit, -bit)):
            yield packed([1.0, edge, last])
            long = (1 + draw.below(2 ** min(52, place))) * bit
            yield packed(draw.mixed([1.0, edge, long, last - long]))


def orders(draw):
    """Every order of a list about the border."""
    numbers = about(draw, ONE + draw.sign() * TOLERANCE)
    return [packed(order) for order in itertools.permutations(numbers)]


def elsewhere(draw):
    """As near to sums that are no border: another tolerance, or about another whole number than 1."""
    if draw.unit() < 0.5:
        distance = draw.one_of((0, 1, 2**1021, 2**1022, TOLERANCE // 2, TOLERANCE * 2))
        return packed(about(draw, ONE + draw.sign() * distance))
    return packed(about(draw, draw.one_of((-3, -2, -1, 0, 2, 3, 4)) * ONE + draw.sign() * TOLERANCE))


# ---- Lists with faults


def any_number(draw):
    style = draw.below(8)
    if style == 0:
        return draw.one_of(BAD)
    if style == 1:
        return struct.unpack("<d", struct.pack("<Q", draw.below(2**53) << 11 | draw.below(2**11)))[0]
    if style < 4:
        return draw.one_of(JUST)
    return draw.scaled(0, draw.one_of((2, 60, 1073)))


def anything(draw):
    return packed([any_number(draw) for _ in range(draw.below(9))])


def good(draw):
    """A list that may be accepted, of at most five numbers."""
    return about(draw, ONE + draw.sign() * TOLERANCE) if draw.unit() < 0.7 else list(draw.one_of(WINDOWS))


def bad_numbers(draw):
    """One bad number or two, of which the first is told, also where the sum of the others is bad."""
    numbers = good(draw)
    for _ in range(1 + draw.below(2)):
        numbers[draw.below(len(numbers))] = draw.one_of(BAD)
    return packed(numbers)


def bad_count(draw):
    """None, or six to eight numbers, of which the first five may be good ones; at times with bad ones."""
    if draw.unit() < 0.1:
        return b""
    numbers = good(draw)
    while len(numbers) < 6 + draw.below(3):
        numbers.append(draw.one_of((0.0, 0.0, draw.unit(), draw.one_of(BAD))))
    return packed(numbers)


def bad_length(draw):
    """A few bytes more or less than whole numbers, of any list, many with another fault besides."""
    source = draw.one_of((border, bad_numbers, bad_count, anything))(draw)
    more = 1 + draw.below(7)
    if draw.unit() < 0.5 or not source:
        return source + bytes(draw.below(256) for _ in range(more))
    return source[:-more]


# How many of each are drawn; of the orders, how many lists.
GROUPS = [
    (border, 90000),
    (inside, 5000),
    (elsewhere, 5000),
    (anything, 6000),
    (bad_numbers, 6000),
    (bad_count, 3000),
    (bad_length, 3000),
]
ORDERED = 100


def lists():
    """The name of a group and the bytes of a list, one after the other."""
    draw = Draw(90125)
    for _, numbers in TOLD:
        yield "told", packed(numbers)
    for first, second, place in itertools.product(JUST + BAD, JUST + BAD, range(4)):
        yield "pairs", packed([0.0] * place + [first, second])
    for source in each_bit(draw):
        yield "each bit", source
    for _ in range(ORDERED):
        for source in orders(draw):
            yield "orders", source
    for group, count in GROUPS:
        for _ in range(count):
            yield group.__name__, group(draw)
    for count in (9, 16, 100, 5000):
        yield "many", bytes(8 * count)


# ---- Where a list lies


def place(source):
    """For a list that only its sum can refuse: how far its exact sum is beyond the border, in 2^-1074; the step, one
    unit in the last place of its smallest number but zeros; and whether it would be refused by its sum in doubles, and
    by its exact sum rounded to a double. Otherwise None."""
    numbers = struct.unpack(f"<{len(source) // 8}d", source) if len(source) % 8 == 0 else ()
    if not 1 <= len(numbers) <= 5 or not all(abs(x) <= 1.0 for x in numbers):
        return None
    beyond = abs(sum(map(whole, numbers)) - ONE) - TOLERANCE
    step = whole(math.ulp(min((abs(x) for x in numbers if x != 0.0), default=1.0)))
    return beyond, step, in_doubles(numbers), abs(math.fsum(numbers) - 1.0) > EDGE


# ---- Tickets


class Ticket:
    """A low-pass: a list for the loader, or a record that it never gave; a buffer's length in bytes."""

    def __init__(self, numbers, cutoff, rate, length, loaded=True):
        self.numbers, self.cutoff, self.rate, self.length, self.loaded = numbers, cutoff, rate, length, loaded


ODD = [0.0, -0.0, SMALLEST, -SMALLEST, -1.0, 1e-300, LARGEST, -LARGEST, math.inf, -math.inf, math.nan]
# Records that the loader never gave.
FORGED = [
    (0.0,) * 5,
    (-0.0,) * 5,
    (math.nan, 0.5, 0.0, 0.0, 0.0),
    (0.5, 0.5, 0.0, 0.0, math.nan),
    (math.inf, 0.0, 0.0, 0.0, 0.0),
    (1.0, 0.0, math.inf, -math.inf, 0.0),
    (LARGEST, LARGEST, 0.0, 0.0, 0.0),
    (1e308, 0.0, 0.0, 0.0, 0.0),
    (1e300, -1e300, 1e300, -1e300, 1e300),
    (SMALLEST, 0.0, 0.0, 0.0, 0.0),
    (2.0**-1022, 2.0**-1030, 0.0, 2.0**-1060, 0.0),
    (-0.5, -0.5, 0.0, 0.0, 0.0),
    (2.0, 3.0, 5.0, 7.0, 11.0),
    (0.0, 0.0, 0.0, 0.0, 1.0),
    (0.0, 1.0, -1.0, 1.0, -1.0),
]


def accepted_list(draw):
    """Any list that the loader accepts."""
    while True:
        target = ONE if draw.unit() < 0.5 else ONE + draw.sign() * TOLERANCE
        numbers = about(draw, target)
        if load(packed(numbers))[1].number == 0:
            return numbers


def ticket(draw):
    style = draw.below(10)
    loaded = style < 8
    if style < 4:
        numbers = draw.one_of(WINDOWS)
    elif style < 8:
        numbers = accepted_list(draw)
    elif style == 8:
        numbers = draw.one_of(FORGED)
    else:
        numbers = [any_number(draw) for _ in range(5)]
    scale = math.ldexp(1.0 + draw.unit(), draw.below(1000) - 500)
    rate = draw.one_of((1.0, 8000.0, 44100.0, 48000.0, 1e6 * draw.unit() + 1.0, scale))
    cutoff = rate * draw.one_of((0.25, 0.125, 0.5 * draw.unit(), 0.5 * draw.unit(), abs(draw.scaled(1, 40))))
    taps = 1 + draw.below(draw.one_of((4, 24, 100, 200, 200)))
    length = 8 * taps
    # Each number on its own a bad one at times, so that some tickets have several faults.
    if draw.unit() < 0.06:
        rate = draw.one_of(ODD)
    if draw.unit() < 0.08:
        half = rate / 2.0
        cutoff = draw.one_of((*ODD, half, math.nextafter(half, 0.0), math.nextafter(half, math.inf), rate))
    if draw.unit() < 0.04:
        length = 0
    if draw.unit() < 0.06:
        length += 1 + draw.below(7)
    return Ticket(numbers, cutoff, rate, length, loaded)


TICKETS = 4000
LONG = (999, 1024, 2500, 4097)


def tickets():
    draw = Draw(5150)
    # Every window and every forged record with few taps and even and odd ones.
    for numbers, loaded in [(w, True) for w in WINDOWS] + [(f, False) for f in FORGED]:
        for taps in (1, 2, 3, 4, 5, 8, 31, 64):
            yield Ticket(numbers, 1000.0, 8000.0, 8 * taps, loaded)
    # Tickets with two faults and more: which number is told first.
    for rate, cutoff, length in itertools.product((1.0, 0.0, math.nan), (0.25, 0.5, math.nan), (0, 3, 40, 41)):
        yield Ticket(HANN, cutoff, rate, length)
        yield Ticket(FORGED[0], cutoff, rate, length, False)
    for taps in LONG:
        yield Ticket(draw.one_of(WINDOWS[3:7]), 0.4 * draw.unit(), 1.0, 8 * taps)
    for _ in range(TICKETS):
        yield ticket(draw)
