"""The cards, a million and more, from a fixed seed.

Most are whole cards that were cut, or that have something wrong in the head of a record: there a reader shows that
tests in another order, counts the length's own bytes or looks at half of a number. Only `random()` is drawn from
Python's generator: it is the same in every version.
"""

import itertools
import random
import struct

from model import FIELDS, KAISER, LENGTHS, LOWPASS

SEED = 1984

# ---- What stands in fields

NANS = [
    0x7FF8000000000000, 0xFFF8000000000001, 0x7FFFFFFFFFFFFFFF, 0xFFFFFFFFFFFFFFFF,  # quiet ones
    0x7FF0000000000001, 0xFFF4000000000000, 0x7FF00000DEADBEEF, 0xFFF7FFFFFFFFFFFF,  # signalling ones
]  # fmt: skip
INFINITIES = [0x7FF0000000000000, 0xFFF0000000000000]
FLOATS = [struct.unpack("<Q", struct.pack("<d", x))[0]
          for x in (0.0, -0.0, 1.0, -1.0, 0.5, 5.65326, 8000.0, 48000.0, 1e300, 2.0**-1022)]  # fmt: skip
COUNTS = [1, 2, 3, 4, 31, 255, 256, 2**16, 2**24, 2**24 + 1, 2**31, 2**32 - 1, 2**32, 2**32 + 31, 2**63, 2**64 - 1]
NUMBERS = [*NANS, *INFINITIES, *FLOATS, *COUNTS]


def record(kind, fields, code=None, length=None):
    """A record of a kind, with the kind's own code and length in its head or with others."""
    code = kind if code is None else code
    return struct.pack(f"<IH{len(fields)}Q", LENGTHS[kind] if length is None else length, code, *fields)


class Draw:
    def __init__(self, seed):
        self.unit = random.Random(seed).random
        # Whole records of each kind, of which the cards are made.
        self.records = [self.whole(kind) for kind in FIELDS for _ in range(400)]

    def below(self, n):
        return int(self.unit() * n)

    def one_of(self, things):
        return things[int(self.unit() * len(things))]

    def bits(self):
        return self.below(2**32) << 32 | self.below(2**32)

    def fields(self, kind, window=None):
        """The fields of a kind; only a window isn't any number."""
        fields = [self.one_of(NUMBERS) if self.unit() < 0.5 else self.bits() for _ in FIELDS[kind]]
        if kind == LOWPASS:
            fields[2] = self.below(4) if window is None else window
        return fields

    def whole(self, kind):
        return record(kind, self.fields(kind))

    def several(self, least, most):
        """So many whole records."""
        return [self.one_of(self.records) for _ in range(least + self.below(most - least + 1))]

    def noise(self, n):
        """So many bytes: zeros, ones, such as heads have, or any."""
        style = self.below(8)
        if style == 0:
            return bytes(n)
        if style == 1:
            return b"\xff" * n
        if style < 5:
            return bytes(self.one_of(b"\0\0\0\0\0\1\2\3\4\5\6\7\x12\x1a\x2a") for _ in range(n))
        return b"".join(struct.pack("<Q", self.bits()) for _ in range(n // 8 + 1))[:n]


# ---- Cards told by hand, which hold the model

EIGHT, THIRTY_ONE, ONES = "0000000000002040", "1f00000000000000", "ff" * 8
HALFBAND = "12000000 0300" + EIGHT + THIRTY_ONE
LOW = "2a000000 0100 0000000000408f40 000000000040bf40"
THOUSAND, EIGHT_THOUSAND, ALL = 0x408F400000000000, 0x40BF400000000000, 2**64 - 1
TICKET = (3, 0x4020000000000000, 31)
# The bytes; what each reading gives, a ticket or a number; and the place at which reading ends.
TOLD = [
    ("", [12], 0),
    (HALFBAND, [TICKET, 12], 22),
    (HALFBAND * 2, [TICKET, TICKET, 12], 44),
    (HALFBAND + "12", [TICKET, 12], 22),
    (HALFBAND + HALFBAND[:-2], [TICKET, 12], 22),
    (HALFBAND + "120000000000", [TICKET, 13], 22),
    ("12000000 03", [12], 0),
    ("ffffffff ff", [12], 0),
    ("12000000 0300", [12], 0),
    ("12000000 0700" + EIGHT + THIRTY_ONE, [13], 0),
    ("12000000 0003" + EIGHT + THIRTY_ONE, [13], 0),
    ("ffffffff 0103", [13], 0),
    ("16000000 0300" + EIGHT + THIRTY_ONE, [14], 0),
    ("10000000 0300" + EIGHT + THIRTY_ONE, [14], 0),
    ("00000012 0300" + EIGHT + THIRTY_ONE, [14], 0),
    ("11000000 0300", [14], 0),
    (LOW + "0000000000000000" + EIGHT + THIRTY_ONE, [(1, THOUSAND, EIGHT_THOUSAND, 0, 0, 31), 12], 46),
    (LOW + "0200000000000000" + ONES + THIRTY_ONE, [(1, THOUSAND, EIGHT_THOUSAND, 2, 0, 31), 12], 46),
    (LOW + "0300000000000000" + ONES + THIRTY_ONE, [(1, THOUSAND, EIGHT_THOUSAND, 3, ALL, 31), 12], 46),
    (LOW + "0400000000000000" + EIGHT + THIRTY_ONE, [7], 0),
    (LOW + "0000000000000080" + EIGHT + THIRTY_ONE, [7], 0),
    (LOW + "0400000000000000" + EIGHT + THIRTY_ONE[:-2], [12], 0),
    (LOW + "0400000000000000", [12], 0),
    ("2b000000 0100" + ONES * 5, [14], 0),
    ("2a000000 0200" + ONES * 5, [(2, ALL, ALL, ALL, ALL, ALL), 12], 46),
    ("1a000000 0400" + ONES * 3 + "1a000000 0500" + ONES * 3, [(4, ALL, ALL, ALL), (5, ALL, ALL, ALL), 12], 60),
    ("2a000000 0600" + ONES * 5 + "1a000000 0600" + ONES * 3, [(6, ALL, ALL, ALL, ALL, ALL), 14], 46),
]


# ---- One thing at a time


def numbers(draw):
    """Every number in every field, also in those of a kind that the reader may not judge."""
    for kind in FIELDS:
        for place, number in itertools.product(range(len(FIELDS[kind])), NUMBERS):
            fields = draw.fields(kind)
            fields[place] = number
            yield record(kind, fields)


def windows(draw):
    """Every window with every beta, and every bit that makes a window none."""
    for window, beta in itertools.product(range(4), NUMBERS):
        cutoff, rate, _, _, count = draw.fields(LOWPASS)
        yield record(LOWPASS, (cutoff, rate, window, beta, count))
    for bit, window in itertools.product(range(2, 64), range(4)):
        yield record(LOWPASS, draw.fields(LOWPASS, 2**bit + window))


def kinds(draw):
    """Every kind that two bytes can say, with the length and the fields of one that there is."""
    for code in range(2**16):
        kind = code % 8 if code % 8 in FIELDS else 1 + code // 8 % 6
        yield record(kind, draw.one_of((draw.fields(kind), NUMBERS[: len(FIELDS[kind])])), code)


def lengths(draw):
    """Many lengths with every kind, in one byte, in two and in each bit of the four."""
    for kind in FIELDS:
        fields = draw.fields(kind)
        for length in (*range(2048), *(LENGTHS[kind] ^ 1 << bit for bit in range(32))):
            yield record(kind, fields, length=length) + draw.one_of((b"", b"", draw.one_of(draw.records)))


# ---- Several things at once


def no_kinds(kind):
    return 0, 7, 8, 255, 256, 256 + kind, 256 * kind, 2**15 + kind, 2**16 - 1


def no_lengths(kind):
    own = LENGTHS[kind]
    steps = [own + step for step in (-8, -4, -2, -1, 1, 2, 4, 8, 2**8, 2**16, 2**31)]
    return [0, 2, own << 24, 2**32 - 4, 2**32 - 1, *steps, *sorted(set(LENGTHS.values()) - {own, *steps})]


NO_WINDOWS = 4, 2**32, 2**63


def faults(draw):
    """A bad kind, a bad length and a bad window in every combination, cut at every place, behind whole records and
    behind none; with the names of the faults, which say more than the number that comes first."""
    for kind in FIELDS:
        shapes = itertools.product(
            (kind, *no_kinds(kind)),
            (LENGTHS[kind], *no_lengths(kind)),
            (draw.below(3), KAISER, *NO_WINDOWS) if kind == LOWPASS else (0,),
        )
        for code, length, window in shapes:
            bad = [("kind", code != kind), ("length", length != LENGTHS[kind]), ("window", window in NO_WINDOWS)]
            bad = [name for name, is_bad in bad if is_bad]
            whole = record(kind, draw.fields(kind, window), code, length)
            for front in b"", b"".join(draw.several(1, 2)):
                for cut in range(len(whole) + 1):
                    short = ["head"] if cut < 6 else ["body"] if cut < len(whole) else []
                    yield " and ".join(bad + short) or "none", front + whole[:cut]
                yield " and ".join(bad) or "none", front + whole + draw.noise(1 + draw.below(50))


def cuts(draw):
    """Whole cards, cut at every place."""
    for _ in range(CARDS_CUT):
        card = b"".join(draw.several(1, 5))
        for cut in range(len(card) + 1):
            yield card[:cut]


# ---- Drawn


def whole(draw):
    return b"".join(draw.several(0, 8))


def behind(draw):
    """Something behind whole records: bytes, or a record that one thing is wrong with and a whole one behind it."""
    front = draw.several(0, 4)
    if draw.unit() < 0.4:
        return b"".join(front) + draw.noise(1 + draw.below(60))
    kind = 1 + draw.below(6)
    style = draw.below(3)
    if style == 0:
        last = record(kind, draw.fields(kind), code=draw.one_of(no_kinds(kind)))
    elif style == 1:
        last = record(kind, draw.fields(kind), length=draw.one_of(no_lengths(kind)))
    else:
        last = record(LOWPASS, draw.fields(LOWPASS, draw.one_of((*NO_WINDOWS, *NUMBERS))))
    return b"".join((*front, last, draw.one_of(draw.records)))


def flipped(draw):
    """A few bytes of a card changed, put in or taken out, most of them in the head or the window of a record."""
    records = draw.several(1, 5)
    for _ in range(1 + draw.below(2)):
        k = draw.below(len(records))
        changed = bytearray(records[k])
        where = draw.unit()
        at = draw.below(6) if where < 0.6 else 22 + draw.below(8) if where < 0.8 else draw.below(46)
        at %= len(changed) or 1
        style = draw.below(8)
        if style < 4:
            changed[at : at + 1] = bytes(byte ^ 1 << draw.below(8) for byte in changed[at : at + 1])
        elif style == 4:
            changed[at : at + 1] = bytes([draw.below(256)])
        elif style == 5:
            changed[at : at + 2] = changed[at : at + 2][::-1]
        elif style == 6:
            changed.insert(at, draw.below(256))
        else:
            del changed[at : at + 1]
        records[k] = bytes(changed)
    return b"".join(records)


def anything(draw):
    return draw.noise(draw.below(70))


def long(draw):
    return b"".join(draw.several(200, 1400))


def unused(draw):
    """Low-passes that have all zero bits for a beta where their window uses none, as a crew's kit writes them."""
    records = []
    for _ in range(1 + draw.below(4)):
        cutoff, rate, window, _, count = draw.fields(LOWPASS, draw.below(3))
        records.append(record(LOWPASS, (cutoff, rate, window, 0, count)))
    return b"".join(records)


# How many of each are drawn, and how many cards are cut at every place.
GROUPS = [(whole, 50000), (behind, 130000), (flipped, 170000), (anything, 100000), (long, 40), (unused, 3000)]
CARDS_CUT = 2800


def cards():
    """The name of a group and the bytes of a card, one after the other."""
    draw = Draw(SEED)
    for told, _, _ in TOLD:
        yield "told", bytes.fromhex(told)
    for group in numbers, windows, kinds, lengths, cuts:
        for card in group(draw):
            yield group.__name__, card
    for names, card in faults(draw):
        yield f"faults: {names}", card
    for group, count in GROUPS:
        for _ in range(count):
            yield group.__name__, group(draw)
