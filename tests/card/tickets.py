"""The tickets that are written and the buffers for them, half a million, from a fixed seed.

Most buffers are as long as the record. The other tickets have something wrong with their kind, their window or their
buffer, or with two of these at once: there a writer shows that tests in another order or looks at half of a number.
What a record has no place for, a beta that its window doesn't use and the fields past its kind's, is seldom zero.
"""

import itertools
import struct

from inputs import ALL, EIGHT, EIGHT_THOUSAND, HALFBAND, LOW, NUMBERS, ONES, SEED, THIRTY_ONE, THOUSAND, TICKET, Draw
from model import BETA, FIELDS, KAISER, LENGTHS, LOWPASS, SIZES, WINDOW

FIVE = struct.Struct("<5Q")
MOST = 2**64


class WriteDraw(Draw):
    """Draws tickets that needn't be such as a reader gives."""

    def __init__(self, seed):
        super().__init__(seed)
        # What buffers hold, what stands behind records and what stands in fields is cut out of this at any place.
        self.bytes = b"".join(part for _ in range(2000) for part in (self.noise(96), self.one_of(self.records)))

    def cut_out(self, length):
        at = self.below(len(self.bytes) - length)
        return self.bytes[at : at + length]

    def five(self, kind, window=None):
        """Five fields, those past the kind's too; only the window of a low-pass isn't any number."""
        fields = [*FIVE.unpack_from(self.bytes, self.below(len(self.bytes) - FIVE.size))]
        for _ in range(self.below(4)):
            fields[self.below(5)] = self.one_of(NUMBERS)
        if kind == LOWPASS:
            fields[WINDOW] = self.below(4) if window is None else window
        return fields

    def write(self, code, fields, size):
        """A ticket, the bytes of its buffer, and what is put behind its record."""
        behind = self.below(60)
        source = self.cut_out(size + behind)
        return (code, *fields), source[:size], source[size:]


# ---- Tickets told by hand, which hold the model

THREE, NAN, COUNTED = "0300000000000000", 0x7FF0000000000001, (0x0807060504030201, 0x18, 0x28, 0x38, 0x48)
PLACES = "0102030405060708", "1800000000000000", "2800000000000000", "3800000000000000", "4800000000000000"
LOWS = 1, THOUSAND, EIGHT_THOUSAND
# The ticket, the bytes of its buffer, and what is answered: a record, or a number with the lengths that it carries.
TOLD = [
    (TICKET, 22, HALFBAND),
    ((*TICKET, ALL, 4, 1), 22, HALFBAND),
    (TICKET, 21, (8, 22, 21)),
    (TICKET, 23, (8, 22, 23)),
    (TICKET, 18, (8, 22, 18)),
    (TICKET, 46, (8, 22, 46)),
    (TICKET, 0, (8, 22, 0)),
    ((0, *TICKET[1:]), 22, (13,)),
    ((7, *COUNTED), 46, (13,)),
    ((2**8 + 3, *TICKET[1:]), 22, (13,)),
    ((2**16 + 3, *TICKET[1:]), 22, (13,)),
    ((2**32 + 3, *TICKET[1:]), 22, (13,)),
    ((2**63 + 3, *TICKET[1:]), 22, (13,)),
    ((MOST - 1, *TICKET[1:]), 21, (13,)),
    ((2**16 + 1, *LOWS[1:], 4, 0, 31), 46, (13,)),
    ((*LOWS, 0, 0x4020000000000000, 31), 46, LOW + "00" * 16 + THIRTY_ONE),
    ((*LOWS, 1, 2**63, 31), 46, LOW + "0100000000000000" + "00" * 8 + THIRTY_ONE),
    ((*LOWS, 2, ALL, 31), 46, LOW + "0200000000000000" + "00" * 8 + THIRTY_ONE),
    ((*LOWS, 3, 0x4020000000000000, 31), 46, LOW + THREE + EIGHT + THIRTY_ONE),
    ((*LOWS, 3, ALL, 31), 46, LOW + THREE + ONES + THIRTY_ONE),
    ((*LOWS, 3, NAN, ALL), 46, LOW + THREE + "010000000000f07f" + ONES),
    ((*LOWS, 4, 0, 31), 46, (7,)),
    ((*LOWS, 4, 0, 31), 45, (7,)),
    ((*LOWS, 2**8, 0, 31), 46, (7,)),
    ((*LOWS, 2**32 + 3, 0, 31), 46, (7,)),
    ((*LOWS, 2**63, 0, 31), 0, (7,)),
    ((*LOWS, 3, 0, 31), 22, (8, 46, 22)),
    ((2, *COUNTED), 46, "2a000000 0200" + "".join(PLACES)),
    ((4, *COUNTED), 30, "1a000000 0400" + "".join(PLACES[:3])),
    ((5, *COUNTED), 30, "1a000000 0500" + "".join(PLACES[:3])),
    ((6, *COUNTED), 46, "2a000000 0600" + "".join(PLACES)),
    ((2, *COUNTED), 30, (8, 46, 30)),
    ((4, *COUNTED), 46, (8, 30, 46)),
    ((5, *COUNTED), 22, (8, 30, 22)),
    ((6, *COUNTED), 47, (8, 46, 47)),
]


def told(draw):
    for ticket, size, _ in TOLD:
        yield draw.write(ticket[0], (*ticket[1:], 0, 0, 0)[:5], size)


# ---- One thing at a time


def numbers(draw):
    """Every number in every field, also in those past the kind's; betas with Kaiser's window and with another."""
    for kind, place, number in itertools.product(FIELDS, range(5), NUMBERS):
        for window in (KAISER, draw.below(3)):
            fields = draw.five(kind, window)
            fields[place] = number
            yield draw.write(kind, fields, SIZES[kind])


def windows(draw):
    """Every window with every beta, and every bit that makes a window none."""
    for window, beta in itertools.product(range(4), NUMBERS):
        fields = draw.five(LOWPASS, window)
        fields[BETA] = beta
        yield draw.write(LOWPASS, fields, SIZES[LOWPASS])
    for window in (*range(4, 2048), *(2**bit + window for bit in range(2, 64) for window in range(4))):
        yield draw.write(LOWPASS, draw.five(LOWPASS, window), SIZES[LOWPASS])


def kinds(draw):
    """Many kinds, each with the fields and the buffer of one that there is: the kind that its low bits say."""
    for code in (*range(2**12), *(2**bit + low for bit in range(3, 64) for low in range(8))):
        kind = code % 8 if code % 8 in FIELDS else 1 + code // 8 % 6
        yield draw.write(code, draw.five(kind), SIZES[kind])


def sizes(draw):
    """Every kind with every buffer up to 64 bytes, and with longer ones."""
    for kind, _ in itertools.product(FIELDS, range(8)):
        for size in (*range(65), 2 * SIZES[kind], 2**7 + SIZES[kind], 2**8 + SIZES[kind], 2**12 + SIZES[kind]):
            yield draw.write(kind, draw.five(kind), size)


# ---- Several things at once


def no_kinds(kind):
    steps = (2**bits + kind for bits in (3, 8, 16, 32, 63))
    return 0, 7, 255, *steps, kind << 8, kind << 56, MOST - kind, MOST - 2**16 + kind, MOST - 1


def no_sizes(kind):
    own, others = SIZES[kind], {*SIZES.values()}
    return 0, LENGTHS[kind], own - 1, own + 1, own + 4, 64, 2**8 + own, *sorted(others - {own})


# All but 4, 5 and the greatest are windows in their low bits.
NO_WINDOWS = 4, 5, 2**8, 2**16, 2**32, 2**63, MOST - 1, 2**8 + 3, 2**32 + KAISER, 2**63 + 1


def faults(draw):
    """A bad kind, a bad window and a bad length of the buffer in every combination, with the names of the faults."""
    for kind in FIELDS:
        shapes = itertools.product(
            (kind, *no_kinds(kind)),
            (*range(4), *NO_WINDOWS) if kind == LOWPASS else (None,),
            (SIZES[kind], *no_sizes(kind)),
        )
        for code, window, size in shapes:
            bad = [("kind", code != kind), ("window", window in NO_WINDOWS), ("length", size != SIZES[kind])]
            names = " and ".join(name for name, is_bad in bad if is_bad)
            for _ in range(3):
                yield names or "none", draw.write(code, draw.five(kind, window), size)


# ---- Drawn


def drawn(draw):
    kind = 1 + draw.below(6)
    fields = draw.five(kind)
    code, size, what = kind, SIZES[kind], draw.below(100)
    if what < 4:
        code = draw.one_of(no_kinds(kind))
    elif what < 6:
        code = kind + draw.one_of((2**8, 2**16, 2**32, 2**48)) * (1 + draw.below(2**16 - 1))
    elif what < 14:
        fields[WINDOW] = draw.one_of((*NO_WINDOWS, *NUMBERS))
    elif what < 24:
        size = draw.below(65)
    elif what < 34:
        size = draw.one_of((22, 30, 46))
    elif what < 38:
        size = draw.one_of(no_sizes(kind))
        fields[WINDOW] = draw.one_of(NO_WINDOWS)
    return draw.write(code, fields, size)


DRAWN = 490000


def writes():
    """The name of a group, a ticket, the bytes of its buffer and what is put behind its record, one after the other."""
    draw = WriteDraw(SEED)
    for group in told, numbers, windows, kinds, sizes:
        for write in group(draw):
            yield (f"writes: {group.__name__}", *write)
    for names, write in faults(draw):
        yield (f"writes: faults: {names}", *write)
    for _ in range(DRAWN):
        yield ("writes: drawn", *drawn(draw))
