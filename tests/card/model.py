"""Tickets on a card: the reader and the writer, by the requests' text alone.

Everything is whole numbers here: a float stands on the card as its bits, and as these it comes back, so that no NaN can
lose its payload. Nothing here was taken from the library's code.
"""

import struct
from functools import lru_cache
from typing import NamedTuple

# ---- What is answered


class Report(NamedTuple):
    """The fields of pel_report, in its order."""

    number: int = 0
    carries: int = 0
    smallest: float = 0.0
    largest: float = 0.0
    offered: float = 0.0
    expected: int = 0
    given: int = 0
    index: int = 0
    count: int = 0
    value: float = 0.0


# A kind and five fields.
NO_TICKET = (0,) * 6
CUT_SHORT, UNKNOWN_KIND, BAD_RECORD_LENGTH, BAD_CODE = (Report(number) for number in (12, 13, 14, 7))
BAD_LENGTH, LENGTH = 8, 2  # the number, and what its report carries: the length expected and the one given


@lru_cache(maxsize=None)
def accepted(count):
    return Report(count=count)


@lru_cache(maxsize=None)
def bad_length(expected, given):
    return Report(BAD_LENGTH, LENGTH, expected=expected, given=given)


# ---- The format, for the reader and the writer

FIELDS = {
    1: ("cutoff", "rate", "window", "beta", "count"),
    2: ("cutoff", "transition", "attenuation", "rate", "max"),
    3: ("beta", "count"),
    4: ("bt", "samples", "span"),
    5: ("roll-off", "samples", "span"),
    6: ("channels", "branch", "passband", "stopband", "attenuation"),
}
LOWPASS, KAISER = 1, 3

HEAD = struct.Struct("<IH")
BODIES = {kind: struct.Struct(f"<{len(names)}Q") for kind, names in FIELDS.items()}
# What follows the four bytes of the length: the kind and the fields.
LENGTHS = {kind: 2 + body.size for kind, body in BODIES.items()}
# A whole record.
SIZES = {kind: 4 + length for kind, length in LENGTHS.items()}
# Which of a low-pass's fields the window and the beta are, and where these begin in its record.
WINDOW, BETA = (FIELDS[LOWPASS].index(name) for name in ("window", "beta"))
WINDOW_AT, BETA_AT = (HEAD.size + 8 * place for place in (WINDOW, BETA))

# ---- A record


def read(source):
    """The ticket that the bytes begin with, the unread part of them, and the report."""
    if len(source) < HEAD.size:
        return NO_TICKET, source, CUT_SHORT
    length, kind = HEAD.unpack_from(source)
    if kind not in FIELDS:
        return NO_TICKET, source, UNKNOWN_KIND
    if length != LENGTHS[kind]:
        return NO_TICKET, source, BAD_RECORD_LENGTH
    if len(source) < 4 + length:
        return NO_TICKET, source, CUT_SHORT
    fields = BODIES[kind].unpack_from(source, HEAD.size)
    if kind == LOWPASS:
        cutoff, rate, window, beta, count = fields
        if window > 3:
            return NO_TICKET, source, BAD_CODE
        fields = (cutoff, rate, window, beta if window == KAISER else 0, count)
    return (kind, *fields, 0, 0, 0)[:6], source[4 + length :], accepted(4 + length)


def refusal(ticket, size):
    """The report that refuses to write a ticket into a buffer of so many bytes; None where it can be written."""
    kind, _, _, window, _, _ = ticket
    if kind not in FIELDS:
        return UNKNOWN_KIND
    if kind == LOWPASS and window > 3:
        return BAD_CODE
    if size != SIZES[kind]:
        return bad_length(SIZES[kind], size)
    return None


def kept(ticket):
    """What a record keeps of a ticket that can be written, which is what reading it gives: the fields of its kind, and
    zero bits for a beta where the window isn't Kaiser's."""
    kind, *fields = ticket
    fields = fields[: len(FIELDS[kind])]
    if kind == LOWPASS:
        cutoff, rate, window, beta, count = fields
        fields = (cutoff, rate, window, beta if window == KAISER else 0, count)
    return (kind, *fields, 0, 0, 0)[:6]


def write(ticket, buffer):
    """What is in the buffer after writing a ticket there, and the report."""
    refused = refusal(ticket, len(buffer))
    if refused is not None:
        return buffer, refused
    kind, *fields = kept(ticket)
    record = HEAD.pack(LENGTHS[kind], kind) + BODIES[kind].pack(*fields[: len(FIELDS[kind])])
    return record, accepted(SIZES[kind])


# ---- A whole card


class Card(NamedTuple):
    """What every reading of a card gave, the refused one at the end; and the fields of pel_card."""

    readings: list
    tickets: int
    place: int
    report: Report


def check(source):
    """Reads on in what is unread, until nothing more can be read. At the end of a whole card that is because no bytes
    are left, and then the card is accepted."""
    readings, unread = [], source
    while True:
        ticket, rest, report = read(unread)
        readings.append((ticket, report))
        if report.number != 0:
            break
        unread = rest
    tickets = len(readings) - 1
    return Card(readings, tickets, len(source) - len(unread), report if unread else accepted(tickets))
