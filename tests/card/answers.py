"""What the library answers, as bytes and in words, and how a difference is told."""

import ctypes
import struct
import sys
from collections import Counter
from ctypes import c_double, c_uint32, c_uint64

import model

# ---- The header's records


class Report(ctypes.Structure):
    _fields_ = [("number", c_uint32), ("carries", c_uint32), ("smallest", c_double), ("largest", c_double),
                ("offered", c_double), ("expected", c_uint64), ("given", c_uint64), ("index", c_uint64),
                ("count", c_uint64), ("value", c_double)]  # fmt: skip


class Ticket(ctypes.Structure):
    _fields_ = [("kind", c_uint64), ("fields", c_uint64 * 5)]


REPORT = struct.Struct("<IIdddQQQQd")
TICKET = struct.Struct("<6Q")
READING = struct.Struct("<6QIIdddQQQQd")
CARD = struct.Struct("<QQIIdddQQQQd")
assert ctypes.sizeof(Report) == REPORT.size and ctypes.sizeof(Ticket) == TICKET.size and sys.byteorder == "little"
assert READING.size == TICKET.size + REPORT.size and CARD.size == 16 + REPORT.size

# What batch.c tells besides.
WRONG = ("", "; it goes past its bytes", "; it doesn't come back", "; it writes to the card",
         "; it writes before the buffer")  # fmt: skip


def bind(library, name, answer, *kinds):
    if not hasattr(library, name):
        sys.exit(f"card: the library has no {name}")
    function = getattr(library, name)
    function.restype, function.argtypes = answer, kinds
    return function


class Packed(dict):
    """The bytes of reports, each packed once."""

    def __missing__(self, report):
        self[report] = REPORT.pack(*report)
        return self[report]


# ---- In words


def told(report):
    """The number of a report, and the other fields that aren't 0."""
    rest = [f" {name} {x!r}" for name, x in zip(model.Report._fields[1:], report[1:]) if repr(x) not in ("0", "0.0")]
    return f"number {report[0]}" + "".join(rest)


def named(ticket):
    return "kind {} {:016X} {:016X} {:016X} {:016X} {:016X}".format(*ticket)


class Differences:
    def __init__(self, go_on):
        self.go_on, self.count, self.groups = go_on, 0, Counter()

    def add(self, group, call, must, found):
        self.count += 1
        self.groups[group] += 1
        if self.count <= 10:
            print(f"card: {call}\n    must be {must}\n    is      {found}")
        if not self.go_on:
            print("card: stopped at the first difference (--all goes on)")
            sys.exit(1)
