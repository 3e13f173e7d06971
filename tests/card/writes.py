"""The library's writer of tickets against the model, over the tickets and buffers of tickets.py; and its reader, over
the records that are written, with other bytes behind them."""

import ctypes
import itertools
import struct
import sys
from ctypes import c_char_p, c_int, c_size_t, c_void_p

import inputs
import model
import tickets
from answers import READING, REPORT, TICKET, WRONG, Packed, bind, named, told

# Faults at once, by the names of the groups in tickets.py.
PAIRS = [f"writes: faults: {' and '.join(pair)}" for pair in itertools.combinations(("kind", "window", "length"), 2)]
# Low bits of a number, in which it can be a kind or a window that there is.
LOW_BITS = 8, 16, 32

# What the tickets must at least reach, by the names that the figures have.
LEAST = {
    "writes": 500000, "written": 300000,
    **{f"written, kind {kind}": 40000 for kind in model.FIELDS},
    **{f"written, window {window}": 8000 for window in range(4)},
    **{f"written, window {window}: a beta that isn't zero": 6000 for window in range(4)},
    **{f"written, kind {kind}: a field past its own that isn't zero": 40000
       for kind, names in model.FIELDS.items() if len(names) < 5},
    **{f"written, kind {kind}: no window there": 20000 for kind in model.FIELDS if kind != model.LOWPASS},
    **{f"written, {bits:016X} as kind {kind}'s {name}": 20
       for kind, names in model.FIELDS.items() for name in names if name != "window" for bits in inputs.NUMBERS},
    "not written, 13": 30000, "not written, 7": 8000,
    **{f"not written, 13: kind {kind} in {bits} bits": 100 for kind in model.FIELDS for bits in LOW_BITS},
    **{f"not written, 7: window {window} in {bits} bits": 3 for window in range(4) for bits in LOW_BITS},
    **{f"not written, 8, kind {kind}: {what}": 1000 for kind in model.FIELDS for what in ("shorter", "longer")},
    **{f"not written, 8, kind {kind}: another kind's {size}": 500
       for kind, own in model.SIZES.items() for size in {*model.SIZES.values()} - {own}},
    **{pair: 250 for pair in PAIRS}, "writes: faults: kind and window and length": 1000,
}  # fmt: skip

# The answer of batch.c to a ticket: what went wrong besides, the report, what was read; then the bytes of the buffer.
ANSWER = struct.Struct("<QIIdddQQQQd6QIIdddQQQQd")
TWO = struct.Struct("<2Q")
NUMBERS = {bits: f"{bits:016X}" for bits in inputs.NUMBERS}
assert ANSWER.size == 8 + REPORT.size + READING.size

# ---- The model


def hold_the_model():
    for ticket, size, answer in tickets.TOLD:
        ticket, buffer = (*ticket, 0, 0, 0)[:6], bytes(range(100, 100 + size))
        if isinstance(answer, str):
            must = bytes.fromhex(answer), model.Report(count=size)
        elif len(answer) == 1:
            must = buffer, model.Report(*answer)
        else:
            number, expected, given = answer
            must = buffer, model.Report(number, model.LENGTH, expected=expected, given=given)
        found = model.write(ticket, buffer)
        if found != must:
            sys.exit(f"card: the model answers {found} to {ticket} in {size} bytes, and the request {must}")


# ---- What the tickets are


def count_what(figures, ticket, size, report, kept):
    """Counts what is written, and what of it is kept, or why it isn't written, by the names of LEAST."""
    kind, *fields = ticket
    figures["writes"] += 1
    if report.number == 0:
        names = model.FIELDS[kind]
        figures["written"] += 1
        figures[f"written, kind {kind}"] += 1
        if kind == model.LOWPASS:
            window = fields[model.WINDOW]
            figures[f"written, window {window}"] += 1
            if fields[model.BETA] != 0:
                figures[f"written, window {window}: a beta that isn't zero"] += 1
        else:
            if any(fields[len(names) :]):
                figures[f"written, kind {kind}: a field past its own that isn't zero"] += 1
            if fields[model.WINDOW] > 3:
                figures[f"written, kind {kind}: no window there"] += 1
        for name, bits in zip(names, kept[1:]):
            if bits in NUMBERS:
                figures[f"written, {NUMBERS[bits]} as kind {kind}'s {name}"] += 1
        return
    figures[f"not written, {report.number}"] += 1
    if report.number == 13:
        for bits in LOW_BITS:
            if kind % 2**bits in model.FIELDS:
                figures[f"not written, 13: kind {kind % 2**bits} in {bits} bits"] += 1
    elif report.number == 7:
        for bits in LOW_BITS:
            if (window := fields[model.WINDOW] % 2**bits) < 4:
                figures[f"not written, 7: window {window} in {bits} bits"] += 1
    else:
        figures[f"not written, 8, kind {kind}: {'shorter' if size < report.expected else 'longer'}"] += 1
        figures[f"not written, 8, kind {kind}: another kind's {size}"] += 1


# ---- What is written


def answer(ticket, buffer, behind, packed):
    """The bytes that batch.c has to answer, with the report and the ticket that is read again among them. Holds the
    model's reader to its writer too."""
    written, report = model.write(ticket, buffer)
    if report.number != 0:
        return b"".join((bytes(8), packed[report], bytes(READING.size), written)), report, model.NO_TICKET
    kept, unread, again = model.read(written + behind)
    if (kept, unread, again) != (model.kept(ticket), behind, report):
        sys.exit(f"card: the model reads {written.hex()} as {kept}, and it was written of {ticket}")
    return b"".join((bytes(8), packed[report], TICKET.pack(*kept), packed[again], written)), report, kept


def shown(answers, at, size):
    """The answer at a place in words."""
    wrong, *numbers = ANSWER.unpack_from(answers, at)
    report, ticket, reading = numbers[:10], numbers[10:16], numbers[16:]
    buffer = bytes(answers[at + ANSWER.size : at + ANSWER.size + size]).hex()
    again = f"; read again: {named(ticket)}, {told(reading)}" if any((*ticket, *reading)) else ""
    return f"{told(report)}, in the buffer {buffer or 'nothing'}{again}{WRONG[wrong]}"


def tell(batch, expected, answers, differences):
    """Which of the tickets differ, as far as there are answers."""
    at = 0
    for (group, ticket, buffer, behind), wanted in zip(batch, expected):
        if at == len(answers):
            return
        end = at + ANSWER.size + len(buffer)
        if answers[at:end] != wanted:
            call = f"{named(ticket)} ({group}) into {len(buffer)} bytes, {buffer.hex()}, then {behind.hex()}"
            differences.add(group, call, shown(wanted, 0, len(buffer)), shown(answers, at, len(buffer)))
        at = end


def compare_writes(library, figures, differences):
    ask = bind(library, "writes", c_size_t, c_char_p, c_char_p, c_char_p, c_size_t, c_void_p)
    packed = Packed()
    writes = tickets.writes()
    while batch := list(itertools.islice(writes, 20000)):
        expected = []
        for group, ticket, buffer, behind in batch:
            wanted, report, kept = answer(ticket, buffer, behind, packed)
            expected.append(wanted)
            figures[group] += 1
            count_what(figures, ticket, len(buffer), report, kept)
        wanted = b"".join(expected)
        room = bytearray(len(wanted))
        first = ctypes.c_char.from_buffer(room)
        given = b"".join(TICKET.pack(*ticket) for _, ticket, _, _ in batch)
        sources = b"".join(buffer + behind for _, _, buffer, behind in batch)
        lengths = b"".join(TWO.pack(len(buffer), len(behind)) for _, _, buffer, behind in batch)
        size = ask(given, sources, lengths, len(batch), ctypes.addressof(first))
        if size == 0:
            sys.exit("card: no memory for the tickets")
        if wanted != memoryview(room)[:size]:
            tell(batch, expected, room[:size], differences)


# ---- Buffers of more than 2^16 and 2^32 bytes


def compare_untouched(library, differences):
    """Whether there were such. A length that is the record's in its low bits is another length all the same."""
    ask = bind(library, "untouched", c_int, c_char_p, c_size_t, c_void_p, c_void_p)
    for kind, more in itertools.product(model.FIELDS, (2**16, 2**32)):
        size = more + model.SIZES[kind]
        for ticket in (kind, 1, 2, 3, 4, 5), (1, 1, 2, 4, 4, 5), (0, 1, 2, 3, 4, 5):
            wrong, report = ctypes.create_string_buffer(8), ctypes.create_string_buffer(REPORT.size)
            if not ask(TICKET.pack(*ticket), size, wrong, report):
                return False
            must = model.refusal(ticket, size)
            if bytes(8) + REPORT.pack(*must) != wrong.raw + report.raw:
                found = told(REPORT.unpack(report.raw)) + WRONG[struct.unpack("<Q", wrong.raw)[0]]
                differences.add("writes: untouched", f"{named(ticket)} into {size} bytes", told(must), found)
    return True


# ---- The figures


def line(f):
    kinds = ", ".join(f"{f[f'written, kind {kind}']} of kind {kind}" for kind in model.FIELDS)
    windows = ", ".join(str(f[f"written, window {window}"]) for window in range(4))
    zeroed = sum(f[f"written, window {window}: a beta that isn't zero"] for window in range(3))
    past = sum(f[name] for name in LEAST if name.endswith("past its own that isn't zero"))
    return (
        f"card: {f['writes']} tickets to write, {f['written']} written and read again: {kinds}, with the windows 0 to "
        f"3 {windows}, {zeroed} unused betas and {past} times fields past the kind's that weren't zero; "
        f"13: {f['not written, 13']}, 7: {f['not written, 7']}, 8: {f['not written, 8']}; "
        f"every two faults at once, at least {min(f[pair] for pair in PAIRS)} of each"
    )
