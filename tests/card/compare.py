"""The library's reader and writer of cards against the model, over the cards of inputs.py and what tickets.py has.

    compare.py SHARED [--all]

Compared by bits are every ticket and report that reading record by record gives, each time in what the last reading
left; the place, the tickets and the report that checking the whole card gives; and what writing each of these tickets
back gives: the record as it stood on the card, but for the bytes of a beta that its window doesn't use. Then writing
alone (writes.py). Each card and each buffer ends where nothing may be touched any more. Ends with status 1 at the
first difference, with the card or the ticket that gave it; with --all it goes on, and tells how many there were. The
figures that it prints have least values: inputs that no longer reach a kind, a refusal or two faults at once would hold
nothing.
"""

import ctypes
import itertools
import mmap
import runpy
import struct
import sys
from collections import Counter
from ctypes import c_char_p, c_int, c_size_t, c_uint64, c_void_p
from pathlib import Path

import inputs
import model
import writes
from answers import CARD, READING, REPORT, WRONG, Differences, Packed, Report, Ticket, bind, named, told

EXAMPLES = Path(__file__).resolve().parent.parent.parent / "examples" / "card"
SAMPLES = "sample.card", "broken.card"

# Faults that a record can have, and those that can't be at once: it is cut in one place.
FAULTS = "kind", "length", "window", "head", "body"
PAIRS = [" and ".join(pair) for pair in itertools.combinations(FAULTS, 2) if pair != ("head", "body")]

# What the inputs must at least reach, by the names that the figures have.
LEAST = {
    "cards": 1000000, "readings": 2000000, "whole": 50000, "empty": 1000,
    **{f"kind {kind}": 100000 for kind in model.FIELDS},
    **{f"window {window}": 30000 for window in range(4)},
    "betas dropped": 50000, "NaNs": 100000, "infinities": 50000,
    "7": 10000, "12 in a head": 50000, "12 in a body": 200000, "13": 100000, "14": 50000,
    **{f"faults: {pair}": 30 for pair in PAIRS},
    **{f"kind {kind} back as it was": 50000 for kind in model.FIELDS},
    **{f"window {window} back as it was": 1000 for window in range(3)}, "window 3 back as it was": 30000,
    **{f"window {window} back without its beta": 30000 for window in range(3)}, "-0 for a beta": 1000,
    **{f"{nan:016X} back": 10000 for nan in inputs.NANS},
    **writes.LEAST,
}  # fmt: skip

# The answer of batch.c to a card: what went wrong besides, how many readings, the fields of pel_card; then the
# readings, each with the report of writing its ticket back and the record that this makes.
FOUR = struct.Struct("<4Q")
HEAD = struct.Struct("<QQQQIIdddQQQQd")
BACK = struct.Struct("<6QIIdddQQQQdIIdddQQQQd48s")
ROOM = 48  # for the record
SHORTEST, LONGEST = 22, 2**16  # a record, a card
INFINITY, SIGN = 0x7FF0000000000000, 2**63
assert HEAD.size == FOUR.size + REPORT.size and BACK.size == READING.size + REPORT.size + ROOM

# ---- In words


def shown(place, tickets, report, readings):
    """An answer in words: the readings, with what was written back, and what the whole card gave."""
    lines = [f"{named(ticket)}, {told(found)}{back}" for ticket, found, back in readings]
    return "; ".join((*lines, f"the card: {tickets} tickets, place {place}, {told(report)}"))


def unpacked(answers, at):
    """The answer at a place in words, and the place behind it."""
    wrong, count, tickets, place, *report = HEAD.unpack_from(answers, at)
    at += HEAD.size
    readings = []
    for k in range(count):
        *numbers, record = BACK.unpack_from(answers, at + BACK.size * k)
        ticket, found, written = numbers[:6], numbers[6:16], numbers[16:]
        back = f", written back: {told(written)}, {record[: found[8]].hex()}" if found[0] == 0 else ""
        readings.append((ticket, found, back))
    return shown(place, tickets, report, readings) + WRONG[wrong], at + BACK.size * count


# ---- The cards


def hold_the_model():
    for source, readings, place in inputs.TOLD:
        card = model.check(bytes.fromhex(source))
        found = [ticket if report.number == 0 else report.number for ticket, report in card.readings]
        must = [(*x, 0, 0, 0)[:6] if isinstance(x, tuple) else x for x in readings]
        if found != must or card.place != place:
            sys.exit(f"card: the model answers {found} at {card.place} to {source}, and the request {must} at {place}")


def what(record):
    """What a record is that was read, by the names of the figures."""
    (kind, *fields), _, _ = model.read(record)
    as_it_was = back(record) == record
    how = "as it was" if as_it_was else "without its beta"
    names = [f"kind {kind}", f"kind {kind} back {how}"]
    if kind == model.LOWPASS:
        names += [f"window {fields[2]}", f"window {fields[2]} back {how}"]
    if not as_it_was:
        names.append("betas dropped")
        if record[model.BETA_AT : model.BETA_AT + 8] == struct.pack("<Q", SIGN):
            names.append("-0 for a beta")
    for bits in fields:
        if bits & INFINITY == INFINITY:
            names.append("infinities" if bits & ~SIGN == INFINITY else "NaNs")
            names.append(f"{bits:016X} back")
    return names


def count_what(figures, source, card):
    """Counts what the card is."""
    figures["cards"] += 1
    figures["readings"] += len(card.readings)
    if card.report.number == 0:
        figures["whole" if source else "empty"] += 1
    elif card.report.number == 12:
        figures["12 in a head" if len(source) - card.place < 6 else "12 in a body"] += 1
    else:
        figures[str(card.report.number)] += 1


def back(record):
    """What a record that was read is written back as: as it is, byte for byte, but for the beta of a low-pass whose
    window isn't Kaiser's, which is all zero bits."""
    if record[4] != model.LOWPASS or record[model.WINDOW_AT] == model.KAISER:
        return record
    return record[: model.BETA_AT] + bytes(8) + record[model.BETA_AT + 8 :]


class ThereAndBack(dict):
    """The bytes that batch.c has to answer about a record that is read, each packed once: most records come again and
    again. Holds the model's writer to the records too."""

    def __missing__(self, record):
        ticket, _, report = model.read(record)
        written = model.write(ticket, bytes(len(record)))
        if written != (back(record), report):
            sys.exit(f"card: the model writes {ticket} as {written}, and it was read of {record.hex()}")
        self[record] = BACK.pack(*ticket, *report, *report, back(record))
        return self[record]


class Refused(dict):
    """The same of a reading that is refused with a report: no ticket, and nothing is written back."""

    def __missing__(self, report):
        self[report] = BACK.pack(*model.NO_TICKET, *report, *model.accepted(0), b"")
        return self[report]


def records_of(source, card):
    """The bytes of each record that was read."""
    found, at = [], 0
    for _, report in card.readings[:-1]:
        end = at + report.count
        found.append(source[at:end])
        at = end
    return found


def compare_cards(library, figures, differences):
    ask = bind(library, "batch", c_size_t, c_char_p, c_char_p, c_size_t, c_void_p)
    packed, there_and_back, refused, times = Packed(), ThereAndBack(), Refused(), Counter()
    samples = (("sample cards", (EXAMPLES / name).read_bytes()) for name in SAMPLES)
    cards = itertools.chain(samples, inputs.cards())
    while batch := list(itertools.islice(cards, 20000)):
        sources = [source for _, source in batch]
        assert max(map(len, sources)) <= LONGEST
        expected = []
        for group, source in batch:
            card = model.check(source)
            figures[group] += 1
            count_what(figures, source, card)
            records = records_of(source, card)
            times.update(records)
            head = FOUR.pack(0, len(card.readings), card.tickets, card.place) + packed[card.report]
            readings = [there_and_back[record] for record in records]
            expected.append(b"".join((head, *readings, refused[card.readings[-1][1]])))
        room = bytearray(sum(HEAD.size + BACK.size * (len(source) // SHORTEST + 2) for source in sources))
        first = ctypes.c_char.from_buffer(room)
        lengths = struct.pack(f"<{len(batch)}Q", *map(len, sources))
        size = ask(b"".join(sources), lengths, len(batch), ctypes.addressof(first))
        if size == 0:
            sys.exit("card: no memory for the cards")
        if b"".join(expected) != memoryview(room)[:size]:
            tell(batch, expected, room[:size], differences)
    for record, count in times.items():
        for name in what(record):
            figures[name] += count


def tell(batch, expected, answers, differences):
    """Which of the cards differ, as far as there are answers."""
    at = 0
    for (group, source), wanted in zip(batch, expected):
        if at == len(answers):
            return
        found, end = unpacked(answers, at)
        if answers[at:end] != wanted:
            differences.add(group, f"{len(source)} bytes ({group}), {source.hex()}", unpacked(wanted, 0)[0], found)
        at = end


# ---- A card of more than 2^32 bytes


def compare_repeated(library, differences):
    """Whether there was one."""
    ask = bind(library, "repeated", c_int, c_char_p, c_size_t, c_size_t, c_size_t, c_size_t, c_void_p, c_void_p)
    record = inputs.record(model.LOWPASS, (inputs.THOUSAND, inputs.EIGHT_THOUSAND, model.KAISER, inputs.NANS[4], 31))
    block = record * (64 * mmap.PAGESIZE)
    copies = 2**32 // len(block) + 1
    whole = copies * len(block)
    reading, card = ctypes.create_string_buffer(READING.size), ctypes.create_string_buffer(CARD.size)
    # Of the first length's bytes the lower half says 5, which would be none of a head; the last record is cut short.
    if not ask(block, len(block), copies, 2**32 + 5, 1, reading, card):
        return False
    ticket, _, report = model.read(record)
    tickets, place = whole // len(record) - 1, whole - len(record)
    if READING.pack(*ticket, *report) + CARD.pack(tickets, place, *model.CUT_SHORT) != reading.raw + card.raw:
        found, (count, end, *last) = READING.unpack(reading.raw), CARD.unpack(card.raw)
        sides = (
            ([(ticket, report, "")], tickets, place, model.CUT_SHORT),
            ([(found[:6], found[6:], "")], count, end, last),
        )
        must, found = (shown(at, n, last, readings) for readings, n, at, last in sides)
        differences.add("repeated", f"{whole - 1} bytes, {record.hex()} again and again", must, found)
    return True


# ---- The sample cards


def compare_samples(library, figures, differences):
    """That the cards of examples/card are as their list says: every ticket's number, and that of the broken card."""
    judge = bind(library, "pel_judge_ticket", Report, Ticket)
    sample, broken = (model.check((EXAMPLES / name).read_bytes()) for name in SAMPLES)
    numbers = runpy.run_path(str(EXAMPLES / "make.py"))["NUMBERS"]
    kinds = {ticket[0] for ticket, _ in sample.readings[:-1]}
    windows = {ticket[3] for ticket, _ in sample.readings if ticket[0] == model.LOWPASS}
    if sample.report.number != 0 or sample.tickets != len(numbers) or kinds != set(model.FIELDS) or len(windows) != 4:
        sys.exit("card: examples/card/sample.card isn't a whole card of every kind and every window")
    if broken.report.number != 12 or broken.tickets == 0 or not any(numbers):
        sys.exit("card: examples/card/broken.card isn't cut short behind whole records, or no sample is refused")
    for (kind, *fields), _ in sample.readings[:-1]:
        number = judge(Ticket(kind, (c_uint64 * 5)(*fields))).number
        figures["samples"] += 1
        if number != numbers[figures["samples"] - 1]:
            call = f"pel_judge_ticket, ticket {figures['samples']} of examples/card/sample.card"
            differences.add("samples", call, f"number {numbers[figures['samples'] - 1]}", f"number {number}")


# ---- The figures


def line(f):
    kinds = ", ".join(f"{f[f'kind {kind}']} of kind {kind}" for kind in model.FIELDS)
    windows = ", ".join(str(f[f"window {window}"]) for window in range(4))
    as_they_were = sum(f[f"kind {kind} back as it was"] for kind in model.FIELDS)
    return (
        f"card: {f['cards']} cards (seed {inputs.SEED}), {f['whole']} whole and {f['empty']} empty; {f['readings']} "
        f"readings; tickets: {kinds}, with the windows 0 to 3 {windows}, {f['NaNs']} NaNs and {f['infinities']} "
        f"infinities; written back: {as_they_were} byte for byte, {f['betas dropped']} but for a beta that is dropped; "
        f"7: {f['7']}, 12: {f['12 in a head']} in a head and {f['12 in a body']} in a body, 13: {f['13']}, "
        f"14: {f['14']}; every two faults at once, at least {min(f[f'faults: {pair}'] for pair in PAIRS)} of each"
    )


def main(words):
    if not words or words[1:] not in ([], ["--all"]):
        print("usage: compare.py SHARED [--all]", file=sys.stderr)
        return 64
    library = ctypes.CDLL(words[0])
    figures, differences = Counter(), Differences(len(words) > 1)
    hold_the_model()
    writes.hold_the_model()
    compare_samples(library, figures, differences)
    compare_cards(library, figures, differences)
    if not compare_repeated(library, differences):
        print("card: a card of 4 GiB: skipped, it can't be mapped here")
    of_cards = differences.count
    writes.compare_writes(library, figures, differences)
    if not writes.compare_untouched(library, differences):
        print("card: a buffer of 4 GiB: skipped, it can't be mapped here")
    few = [f"{name} {figures[name]}, not {least} or more" for name, least in LEAST.items() if figures[name] < least]
    print(f"{line(figures)}; {of_cards} differ")
    print(f"{writes.line(figures)}; {differences.count - of_cards} differ")
    if differences.count:
        print("card: by group: " + ", ".join(f"{name} {count}" for name, count in differences.groups.items()))
    if few:
        print(f"card: the inputs reach too little: {'; '.join(few)}")
    return 1 if differences.count or few else 0


if __name__ == "__main__":
    sys.exit(main(sys.argv[1:]))
