"""The library's cosine windows against the model: the lists of inputs.py for the loader, then its low-passes.

    compare.py SHARED [--all]

Compared by bits are the whole record, the whole report and every byte of the buffer, which is lent between guards and
at all alignments; any NaN matches any NaN. Ends with status 1 at the first difference, with the call that gave it; with
--all it goes on, and tells how many there were. The figures that it prints have least values: inputs that no longer
reach the border would hold nothing.
"""

import ctypes
import math
import mmap
import struct
import sys
from collections import Counter
from ctypes import c_double, c_size_t, c_uint32, c_uint64, c_void_p

import inputs
import model

# What the inputs must at least reach, by the names that the line of figures has.
LEAST = {
    "lists": 120000, "accepted": 50000, "8": 2500, "17": 5000, "18": 10000, "19": 40000,
    "on the border": 20000, "a step inside": 10000, "a step beyond": 10000,
    "2^-1074 inside": 4000, "2^-1074 beyond": 4000,
    "doubles err": 25000, "doubles refuse": 1500, "once rounded errs": 25000,
    "low-passes": 4000, "designs": 2500, "taps": 140000, "built in": 500,
    "tap totals": 2500, "Q15 totals": 2000,
    "refused 8": 200, "refused 1": 150, "refused 2": 200, "refused 6": 100, "refused 10": 200,
}  # fmt: skip

# ---- The library


class Report(ctypes.Structure):
    _fields_ = [("number", c_uint32), ("carries", c_uint32), ("smallest", c_double), ("largest", c_double),
                ("offered", c_double), ("expected", c_uint64), ("given", c_uint64), ("index", c_uint64),
                ("count", c_uint64), ("value", c_double)]  # fmt: skip


class Cosines(ctypes.Structure):
    _fields_ = [(f"c{k}", c_double) for k in range(5)]


class Loaded(ctypes.Structure):
    _fields_ = [("window", Cosines), ("report", Report)]


REPORT = struct.Struct("<IIdddQQQQd")
LOADED = struct.Struct("<5dIIdddQQQQd")
assert ctypes.sizeof(Report) == REPORT.size and ctypes.sizeof(Loaded) == LOADED.size and sys.byteorder == "little"


def bind(library, name, answer, *kinds):
    if not hasattr(library, name):
        sys.exit(f"cosines: the library has no {name}")
    function = getattr(library, name)
    function.restype, function.argtypes = answer, kinds
    return function


class Lent:
    """Bytes lent to the library, between guards of 24 bytes and more."""

    GUARD = 24

    def __init__(self, most):
        self.memory = bytearray(most + 2 * self.GUARD + 8)
        self.view = memoryview(self.memory)
        self.address = ctypes.addressof(ctypes.c_char.from_buffer(self.memory))

    def lend(self, content, at):
        """Puts the content there, `at` bytes from an aligned place, and gives its address."""
        start = self.GUARD + at
        self.frame = (start, len(content))
        whole = self.framed(content)
        self.view[: len(whole)] = whole
        return self.address + start

    def framed(self, content):
        return b"\xa5" * self.frame[0] + content + b"\xa5" * self.GUARD

    def content(self):
        """What is there now, or None if the guards were written to."""
        start, length = self.frame
        now = bytes(self.view[: start + length + self.GUARD])
        content = now[start : start + length]
        return content if now == self.framed(content) else None


# ---- What differs


def same(ours, theirs):
    """Two lists of numbers by bits, but for NaNs."""
    if len(ours) != len(theirs):
        return False
    for a, b in zip(ours, theirs):
        if isinstance(a, int) or isinstance(b, int):
            if a != b:
                return False
        elif struct.pack("<d", a) != struct.pack("<d", b) and not (math.isnan(a) and math.isnan(b)):
            return False
    return True


def same_bytes(ours, theirs):
    """The bytes of doubles."""
    if ours == theirs or len(ours) % 8 != 0:
        return ours == theirs
    form = f"<{len(ours) // 8}d"
    return same(struct.unpack(form, ours), struct.unpack(form, theirs))


def shown(numbers):
    """Numbers as C takes them, with the bits."""
    return ", ".join(f"{x.hex()} ({struct.unpack('<Q', struct.pack('<d', x))[0]:016X})" for x in numbers)


def told(report):
    return " ".join(f"{name} {value!r}" for name, value in zip(model.Report._fields, report))


class Differences:
    def __init__(self, go_on):
        self.go_on, self.count, self.groups = go_on, 0, Counter()

    def add(self, group, call, must, found):
        self.count += 1
        self.groups[group] += 1
        if self.count <= 10:
            print(f"cosines: {call}\n    must be {must}\n    is      {found}")
        if not self.go_on:
            print("cosines: stopped at the first difference (--all goes on)")
            sys.exit(1)


# ---- The loader


def figures_of(figures, source, number):
    """Counts what the list is."""
    figures["lists"] += 1
    figures["accepted" if number == 0 else str(number)] += 1
    where = inputs.place(source)
    if where is None:
        return
    beyond, step, in_doubles, rounded_once = where
    if beyond == 0:
        figures["on the border"] += 1
    elif abs(beyond) <= step:
        side = "beyond" if beyond > 0 else "inside"
        figures[f"a step {side}"] += 1
        if abs(beyond) == 1:
            figures[f"2^-1074 {side}"] += 1
    if in_doubles != (number == 19):
        figures["doubles err"] += 1
        if number == 0:
            figures["doubles refuse"] += 1
    if rounded_once != (number == 19):
        figures["once rounded errs"] += 1


def compare_lists(library, figures, differences):
    load = bind(library, "pel_load_cosines", Loaded, c_void_p, c_size_t)
    for number, numbers in inputs.TOLD:
        answer = model.load(inputs.packed(numbers))[1].number
        if answer != number:
            sys.exit(f"cosines: the model answers {answer} to {shown(numbers)}, and the request {number}")
    lent = Lent(1 << 16)
    for place, (group, source) in enumerate(inputs.lists()):
        window, report = model.load(source)
        figures_of(figures, source, report.number)
        answer = bytes(load(lent.lend(source, place % 8), len(source)))
        left = lent.content() == source
        if left and answer == LOADED.pack(*window, *report):
            continue
        found = LOADED.unpack(answer)
        if left and same(found, (*window, *report)):
            continue
        numbers = struct.unpack(f"<{len(source) // 8}d", source[: len(source) // 8 * 8])
        call = f"pel_load_cosines of {len(source)} bytes, list {place} ({group}), {source.hex()}: {shown(numbers)}"
        tell = f"{shown(found[:5])}; {told(found[5:])}{'' if left else '; the source was written to'}"
        differences.add(group, call, f"{shown(window)}; {told(report)}", tell)
    return load


# ---- What the rounding of taps costs

ONE = 2**1074  # in multiples of the smallest double


class Totals:
    """Demand 3 by whole numbers, of the doubles that the library wrote: the largest share of each bound."""

    def __init__(self):
        self.share = {"tap": 0.0, "Q15": 0.0}

    def hold(self, kind, figures, distance, bound, call, differences):
        figures[f"{kind} totals"] += 1
        if distance > bound:
            differences.add("totals", call, f"within its {kind} total", "further off")
        self.share[kind] = max(self.share[kind], distance * 10**12 // bound / 1e12)

    def add(self, taps, figures, call, differences):
        if not all(map(math.isfinite, taps)):
            return
        n, sizes, total = len(taps), 0, 0
        for tap in taps:
            over, under = tap.as_integer_ratio()
            multiple = over * (ONE // under)
            total += multiple
            sizes += abs(multiple)
        self.hold("tap", figures, abs(total - ONE) << 52, n * (ONE + sizes), call, differences)
        codes = [math.floor(32768.0 * tap + 0.5) for tap in taps]
        # No tap that the conversion refuses, and none that saturates.
        if min(codes) >= -32768 and max(codes) <= 32767:
            bound = n * ((ONE << 36) + ONE + sizes)
            self.hold("Q15", figures, (ONE << 37) * abs(sum(codes) - 32768), bound, call, differences)


# ---- The low-pass

EVERY_BYTE = bytes(range(256))


def compare_tickets(library, load, figures, differences):
    fill = bind(library, "pel_lowpass_cosines", Report, c_double, c_double, Cosines, c_void_p, c_size_t)
    judge = bind(library, "pel_lowpass_cosines_new", Report, c_double, c_double, Cosines, c_uint64)
    coded = bind(library, "pel_lowpass", Report, c_double, c_double, c_uint64, c_double, c_void_p, c_size_t)
    lent = Lent(8 * max(inputs.LONG))
    codes = {inputs.HANN: 0, inputs.HAMMING: 1, inputs.BLACKMAN: 2}
    totals = Totals()

    def check(call, report, must, content=None):
        """A report, and if a content is said that of the buffer."""
        found = REPORT.unpack(bytes(report))
        expected, got = "", ""
        if content is not None:
            buffer = lent.content()
            if buffer is None:
                got = "; bytes beside the buffer were written to"
            elif not same_bytes(buffer, content):
                k = next(k for k in range(len(buffer)) if buffer[k] != content[k]) // 8 * 8
                expected, got = (f"; the buffer's bytes from {k} on {b[k : k + 8].hex()}" for b in (content, buffer))
        if got or not same(found, must):
            differences.add("low-passes", call, told(must) + expected, told(found) + got)

    for place, ticket in enumerate(inputs.tickets()):
        cutoff, rate, length = ticket.cutoff, ticket.rate, ticket.length
        numbers = tuple(ticket.numbers) + (0.0,) * (5 - len(ticket.numbers))
        if ticket.loaded:
            source = inputs.packed(ticket.numbers)
            if model.load(source)[1].number != 0:
                sys.exit(f"cosines: ticket {place} has a list that isn't accepted: {shown(numbers)}")
            # The record that the loader gave, as a program has it.
            record = load(lent.lend(source, 0), len(source)).window
        else:
            record = Cosines(*numbers)
        must, taps = model.lowpass_bytes(cutoff, rate, numbers, length)
        blank = (EVERY_BYTE * (length // 256 + 2))[place % 256 :][:length]
        content = blank if taps is None else struct.pack(f"<{len(taps)}d", *taps)
        figures["low-passes"] += 1
        if must.number == 0:
            figures["designs"] += 1
            figures["taps"] += must.count
        else:
            figures[f"refused {must.number}"] += 1
        at = place % 8
        what = f"ticket {place}, ({cutoff.hex()}, {rate.hex()}, {{{shown(numbers)}}}, {length} bytes)"
        report = fill(cutoff, rate, record, lent.lend(blank, at), length)
        check(f"pel_lowpass_cosines, {what}", report, must, content)
        if report.number == 0 and lent.content() is not None:
            written = struct.unpack(f"<{length // 8}d", lent.content())
            totals.add(written, figures, f"pel_lowpass_cosines, {what}", differences)
        alone = must if length % 8 == 0 else model.lowpass(cutoff, rate, numbers, length // 8)[0]
        check(f"pel_lowpass_cosines_new for the whole taps, {what}", judge(cutoff, rate, record, length // 8), alone)
        # The windows that have a code give the same by it, and there is no code 4.
        code = codes.get(tuple(ticket.numbers)) if ticket.loaded else None
        if code is not None:
            figures["built in"] += 1
            report = coded(cutoff, rate, code, math.nan, lent.lend(blank, at), length)
            check(f"pel_lowpass with code {code}, {what}", report, must, content)
            report = coded(cutoff, rate, 4, 0.0, lent.lend(blank, at), length)
            check(f"pel_lowpass with code 4, {what}", report, model.Report(7), blank)
    limits(fill, judge, check)
    return totals


def limits(fill, judge, check):
    """The counts about 2^24 and above."""
    zeros, hann = Cosines(), Cosines(0.5, 0.5)
    most = model.MOST_TAPS
    for taps in (most + 1, 2**32, 2**32 + 5, 2**61 + 5, 2**63, 2**64 - 1):
        for cutoff, rate in (0.25, 1.0), (0.5, 1.0), (0.25, 0.0):
            must = model.lowpass(cutoff, rate, (0.5, 0.5, 0.0, 0.0, 0.0), taps)[0]
            check(f"pel_lowpass_cosines_new({cutoff}, {rate}, Hann, {taps})", judge(cutoff, rate, hann, taps), must)
    # The limit itself is judged to the end: every tap is 0.
    check(f"pel_lowpass_cosines_new(0.25, 1, zeros, {most})", judge(0.25, 1.0, zeros, most), model.Report(10))
    # One more, and a buffer of that length, which takes no memory as long as nothing is written to it.
    with mmap.mmap(-1, 8 * most + 16) as room:
        first = ctypes.c_char.from_buffer(room)
        for length, must in (8 * most + 8, model.Report(6)), (8 * most + 9, model.wrong_length(8 * most + 9)):
            report = fill(0.25, 1.0, hann, ctypes.addressof(first), length)
            check(f"pel_lowpass_cosines(0.25, 1, Hann, {length} bytes)", report, must)
        del first


# ---- The figures


def line(f):
    return (
        f"cosines: {f['lists']} lists, {f['accepted']} accepted, 8: {f['8']}, 17: {f['17']}, 18: {f['18']}, "
        f"19: {f['19']}; {f['on the border']} on the border, {f['a step inside']} at most a step inside and "
        f"{f['a step beyond']} beyond, of these {f['2^-1074 inside']} and {f['2^-1074 beyond']} by 2^-1074; "
        f"{f['doubles err']} answered otherwise by a sum in doubles, {f['doubles refuse']} of them accepted, "
        f"and {f['once rounded errs']} by one rounded once; {f['low-passes']} low-passes, {f['designs']} designs "
        f"of {f['taps']} taps, 8: {f['refused 8']}, 1: {f['refused 1']}, 2: {f['refused 2']}, 6: {f['refused 6']}, "
        f"10: {f['refused 10']}, {f['built in']} of a window that is built in too"
    )


def main(words):
    if not words or words[1:] not in ([], ["--all"]):
        print("usage: compare.py SHARED [--all]", file=sys.stderr)
        return 64
    library = ctypes.CDLL(words[0])
    figures, differences = Counter(), Differences(len(words) > 1)
    load = compare_lists(library, figures, differences)
    totals = compare_tickets(library, load, figures, differences)
    few = [f"{name} {figures[name]}, not {least} or more" for name, least in LEAST.items() if figures[name] < least]
    print(f"{line(figures)}; {differences.count} differ")
    for kind, share in totals.share.items():
        print(f"cosines: {kind} total on {figures[f'{kind} totals']} designs, at most {share:.11f} of its bound")
    if differences.count:
        print("cosines: by group: " + ", ".join(f"{name} {count}" for name, count in differences.groups.items()))
    if few:
        print(f"cosines: the inputs reach too little: {'; '.join(few)}")
    return 1 if differences.count or few else 0


if __name__ == "__main__":
    sys.exit(main(sys.argv[1:]))
