#!/usr/bin/env python3
"""Works out what the programs of examples/c must print, by the formulas of the papers and nothing of the library.

    expected.py NAME       the text of one program, as in examples/c/expected/NAME; README is the README's first filter
    expected.py --check    holds every text of examples/c/expected to this
    expected.py --write    writes them all

The formulas are Kaiser's, those of the RBJ Audio EQ Cookbook and the textbooks' pulses and windows; limits, refusals
and their order are the scope document's. They are worked out as they stand in the books, with 50 decimal places, and
not in the order of operations that the library has. So no printed digit may hang on the last places of a double: a
number that lies so near the middle between two printed ones that rounding could turn it is an error here. Python's
standard library alone.
"""

import difflib
import math
import struct
import sys
from decimal import Decimal as D
from decimal import getcontext
from fractions import Fraction as F
from pathlib import Path

# The reader of cards by the request's text, which stands there.
sys.path.append(str(Path(__file__).resolve().parent / "card"))
import model as cards  # noqa: E402

getcontext().prec = 50
FOLDER = Path(__file__).resolve().parent.parent / "examples" / "c" / "expected"
TINY = D(10) ** -45
LARGEST = (2 - D(2) ** -52) * D(2) ** 1023  # of the doubles


# ---- Numbers


def real(x):
    """A fraction or a decimal in text, as a decimal of 50 places."""
    x = F(x)
    return D(x.numerator) / D(x.denominator)


def arctangent_of_inverse(n):
    total, power, k = D(0), D(1) / n, 0
    while abs(power) > TINY * TINY:
        total += power / (2 * k + 1) * (-1) ** k
        power /= n * n
        k += 1
    return total


PI = 4 * (4 * arctangent_of_inverse(5) - arctangent_of_inverse(239))  # Machin


def cos(x):
    """The cosine by its series, of x less whole turns."""
    x = x - 2 * PI * (x / (2 * PI)).to_integral_value()
    term, total, k = D(1), D(1), 0
    while abs(term) > TINY:
        k += 2
        term *= -x * x / (k * (k - 1))
        total += term
    return D(0) if abs(total) < TINY * 100 else total


def sin(x):
    return cos(x - PI / 2)


def tan(x):
    return sin(x) / cos(x)


def sinc(x):
    """sin(pi x)/(pi x) of a fraction; 0 at whole numbers but 0."""
    if x == 0:
        return D(1)
    return D(0) if x.denominator == 1 else sin(PI * real(x)) / (PI * real(x))


def bessel_i0(x):
    """The sum of ((x/2)^k/k!)^2."""
    term, total, k = D(1), D(1), 0
    while term > TINY * total:
        k += 1
        term *= (x / (2 * k)) ** 2
        total += term
    return total


def settled(x):
    """Whether that series is settled: one of its first 500 terms is below 1e-17 of the sum, and the sum is finite. It
    must not hang on the last places."""
    term, total = D(1), D(1)
    for k in range(1, 501):
        term *= (x / (2 * k)) ** 2
        total += term
        if term < D("1e-17") * total:
            assert abs(total / LARGEST - 1) > D("1e-6"), f"the series at {x} is next to the largest double"
            return total < LARGEST
    return False


def ceiling(x):
    """The whole number above; it must not hang on the last places."""
    whole = int(x.to_integral_value(rounding="ROUND_CEILING"))
    assert min(whole - x, x - (whole - 1)) > D("1e-6"), f"{x} is next to a whole number"
    return whole


def floor(x):
    whole = int(x.to_integral_value(rounding="ROUND_FLOOR"))
    assert min(x - whole, whole + 1 - x) > D("1e-6"), f"{x} is next to a whole number"
    return whole


def single(x):
    """The float next to x, ties to even."""
    if x == 0:
        return x
    power = F(2) ** (24 - math.frexp(x)[1])
    moved = F(x) * power
    assert 2**23 <= abs(moved) < 2**24
    return real(round(moved) / power)


def show(x, places, width=0):
    """x as C's %WIDTH.PLACESf prints it; a program's number is off x by less than 1e-10."""
    moved = abs(x) * 10**places
    assert abs(moved - int(moved) - D("0.5")) > D("1e-10") * 10**places, f"{x} is half way at {places} places"
    return f"{x:{width}.{places}f}"


def short(x):
    """x as C's %g prints it."""
    return "%g" % float(x)


# ---- Windows, by the place i of n samples


def hann(i, n):
    return D("0.5") - D("0.5") * cos(2 * PI * i / n)


def hamming(i, n):
    return D("0.54") - D("0.46") * cos(2 * PI * i / n)


def blackman(i, n):
    a = 2 * PI * i / n
    return D("0.42") - D("0.5") * cos(a) + D("0.08") * cos(2 * a)


def blackman_harris(i, n):
    a = 2 * PI * i / n
    return D("0.35875") - D("0.48829") * cos(a) + D("0.14128") * cos(2 * a) - D("0.01168") * cos(3 * a)


class Kaiser:
    """Kaiser's window; it is 1, and takes no series, where n, the length divisor, is 0."""

    def __init__(self, beta):
        self.beta = D(beta)
        self.norm = bessel_i0(self.beta)

    def argument(self, i, n):
        return self.beta * (1 - (D(2 * i) / n - 1) ** 2).sqrt()

    def __call__(self, i, n):
        return bessel_i0(self.argument(i, n)) / self.norm if n != 0 else D(1)

    def judge(self, n, elements):
        """beta, and then each series that so many elements take."""
        if self.beta < 0:
            raise Refused(4)
        if n != 0 and not all(map(settled, [self.beta, *(self.argument(i, n) for i in range(elements))])):
            raise Refused(16)


class Cosines:
    """A customer's own window of these numbers in text, each taken as the double next to it; the sum is exact. It is 1
    where n, the length divisor, is 0."""

    def __init__(self, *numbers):
        doubles = [F(float(x)) for x in numbers]
        if not 1 <= len(doubles) <= 5:
            raise Refused(17, 1, 5, len(doubles))
        for x in doubles:
            if abs(x) > 1:
                raise Refused(18, -1, 1, x)
        if abs(sum(doubles) - 1) > F(1, 2**40):
            raise Refused(19)
        self.numbers = [real(x) for x in doubles]

    def __call__(self, i, n):
        if n == 0:
            return D(1)
        return sum((-1) ** k * c * cos(2 * PI * i * k / n) for k, c in enumerate(self.numbers))


# ---- Kaiser's formulas


def kaiser_beta(attenuation):
    a = real(attenuation)
    if a > 50:
        return D("0.1102") * (a - D("8.7"))
    if a >= 21:
        over = a - 21
        power = (over.ln() * 2 / 5).exp() if over else D(0)
        return D("0.5842") * power + D("0.07886") * over
    return D(0)


def kaiser_taps(attenuation, width):
    """How many taps for a transition of so many radians a sample."""
    return ceiling((real(attenuation) - D("7.95")) / (D("2.285") * width) + 1)


def odd_taps(attenuation, transition, rate):
    return kaiser_taps(attenuation, 2 * PI * real(F(transition) / F(rate))) | 1


def halfband_taps_needed(transition, attenuation, rate):
    n = odd_taps(attenuation, transition, rate)
    return n + 2 if n % 4 == 1 else n


# ---- Designs: lists of taps, or the refusal in their place


class Refused(Exception):
    """A refusal: its number, and what it carries."""

    def __init__(self, number, *carried):
        super().__init__(number)
        self.number = number
        self.carried = carried


def refusal_of(design, *ticket):
    """The refusal that a ticket must meet."""
    try:
        design(*ticket)
    except Refused as refused:
        return refused
    raise AssertionError(f"{design.__name__}{ticket} is accepted")


def divided(raw):
    total = sum(raw)
    if total == 0:
        raise Refused(10)
    return [x / total for x in raw]


def lowpass(cutoff, rate, window, n):
    cutoff, rate = F(cutoff), F(rate)
    if not rate > 0:
        raise Refused(1)
    if not 0 < cutoff / rate < F(1, 2):
        raise Refused(2, 0, rate / 2, cutoff)
    if not 1 <= n <= 2**24:
        raise Refused(6)
    if isinstance(window, Kaiser):
        window.judge(n - 1, n)
    edge = 2 * cutoff / rate
    return divided([real(edge) * sinc(edge * (i - F(n - 1, 2))) * window(i, n - 1) for i in range(n)])


def spec_taps(cutoff, transition, attenuation, rate, most):
    cutoff, transition, rate = F(cutoff), F(transition), F(rate)
    if not rate > 0:
        raise Refused(1)
    if not transition > 0:
        raise Refused(3, 0, rate / 2, transition)
    if not 0 < cutoff <= (rate - transition) / 2:
        raise Refused(2, 0, (rate - transition) / 2, cutoff)
    n = odd_taps(attenuation, transition, rate)
    if most < n:
        raise Refused(9, n, most)
    return n


def spec(cutoff, transition, attenuation, rate, most, room):
    n = spec_taps(cutoff, transition, attenuation, rate, most)
    if room != n:
        raise Refused(8, n, room)
    return lowpass(cutoff, rate, Kaiser(kaiser_beta(attenuation)), n)


def halfband(beta, n):
    if n % 4 != 3:
        raise Refused(6)
    whole = lowpass("1/4", 1, Kaiser(beta), n)
    middle = (n - 1) // 2
    kept = [D(0) if i != middle and (i - middle) % 2 == 0 else whole[min(i, n - 1 - i)] for i in range(n)]
    return divided(kept)


def gaussian(bt, samples, span, room_bytes):
    if room_bytes % 8:
        raise Refused(8, room_bytes - room_bytes % 8, room_bytes)
    bt = F(bt)
    if not F("0.2") <= bt <= 1:
        raise Refused(5, F("0.2"), 1, bt)
    if not 2 <= span <= 8:
        raise Refused(6, 2, 8, span)
    if not 2 <= samples <= (2**24 - 1) // span:
        raise Refused(6, 2, (2**24 - 1) // span, samples)
    n = samples * span + 1
    if room_bytes != 8 * n:
        raise Refused(8, n, room_bytes // 8)
    steep = 2 * (PI * real(bt)) ** 2 / D(2).ln()
    return divided([(-steep * real(F(2 * i - (n - 1), 2 * samples)) ** 2).exp() for i in range(n)])


def rrc(rolloff, samples, span):
    b = F(rolloff)
    if not F("0.05") <= b <= 1:
        raise Refused(5, F("0.05"), 1, b)
    if not 2 <= samples <= 1024:
        raise Refused(6, 2, 1024, samples)
    if not 4 <= span <= 32:
        raise Refused(6, 4, 32, span)

    def at(t):
        r, x = real(b), real(t)
        if t == 0:
            return 1 - r + 4 * r / PI
        if abs(4 * b * t) == 1:
            corner = PI / (4 * r)
            return r / D(2).sqrt() * ((1 + 2 / PI) * sin(corner) + (1 - 2 / PI) * cos(corner))
        above = sin(PI * x * (1 - r)) + 4 * r * x * cos(PI * x * (1 + r))
        return above / (PI * x * (1 - (4 * r * x) ** 2))

    n = samples * span + 1
    raw = [at(F(2 * i - (n - 1), 2 * samples)) for i in range(n)]
    energy = sum(x * x for x in raw)
    return [x / energy.sqrt() for x in raw]


def channelizer_judged(channels, passband, stopband, attenuation):
    passband, stopband, attenuation = F(passband), F(stopband), F(attenuation)
    if channels not in (4, 8, 16, 32, 64, 128, 256):
        raise Refused(6)
    if not passband > 0 or not passband < stopband <= F("1.5"):
        raise Refused(2)
    if not 20 <= attenuation <= 120:
        raise Refused(4, 20, 120, attenuation)


def channelizer_taps(channels, passband, stopband, attenuation):
    channelizer_judged(channels, passband, stopband, attenuation)
    return kaiser_taps(attenuation, 2 * PI * real((F(stopband) - F(passband)) / channels))


def channelizer(channels, branch, passband, stopband, attenuation):
    if not 4 <= branch <= 32:
        raise Refused(6)
    channelizer_judged(channels, passband, stopband, attenuation)
    cutoff = (F(passband) + F(stopband)) / (2 * channels)
    return lowpass(cutoff, 1, Kaiser(kaiser_beta(attenuation)), channels * branch)


# ---- Sections


def section(response, w0, alpha):
    """The cookbook's b0, b1, b2, a1, a2 over its a0."""
    c = cos(w0)
    b = {
        0: [(1 - c) / 2, 1 - c, (1 - c) / 2],
        1: [(1 + c) / 2, -(1 + c), (1 + c) / 2],
        2: [alpha, D(0), -alpha],
        3: [D(1), -2 * c, D(1)],
    }[response]
    return [x / (1 + alpha) for x in [*b, -2 * c, 1 - alpha]]


def biquad(response, centre, q, rate):
    centre, q, rate = F(centre), F(q), F(rate)
    if response not in (0, 1, 2, 3):
        raise Refused(7)
    if not 0 < centre < rate / 2:
        raise Refused(2, 0, rate / 2, centre)
    if not q > 0:
        raise Refused(5, 0, float("inf"), q)
    w0 = 2 * PI * real(centre / rate)
    return section(response, w0, sin(w0) / (2 * real(q)))


def butterworth(response, order, cutoff, rate, sections):
    """The analogue filter's poles, which lie on a circle at pi/order from each other and mirrored at the real axis, by
    the bilinear transform: each pair, at an angle of a to that axis, with alpha = sin w0 cos a, the lowest quality
    first, and then the pole on the axis, where the order is odd: 1/(1 + s), or s/(1 + s) for a high-pass, with
    s = (1 - z)/(1 + z)/t, z one sample's delay and t = tan(w0/2)."""
    if response not in (0, 1):
        raise Refused(7)
    if not 2 <= order <= 8:
        raise Refused(6)
    if sections != (order + 1) // 2:
        raise Refused(8, 5 * ((order + 1) // 2), 5 * sections)
    w0 = 2 * PI * real(F(cutoff) / F(rate))
    angles = [PI * k / (2 * order) for k in range(1 if order % 2 == 0 else 2, order, 2)]
    made = [section(response, w0, sin(w0) * cos(a)) for a in angles]
    if order % 2 == 1:
        t = tan(w0 / 2)
        b = (t if response == 0 else 1) / (1 + t)
        made.append([b, b if response == 0 else -b, D(0), (t - 1) / (t + 1), D(0)])
    return made


def preemphasis(tau, rate):
    """(1 + s tau)/(1 + s tau_p) with a pole at rate/2.4, by the bilinear transform."""
    tau, rate = F(tau), F(rate)
    if not 0 < tau <= F("0.001"):
        raise Refused(5, 0, F("0.001"), tau)
    if not rate >= 40000:
        raise Refused(1, 40000, float("inf"), rate)
    k = 2 * real(rate)
    up, down = k * real(tau), k / (2 * PI * real(rate / F("2.4")))
    return [(1 + up) / (1 + down), (1 - up) / (1 + down), (1 - down) / (1 + down)]


def passes(c, w):
    """The magnitude of a section at w radians a sample."""
    above = (c[0] + c[1] * cos(w) + c[2] * cos(2 * w)) ** 2 + (c[1] * sin(w) + c[2] * sin(2 * w)) ** 2
    below = (1 + c[3] * cos(w) + c[4] * cos(2 * w)) ** 2 + (c[3] * sin(w) + c[4] * sin(2 * w)) ** 2
    return (above / below).sqrt()


# ---- Formats


def q15_window(x):
    """A window's sample: halves go up, and 1 is held to 32767."""
    return max(-32768, min(32767, floor(x * 32768 + D("0.5"))))


def to_q15(numbers):
    limit = (1 - D(1) / 32768) * D("1.01")
    done = []
    for x in numbers:
        if abs(x) > limit:
            return done, Refused(11, len(done), x, -limit, limit)
        done.append(q15_window(x))
    return done, None


def to_q14(numbers):
    done = []
    for x in numbers:
        number = floor(x * 16384 + D("0.5"))
        if not -32768 <= number <= 32767:
            return done, Refused(11, len(done), x, D(-2), 2 - D(1) / 16384)
        done.append(number)
    return done, None


# ---- What each program prints


def taps_and_sum(taps):
    return [*(show(x, 4, 7) for x in taps), f"sum {show(sum(taps), 4)}"]


def refused_range(text, refused):
    """The text with the value that was offered, the smallest and the largest."""
    smallest, largest, offered = map(short, refused.carried)
    return f"refused with {refused.number}: " + text.format(offered, smallest, largest)


def print_readme():
    yield f"number 0, middle tap {show(lowpass(1000, 8000, hamming, 31)[15], 6)}"


def half_samples(taps):
    """The delay of taps that mirror about their middle: twice their mean place, each tap weighed by its value."""
    return 2 * sum(i * x for i, x in enumerate(taps)) / sum(taps)


def print_lowpass():
    taps = lowpass(1000, 8000, hamming, 7)
    yield f"{len(taps)} taps, a delay of {show(half_samples(taps), 0)} half samples"
    yield from taps_and_sum(taps)
    yield refused_range("a cutoff of {} isn't between {} and {}", refusal_of(lowpass, 4000, 8000, hamming, 7))
    if refusal_of(lowpass, 1000, 8000, hann, 2).number == 10:
        yield "refused with 10: the taps add up to 0"
    if refusal_of(lowpass, 1000, 8000, Kaiser(1000), 7).number == 16:
        yield f"refused with 16: a series doesn't settle at beta {short(1000)}"
    beta = kaiser_beta(60)
    yield f"beta {show(beta, 4)}: middle tap {show(lowpass(1000, 8000, Kaiser(beta), 7)[3], 4)}"


def print_retune():
    def tell(turn, to, taps):
        def passed(f):
            middle = F(len(taps) - 1, 2)
            return abs(sum(t * cos(2 * PI * real(F(f, 8000) * (i - middle))) for i, t in enumerate(taps)))

        shown = [show(passed(500), 3), show(passed(1000), 3), show(passed(1500), 3), show(passed(3000), 5)]
        numbers = "passes {} of 500 Hz, {} of 1000, {} of 1500, {} of 3000".format(*shown)
        yield f"{turn} {short(to):>4}: {numbers}"

    # The numbers that were accepted last: a cutoff from one turn, a beta from another.
    cutoff, beta = 1000, 5
    yield from tell("cutoff", cutoff, lowpass(cutoff, 8000, Kaiser(beta), 31))
    for turned in (800, 1200, 4000, 1500):
        try:
            yield from tell("cutoff", turned, lowpass(turned, 8000, Kaiser(beta), 31))
            cutoff = turned
        except Refused as refused:
            smallest, largest, offered = map(short, refused.carried)
            yield f"cutoff {offered}: refused with 2, it isn't between {smallest} and {largest}; the taps stay"
            assert refused.number == 2
    for turned in (2, 8, -1):
        try:
            yield from tell("beta  ", turned, lowpass(cutoff, 8000, Kaiser(turned), 31))
            beta = turned
        except Refused as refused:
            yield f"beta {turned}: refused with {refused.number}; the taps stay"
    yield f"at the end cutoff {cutoff}, beta {beta}, the series at beta {show(bessel_i0(D(beta)), 4)}"


def print_cosines():
    taps_of = {}

    def load(name, *numbers):
        try:
            window = Cosines(*numbers)
        except Refused as refused:
            if refused.number == 19:
                return f"{name}: refused with 19: the coefficients don't add up to 1"
            words = {17: "{} coefficients aren't {} to {}", 18: "{} isn't from {} to {}"}[refused.number]
            return f"{name}: " + refused_range(words, refused)
        taps_of[name] = lowpass(1000, 8000, window, 63)
        return f"{name}: loaded, {len(numbers)} coefficients"

    def tell(name):
        def passed(f):
            return abs(sum(t * cos(2 * PI * f * (i - 31) / 8000) for i, t in enumerate(taps_of[name])))

        shown = [show(passed(800), 4), show(passed(1000), 4), show(passed(1200), 4), show(passed(1500), 6)]
        return f"{name}: " + "passes {} of 800 Hz, {} of 1000, {} of 1200, {} of 1500".format(*shown)

    rest = "0.41663158", "0.277263158", "0.083578947", "0.006947368"
    yield load("Nuttall", "0.355768", "0.487396", "0.144232", "0.012604")
    yield tell("Nuttall")
    yield load("a printed flat top", "0.21557895", *rest)
    yield load("a flat top", "0.215578947", *rest)
    yield tell("a flat top")
    yield load("Blackman", "0.42", "0.5", "0.08")
    yield tell("Blackman")
    # By decimals, which are off the doubles by less than 1e-16.
    coded = lowpass(1000, 8000, blackman, 63)
    if all(abs(x - y) < D("1e-15") for x, y in zip(taps_of["Blackman"], coded)):
        yield "Blackman by its code: the same taps"
    yield load("six numbers", "0.5", "0.5", "0", "0", "0", "0")
    yield load("a steep one", "0.5", "-0.25", "0.25", "-0.5", "1.25")
    if refusal_of(lowpass, 1000, 8000, lambda i, n: D(0), 63).number == 10:
        yield "what it left: refused with 10: the taps add up to 0"


def print_card():
    def by_code(cutoff, rate, window, beta, n):
        return lowpass(cutoff, rate, (hann, hamming, blackman, Kaiser(beta))[window], n)

    def held(count, room):
        """A ticket that says how many taps it has is held to its buffer before it is designed, and its record to the
        buffer that it is written into."""
        if count != room:
            raise Refused(8, count, room)

    # Of each kind that is on the card its name, the form of its fields and its design.
    kinds = {1: ("low-pass", "ddQdQ", by_code), 3: ("half-band", "dQ", halfband), 5: ("root-raised cosine", "dQQ", rrc)}
    tickets = (1, 1000, 8000, 1, 8, 7), (3, 8, 31), (5, 0.5, 4, 8), (1, 5000, 8000, 3, 8, 7)

    def record(kind, *fields):
        return struct.pack(f"<IH{kinds[kind][1]}", 2 + 8 * len(fields), kind, *fields)

    def check(name, source):
        _, n, place, report = cards.check(source)
        if report.number == 0:
            return f"{name}: whole, tickets: {n}"
        return f"{name}: refused with {report.number} at byte {place}, tickets before it: {n}"

    def changed(at, to):
        return card[:at] + bytes([to]) + card[at + 1 :]

    def listed(source):
        at = 0
        for (kind, *bits), report in cards.check(source).readings[:-1]:
            name, form, design = kinds[kind]
            fields = struct.unpack(f"<{form}", struct.pack(f"<{len(form)}Q", *bits[: len(form)]))
            try:
                judged = f"{len(design(*fields))} taps"
            except Refused as refused:
                judged = refused_range("{} isn't between {} and {}", refused)
            yield f"byte {at}: {name} {' '.join(map(short, fields))}: {judged}"
            at += report.count

    card = b"".join(record(*ticket) for ticket in tickets)
    yield check("the card", card)
    yield from listed(card)
    yield from (show(x, 4, 7) for x in by_code(*tickets[0][1:]))
    yield "refused with {}: a buffer for {} taps, not {}".format(8, *refusal_of(held, 7, 6).carried)
    last = record(1, 500, *tickets[3][2:])
    corrected = card[: -len(last)] + last
    yield check("the corrected card", corrected)
    yield list(listed(corrected))[3]
    yield "refused with {}: a buffer of {} bytes, not {}".format(8, *refusal_of(held, len(last), len(card)).carried)
    second = len(record(*tickets[0]))
    yield check("a byte too few", card[:-1])
    yield check("kind 7", changed(second + 4, 7))
    yield check("a length that counts itself", changed(second, 4 + card[second]))
    yield check("window 4", changed(4 + 2 + 2 * 8, 4))


def print_spec():
    ticket = 1000, 100, 60, 8000
    taps = spec(*ticket, 512, spec_taps(*ticket, 512))
    yield f"{len(taps)} taps, beta {show(kaiser_beta(60), 5)}"
    for hertz in 950, 1000, 1050:
        step = 2 * PI * hertz / 8000
        passed = abs(sum(x * cos(step * (i - real(F(len(taps) - 1, 2)))) for i, x in enumerate(taps)))
        yield f"{hertz:4d} Hz: {show(passed, 4)}"
    yield "refused with {}: {} taps needed, {} allowed".format(9, *refusal_of(spec, *ticket, 128, 128).carried)
    yield "refused with {}: a buffer for {} taps, not {}".format(8, *refusal_of(spec, *ticket, 512, 100).carried)
    if refusal_of(spec_taps, 1000, 100, 60, -8000, 512).number == 1:
        yield "refused with 1: the rate must be finite and positive"


def print_halfband():
    beta = kaiser_beta(40)
    taps = halfband(beta, halfband_taps_needed(2000, 40, 8000))
    products = sum(x != 0 for x in taps[: len(taps) // 2 + 1])
    yield f"{len(taps)} taps, {products} products a sample"
    yield from taps_and_sum(taps)
    if refusal_of(halfband, beta, 9).number == 6:
        yield "refused with 6: 9 taps aren't 3 mod 4"


def print_gaussian():
    taps = gaussian("0.5", 4, 2, 72)
    yield f"{len(taps)} taps"
    yield from taps_and_sum(taps)
    yield "refused with {}: a buffer for {} taps, not {}".format(8, *refusal_of(gaussian, "0.5", 4, 2, 64).carried)
    yield "refused with {}: {} bytes, not {}".format(8, *refusal_of(gaussian, "0.5", 4, 2, 71).carried)
    yield refused_range("a bandwidth of {} isn't {} to {}", refusal_of(gaussian, "0.1", 4, 2, 72))


def print_rrc():
    taps = rrc("0.5", 4, 8)

    def pair(distance):
        return sum(x * y for x, y in zip(taps, taps[distance:]))

    yield f"{len(taps)} taps, around the middle:"
    yield from (show(x, 4, 7) for x in taps[12:21])
    yield f"energy {show(pair(0), 4)}"
    yield f"half a symbol away {show(pair(2), 3)}, a symbol away {show(pair(4), 3)}"
    yield refused_range("a span of {} isn't {} to {}", refusal_of(rrc, "0.5", 4, 2))


def print_channelizer():
    edges = "0.5", 1, 60
    needed = channelizer_taps(16, *edges)
    branch = -(-needed // 16)
    taps = channelizer(16, branch, *edges)
    yield f"{needed} taps needed, {branch} a branch: {len(taps)}"
    delay = half_samples(taps)
    came_in = show(1000 - delay / 2, 1)
    yield f"a delay of {show(delay, 0)} half samples: what comes out at sample 1000 came in at {came_in}"
    sums = [show(sum(taps[k::16]), 4) for k in range(16)]
    yield " ".join(sums[:8])
    yield " ".join(sums[8:])
    yield f"sum {show(sum(taps), 4)}"
    yield refused_range("{} dB aren't {} to {}", refusal_of(channelizer, 16, branch, "0.5", 1, 130))


def print_biquad():
    for response, name in enumerate(["low-pass", "high-pass", "band-pass", "notch"]):
        c = biquad(response, 8000, 2, 48000)
        told = [show(passes(c, w), 2) for w in (D(0), PI / 3, PI)]
        numbers = " ".join(show(x, 4, 7) for x in c)
        yield f"{name:9s} {numbers}; passes {told[0]} of 0 Hz, {told[1]} of 8000, {told[2]} of 24000"
    yield refused_range("a centre of {} isn't between {} and {}", refusal_of(biquad, 3, 24000, 2, 48000))
    if refusal_of(biquad, 4, 8000, 2, 48000).number == 7:
        yield "refused with 7: there is no response 4"


def print_butterworth():
    for response, order, name in (0, 4, "low"), (1, 3, "high"):
        yield f"a {name}-pass of order {order}"
        for c in butterworth(response, order, 8000, 48000, 2):
            yield " ".join(show(x, 4, 7) for x in c)
        for hertz in range(0, 16001, 4000):
            above = (tan(PI * hertz / 48000) / tan(PI * 8000 / 48000)) ** (2 * order)
            yield f"{short(hertz):>5} Hz: {show((1 / (1 + above) if response == 0 else above / (1 + above)).sqrt(), 4)}"
    if refusal_of(butterworth, 0, 9, 8000, 48000, 2).number == 6:
        yield "refused with 6: the order must be 2 to 8"
    refused = refusal_of(butterworth, 0, 5, 8000, 48000, 2)
    yield f"refused with {refused.number}: order 5 has {refused.carried[0]} numbers, not {refused.carried[1]}"
    if refusal_of(butterworth, 3, 4, 8000, 48000, 2).number == 7:
        yield "refused with 7: a Butterworth filter is a low-pass or a high-pass"


def print_preemphasis():
    b0, b1, a1 = preemphasis("50e-6", 48000)
    yield f"b0 {show(b0, 4)}, b1 {show(b1, 4)}, a1 {show(a1, 4)}"
    yield f"passes {show((b0 + b1) / (1 + a1), 4)} of 0 Hz, {show((b0 - b1) / (1 - a1), 4)} of 24000"
    before, y = 0, D(0)
    for _ in range(5):
        y = b0 + b1 * before - a1 * y
        before = 1
        yield show(y, 4, 7)
    yield refused_range("a rate of {} isn't {} to {}", refusal_of(preemphasis, "50e-6", 8000))
    refused = refusal_of(preemphasis, "0.05", 48000)
    yield refused_range("a time constant of {} isn't above {} and at most {}", refused)


def print_window():
    yield from (show(single(hann(i, 8)), 4) for i in range(8))
    shapes = ("Hann", hann), ("Blackman-Harris", blackman_harris), ("Kaiser, beta 8", Kaiser(8))
    for name, shape in shapes:
        samples = [single(shape(i, 1024)) for i in range(1024)]
        total = sum(samples)
        bandwidth = 1024 * sum(x * x for x in samples) / total**2
        yield f"{name:15s} gain {show(total / 1024, 5)}, bandwidth {show(bandwidth, 5)}"
    yield from (str(q15_window(hann(i, 4))) for i in range(5))
    yield "refused with 4: beta must be finite and not negative"


def print_formats():
    def eleven(refused):
        index, x, smallest, largest = refused.carried
        return f"refused with 11: number {index} is {show(x, 4)}, not {show(smallest, 4)} to {show(largest, 4)}"

    taps = gaussian("0.5", 4, 2, 72)
    for i, (x, q) in enumerate(zip(taps, to_q15(taps)[0])):
        yield f"tap {i}: {show(single(x), 4)}, in Q15 {q}"
    notch = biquad(3, 8000, 2, 48000)
    q14, _ = to_q14(notch)
    for i, (x, q) in enumerate(zip(notch, q14)):
        yield f"coefficient {i}: {show(single(x), 4)}, in Q14 {q}"
    yield eleven(to_q15(preemphasis("50e-6", 48000))[1])
    done, refused = to_q14(biquad(3, 23999, 1000, 48000))
    yield eleven(refused)
    yield " ".join(map(str, done + q14[len(done) :]))


TEXTS = {name[6:]: text for name, text in globals().items() if name.startswith("print_")}
TEXTS["README"] = TEXTS.pop("readme")


def text_of(name):
    return "".join(line + "\n" for line in TEXTS[name]())


def check():
    names = sorted(name for name in TEXTS if name != "README")
    wrong = 0
    there = sorted(path.name for path in FOLDER.iterdir())
    if there != names:
        print(f"expected.py: the texts are of {' '.join(there)}, and worked out are {' '.join(names)}")
        wrong += 1
    for name in names:
        path = FOLDER / name
        stored = path.read_text() if path.exists() else ""
        if stored != text_of(name):
            wrong += 1
            print(f"expected.py: examples/c/expected/{name} is not what the formulas give:")
            sides = stored.splitlines(), text_of(name).splitlines()
            print("\n".join(difflib.unified_diff(*sides, "stored", "formulas", n=0, lineterm="")))
    print(f"expected.py: {len(names)} texts, {wrong} wrong")
    return wrong == 0


def main(words):
    if words == ["--check"]:
        return 0 if check() else 1
    if words == ["--write"]:
        for name in TEXTS:
            if name != "README":
                (FOLDER / name).write_text(text_of(name))
        return 0
    if len(words) == 1 and words[0] in TEXTS:
        print(text_of(words[0]), end="")
        return 0
    print(f"usage: expected.py --check | --write | {' | '.join(sorted(TEXTS))}", file=sys.stderr)
    return 64


if __name__ == "__main__":
    sys.exit(main(sys.argv[1:]))
