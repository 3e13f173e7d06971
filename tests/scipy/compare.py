"""The designs against SciPy and NumPy: a line for each comparison with the worst difference, where, and its bound.

Status 1 where a difference is beyond its bound. Two programs that round differently differ in the last places, so
each bound says how many of them the two roundings can give: u below is half a unit in the last place of 1, 2^-53.
The inputs are random with a fixed seed, and the edges of what is accepted.
"""
import argparse
import math
import sys
import warnings

import numpy as np
import scipy
from scipy import signal, special

from port import (BANDPASS, BLACKMAN, HAMMING, HANN, HIGHPASS, KAISER, LOWPASS, NOTCH, PERIODIC, SYMMETRIC, Port)

u = 2.0 ** -53
random = np.random.default_rng(20260)


# ---- what is held -----------------------------------------------------------------------------------

# A difference counts in units: UNITS says of which size, given the reference.
UNITS = {
    "absolute": lambda theirs: np.ones(theirs.shape),
    "of the largest": lambda theirs: np.full(theirs.shape, np.abs(theirs).max()),
    "relative": np.abs,
    "ulp": lambda theirs: np.spacing(np.abs(theirs)),
    "ulp of f32": lambda theirs: np.spacing(np.abs(theirs).astype(np.float32)).astype(np.float64),
    "different": None,
}


def shown(x):
    """Three figures; more of them for what is a half and a little."""
    return f"{x:.11f}".rstrip("0") if 0.4 < x < 0.6 else f"{x:.3g}"


def bits(values):
    return values.view({8: np.uint64, 4: np.uint32, 2: np.uint16}[values.dtype.itemsize])


class Held:
    """One comparison: the worst difference so far, and the first case, kept for a planted error."""

    rows = []
    wrong = None

    def __init__(self, name, against, unit, bound):
        self.name, self.against, self.unit, self.bound = name, against, unit, bound
        self.cases, self.worst, self.where, self.first = 0, 0.0, "-", None
        Held.rows.append(self)

    def difference(self, ours, theirs, size):
        if self.unit == "different":
            return np.count_nonzero(bits(ours) != bits(theirs))
        with np.errstate(divide="ignore", invalid="ignore"):
            apart = np.where(ours == theirs, 0.0, np.abs(ours - theirs) / size)
        return np.where(np.isnan(apart), np.inf, apart).max()

    def planted(self, ours, theirs, size):
        """Our values with one that is four bounds off, or where none is allowed its last bit."""
        ours = ours.copy()
        if self.unit == "different":
            raw = bits(ours)
            raw[len(raw) // 2] ^= raw.dtype.type(1)
        else:
            k = np.abs(theirs).argmax()
            ours[k] += 4 * self.bound * size[k]
        return ours

    def add(self, case, ours, theirs, size=None):
        ours, theirs = np.atleast_1d(ours), np.atleast_1d(theirs)
        if ours.shape != theirs.shape:
            sys.exit(f"{self.name}: {case}: {ours.shape} against {theirs.shape}")
        if self.unit != "different":
            ours, theirs = ours.astype(np.float64), theirs.astype(np.float64)
            size = UNITS[self.unit](theirs) if size is None else size
        if self.first is None:
            self.first = ours, theirs, size
            if Held.wrong == self.name:
                ours = self.planted(ours, theirs, size)
        self.cases += 1
        apart = self.difference(ours, theirs, size)
        if apart > self.worst:
            self.worst, self.where = apart, case

    def within(self):
        return self.cases > 0 and self.worst <= self.bound

    def notices(self):
        """Whether a planted error would be seen."""
        ours, theirs, size = self.first
        return self.difference(self.planted(ours, theirs, size), theirs, size) > self.bound

    def line(self):
        return (f"{self.name:<24}{self.cases:>7} cases, worst {shown(self.worst)} {self.unit}, bound "
                f"{shown(self.bound)}: {'ok' if self.within() else 'BEYOND'} ({self.against}; at {self.where})")


def must(what, true):
    """What isn't a matter of size."""
    if not true:
        sys.exit(f"comparison with SciPy: not so: {what}")


def spread(low, high):
    """A random number, its logarithm evenly spread."""
    return float(np.exp(random.uniform(np.log(low), np.log(high))))


def count(low, high):
    """A random whole number of every size."""
    return min(high, max(low, int(round(spread(low, high)))))


def odd(n):
    return n if n % 2 else n + 1


# ---- elementary functions ---------------------------------------------------------------------------

def elementary(port):
    # The reference is the C library that Python calls (glibc's is within 0.56 ulp): NumPy's own loops for AVX-512
    # may be 4 ulp off. The bounds are the true errors of docs/DIFFERENCES.md and 0.56.
    def library(function, values):
        return np.array([function(v) for v in values.tolist()])

    near = random.uniform(-2 * np.pi, 2 * np.pi, 6000)
    far = random.uniform(-2.0 ** 25, 2.0 ** 25, 6000)
    quarters = np.arange(-400, 401) * (np.pi / 4)
    edges = np.array([0.0, 5e-324, 1e-300, 1e-8, -1e-8, 2.0 ** 25, -2.0 ** 25])
    for name, function in (("sin", math.sin), ("cos", math.cos)):
        x = np.concatenate([near, far, quarters, edges])
        ours, theirs = port.each(name, x), library(function, x)
        clear = (np.abs(x) <= 1) | (np.abs(theirs) >= 2.0 ** -20)
        held = Held(name, "math." + name, "ulp", 2.62 + 0.56)
        for at, a, b in zip(x[clear], ours[clear], theirs[clear]):
            held.add(at, a, b)
        # Next to their zeros too: 1.85e-16, and 0.56 of a place below 1.
        held = Held(name + ", all", "math." + name, "absolute", 1.85e-16 + 0.56 * u)
        for at, a, b in zip(x, ours, theirs):
            held.add(at, a, b)

    x = np.concatenate([random.uniform(-700, 0, 6000), -np.exp(random.uniform(-40, 6.5, 6000)), [-700.0, 0.0, -0.0]])
    held = Held("exp", "math.exp", "ulp", 1.12 + 0.56)
    for at, a, b in zip(x, port.each("exp", x), library(math.exp, x)):
        held.add(at, a, b)

    x = random.integers(0, 0x7FF0 << 48, 6000, np.uint64).view(np.float64)
    x = np.concatenate([x, random.uniform(0, 4, 6000), [0.0, -0.0, 5e-324, 1.7976931348623157e308, np.inf, 2.25]])
    held = Held("sqrt", "numpy.sqrt", "different", 0)
    held.add("all", port.each("sqrt", x), np.sqrt(x))
    held.cases = len(x)

    # Ours is v to 2/5; the double 0.4 is 2.22e-17 above it, which counts where v is small, and is taken off.
    x = np.concatenate([random.uniform(0, 29, 6000), np.exp(random.uniform(-48, 3.3, 6000)), [29.0, 1.0, 3.6e-15]])
    held = Held("pow04", "math.pow", "ulp", 1.69 + 0.56)
    for at, a in zip(x, port.each("pow04", x)):
        b = math.pow(at, 0.4)
        held.add(at, (a - b) + b * 2.220446049250313e-17 * math.log(at), 0.0, np.spacing(np.array([b])))

    x = random.integers(0, 1 << 63, 6000, np.uint64) | (random.integers(0, 2, 6000, np.uint64) << np.uint64(63))
    x = x.view(np.float64)
    x = x[~np.isnan(x)]
    x = np.concatenate([x, random.uniform(-9, 9, 6000), np.arange(-8, 8.5, 0.5), [0.0, -0.0, np.inf, -np.inf]])
    for name in ("floor", "ceil", "fabs"):
        held = Held(name, "numpy." + name, "different", 0)
        held.add("all", port.each(name, x), getattr(np, name)(x))
        held.cases = len(x)


# ---- Kaiser's formulas ------------------------------------------------------------------------------

def kaiser(port):
    # A term is rounded three times more than the one before, a sum once more; the largest are near k = x/2. The
    # roundings of x/2/k are each their own, so they add up like a walk: 20 terms are 2 sqrt(20) 3 u, 500 are
    # 2 sqrt(500) 3 u. SciPy's Chebyshev sum adds 5 u.
    for name, xs, bound in (
            ("bessel_i0, to 20", np.concatenate([random.uniform(0, 20, 1500), [0.0, -0.0, 5e-324, 20.0]]), 32 * u),
            ("bessel_i0, to 713", np.concatenate([random.uniform(20, 713, 500), [709.0, 713.0, 713.98]]), 140 * u)):
        held = Held(name, "scipy.special.i0", "relative", bound)
        for x in xs:
            # Above 709 SciPy's own product with exp(x) overflows.
            theirs = special.i0(x) if x <= 709 else special.i0e(x) * math.exp(x - 700) * math.exp(700)
            held.add(x, port.bessel_i0(x).value, theirs)

    # Above 50 dB both do the same two operations. From 21 to 50 pow04 and pow differ by 3 places and, next to 21,
    # by 33 * 2.22e-17 (the double 0.4 isn't 2/5); the sum of two products rounds three times on either side.
    held = Held("kaiser_beta, above 50", "signal.kaiser_beta", "different", 0)
    for a in np.concatenate([random.uniform(50, 250, 500), [np.nextafter(50, 51), 1e300]]):
        held.add(a, port.kaiser_beta(a), np.float64(signal.kaiser_beta(float(a))))
    held = Held("kaiser_beta, to 50", "signal.kaiser_beta", "relative", 20 * u)
    for a in np.concatenate([random.uniform(21, 50, 1000), 21 + np.exp(random.uniform(-33, 3, 500)), [21.0, 50.0],
                             np.nextafter(21, [20, 22]), [0.0, -30.0]]):
        held.add(a, port.kaiser_beta(a), signal.kaiser_beta(float(a)))

    # SciPy rounds up and no more; ours is made odd, and for a half-band 3 mod 4.
    order = Held("kaiserord, made odd", "signal.kaiserord", "different", 0)
    length = Held("halfband_len", "signal.kaiserord", "different", 0)
    for _ in range(1000):
        rate, ripple = spread(1, 1e8), random.uniform(8, 160)
        transition = rate * spread(1e-5, 0.7)
        n = odd(signal.kaiserord(ripple, 2.0 * transition / rate)[0])
        case = f"({ripple!r}, {transition!r}, {rate!r})"
        order.add(case, np.uint64(port.kaiserord(ripple, transition, rate).count), np.uint64(n))
        length.add(case, np.uint64(port.halfband_len(transition, ripple, rate).count),
                   np.uint64(n + 2 if n % 4 == 1 else n))
    must("8 dB is the least in both", port.kaiserord(np.nextafter(8, 7), 0.1, 1).number == 4)


# ---- low-pass filters -------------------------------------------------------------------------------

WINDOWS = {HANN: "hann", HAMMING: "hamming", BLACKMAN: "blackman", KAISER: "kaiser"}


def summed(n):
    """The bound for taps divided by the sum of at most n of them, relative to the largest tap. A raw tap has a sine,
    a window and four operations: 10 u a side. The sum by rising index (NumPy's, by pairs, errs less) has roundings of
    0.29 to 0.58 u on average, about half of them before the middle and small: a walk of n/2 steps, three times whose
    average length is 3 * 0.58 sqrt(n/2) = 1.23 sqrt(n) u. Each step could go the same way; none was seen near that."""
    return (20 + 1.23 * math.sqrt(n)) * u


def lowpass(port):
    for code, window in WINDOWS.items():
        held = Held("lowpass, " + window, "signal.firwin", "of the largest", summed(1000))
        cases = [(count(2 if code in (HAMMING, KAISER) else 3, 1000), random.uniform(0.001, 0.499), spread(1, 1e9))
                 for _ in range(300)]
        cases += [(n, c, 1.0) for n in (1, 3, 4, 5, 64, 65, 1000) for c in (1e-9, 0.25, 0.499999, 0.5 - 2 * u)]
        cases += [(2, 0.25, 1.0)] if code != HANN else []
        for n, fraction, rate in cases:
            cutoff = fraction * rate
            beta = random.uniform(0, 20) if code == KAISER else 0.0
            ours = port.made("lowpass", "<f8", n, cutoff, rate, code, beta)
            theirs = signal.firwin(n, cutoff, window=("kaiser", beta) if code == KAISER else window, fs=rate)
            case = f"{n} taps, cutoff {cutoff!r}, rate {rate!r}"
            held.add(case + f", beta {beta!r}" * (code == KAISER), ours, theirs)
    with warnings.catch_warnings():
        warnings.simplefilter("ignore")
        theirs = signal.firwin(2, 0.25, window="hann", fs=1.0)
    must("two Hann taps are refused with 10 where SciPy has NaN",
         port.fill("lowpass", "<f8", 2, 0.25, 1.0, HANN, 0.0)[0].number == 10 and np.isnan(theirs).all())

    held = Held("spec_design", "firwin, kaiserord", "of the largest", summed(3000))
    for _ in range(300):
        rate, attenuation = spread(1, 1e8), random.uniform(8, 135)
        transition = rate * spread(0.003, 0.3)
        cutoff = random.uniform(0.001, 0.999) * (rate - transition) / 2
        n, beta = signal.kaiserord(attenuation, 2.0 * transition / rate)
        n = odd(n)
        must(f"spec_num_taps {n}", port.spec_num_taps(cutoff, transition, attenuation, rate, n).count == n)
        ours = port.made("spec_design", "<f8", n, cutoff, transition, attenuation, rate, n)
        held.add(f"{n} taps, cutoff {cutoff!r}, transition {transition!r}, {attenuation!r} dB, rate {rate!r}",
                 ours, signal.firwin(n, cutoff, window=("kaiser", beta), fs=rate))


def halfband_taps(n, beta):
    """SciPy's low-pass at a quarter of the rate, cleared, mirrored and divided once more; and where it is cleared."""
    taps = signal.firwin(n, 0.25, window=("kaiser", beta), fs=1.0)
    away = np.abs(np.arange(n) - n // 2)
    zeros = (away % 2 == 0) & (away > 0)
    taps[zeros] = 0
    taps[n // 2 + 1:] = taps[:n // 2][::-1]
    return taps / taps.sum(), zeros


def halfband(port):
    # The second sum takes the first one's error away and has its own.
    held = Held("halfband", "firwin, zeros, sum", "of the largest", summed(1000))
    cases = [(4 * count(1, 250) - 1, random.uniform(0, 20)) for _ in range(250)]
    for n, beta in cases + [(3, 0.0), (3, 20.0), (7, 5.0), (11, 8.0)]:
        theirs, zeros = halfband_taps(n, beta)
        ours = port.made("halfband", "<f8", n, beta)
        must(f"half-band of {n}: zeros and mirror images", (ours[zeros] == 0).all() and (ours == ours[::-1]).all())
        held.add(f"{n} taps, beta {beta!r}", ours, theirs)


def channelizer(port):
    held = Held("channelizer_prototype", "signal.firwin", "of the largest", summed(8192))
    taps = Held("channelizer_taps", "signal.kaiserord", "different", 0)
    for k in range(300):
        channels, attenuation = 2 ** int(random.integers(2, 9)), random.uniform(20, 120)
        branch = int(random.integers(4, 33)) if channels < 64 or k % 16 == 0 else 4
        stopband = random.uniform(0.01, 1.5)
        passband = stopband * random.uniform(0.001, 0.99)
        case = f"({channels}, {passband!r}, {stopband!r}, {attenuation!r})"
        n, beta = signal.kaiserord(attenuation, 2.0 * (stopband - passband) / channels)
        edges = channels, passband, stopband, attenuation
        taps.add(case, np.array([port.channelizer_taps(*edges).count, port.channelizer_taps_per_branch(*edges).count],
                                np.uint64), np.array([n, -(-n // channels)], np.uint64))
        ours = port.made("channelizer_prototype", "<f8", channels * branch, channels, branch, *edges[1:])
        held.add(f"{case}, branch {branch}", ours,
                 signal.firwin(channels * branch, (passband + stopband) / (2.0 * channels), window=("kaiser", beta),
                               fs=1.0))


# ---- pulses -----------------------------------------------------------------------------------------

def gaussian_taps(bt, samples, span):
    t = (np.arange(samples * span + 1) - samples * span / 2) / samples
    taps = np.exp(-2 * (np.pi * bt * t) ** 2 / np.log(2))
    return taps / taps.sum()


def gaussian(port):
    # exp(-y) has y to 4 u of itself, and y exp(-y) is at most 0.37: less than a low-pass tap errs by.
    held = Held("gaussian", "NumPy's formula", "of the largest", summed(1601))
    cases = [(random.uniform(0.2, 1), count(2, 200), int(random.integers(2, 9))) for _ in range(300)]
    for bt, samples, span in cases + [(0.2, 2, 2), (1.0, 2, 8), (1.0, 3, 3), (0.5, 8, 4), (0.3, 200, 8)]:
        theirs = gaussian_taps(bt, samples, span)
        held.add(f"bt {bt!r}, {samples} samples, span {span}",
                 port.made("gaussian", "<f8", len(theirs), bt, samples, span), theirs)


def raised(b, samples, span):
    """The root-raised cosine by another formula than ours: the integral of its spectrum, one part of which is 1 and
    the other a quarter of a cosine's period. It has no singular point: sinc takes the limits."""
    t = (np.arange(samples * span + 1) - samples * span / 2) / samples
    h = ((1 - b) * np.sinc((1 - b) * t) + b * np.cos(np.pi * (t + 0.25)) * np.sinc(b * t + 0.25)
         + b * np.cos(np.pi * (t - 0.25)) * np.sinc(b * t - 0.25))
    return t, h / np.sqrt((h * h).sum())


def rrc(port):
    # Relative to the largest tap: sine and cosine of arguments to 16 pi, whose roundings are divided by pi t, and six
    # operations, 10 u a side; half the error of a sum. Where 1 - (4 b t)^2 is small our formula has a small difference
    # over a small difference, and loses as many places in that tap, and through the energy in all: so the unit is
    # the largest tap over twice the smallest of these differences that isn't on a singular point.
    def size(b, t, theirs):
        left = np.abs(1 - (4 * b * t) ** 2)
        return np.full(len(t), theirs.max() / min(1, 2 * left[left > 0].min()))

    away = Held("rrc", "integrated spectrum", "of the largest", 24 * u)
    cases = [(random.uniform(0.05, 1), count(2, 64), int(random.integers(4, 33))) for _ in range(300)]
    for b, samples, span in cases + [(0.05, 2, 4), (1.0, 2, 4), (0.05, 1024, 4), (0.35, 1024, 32)]:
        t, theirs = raised(b, samples, span)
        away.add(f"roll-off {b!r}, {samples} samples, span {span}", port.made("rrc", "<f8", len(t), b, samples, span),
                 theirs, size(b, t, theirs))
    exact = Held("rrc, singular points", "integrated spectrum", "of the largest", 24 * u)
    for b, samples in [(0.25, 2), (0.5, 2), (1.0, 4), (0.125, 2), (0.5, 8), (0.0625, 16), (1.0, 1024), (0.25, 3)]:
        t, theirs = raised(b, samples, 8)
        must(f"roll-off {b}, {samples} samples: a singular point", (np.abs(4 * b * t) == 1).sum() == 2)
        exact.add(f"roll-off {b!r}, {samples} samples, span 8", port.made("rrc", "<f8", len(t), b, samples, 8), theirs,
                  size(b, t, theirs))
    # Beside one: the closed form is held to |1 - x^2| < 1e-9, so it errs by the slope times 5e-10; past that the
    # formula's 8 u over 1e-9 is the most.
    beside = Held("rrc, next to those", "integrated spectrum", "of the largest", 8 * u / 1e-9)
    for b in (0.25, 0.5, 0.125):
        for far in np.concatenate([np.exp(random.uniform(np.log(1e-16), np.log(1e-4), 60)), [4.99e-10, 5.01e-10]]):
            for near in (b * (1 - far), b * (1 + far)):
                t, theirs = raised(near, 8, 8)
                beside.add(f"roll-off {near!r}, 8 samples, span 8", port.made("rrc", "<f8", 65, near, 8, 8), theirs)


# ---- sections ---------------------------------------------------------------------------------------

RESPONSES = (LOWPASS, "lowpass"), (HIGHPASS, "highpass")


def cascade(port, response, order, cutoff, rate):
    """The sections of a Butterworth filter as SciPy has them, with a0."""
    numbers = port.made("butterworth_sos", "<f8", 5 * ((order + 1) // 2), response, order, cutoff, rate)
    return np.insert(numbers.reshape(-1, 5), 3, 1.0, axis=1)


def butterworths(port, orders, poles, whole):
    """Butterworth filters of these orders, their poles and responses held; each with SciPy's sections."""
    points = np.linspace(0, np.pi, 65)
    for response, name in RESPONSES:
        for order in orders:
            for fraction in np.concatenate([random.uniform(0.01, 0.49, 60), [0.01, 0.25, 0.49]]):
                rate = spread(1, 1e9)
                cutoff = fraction * rate
                ours = cascade(port, response, order, cutoff, rate)
                theirs = signal.butter(order, cutoff, name, fs=rate, output="sos")
                case = f"{name} of order {order}, {cutoff!r} at {rate!r}"
                yield case, ours, theirs
                a = np.concatenate([np.roots(section[3:][:order - 2 * i + 1]) for i, section in enumerate(ours)])
                b = signal.butter(order, cutoff, name, fs=rate, output="zpk")[1]
                nearest = np.abs(a[:, None] - b).argmin(axis=0)
                must(f"{case}: a pole for each", len(a) == order and len(set(nearest)) == order)
                a = a[nearest]
                poles.add(case, np.concatenate([a.real, a.imag]), np.concatenate([b.real, b.imag]))
                a, b = signal.sosfreqz(ours, points)[1], signal.sosfreqz(theirs, points)[1]
                whole.add(case, np.concatenate([a.real, a.imag]), np.concatenate([b.real, b.imag]))


def sections(port):
    # Coefficients of size 2 at most: cos w0 and sin w0 to 3 u, w0's own rounding 2 u of pi, four operations, and the
    # same through SciPy's poles.
    held = Held("biquad, q = 1/sqrt 2", "signal.butter, order 2", "absolute", 16 * u)
    for response, name in ((LOWPASS, "lowpass"), (HIGHPASS, "highpass")):
        for fraction in np.concatenate([random.uniform(0.001, 0.499, 300), [1e-6, 1e-4, 0.25, 0.4999]]):
            rate = spread(1, 1e9)
            centre = fraction * rate
            theirs = signal.butter(2, centre, name, fs=rate, output="sos")[0]
            ours = port.made("biquad_coefs", "<f8", 5, response, centre, math.sqrt(0.5), rate)
            held.add(f"{name}, {centre!r} at {rate!r}", ours, theirs[[0, 1, 2, 4, 5]])

    # iirpeak and iirnotch have the bandwidth w0/Q at -3 dB, tan(w0/2Q) where the cookbook has sin(w0)/2q. So SciPy
    # gets the Q that makes these equal. Its alpha comes from atan and tan, 4 u more of it; alpha/(1 + alpha) < 1.
    for response, name in ((BANDPASS, "iirpeak"), (NOTCH, "iirnotch")):
        held = Held("biquad, " + ("band-pass" if response == BANDPASS else "notch"), f"signal.{name}, Q changed",
                    "absolute", 16 * u)
        for _ in range(300):
            rate, q = spread(1, 1e9), spread(0.05, 200)
            centre = random.uniform(0.001, 0.499) * rate
            w0 = 2 * math.pi * centre / rate
            b, a = getattr(signal, name)(centre, w0 / (2 * math.atan(math.sin(w0) / (2 * q))), fs=rate)
            held.add(f"{centre!r} at {rate!r}, q {q!r}",
                     port.made("biquad_coefs", "<f8", 5, response, centre, q, rate), np.concatenate([b, a[1:]]))

    # SciPy puts the whole gain into its first section, and has the section nearest the unit circle last, as ours. The
    # denominators are compared as they are (as above); their roots divide a1's and a2's error by the distance of
    # the two poles, at least 2 sin(pi/16) w0, w0 >= 0.06: 43. The response has 2 u in each of three coefficients over
    # a denominator of at least 2 sin(pi/16) w0^2 = 0.0014, that of the section next to the unit circle.
    under = Held("butterworth, a1 and a2", "signal.butter", "absolute", 16 * u)
    poles = Held("butterworth, poles", "signal.butter", "absolute", 16 * 43 * u)
    whole = Held("butterworth, response", "signal.sosfreqz", "absolute", 6 / 0.0014 * u)
    for case, ours, theirs in butterworths(port, (2, 4, 6, 8), poles, whole):
        under.add(case, ours[:, 4:].ravel(), theirs[:, 4:].ravel())

    # Five operations on numbers that SciPy happens to work out in the same order: two roundings' room.
    held = Held("preemphasis", "signal.bilinear", "of the largest", 4 * u)
    for tau, rate in [(spread(1e-7, 1e-3), spread(40000, 1e7)) for _ in range(300)] + [(0.001, 40000.0), (5e-5, 1e9)]:
        b, a = signal.bilinear([tau, 1], [1 / (2 * np.pi * (rate / 2.4)), 1], fs=rate)
        held.add(f"tau {tau!r} at {rate!r}", port.made("preemphasis_coefs", "<f8", 3, tau, rate), np.append(b, a[1]))


# ---- other formats ----------------------------------------------------------------------------------

def formats(port):
    pattern = random.integers(0, 1 << 64, 20000, np.uint64, endpoint=False).view(np.float64)
    small = (random.integers(0x36000000, 0x48000000, 20000, np.uint64) << np.uint64(32)
             | random.integers(0, 1 << 32, 20000, np.uint64)).view(np.float64)
    floats = random.integers(0, 0x7F800000, 20000, np.uint32).view(np.float32).astype(np.float64)
    halves = floats + np.spacing(floats.astype(np.float32)).astype(np.float64) / 2
    edges = np.array([0.0, -0.0, np.inf, -np.inf, 3.4028234663852886e38, 3.4028235677973366e38, 3.5e38, 1e-45, 7e-46,
                      2.0 ** -150, np.nextafter(2.0 ** -150, 1), 2.0 ** -126, np.nextafter(2.0 ** -126, 0)])
    x = np.concatenate([pattern, small, -small, floats, halves, -halves, np.nextafter(halves, 0),
                        np.nextafter(halves, np.inf), edges])
    x = x[~np.isnan(x)]
    x = x[:len(x) // 5 * 5]
    with np.errstate(over="ignore"):
        theirs = x.astype(np.float32)
    for name in ("to_f32", "to_f32_sos"):
        held = Held(name, "numpy.float32", "different", 0)
        held.add("all", port.convert(name, "<f4", x)[1], theirs)
        held.cases = len(x)
    must("a NaN is 7FC00000", bits(port.convert("to_f32", "<f4", [np.nan, -np.nan])[1]).tolist() == [0x7FC00000] * 2)

    # Whole numbers and halves of them in both scales, with their neighbours, and beyond the ends.
    steps = np.concatenate([np.arange(-70000, 70001), random.uniform(-70000, 70000, 20000)]) / 2
    with np.errstate(over="ignore"):
        for bits_after, names in ((15, ("q15_from_f64", "to_q15")), (14, ("q14_from_f64", "to_q14"))):
            scale = 2.0 ** bits_after
            x = steps / scale
            x = np.concatenate([x, np.nextafter(x, -9), np.nextafter(x, 9), small[:2000], -small[:2000],
                                [1e308, -1e308]])
            whole = np.floor(x * scale + 0.5)
            inside = (whole >= -32768) & (whole <= 32767)
            held = Held(names[0], "numpy.floor", "different", 0)
            if bits_after == 15:
                ours, theirs = port.each(names[0], x), np.clip(whole, -32768, 32767).astype(np.int16)
                taken = np.abs(x) <= (1 - 1 / 32768) * 1.01
                theirs_all = theirs[taken]
            else:
                some = np.concatenate([np.arange(0, len(x), 16), np.flatnonzero(np.abs(np.abs(x) - 2) < 1e-3)])
                reports = [port.q14_from_f64(v) for v in x[some].tolist()]
                ours = np.array([r.value if r.number == 0 else np.nan for r in reports])
                theirs = np.where(inside[some], whole[some], np.nan)
                must("Q14 refuses with 11", {r.number for r in reports} == {0, 11})
                ours, theirs = np.nan_to_num(ours, nan=99999.0), np.nan_to_num(theirs, nan=99999.0)
                taken, theirs_all = inside, whole[inside].astype(np.int16)
            held.add("all", ours, theirs.astype(ours.dtype))
            held.cases = len(ours)
            source = x[taken]
            keep = len(source) // 5 * 5
            held = Held(names[1], "numpy.floor", "different", 0)
            held.add("all", port.convert(names[1], "<i2", source[:keep])[1], theirs_all[:keep])
            held.cases = keep
    must("Q15 of a NaN is 0", port.q15_from_f64(math.nan) == 0)


# ---- windows ----------------------------------------------------------------------------------------

def windows(port):
    # The samples are worked out to a few u and then rounded: half a unit of the format, and as much more as a few u
    # are of it. A f32 of Hann's window next to its end is 1e-7 in size, its place 1e-14, 8 u 0.06 of it; as Q15
    # numbers 8 u are 3e-11. Kaiser's is never so small: it has relative errors, 100 u or 1e-7 of a place.
    # A periodic window of one sample is 1 in SciPy, the formula's first value here (docs/DIFFERENCES.md): left out.
    gain = Held("window_gain, mean", "math.fsum", "relative", 64 * u)
    noise = Held("window_gain, bandwidth", "math.fsum", "relative", 128 * u)
    for name, theirs_name, room in (("hann", "hann", 0.06), ("blackman_harris", "blackmanharris", 1e-3),
                                    ("kaiser", "kaiser", 1e-5)):
        single = Held(name + "_f32", "signal.windows", "ulp of f32", 0.5 + room)
        fixed = Held(name + "_q15", "signal.windows", "absolute", 0.5 + 1e-10)
        counts = [count(2, 3000) for _ in range(60)] + list(range(2, 20)) + [1, 64, 1024, 4096]
        for n in counts:
            for symmetry in (PERIODIC, SYMMETRIC):
                if n == 1 and symmetry == PERIODIC:
                    continue
                beta = [float(random.choice([0.0, random.uniform(0, 20), random.uniform(20, 80)]))] * (name == "kaiser")
                if symmetry == PERIODIC:
                    theirs = signal.get_window((theirs_name, *beta) if beta else theirs_name, n)
                else:
                    theirs = getattr(signal.windows, theirs_name)(n, *beta, sym=True)
                case = f"{n} samples, {('periodic', 'symmetric')[symmetry]}" + "".join(f", beta {b!r}" for b in beta)
                ours = port.made(name + "_f32", "<f4", n, *beta, symmetry)
                single.add(case, ours, theirs)
                # In units of 1/32768; 1 is 32767.
                fixed.add(case, port.made(name + "_q15", "<i2", n, *beta, symmetry), np.minimum(32768 * theirs, 32767))
                # Sums of at most 4096 positive terms by rising index: a walk, far below the 4096 u that it could be.
                wide = ours.astype(np.float64)
                total = math.fsum(wide)
                if total > 0:
                    report = port.gain(ours)
                    gain.add(f"{name}, {case}", report.gain, total / n)
                    noise.add(f"{name}, {case}", report.bandwidth, n * math.fsum(wide * wide) / total ** 2)


# ---- long designs -----------------------------------------------------------------------------------

def long_ones(port):
    """Sums of thousands of taps, each kind with the bound of its own length."""
    held = Held("lowpass, long", "signal.firwin", "of the largest", summed(4096))
    for code, window in WINDOWS.items():
        for n in (4095, 4096):
            for cutoff in (0.001, 0.13, 0.25, 0.4999):
                beta = 8.0 if code == KAISER else 0.0
                theirs = signal.firwin(n, cutoff, window=("kaiser", beta) if code == KAISER else window, fs=1.0)
                held.add(f"{window}, {n} taps, cutoff {cutoff!r}",
                         port.made("lowpass", "<f8", n, cutoff, 1.0, code, beta), theirs)
    held = Held("halfband, long", "firwin, zeros, sum", "of the largest", summed(4095))
    for beta in (0.0, 5.0, 8.0, 20.0):
        held.add(f"4095 taps, beta {beta!r}", port.made("halfband", "<f8", 4095, beta), halfband_taps(4095, beta)[0])
    held = Held("gaussian, long", "NumPy's formula", "of the largest", summed(16001))
    for bt in (0.2, 0.3, 0.5, 1.0):
        held.add(f"bt {bt!r}, 2000 samples, span 8", port.made("gaussian", "<f8", 16001, bt, 2000, 8),
                 gaussian_taps(bt, 2000, 8))


# ---- delays -----------------------------------------------------------------------------------------

def delays(port):
    # SciPy's delay of taps at a frequency is the ratio of two complex sums by Horner's rule, of i h[i] and of h[i], and
    # in half samples twice that. Over n taps such a sum errs by 2 sqrt(2) n u of the sum of its terms' sizes, at most
    # n A for the places, A the sum of the taps' sizes; A is below 4 here, and the lower sum, the response, above a
    # half: 2 * 2 sqrt(2) * 4 * 2 n^2 u. A half sample that was lost is eight orders above it.
    def add(held, case, taps, cutoff):
        points = np.linspace(0, np.pi * cutoff, 9)
        theirs = 2 * signal.group_delay((taps, [1.0]), points)[1]
        must(f"{case}: passes", np.abs(signal.freqz(taps, worN=points)[1]).min() > 0.5 and np.abs(taps).sum() < 4)
        held.add(case, np.full(len(points), float(port.delay(len(taps)).count)), theirs)

    bound = 46 * 1000 ** 2 * u
    for name, more in (("delay, even", 0), ("delay, odd", 1)):
        held = Held(name, "2 signal.group_delay", "absolute", bound)
        for n in [2 * count(1, 499) + more for _ in range(150)] + [2 + more, 4 + more, 998 + more]:
            code, cutoff = int(random.choice([HAMMING, KAISER])), random.uniform(0.01, 0.49)
            case = f"{n} taps, {WINDOWS[code]}, cutoff {cutoff!r}"
            add(held, case, port.made("lowpass", "<f8", n, cutoff, 1.0, code, 8.0), cutoff)
    held = Held("delay, prototypes", "2 signal.group_delay", "absolute", bound)
    for channels, branch in ((4, 4), (16, 8), (32, 5), (8, 31), (64, 15)):
        taps = port.made("channelizer_prototype", "<f8", channels * branch, channels, branch, 0.5, 1.0, 60.0)
        add(held, f"{channels} channels, branch {branch}", taps, 0.75 / channels)


# ---- Butterworth filters of odd order, and the square of every one's response ----------------------------

def odd_orders(port):
    # As those of even order: the pairs are 2 sin(pi/7) w0 apart at least, 18 from w0 >= 0.06; the lowest denominator is
    # 2 cos(3 pi/7) w0^2 = 0.0017. SciPy has the section of first order, whose b2 and a2 are 0, at another place.
    poles = Held("odd orders, poles", "signal.butter", "absolute", 16 * 19 * u)
    whole = Held("odd orders, response", "signal.sosfreqz", "absolute", 6 / 0.0017 * u)
    for case, ours, theirs in butterworths(port, (3, 5, 7), poles, whole):
        must(f"{case}: the last of first order, as one of SciPy's",
             not ours[-1, [2, 5]].any() and np.count_nonzero(theirs[:, 5] == 0) == 1)
        must(f"{case}: the others not", ours[:-1, [2, 5]].all())

    # |H|^2 = 1/(1 + T^2n) with T = tan(w/2)/tan(w0/2), the other way up for a high-pass, worked out with more digits
    # than a double has, so that what is seen comes from the coefficients alone. With m the lesser of sin(w0/2)^2 and
    # cos(w0/2)^2, a section's b errs by 3 u over 2 m, and its lower part, which is 2 m/q at least, by 12 u: in the
    # square twice that, 3 + 12 q of u/m. Over the sections of order 8, whose q are 4.6 together, that is 67 u/m. The
    # section of first order errs by less.
    long = np.longdouble
    pi = 4 * np.arctan(long(1))
    must("more digits than a double", np.finfo(long).eps < u / 1000)
    w = pi * np.arange(1, 64) / 64
    z = np.exp(-1j * w)
    for name, orders in (("|H|^2, even orders", (2, 4, 6, 8)), ("|H|^2, odd orders", (3, 5, 7))):
        held = Held(name, "1/(1 + T^2n)", "of itself/m", 67 * u)
        for response, kind in RESPONSES:
            for order in orders:
                for fraction in [random.uniform(0.001, 0.499) for _ in range(60)] + [1e-5, 1e-3, 0.25, 0.499, 0.49999]:
                    rate = spread(1, 1e9)
                    cutoff = fraction * rate
                    b0, b1, b2, _, a1, a2 = cascade(port, response, order, cutoff, rate).astype(long).T[:, :, None]
                    ours = np.prod(np.abs((b0 + z * (b1 + z * b2)) / (1 + z * (a1 + z * a2))) ** 2, axis=0)
                    t = np.tan(w / 2) / np.tan(pi * long(cutoff) / long(rate))
                    theirs = 1 / (1 + (t if response == LOWPASS else 1 / t) ** (2 * order))
                    m = np.sin(pi * long(min(cutoff, rate / 2 - cutoff)) / long(rate)) ** 2
                    held.add(f"{kind} of order {order}, {cutoff!r} at {rate!r}", ours / theirs, np.ones(len(w)),
                             np.full(len(w), float(1 / m)))



# ---- loaded windows ---------------------------------------------------------------------------------

# Blackman and Harris's window, Nuttall's, and a flat top whose digits add up to 1.
OWN = [[0.35875, 0.48829, 0.14128, 0.01168], [0.355768, 0.487396, 0.144232, 0.012604],
       [0.215578947, 0.41663158, 0.277263158, 0.083578947, 0.006947368]]


def own_numbers():
    """One to five numbers that fall off, and add up to 1 as near as doubles come."""
    sizes = random.uniform(0.1, 1, int(random.integers(1, 6)))
    sizes *= 0.5 ** np.arange(len(sizes))
    return (sizes / sizes.sum()).tolist()


def loaded(port):
    # Two more cosines at most than Blackman's, each with a product and an addition, 1 at most in size, on either side.
    held = Held("lowpass, loaded", "signal.firwin", "of the largest", summed(1000) + 8 * u)
    for numbers in OWN + [own_numbers() for _ in range(300)]:
        window = port.loaded(numbers)
        for n in (3, count(4, 1000)):
            rate = spread(1, 1e9)
            cutoff = random.uniform(0.001, 0.499) * rate
            held.add(f"{n} taps, cutoff {cutoff!r}, rate {rate!r}, coefficients {numbers}",
                     port.made("lowpass_cosines", "<f8", n, cutoff, rate, window),
                     signal.firwin(n, cutoff, window=("general_cosine", numbers), fs=rate))


def main():
    parser = argparse.ArgumentParser()
    parser.add_argument("library")
    parser.add_argument("--wrong", metavar="NAME")
    words = parser.parse_args()
    Held.wrong = words.wrong
    port = Port(words.library)
    for part in (elementary, kaiser, lowpass, halfband, channelizer, gaussian, rrc, sections, formats, windows,
                 long_ones, delays, odd_orders, loaded):
        part(port)
    if words.wrong and words.wrong not in [held.name for held in Held.rows]:
        sys.exit(f"no comparison is named {words.wrong!r}")
    for held in Held.rows:
        print(held.line())
        must(f"{held.name} notices a planted error", held.notices())
    beyond = [held.name for held in Held.rows if not held.within()]
    print(f"SciPy {scipy.__version__}, NumPy {np.__version__}: {len(Held.rows)} comparisons, "
          f"{sum(held.cases for held in Held.rows)} cases, "
          + (f"beyond: {'; '.join(beyond)}" if beyond else "each within its bound and seen to notice a planted error"))
    sys.exit(1 if beyond else 0)


main()
