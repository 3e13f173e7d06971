"""The exports of include/peldozkar.h, called from Python. A buffer comes filled with A5 and has a guard behind it."""
import ctypes
import sys
from ctypes import c_double, c_int16, c_size_t, c_uint32, c_uint64, c_void_p

import numpy as np


class Report(ctypes.Structure):
    _fields_ = [("number", c_uint32), ("carries", c_uint32), ("smallest", c_double), ("largest", c_double),
                ("offered", c_double), ("expected", c_uint64), ("given", c_uint64), ("index", c_uint64),
                ("count", c_uint64), ("value", c_double)]


class GainReport(ctypes.Structure):
    _fields_ = [("number", c_uint32), ("carries", c_uint32), ("expected", c_uint64), ("given", c_uint64),
                ("count", c_uint64), ("gain", c_double), ("bandwidth", c_double)]


class Cosines(ctypes.Structure):
    _fields_ = [(name, c_double) for name in ("c0", "c1", "c2", "c3", "c4")]


class Loaded(ctypes.Structure):
    _fields_ = [("window", Cosines), ("report", Report)]


assert ctypes.sizeof(Loaded) == 112 and ctypes.sizeof(Report) == 72 and ctypes.sizeof(GainReport) == 48 and sys.byteorder == "little"

HANN, HAMMING, BLACKMAN, KAISER = range(4)
LOWPASS, HIGHPASS, BANDPASS, NOTCH = range(4)
PERIODIC, SYMMETRIC = range(2)

# The arguments before a buffer: d a double, u a uint64, c a loaded window, s a source of bytes and its length; > a buffer and its length.
SIGNATURES = {
    "floor": (c_double, "d"), "ceil": (c_double, "d"), "fabs": (c_double, "d"), "sqrt": (c_double, "d"),
    "sin": (c_double, "d"), "cos": (c_double, "d"), "exp": (c_double, "d"), "pow04": (c_double, "d"),
    "bessel_i0": (Report, "d"), "kaiser_beta": (c_double, "d"), "kaiserord": (Report, "ddd"),
    "halfband_len": (Report, "ddd"), "delay": (Report, "u"), "lowpass": (Report, "ddud>"),
    "load_cosines": (Loaded, "s"), "lowpass_cosines": (Report, "ddc>"),
    "spec_num_taps": (Report, "ddddu"), "spec_design": (Report, "ddddu>"), "halfband": (Report, "d>"),
    "gaussian": (Report, "duu>"), "rrc": (Report, "duu>"), "channelizer_taps": (Report, "uddd"),
    "channelizer_taps_per_branch": (Report, "uddd"), "channelizer_prototype": (Report, "uuddd>"),
    "biquad_coefs": (Report, "uddd>"), "butterworth_sos": (Report, "uudd>"), "preemphasis_coefs": (Report, "dd>"),
    "q15_from_f64": (c_int16, "d"), "q15_tap": (Report, "d"), "q14_from_f64": (Report, "d"),
    "to_q15": (Report, "s>"), "to_q14": (Report, "s>"), "to_f32": (Report, "s>"), "to_f32_sos": (Report, "s>"),
    "hann_f32": (Report, "u>"), "hann_q15": (Report, "u>"), "blackman_harris_f32": (Report, "u>"),
    "blackman_harris_q15": (Report, "u>"), "kaiser_f32": (Report, "du>"), "kaiser_q15": (Report, "du>"),
    "window_gain": (GainReport, "s"),
}
TYPES = {"d": [c_double], "u": [c_uint64], "c": [Cosines], "s": [c_void_p, c_size_t], ">": [c_void_p, c_size_t]}


class Port:
    """Every export as a method of its name without pel_; `fill` for those that write."""

    def __init__(self, path):
        library = ctypes.CDLL(path)
        for name, (answer, letters) in SIGNATURES.items():
            function = getattr(library, "pel_" + name)
            function.restype = answer
            function.argtypes = [kind for letter in letters for kind in TYPES[letter]]
            setattr(self, name, function)

    def each(self, name, values):
        """A function of one double at every value."""
        function = getattr(self, name)
        return np.array([function(v) for v in values.tolist()])

    def fill(self, name, kind, count, *arguments):
        """The report and `count` elements of a NumPy type; an accepted design must fill them and no more."""
        size = np.dtype(kind).itemsize * count
        buffer = np.full(size + 16, 0xA5, np.uint8)
        report = getattr(self, name)(*arguments, buffer.ctypes.data, size)
        if not (buffer[size:] == 0xA5).all():
            sys.exit(f"pel_{name}{arguments} of {count}: wrote past its buffer")
        if report.number == 8 or (report.number == 0 and report.count != count):
            sys.exit(f"pel_{name}{arguments}: not {count} elements: number {report.number}, count {report.count}")
        if report.number not in (0, 11) and not (buffer == 0xA5).all():
            sys.exit(f"pel_{name}{arguments} of {count}: refused with {report.number}, and wrote")
        return report, buffer[:size].view(kind)

    def made(self, name, kind, count, *arguments):
        """The elements of a design that must be accepted."""
        report, out = self.fill(name, kind, count, *arguments)
        if report.number != 0:
            sys.exit(f"pel_{name}{arguments} of {count}: refused with {report.number}")
        return out

    def convert(self, name, kind, source):
        source = np.ascontiguousarray(source, np.float64)
        return self.fill(name, kind, len(source), source.ctypes.data, source.nbytes)

    def loaded(self, numbers):
        """A window of these numbers, which must be accepted."""
        numbers = np.ascontiguousarray(numbers, np.float64)
        answer = self.load_cosines(numbers.ctypes.data, numbers.nbytes)
        if answer.report.number != 0:
            sys.exit(f"pel_load_cosines{tuple(numbers)}: refused with {answer.report.number}")
        return answer.window

    def gain(self, samples):
        samples = np.ascontiguousarray(samples, np.float32)
        return self.window_gain(samples.ctypes.data, samples.nbytes)
