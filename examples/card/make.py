#!/usr/bin/env python3
"""Makes the sample cards of this folder from the list below: sample.card, which is whole, and broken.card, whose last
record is cut short.

    make.py            writes both
    make.py --check    holds both to the list

A record is a length of what follows in four bytes, a kind in two and the kind's fields in eight each, all little-endian
(include/peldozkar.h). Python's standard library alone.
"""

import struct
import sys
from pathlib import Path

FOLDER = Path(__file__).resolve().parent
HANN, HAMMING, BLACKMAN, KAISER = range(4)

# ---- Records


def record(kind, form, *fields):
    """`form` has a letter for each field: d for a float, Q for a count."""
    what_follows = struct.pack(f"<H{form}", kind, *fields)
    return struct.pack("<I", len(what_follows)) + what_follows


def lowpass(cutoff, rate, window, beta, count):
    return record(1, "ddQdQ", cutoff, rate, window, beta, count)


def spec(cutoff, transition, attenuation, rate, max_taps):
    return record(2, "ddddQ", cutoff, transition, attenuation, rate, max_taps)


def halfband(beta, count):
    return record(3, "dQ", beta, count)


def gaussian(bt, samples, span):
    return record(4, "dQQ", bt, samples, span)


def rrc(rolloff, samples, span):
    return record(5, "dQQ", rolloff, samples, span)


def channelizer(channels, branch, passband, stopband, attenuation):
    return record(6, "QQddd", channels, branch, passband, stopband, attenuation)


# ---- The cards

# A record, and the number with which its ticket is judged: 0 is accepted. The front end's rate is 48 kHz.
SAMPLE = [
    # A lock's channel 4.8 kHz wide, by each window: the wider the transition, the less comes in beside it.
    (lowpass(2400.0, 48000.0, HANN, 0.0, 63), 0),
    (lowpass(2400.0, 48000.0, HAMMING, 0.0, 63), 0),
    # Here a beta was left behind when the crew turned from Kaiser to Blackman: nobody looks at it.
    (lowpass(2400.0, 48000.0, BLACKMAN, 5.65326, 95), 0),
    (lowpass(2400.0, 48000.0, KAISER, 5.65326, 75), 0),
    # A lock family with neighbours 1.5 kHz beside it, by what the filter has to do: 60 dB, in at most 255 taps.
    (spec(3000.0, 1500.0, 60.0, 48000.0, 255), 0),
    # The same at the old reader's memory of 64 taps, which are too few.
    (spec(3000.0, 1500.0, 60.0, 48000.0, 64), 9),
    # Halves the rate before the slow locks' demodulator.
    (halfband(8.0, 31), 0),
    # The pulse of locks that send GFSK at 4800 bits a second, ten samples each.
    (gaussian(0.5, 10, 4), 0),
    # The matched filter of the handsets, at 6000 symbols a second.
    (rrc(0.35, 8, 8), 0),
    # Sixteen locks at once, in channels of 3 kHz.
    (channelizer(16, 8, 0.5, 1.0, 60.0), 0),
    # A slip of the pen: a cutoff of 24.5 kHz, above half of the rate. The card is whole, and only this ticket refused.
    (lowpass(24500.0, 48000.0, HAMMING, 0.0, 63), 2),
    # The first channel once more, at 80 dB: behind a refused ticket reading goes on.
    (lowpass(2400.0, 48000.0, KAISER, 7.85726, 127), 0),
]
NUMBERS = [number for _, number in SAMPLE]

# Two whole tickets; of the third one the card was pulled out too early, in the middle of its cutoff.
BROKEN = [halfband(8.0, 31), gaussian(0.5, 10, 4), lowpass(2400.0, 48000.0, HANN, 0.0, 63)[:10]]

CARDS = {"sample.card": b"".join(card for card, _ in SAMPLE), "broken.card": b"".join(BROKEN)}


def main(words):
    if words not in ([], ["--check"]):
        print("usage: make.py [--check]", file=sys.stderr)
        return 64
    if not words:
        for name, card in CARDS.items():
            (FOLDER / name).write_bytes(card)
        return 0
    stored = {path.name: path.read_bytes() for path in FOLDER.glob("*.card")}
    wrong = [name for name in sorted({*stored, *CARDS}) if stored.get(name) != CARDS.get(name)]
    if wrong:
        print(f"examples/card: not what make.py makes: {' '.join(wrong)}")
    return 1 if wrong else 0


if __name__ == "__main__":
    sys.exit(main(sys.argv[1:]))
