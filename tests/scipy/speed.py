"""Times low-passes with a Kaiser window beside SciPy's firwin, in alternate rounds of one run."""
import sys
import time

import numpy as np
from scipy.signal import firwin

from port import KAISER, Port

# The numbers of `tests/differential/run bench`: the beta of 60 dB, and four cutoffs at rate 1.
BETA = 5.65326
CUTOFFS = (0.05, 0.1, 0.21, 0.3)
ROUNDS = 101


def timed(call):
    """The microseconds of one call, over the cutoffs."""
    start = time.perf_counter()
    for cutoff in CUTOFFS:
        call(cutoff)
    return (time.perf_counter() - start) / len(CUTOFFS) * 1e6


def main():
    if len(sys.argv) != 2:
        sys.exit("speed.py LIBRARY")
    port = Port(sys.argv[1])
    print("beside SciPy's firwin:")
    for taps in (31, 255, 1023):
        buffer = np.zeros(taps)
        address, size = buffer.ctypes.data, buffer.nbytes

        def ours(cutoff):
            if port.lowpass(cutoff, 1.0, KAISER, BETA, address, size).number != 0:
                sys.exit("the ticket is refused")

        def scipy(cutoff):
            return firwin(taps, cutoff, window=("kaiser", BETA), fs=1.0)

        # What is timed is the same design.
        ours(CUTOFFS[0])
        if np.abs(buffer - scipy(CUTOFFS[0])).max() > 1e-13:
            sys.exit(f"{taps} taps: not the taps of firwin")
        times = np.array([(timed(ours), timed(scipy)) for _ in range(ROUNDS)])
        here, there = np.median(times, axis=0)
        print(f"{'lowpass, Kaiser':<24} {taps:>4} taps      port {here:8.3f} us  firwin {there:8.3f} us  ratio {here / there:.2f}")


main()
