/* Pre-emphasis of FM: b0, b1, a1, and a0 is 1. A receiver's de-emphasis is the same upside down. */
#include <peldozkar.h>
#include <stdio.h>

#include "taps.h"

int main(void)
{
    const double tau = 50e-6, rate = 48000.0; /* 50 us in Europe, 75 in America */
    uint8_t bytes[8 * 3];

    pel_report r = pel_preemphasis_coefs(tau, rate, bytes, sizeof bytes);
    if (r.number != PEL_ACCEPTED)
        return (int)r.number;
    double b0 = f64_at(bytes, 0), b1 = f64_at(bytes, 1), a1 = f64_at(bytes, 2);
    printf("b0 %.4f, b1 %.4f, a1 %.4f\n", b0, b1, a1);
    printf("passes %.4f of 0 Hz, %.4f of %g\n", (b0 + b1) / (1.0 + a1), (b0 - b1) / (1.0 - a1), rate / 2.0);

    /* A step: y[n] = b0 x[n] + b1 x[n - 1] - a1 y[n - 1]. */
    double before = 0.0, y = 0.0;
    for (int n = 0; n < 5; n++) {
        y = b0 * 1.0 + b1 * before - a1 * y;
        before = 1.0;
        printf("%7.4f\n", y);
    }

    r = pel_preemphasis_coefs(tau, 8000.0, bytes, sizeof bytes);
    if (r.number == PEL_BAD_RATE && r.carries == PEL_RANGE)
        printf("refused with 1: a rate of %g isn't %g to %g\n", r.offered, r.smallest, r.largest);
    r = pel_preemphasis_coefs(0.05, rate, bytes, sizeof bytes);
    if (r.number == PEL_BAD_SHAPE && r.carries == PEL_RANGE)
        printf("refused with 5: a time constant of %g isn't above %g and at most %g\n", r.offered, r.smallest,
               r.largest);
    return 0;
}
