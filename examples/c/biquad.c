/* One second-order section in its four responses: b0, b1, b2, a1, a2, and a0 is 1. */
#include <math.h>
#include <peldozkar.h>
#include <stdio.h>

#include "taps.h"

/* How much of a sine of w radians a sample passes: |b0 + b1 z + b2 z^2| / |1 + a1 z + a2 z^2|, z = e^-jw. */
static double passed(const double c[5], double w)
{
    double above = hypot(c[0] + c[1] * cos(w) + c[2] * cos(2.0 * w), c[1] * sin(w) + c[2] * sin(2.0 * w));
    double below = hypot(1.0 + c[3] * cos(w) + c[4] * cos(2.0 * w), c[3] * sin(w) + c[4] * sin(2.0 * w));
    return above / below;
}

int main(void)
{
    static const char *const names[] = {"low-pass", "high-pass", "band-pass", "notch"};
    const double pi = 3.141592653589793, centre = 8000.0, q = 2.0, rate = 48000.0;
    uint8_t bytes[8 * 5];
    pel_report r;

    for (uint64_t response = PEL_LOWPASS; response <= PEL_NOTCH; response++) {
        r = pel_biquad_coefs(response, centre, q, rate, bytes, sizeof bytes);
        if (r.number != PEL_ACCEPTED)
            return (int)r.number;

        double c[5];
        printf("%-9s", names[response]);
        for (size_t i = 0; i < 5; i++)
            printf(" %7.4f", c[i] = f64_at(bytes, i));
        printf("; passes %.2f of 0 Hz, %.2f of %g, %.2f of %g\n", passed(c, 0.0), passed(c, 2.0 * pi * centre / rate),
               centre, passed(c, pi), rate / 2.0);
    }

    r = pel_biquad_coefs(PEL_NOTCH, rate / 2.0, q, rate, bytes, sizeof bytes);
    if (r.number == PEL_BAD_FREQUENCY && r.carries == PEL_RANGE)
        printf("refused with 2: a centre of %g isn't between %g and %g\n", r.offered, r.smallest, r.largest);
    r = pel_biquad_coefs(4, centre, q, rate, bytes, sizeof bytes);
    if (r.number == PEL_BAD_CODE)
        puts("refused with 7: there is no response 4");
    return 0;
}
