/* Butterworth filters as sections one after the other, that of the lowest quality first: a low-pass of order 4, and the
 * high-pass of order 3 that takes a constant away. */
#include <math.h>
#include <peldozkar.h>
#include <stdio.h>

#include "taps.h"

enum { SECTIONS = 2 }; /* of order 4, and of order 3 too: (order + 1)/2 */

/* How much of a sine of w radians a sample passes one section. */
static double passed(const uint8_t *section, double w)
{
    double c[5];
    for (size_t i = 0; i < 5; i++)
        c[i] = f64_at(section, i);
    double above = hypot(c[0] + c[1] * cos(w) + c[2] * cos(2.0 * w), c[1] * sin(w) + c[2] * sin(2.0 * w));
    double below = hypot(1.0 + c[3] * cos(w) + c[4] * cos(2.0 * w), c[3] * sin(w) + c[4] * sin(2.0 * w));
    return above / below;
}

/* The coefficients, a section a line, and how much of some frequencies passes all sections. */
static void tell(const uint8_t *bytes, double rate)
{
    for (size_t i = 0; i < 5 * SECTIONS; i++)
        printf("%7.4f%s", f64_at(bytes, i), i % 5 == 4 ? "\n" : " ");
    for (double f = 0.0; f <= 16000.0; f += 4000.0) {
        double all = 1.0;
        for (size_t k = 0; k < SECTIONS; k++)
            all *= passed(bytes + 40 * k, 2.0 * 3.141592653589793 * f / rate);
        printf("%5g Hz: %.4f\n", f, all);
    }
}

int main(void)
{
    const double cutoff = 8000.0, rate = 48000.0;
    uint8_t bytes[8 * 5 * SECTIONS];

    puts("a low-pass of order 4");
    pel_report r = pel_butterworth_sos(PEL_LOWPASS, 4, cutoff, rate, bytes, sizeof bytes);
    if (r.number != PEL_ACCEPTED)
        return (int)r.number;
    tell(bytes, rate);

    /* The last section of an odd order is of first order: b2 and a2 are 0. */
    puts("a high-pass of order 3");
    r = pel_butterworth_sos(PEL_HIGHPASS, 3, cutoff, rate, bytes, sizeof bytes);
    if (r.number != PEL_ACCEPTED)
        return (int)r.number;
    tell(bytes, rate);

    r = pel_butterworth_sos(PEL_LOWPASS, 9, cutoff, rate, bytes, sizeof bytes);
    if (r.number == PEL_BAD_COUNT)
        puts("refused with 6: the order must be 2 to 8");
    r = pel_butterworth_sos(PEL_LOWPASS, 5, cutoff, rate, bytes, sizeof bytes);
    if (r.number == PEL_BAD_LENGTH)
        printf("refused with 8: order 5 has %u numbers, not %u\n", (unsigned)r.expected, (unsigned)r.given);
    r = pel_butterworth_sos(PEL_NOTCH, 4, cutoff, rate, bytes, sizeof bytes);
    if (r.number == PEL_BAD_CODE)
        puts("refused with 7: a Butterworth filter is a low-pass or a high-pass");
    return 0;
}
