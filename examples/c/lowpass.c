/* A low-pass of so many taps. The buffer says how many: eight bytes to a tap. */
#include <inttypes.h>
#include <peldozkar.h>
#include <stdio.h>

#include "taps.h"

enum { TAPS = 7 };

int main(void)
{
    const double cutoff = 1000.0, rate = 8000.0;
    uint8_t bytes[8 * TAPS];

    /* The last number before the buffer is beta, which counts for Kaiser's window alone. */
    pel_report r = pel_lowpass(cutoff, rate, PEL_HAMMING, 0.0, bytes, sizeof bytes);
    if (r.number != PEL_ACCEPTED)
        return (int)r.number;
    printf("%" PRIu64 " taps, a delay of %" PRIu64 " half samples\n", r.count, pel_delay(r.count).count);

    double sum = 0.0;
    for (size_t i = 0; i < TAPS; i++) {
        printf("%7.4f\n", f64_at(bytes, i));
        sum += f64_at(bytes, i);
    }
    printf("sum %.4f\n", sum);

    /* The same judgement needs no buffer. Half of the rate is too much for a cutoff. */
    r = pel_lowpass_new(rate / 2.0, rate, PEL_HAMMING, 0.0, TAPS);
    if (r.number == PEL_BAD_FREQUENCY && r.carries == PEL_RANGE)
        printf("refused with 2: a cutoff of %g isn't between %g and %g\n", r.offered, r.smallest, r.largest);

    /* Two taps of a Hann window are its ends, both 0: nothing to divide by. */
    r = pel_lowpass_new(cutoff, rate, PEL_HANN, 0.0, 2);
    if (r.number == PEL_BAD_SUM)
        puts("refused with 10: the taps add up to 0");

    /* Kaiser's window takes Bessel series, which don't settle where beta is above about 714: take a smaller one, such as
     * that for 60 dB. */
    double beta = 1000.0;
    r = pel_lowpass(cutoff, rate, PEL_KAISER, beta, bytes, sizeof bytes);
    if (r.number == PEL_NOT_SETTLED) {
        printf("refused with 16: a series doesn't settle at beta %g\n", beta);
        beta = pel_kaiser_beta(60.0);
        r = pel_lowpass(cutoff, rate, PEL_KAISER, beta, bytes, sizeof bytes);
    }
    if (r.number != PEL_ACCEPTED)
        return (int)r.number;
    printf("beta %.4f: middle tap %.4f\n", beta, f64_at(bytes, TAPS / 2));
    return 0;
}
