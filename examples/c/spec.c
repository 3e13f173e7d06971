/* A low-pass by what it has to do: ask for its length, lend a buffer of that length, have it filled. */
#include <inttypes.h>
#include <math.h>
#include <peldozkar.h>
#include <stdio.h>

#include "taps.h"

enum { ROOM = 512 }; /* taps that this reader has memory for */

static const double cutoff = 1000.0, transition = 100.0, attenuation = 60.0, rate = 8000.0;

/* How much of a sine of f Hz passes. */
static double passed(const uint8_t *bytes, size_t taps, double f)
{
    double sum = 0.0, step = 2.0 * 3.141592653589793 * f / rate;
    for (size_t i = 0; i < taps; i++)
        sum += f64_at(bytes, i) * cos(step * ((double)i - (double)(taps - 1) / 2.0));
    return fabs(sum);
}

int main(void)
{
    static uint8_t bytes[8 * ROOM];
    pel_report r = pel_spec_num_taps(cutoff, transition, attenuation, rate, ROOM);
    if (r.number != PEL_ACCEPTED)
        return (int)r.number;
    size_t taps = (size_t)r.count;
    r = pel_spec_design(cutoff, transition, attenuation, rate, ROOM, bytes, 8 * taps);
    if (r.number != PEL_ACCEPTED)
        return (int)r.number;
    printf("%zu taps, beta %.5f\n", taps, pel_kaiser_beta(attenuation));
    for (int hertz = 950; hertz <= 1050; hertz += 50)
        printf("%4d Hz: %.4f\n", hertz, passed(bytes, taps, hertz));

    /* A reader with less memory, a buffer of another length, a rate that isn't one. */
    r = pel_spec_design(cutoff, transition, attenuation, rate, 128, bytes, 8 * 128);
    if (r.number == PEL_TOO_MANY_TAPS)
        printf("refused with 9: %" PRIu64 " taps needed, %" PRIu64 " allowed\n", r.expected, r.given);
    r = pel_spec_design(cutoff, transition, attenuation, rate, ROOM, bytes, 8 * 100);
    if (r.number == PEL_BAD_LENGTH)
        printf("refused with 8: a buffer for %" PRIu64 " taps, not %" PRIu64 "\n", r.expected, r.given);
    r = pel_spec_num_taps(cutoff, transition, attenuation, -rate, ROOM);
    if (r.number == PEL_BAD_RATE)
        puts("refused with 1: the rate must be finite and positive");
    return 0;
}
