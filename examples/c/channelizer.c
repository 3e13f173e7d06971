/* The prototype of a channelizer: Kaiser's estimate says how many taps a branch needs. */
#include <inttypes.h>
#include <peldozkar.h>
#include <stdio.h>

#include "taps.h"

enum { CHANNELS = 16, ROOM = 32 * CHANNELS }; /* a branch has 32 taps at most */

int main(void)
{
    /* The edges in channel spacings, the attenuation in dB. */
    const double passband = 0.5, stopband = 1.0, attenuation = 60.0;
    static uint8_t bytes[8 * ROOM];

    pel_report needed = pel_channelizer_taps(CHANNELS, passband, stopband, attenuation);
    pel_report branch = pel_channelizer_taps_per_branch(CHANNELS, passband, stopband, attenuation);
    if (needed.number != PEL_ACCEPTED || branch.number != PEL_ACCEPTED || branch.count > 32)
        return 1;
    size_t taps = CHANNELS * (size_t)branch.count;
    pel_report r = pel_channelizer_prototype(CHANNELS, branch.count, passband, stopband, attenuation, bytes, 8 * taps);
    if (r.number != PEL_ACCEPTED)
        return (int)r.number;
    printf("%" PRIu64 " taps needed, %" PRIu64 " a branch: %zu\n", needed.count, branch.count, taps);

    /* Half samples, since an even number of taps delays by a whole number of samples and a half. A time stamp that
     * leaves the half out is half a sample off. */
    uint64_t half_samples = pel_delay(taps).count;
    printf("a delay of %" PRIu64 " half samples: what comes out at sample 1000 came in at %.1f\n", half_samples,
           1000.0 - (double)half_samples / 2.0);

    /* Branch k takes every 16th tap from tap k on, and passes about a 16th of a level. */
    double total = 0.0;
    for (size_t k = 0; k < CHANNELS; k++) {
        double sum = 0.0;
        for (size_t i = k; i < taps; i += CHANNELS)
            sum += f64_at(bytes, i);
        printf("%s%.4f", k % 8 == 0 ? "" : " ", sum);
        if (k % 8 == 7)
            putchar('\n');
        total += sum;
    }
    printf("sum %.4f\n", total);

    r = pel_channelizer_lowpass(CHANNELS, branch.count, passband, stopband, 130.0);
    if (r.number == PEL_BAD_ATTENUATION && r.carries == PEL_RANGE)
        printf("refused with 4: %g dB aren't %g to %g\n", r.offered, r.smallest, r.largest);
    return 0;
}
