/* The Gaussian pulse of GFSK: samples * span + 1 taps. */
#include <inttypes.h>
#include <peldozkar.h>
#include <stdio.h>

#include "taps.h"

enum { SAMPLES = 4, SPAN = 2, TAPS = SAMPLES * SPAN + 1 };

int main(void)
{
    const double bt = 0.5; /* the bandwidth in symbol rates; Bluetooth has 0.5 */
    uint8_t bytes[8 * TAPS];

    pel_report r = pel_gaussian(bt, SAMPLES, SPAN, bytes, sizeof bytes);
    if (r.number != PEL_ACCEPTED)
        return (int)r.number;

    printf("%" PRIu64 " taps\n", r.count);
    double sum = 0.0;
    for (size_t i = 0; i < TAPS; i++) {
        printf("%7.4f\n", f64_at(bytes, i));
        sum += f64_at(bytes, i);
    }
    printf("sum %.4f\n", sum);

    /* A buffer for another number of taps stays as it came. */
    r = pel_gaussian(bt, SAMPLES, SPAN, bytes, sizeof bytes - 8);
    if (r.number == PEL_BAD_LENGTH && r.carries == PEL_LENGTH)
        printf("refused with 8: a buffer for %" PRIu64 " taps, not %" PRIu64 "\n", r.expected, r.given);

    /* So does one whose bytes aren't whole taps: these figures are bytes. */
    r = pel_gaussian(bt, SAMPLES, SPAN, bytes, sizeof bytes - 1);
    if (r.number == PEL_BAD_LENGTH && r.carries == PEL_LENGTH)
        printf("refused with 8: %" PRIu64 " bytes, not %" PRIu64 "\n", r.expected, r.given);

    r = pel_gaussian_new(0.1, SAMPLES, SPAN);
    if (r.number == PEL_BAD_SHAPE && r.carries == PEL_RANGE)
        printf("refused with 5: a bandwidth of %g isn't %g to %g\n", r.offered, r.smallest, r.largest);
    return 0;
}
