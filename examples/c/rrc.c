/* The root-raised-cosine pulse: two of them in a row, sender's and receiver's, keep symbols apart. */
#include <peldozkar.h>
#include <stdio.h>

#include "taps.h"

enum { SAMPLES = 4, SPAN = 8, ROOM = SAMPLES * SPAN + 1 };

/* What the pair gives at a distance of so many taps. */
static double pair(const uint8_t *bytes, size_t taps, size_t distance)
{
    double sum = 0.0;
    for (size_t i = 0; i + distance < taps; i++)
        sum += f64_at(bytes, i) * f64_at(bytes, i + distance);
    return sum;
}

int main(void)
{
    const double rolloff = 0.5;
    uint8_t bytes[8 * ROOM];

    pel_report r = pel_rrc_len(SAMPLES, SPAN);
    if (r.number != PEL_ACCEPTED)
        return (int)r.number;
    size_t taps = (size_t)r.count;
    r = pel_rrc(rolloff, SAMPLES, SPAN, bytes, 8 * taps);
    if (r.number != PEL_ACCEPTED)
        return (int)r.number;

    printf("%zu taps, around the middle:\n", taps);
    for (size_t i = taps / 2 - 4; i <= taps / 2 + 4; i++)
        printf("%7.4f\n", f64_at(bytes, i));
    printf("energy %.4f\n", pair(bytes, taps, 0));
    printf("half a symbol away %.3f, a symbol away %.3f\n", pair(bytes, taps, SAMPLES / 2), pair(bytes, taps, SAMPLES));

    r = pel_rrc_new(rolloff, SAMPLES, 2);
    if (r.number == PEL_BAD_COUNT && r.carries == PEL_RANGE)
        printf("refused with 6: a span of %g isn't %g to %g\n", r.offered, r.smallest, r.largest);
    return 0;
}
