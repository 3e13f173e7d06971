/* Coefficients in the formats of small processors: taps in Q15, sections in Q14, either as floats. */
#include <inttypes.h>
#include <peldozkar.h>
#include <stdio.h>

#include "taps.h"

/* An 11 names the first number that the format can't take. */
static void say_eleven(pel_report r)
{
    if (r.number == PEL_BAD_ELEMENT && r.carries == PEL_ELEMENT)
        printf("refused with 11: number %" PRIu64 " is %.4f, not %.4f to %.4f\n", r.index, r.offered, r.smallest,
               r.largest);
}

int main(void)
{
    uint8_t taps[8 * 9], section[8 * 5], q15[2 * 9], q14[2 * 5], f32[4 * 9];

    if (pel_gaussian(0.5, 4, 2, taps, sizeof taps).number != PEL_ACCEPTED)
        return 1;
    if (pel_to_q15(taps, sizeof taps, q15, sizeof q15).number != PEL_ACCEPTED ||
        pel_to_f32(taps, sizeof taps, f32, sizeof f32).number != PEL_ACCEPTED)
        return 1;
    for (size_t i = 0; i < 9; i++)
        printf("tap %zu: %.4f, in Q15 %d\n", i, (double)f32_at(f32, i), i16_at(q15, i));

    if (pel_biquad_coefs(PEL_NOTCH, 8000.0, 2.0, 48000.0, section, sizeof section).number != PEL_ACCEPTED)
        return 1;
    if (pel_to_q14(section, sizeof section, q14, sizeof q14).number != PEL_ACCEPTED ||
        pel_to_f32_sos(section, sizeof section, f32, 4 * 5).number != PEL_ACCEPTED)
        return 1;
    for (size_t i = 0; i < 5; i++)
        printf("coefficient %zu: %.4f, in Q14 %d\n", i, (double)f32_at(f32, i), i16_at(q14, i));

    /* Pre-emphasis is too steep for Q15: b0 is above 1. */
    if (pel_preemphasis_coefs(50e-6, 48000.0, taps, 8 * 3).number != PEL_ACCEPTED)
        return 1;
    say_eleven(pel_to_q15(taps, 8 * 3, q15, 2 * 3));

    /* A notch next to half of the rate has b1 next to 2. What comes before is converted, the rest stays. */
    if (pel_biquad_coefs(PEL_NOTCH, 23999.0, 1000.0, 48000.0, section, sizeof section).number != PEL_ACCEPTED)
        return 1;
    say_eleven(pel_to_q14(section, sizeof section, q14, sizeof q14));
    for (size_t i = 0; i < 5; i++)
        printf("%d%s", i16_at(q14, i), i == 4 ? "\n" : " ");
    return 0;
}
