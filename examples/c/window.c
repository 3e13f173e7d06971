/* Windows for spectra, and what each does: its gain, and its noise bandwidth in bins. */
#include <peldozkar.h>
#include <stdio.h>

#include "taps.h"

enum { SAMPLES = 1024 };

static uint8_t bytes[4 * SAMPLES];

/* Divide a line's height by the gain, and a noise floor by the bandwidth as well. */
static void say_gain(const char *name, pel_report filled)
{
    pel_gain_report g = pel_window_gain(bytes, sizeof bytes);
    if (filled.number == PEL_ACCEPTED && g.number == PEL_ACCEPTED)
        printf("%-15s gain %.5f, bandwidth %.5f\n", name, g.gain, g.bandwidth);
}

int main(void)
{
    /* Periodic for a transform, symmetric for a filter. As many samples as the buffer has room for. */
    pel_report r = pel_hann_f32(PEL_PERIODIC, bytes, 4 * 8);
    if (r.number != PEL_ACCEPTED)
        return (int)r.number;
    for (size_t i = 0; i < r.count; i++)
        printf("%.4f\n", (double)f32_at(bytes, i));

    say_gain("Hann", pel_hann_f32(PEL_PERIODIC, bytes, sizeof bytes));
    say_gain("Blackman-Harris", pel_blackman_harris_f32(PEL_PERIODIC, bytes, sizeof bytes));
    say_gain("Kaiser, beta 8", pel_kaiser_f32(8.0, PEL_PERIODIC, bytes, sizeof bytes));

    /* In Q15 a sample has two bytes, and 1 is 32767. */
    r = pel_hann_q15(PEL_SYMMETRIC, bytes, 2 * 5);
    if (r.number != PEL_ACCEPTED)
        return (int)r.number;
    for (size_t i = 0; i < r.count; i++)
        printf("%d\n", i16_at(bytes, i));

    r = pel_kaiser_f32(-1.0, PEL_PERIODIC, bytes, sizeof bytes);
    if (r.number == PEL_BAD_ATTENUATION)
        puts("refused with 4: beta must be finite and not negative");
    return 0;
}
