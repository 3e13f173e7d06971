/* A half-band for halving a rate: every other tap is 0, and the others are mirror images to the bit. */
#include <peldozkar.h>
#include <stdio.h>

#include "taps.h"

enum { ROOM = 63 };

int main(void)
{
    const double transition = 2000.0, attenuation = 40.0, rate = 8000.0;
    uint8_t bytes[8 * ROOM];

    pel_report r = pel_halfband_len(transition, attenuation, rate);
    if (r.number != PEL_ACCEPTED)
        return (int)r.number;
    if (r.count > ROOM)
        return 1;
    size_t taps = (size_t)r.count;
    r = pel_halfband(pel_kaiser_beta(attenuation), bytes, 8 * taps);
    if (r.number != PEL_ACCEPTED)
        return (int)r.number;

    size_t products = 0; /* with mirror images added first, one for each tap of the left half and the middle */
    for (size_t i = 0; i <= taps / 2; i++)
        products += f64_at(bytes, i) != 0.0;
    printf("%zu taps, %zu products a sample\n", taps, products);

    double sum = 0.0;
    for (size_t i = 0; i < taps; i++) {
        printf("%7.4f\n", f64_at(bytes, i));
        sum += f64_at(bytes, i);
    }
    printf("sum %.4f\n", sum);

    /* Such a filter has 3 taps, 7, 11 and so on. */
    r = pel_halfband_new(pel_kaiser_beta(attenuation), 9);
    if (r.number == PEL_BAD_COUNT)
        puts("refused with 6: 9 taps aren't 3 mod 4");
    return 0;
}
