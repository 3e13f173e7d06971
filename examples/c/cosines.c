/* A customer's own window: load its coefficients once, look at the number, and design with what was loaded. */
#include <inttypes.h>
#include <math.h>
#include <peldozkar.h>
#include <stdio.h>

#include "taps.h"

enum { TAPS = 63, MOST = 8 };

static const double cutoff = 1000.0, rate = 8000.0;

/* Loads so many coefficients, at most MOST, and tells what came of it. */
static pel_loaded load(const char *name, const double *coefficients, size_t n)
{
    uint8_t source[8 * MOST];
    for (size_t i = 0; i < n; i++)
        put_f64(source, i, coefficients[i]);
    pel_loaded l = pel_load_cosines(source, 8 * n);
    if (l.report.number == PEL_ACCEPTED)
        printf("%s: loaded, %" PRIu64 " coefficients\n", name, l.report.count);
    else if (l.report.number == PEL_BAD_COEFFICIENT_COUNT)
        printf("%s: refused with 17: %g coefficients aren't %g to %g\n", name, l.report.offered, l.report.smallest,
               l.report.largest);
    else if (l.report.number == PEL_BAD_COEFFICIENT)
        printf("%s: refused with 18: %g isn't from %g to %g\n", name, l.report.offered, l.report.smallest,
               l.report.largest);
    else if (l.report.number == PEL_BAD_COEFFICIENT_SUM)
        printf("%s: refused with 19: the coefficients don't add up to 1\n", name);
    return l;
}

/* How much of a sine of f Hz passes. */
static double passed(const uint8_t *bytes, double f)
{
    double sum = 0.0;
    for (size_t i = 0; i < TAPS; i++)
        sum += f64_at(bytes, i) * cos(2.0 * 3.141592653589793 * f / rate * ((double)i - (TAPS - 1) / 2.0));
    return fabs(sum);
}

static int design(const char *name, pel_cosines window, uint8_t *bytes)
{
    pel_report r = pel_lowpass_cosines(cutoff, rate, window, bytes, 8 * TAPS);
    if (r.number != PEL_ACCEPTED)
        return (int)r.number;
    printf("%s: passes %.4f of 800 Hz, %.4f of 1000, %.4f of 1200, %.6f of 1500\n", name, passed(bytes, 800.0),
           passed(bytes, 1000.0), passed(bytes, 1200.0), passed(bytes, 1500.0));
    return 0;
}

int main(void)
{
    static const double nuttall[] = {0.355768, 0.487396, 0.144232, 0.012604};
    static const double flat[] = {0.215578947, 0.41663158, 0.277263158, 0.083578947, 0.006947368};
    static const double printed[] = {0.21557895, 0.41663158, 0.277263158, 0.083578947, 0.006947368};
    static const double blackman[] = {0.42, 0.5, 0.08};
    static const double steep[] = {0.5, -0.25, 0.25, -0.5, 1.25};
    static const double six[] = {0.5, 0.5, 0.0, 0.0, 0.0, 0.0};
    uint8_t bytes[8 * TAPS], coded[8 * TAPS];

    pel_loaded l = load("Nuttall", nuttall, 4);
    if (l.report.number != PEL_ACCEPTED || design("Nuttall", l.window, bytes) != 0)
        return 1;

    /* A flat top as it is often printed, whose last digits don't add up; the loader looks at the exact sum, and allows
     * 2^-40. With one digit more in its first number they do. */
    l = load("a printed flat top", printed, 5);
    if (l.report.number == PEL_BAD_COEFFICIENT_SUM)
        l = load("a flat top", flat, 5);
    if (l.report.number != PEL_ACCEPTED || design("a flat top", l.window, bytes) != 0)
        return 1;

    /* What a code has loaded gives the very bytes of the code. */
    l = load("Blackman", blackman, 3);
    if (l.report.number != PEL_ACCEPTED || design("Blackman", l.window, bytes) != 0)
        return 1;
    pel_report r = pel_lowpass(cutoff, rate, PEL_BLACKMAN, 0.0, coded, sizeof coded);
    if (r.number == PEL_ACCEPTED && memcmp(bytes, coded, sizeof coded) == 0)
        puts("Blackman by its code: the same taps");

    /* A refused load leaves zeros for a window, and they are no window to design with. */
    load("six numbers", six, 6);
    l = load("a steep one", steep, 5);
    if (design("what it left", l.window, bytes) == PEL_BAD_SUM)
        puts("what it left: refused with 10: the taps add up to 0");
    return 0;
}
