/* A knob turned through a list of values: the record of a low-pass is kept, and each turn fills the taps anew. */
#include <math.h>
#include <peldozkar.h>
#include <stdio.h>

#include "taps.h"

enum { TAPS = 31 };

/* How much of a sine of f Hz passes. */
static double passed(const uint8_t *bytes, double f, double rate)
{
    double sum = 0.0;
    for (size_t i = 0; i < TAPS; i++)
        sum += f64_at(bytes, i) * cos(2.0 * 3.141592653589793 * f / rate * ((double)i - (TAPS - 1) / 2.0));
    return fabs(sum);
}

static void tell(const char *turn, double to, const uint8_t *bytes, double rate)
{
    printf("%s %4g: passes %.3f of 500 Hz, %.3f of 1000, %.3f of 1500, %.5f of 3000\n", turn, to,
           passed(bytes, 500.0, rate), passed(bytes, 1000.0, rate), passed(bytes, 1500.0, rate),
           passed(bytes, 3000.0, rate));
}

int main(void)
{
    static const double cutoffs[] = {800.0, 1200.0, 4000.0, 1500.0}, betas[] = {2.0, 8.0, -1.0};
    const double rate = 8000.0;
    uint8_t bytes[8 * TAPS];

    pel_tuned t = pel_design_lowpass(1000.0, rate, PEL_KAISER, 5.0, bytes, sizeof bytes);
    if (t.report.number != PEL_ACCEPTED)
        return (int)t.report.number;
    tell("cutoff", 1000.0, bytes, rate);

    /* What a turn answers is the record to keep, refused or not: after a refusal it is the one that went in. */
    for (size_t i = 0; i < sizeof cutoffs / sizeof cutoffs[0]; i++) {
        t = pel_design_new_cutoff(t.design, cutoffs[i], rate, bytes, sizeof bytes);
        if (t.report.number == PEL_ACCEPTED)
            tell("cutoff", cutoffs[i], bytes, rate);
        else if (t.report.number == PEL_BAD_FREQUENCY)
            printf("cutoff %g: refused with 2, it isn't between %g and %g; the taps stay\n", t.report.offered,
                   t.report.smallest, t.report.largest);
    }
    for (size_t i = 0; i < sizeof betas / sizeof betas[0]; i++) {
        t = pel_design_new_beta(t.design, betas[i], bytes, sizeof bytes);
        if (t.report.number == PEL_ACCEPTED)
            tell("beta  ", betas[i], bytes, rate);
        else if (t.report.number == PEL_BAD_ATTENUATION)
            printf("beta %g: refused with 4; the taps stay\n", betas[i]);
    }

    /* The record keeps the series at beta, so that a new cutoff needs none. */
    printf("at the end cutoff %g, beta %g, the series at beta %.4f\n", t.design.fraction * rate, t.design.beta,
           t.design.series);
    return 0;
}
