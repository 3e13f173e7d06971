/* Calls the exports of sections from C: biquads, Butterworth filters and pre-emphasis. Coefficients against the
 * formulas over the C library's functions, what the filters do at known frequencies, every refusal with what it
 * carries, and the order of refusals. */
#include "ticket.h"

#include <complex.h>

#include "straight.h"

static const double inf = INFINITY, quiet = NAN, tiny = 5e-324, huge = 1.7976931348623157e308;

static const char *const names[] = {"low-pass", "high-pass", "band-pass", "notch"};

/* ---- Straight formulas ------------------------------------------------------------------------- */

/* The Cookbook's b0, b1, b2, a1, a2, each divided by a0. */
static void straight_biquad(uint64_t response, double centre, double q, double rate, double *want)
{
    double w0 = 2.0 * pi * centre / rate, c = cos(w0), alpha = sin(w0) / (2.0 * q);
    double a[] = {1.0 + alpha, -2.0 * c, 1.0 - alpha};
    double b[][3] = {{(1.0 - c) / 2.0, 1.0 - c, (1.0 - c) / 2.0},
                     {(1.0 + c) / 2.0, -(1.0 + c), (1.0 + c) / 2.0},
                     {alpha, 0.0, -alpha},
                     {1.0, -2.0 * c, 1.0}};
    for (int k = 0; k < 3; k++)
        want[k] = b[response][k] / a[0];
    want[3] = a[1] / a[0];
    want[4] = a[2] / a[0];
}

/* The quality of the pole pair i of a Butterworth filter, the least first. */
static double straight_quality(uint64_t order, uint64_t i)
{
    double n = (double)order, k = (double)i + 1.0;
    return 1.0 / (2.0 * cos(order % 2 == 0 ? (2.0 * k - 1.0) * pi / (2.0 * n) : k * pi / n));
}

/* The section of first order that an odd order ends with. */
static void straight_first_order(uint64_t response, double cutoff, double rate, double *want)
{
    double w0 = 2.0 * pi * cutoff / rate, s = sin(w0), d = 1.0 + cos(w0);
    want[0] = (response == PEL_LOWPASS ? s : d) / (s + d);
    want[1] = response == PEL_LOWPASS ? want[0] : -want[0];
    want[2] = 0.0;
    want[3] = (s - d) / (s + d);
    want[4] = 0.0;
}

/* The gain of the section at tap 5 i of the buffer, at w radians a sample. */
static double gain(uint64_t i, double w)
{
    double complex z = cexp(-I * w);
    double complex above = tap(5 * i) + z * (tap(5 * i + 1) + z * tap(5 * i + 2));
    double complex below = 1.0 + z * (tap(5 * i + 3) + z * tap(5 * i + 4));
    return cabs(above / below);
}

/* The gain of the section at 0 and at half the rate, where z is 1 and -1, and the square of its gain at a quarter,
 * where z is i: from the numbers alone. */
static double gain_at_0(uint64_t i)
{
    return (tap(5 * i) + tap(5 * i + 1) + tap(5 * i + 2)) / (1.0 + tap(5 * i + 3) + tap(5 * i + 4));
}

static double gain_at_half(uint64_t i)
{
    return (tap(5 * i) - tap(5 * i + 1) + tap(5 * i + 2)) / (1.0 - tap(5 * i + 3) + tap(5 * i + 4));
}

static double power_at_quarter(uint64_t i)
{
    double b = tap(5 * i) - tap(5 * i + 2), a = 1.0 - tap(5 * i + 4);
    return (b * b + tap(5 * i + 1) * tap(5 * i + 1)) / (a * a + tap(5 * i + 3) * tap(5 * i + 3));
}

/* Within 1e-14, or a NaN where the formula has one. */
static void coefficient(const char *what, double got, double want)
{
    if (isnan(want))
        expect(what, got, want);
    else
        near(what, got, want, 1e-14);
}

/* ---- Biquads ----------------------------------------------------------------------------------- */

static pel_report biquad(uint64_t response, double centre, double q, double rate)
{
    return pel_biquad_coefs(response, centre, q, rate, lend(40), 40);
}

static void biquad_accepted(uint64_t response, double centre, double q, double rate)
{
    double want[5];
    char what[120];
    snprintf(what, sizeof what, "%s (%g, %g, %g)", names[response], centre, q, rate);
    report(what, biquad(response, centre, q, rate), counted(5));
    around(what);
    straight_biquad(response, centre, q, rate, want);
    for (uint64_t k = 0; k < 5; k++)
        coefficient(what, tap(k), want[k]);
}

/* What each response does at 0, at its centre and at half the rate, by the Cookbook; and it is stable. */
static void biquad_gains(double centre, double q, double rate)
{
    double w0 = 2.0 * pi * centre / rate;
    const double want[][3] = {{1.0, q, 0.0}, {0.0, q, 1.0}, {0.0, 1.0, 0.0}, {1.0, 0.0, 1.0}};
    for (uint64_t response = PEL_LOWPASS; response <= PEL_NOTCH; response++) {
        biquad_accepted(response, centre, q, rate);
        near("at 0", gain(0, 0.0), want[response][0], 1e-9);
        near("at the centre", gain(0, w0), want[response][1], 1e-9);
        near("at half the rate", gain(0, pi), want[response][2], 1e-9);
        expect_count("poles inside the circle", fabs(tap(4)) < 1.0 && fabs(tap(3)) < 1.0 + tap(4), 1);
    }
}

static void biquads(void)
{
    static const double centres[] = {500, 1000, 6000, 12000, 13579.5, 23000, 23900};
    static const double qualities[] = {0.1, 0.5, 0.70710678118654757, 1, 3, 50};
    for (size_t i = 0; i < COUNT(centres); i++)
        for (size_t k = 0; k < COUNT(qualities); k++)
            biquad_gains(centres[i], qualities[k], 48000);

    /* A quarter of the rate and a quality of 1/2: alpha is 1 and a0 is 2. */
    static const double want[][5] = {
        {0.25, 0.5, 0.25, 0, 0}, {0.25, -0.5, 0.25, 0, 0}, {0.5, 0, -0.5, 0, 0}, {0.5, 0, 0.5, 0, 0}};
    for (uint64_t response = PEL_LOWPASS; response <= PEL_NOTCH; response++) {
        biquad_accepted(response, 0.25, 0.5, 1);
        for (uint64_t k = 0; k < 5; k++)
            near("by hand", tap(k), want[response][k], 1e-15);
    }
    /* The header's example: cos(PI/2) is 6.1232339957367660e-17 for the double next to pi. */
    biquad(PEL_NOTCH, 0.25, 10, 1);
    near("a notch's b1", tap(1), -2.0 * 6.1232339957367660e-17 / 1.05, 1e-30);
    expect("and its a1", tap(3), tap(1));
}

/* Numbers that nobody means, and the formulas still have an answer for. */
static void extreme_biquads(void)
{
    static const double centres[] = {5e-324, 1e-310, 1e-200, 1e-9, 0.25, 0.49999999999999994};
    static const double qualities[] = {5e-324, 1e-310, 1e-300, 1e-10, 1e10, 1.7976931348623157e308};
    for (uint64_t response = PEL_LOWPASS; response <= PEL_NOTCH; response++) {
        for (size_t i = 0; i < COUNT(centres); i++)
            for (size_t k = 0; k < COUNT(qualities); k++)
                biquad_accepted(response, centres[i], qualities[k], 1);

        /* 2 PI centre overflows. */
        report("an infinite angle", biquad(response, 8e307, 1, huge), counted(5));
        for (uint64_t k = 0; k < 5; k++)
            expect("an infinite angle", tap(k), quiet);
        around("an infinite angle");
    }
    /* alpha is infinite: what it doesn't stand above is 0, and the others are infinity by infinity. */
    biquad(PEL_LOWPASS, 0.2, tiny, 1);
    for (uint64_t k = 0; k < 3; k++)
        expect("0 by an infinite alpha", tap(k), 0.0);
    expect("a1", tap(3), -0.0);
    expect("a2", tap(4), quiet);
    biquad(PEL_BANDPASS, 0.2, tiny, 1);
    expect("b0", tap(0), quiet);
    expect("b1", tap(1), 0.0);
    expect("b2", tap(2), quiet);
    /* No angle at all: cos is 1 and alpha 0. */
    biquad(PEL_HIGHPASS, tiny, 1, 1e10);
    static const double still[] = {1, -2, 1, -2, 1};
    for (uint64_t k = 0; k < 5; k++)
        expect("no angle", tap(k), still[k]);
}

static void biquad_examples(void)
{
    /* The Rust's low-pass; by the Cookbook it lets 0 through and half the rate not. */
    report("the Rust's low-pass", biquad(PEL_LOWPASS, 1000, 0.7071, 48000), counted(5));
    near("its gain at 0", gain_at_0(0), 1.0, 1e-12);
    near("its gain at half the rate", gain_at_half(0), 0.0, 1e-12);

    /* The Rust's notch above half the rate. By the order of the limits: the centre and the rate, then the quality. */
    REFUSED(biquad(PEL_NOTCH, 30000, 0.7071, 48000), range(2, 0, 24000, 30000));
    REFUSED(biquad(PEL_BANDPASS, 30000, 0, 48000), range(2, 0, 24000, 30000));
    REFUSED(biquad(PEL_HIGHPASS, 24000, 0.7071, 48000), range(2, 0, 24000, 24000));
    REFUSED(biquad(PEL_LOWPASS, 1000, quiet, 48000), range(5, 0, inf, quiet));
    REFUSED(biquad(PEL_LOWPASS, 1000, 0.7071, inf), range(2, 0, inf, 1000));
    REFUSED(biquad(PEL_LOWPASS, 1000, 0.7071, -48000), range(2, 0, -24000, 1000));

    /* By hand: 2 pi 8e307 is past the largest double, and no angle so large has a sine. */
    report("past all", biquad(PEL_LOWPASS, 8e307, 0.7071, 1.7e308), counted(5));
    for (uint64_t k = 0; k < 5; k++)
        expect("past all", tap(k), quiet);
    around("past all");
}

/* Next to where alpha and where 2 pi centre overflow, to the bit. The answers were worked out apart from the library,
 * by the Cookbook's formulas over Python's floats with the scope document's sine and cosine, and where they change by
 * a bisection over the bit patterns. Alpha is sin w0/(2 q): at a quarter of the rate, where the sine is 1, it is 2^1024
 * and so infinite at q = 2^-1025, and finite above. Elsewhere the last such quality is the sine times that. */
static void overflowing_biquads(void)
{
    expect("2^-1025", 2.781342323134e-309, 0x1p-1025);
    expect_count("its neighbour", bits(2.781342323134007e-309), bits(2.781342323134e-309) + 1);
    expect_count("neighbours at a fifth", bits(2.645213740464093e-309), bits(2.64521374046409e-309) + 1);
    static const struct {
        uint64_t response;
        double centre, q, want[5];
    } alphas[] = {
        {PEL_LOWPASS, 0.25, 2.781342323134e-309, {0, 0, 0, -0.0, NAN}},
        {PEL_LOWPASS, 0.25, 2.781342323134007e-309,
         {2.781342323134007e-309, 5.562684646268013e-309, 2.781342323134007e-309, -0.0, -1}},
        {PEL_HIGHPASS, 0.25, 2.781342323134e-309, {0, -0.0, 0, -0.0, NAN}},
        {PEL_HIGHPASS, 0.25, 2.781342323134007e-309,
         {2.781342323134007e-309, -5.562684646268013e-309, 2.781342323134007e-309, -0.0, -1}},
        {PEL_BANDPASS, 0.25, 2.781342323134e-309, {NAN, 0, NAN, -0.0, NAN}},
        {PEL_BANDPASS, 0.25, 2.781342323134007e-309, {1, 0, -1, -0.0, -1}},
        {PEL_NOTCH, 0.25, 2.781342323134e-309, {0, -0.0, 0, -0.0, NAN}},
        {PEL_NOTCH, 0.25, 2.781342323134007e-309, {5.562684646268013e-309, -0.0, 5.562684646268013e-309, -0.0, -1}},
        {PEL_LOWPASS, 0.2, 2.64521374046409e-309, {0, 0, 0, -0.0, NAN}},
        {PEL_LOWPASS, 0.2, 2.645213740464093e-309,
         {1.9218602781113e-309, 3.843720556222597e-309, 1.9218602781113e-309, -3.43792818009081e-309, -1}},
        {PEL_HIGHPASS, 0.2, 2.64521374046409e-309, {0, -0.0, 0, -0.0, NAN}},
        {PEL_HIGHPASS, 0.2, 2.645213740464093e-309,
         {3.640824368156707e-309, -7.28164873631341e-309, 3.640824368156707e-309, -3.43792818009081e-309, -1}},
        {PEL_BANDPASS, 0.2, 2.64521374046409e-309, {NAN, 0, NAN, -0.0, NAN}},
        {PEL_BANDPASS, 0.2, 2.645213740464093e-309, {1, 0, -1, -3.43792818009081e-309, -1}},
        {PEL_NOTCH, 0.2, 2.64521374046409e-309, {0, -0.0, 0, -0.0, NAN}},
        {PEL_NOTCH, 0.2, 2.645213740464093e-309,
         {5.562684646268003e-309, -3.43792818009081e-309, 5.562684646268003e-309, -3.43792818009081e-309, -1}},
    };
    for (size_t i = 0; i < COUNT(alphas); i++) {
        char what[120];
        snprintf(what, sizeof what, "%s (%g, %.17g, 1)", names[alphas[i].response], alphas[i].centre, alphas[i].q);
        report(what, biquad(alphas[i].response, alphas[i].centre, alphas[i].q, 1), counted(5));
        for (uint64_t k = 0; k < 5; k++)
            expect(what, tap(k), alphas[i].want[k]);
        around(what);
    }

    /* 2 pi centre is the largest double at the first of these, and infinite at the second. At the largest rate the
     * angle of the first is 1. */
    static const double last = 2.861117485757028e307, next = 2.8611174857570283e307;
    expect_count("neighbours", bits(next), bits(last) + 1);
    static const double ones[][5] = {
        {0.1617815900952932, 0.3235631801905864, 0.1617815900952932, -0.7605952110817249, 0.40772157146289784},
        {0.5420791956361557, -1.0841583912723114, 0.5420791956361557, -0.7605952110817249, 0.40772157146289784},
        {0.29613921426855105, 0, -0.29613921426855105, -0.7605952110817249, 0.40772157146289784},
        {0.7038607857314488, -0.7605952110817249, 0.7038607857314488, -0.7605952110817249, 0.40772157146289784},
    };
    for (uint64_t response = PEL_LOWPASS; response <= PEL_NOTCH; response++) {
        report("the last angle", biquad(response, last, 1, huge), counted(5));
        for (uint64_t k = 0; k < 5; k++)
            expect("the last angle", tap(k), ones[response][k]);
        around("the last angle");
        report("the first infinite angle", biquad(response, next, 1, huge), counted(5));
        for (uint64_t k = 0; k < 5; k++)
            expect("the first infinite angle", tap(k), quiet);
        around("the first infinite angle");
    }
}

static void biquad_refusals(void)
{
    REFUSED(pel_biquad_coefs(4, quiet, quiet, quiet, lend(13), 13), plain(7));
    REFUSED(pel_biquad_coefs(UINT64_MAX, 1000, 1, 48000, lend(40), 40), plain(7));
    REFUSED(pel_biquad_coefs(1ull << 32, 1000, 1, 48000, lend(0), 0), plain(7));

    REFUSED(pel_biquad_coefs(PEL_NOTCH, quiet, quiet, quiet, lend(0), 0), length(40, 0));
    REFUSED(pel_biquad_coefs(PEL_NOTCH, 1000, 1, 48000, lend(13), 13), length(40, 13));
    REFUSED(pel_biquad_coefs(PEL_NOTCH, 1000, 1, 48000, lend(32), 32), length(40, 32));
    REFUSED(pel_biquad_coefs(PEL_NOTCH, 1000, 1, 48000, lend(39), 39), length(40, 39));
    REFUSED(pel_biquad_coefs(PEL_NOTCH, 1000, 1, 48000, lend(41), 41), length(40, 41));
    REFUSED(pel_biquad_coefs(PEL_NOTCH, 1000, 1, 48000, lend(80), 80), length(40, 80));

    /* The centre and the rate together, before the quality. */
    REFUSED(biquad(PEL_LOWPASS, 0, quiet, 48000), range(2, 0, 24000, 0));
    REFUSED(biquad(PEL_LOWPASS, -0.0, 1, 48000), range(2, 0, 24000, -0.0));
    REFUSED(biquad(PEL_LOWPASS, -tiny, 1, 48000), range(2, 0, 24000, -tiny));
    REFUSED(biquad(PEL_LOWPASS, 24000, 1, 48000), range(2, 0, 24000, 24000));
    REFUSED(biquad(PEL_LOWPASS, 24001, -1, 48000), range(2, 0, 24000, 24001));
    REFUSED(biquad(PEL_LOWPASS, quiet, 1, 48000), range(2, 0, 24000, quiet));
    REFUSED(biquad(PEL_LOWPASS, inf, 1, 48000), range(2, 0, 24000, inf));
    REFUSED(biquad(PEL_LOWPASS, 1000, 0, quiet), range(2, 0, quiet, 1000));
    REFUSED(biquad(PEL_LOWPASS, 1000, 1, inf), range(2, 0, inf, 1000));
    REFUSED(biquad(PEL_LOWPASS, inf, 1, inf), range(2, 0, inf, inf));
    REFUSED(biquad(PEL_LOWPASS, 1000, 1, -48000), range(2, 0, -24000, 1000));
    REFUSED(biquad(PEL_LOWPASS, -1000, 1, -48000), range(2, 0, -24000, -1000));
    REFUSED(biquad(PEL_LOWPASS, 1000, 1, 0), range(2, 0, 0, 1000));
    /* Half of the least number is 0. */
    REFUSED(biquad(PEL_LOWPASS, tiny, 1, tiny), range(2, 0, 0, tiny));

    REFUSED(biquad(PEL_LOWPASS, 1000, 0, 48000), range(5, 0, inf, 0));
    REFUSED(biquad(PEL_LOWPASS, 1000, -0.0, 48000), range(5, 0, inf, -0.0));
    REFUSED(biquad(PEL_HIGHPASS, 1000, -tiny, 48000), range(5, 0, inf, -tiny));
    REFUSED(biquad(PEL_BANDPASS, 1000, inf, 48000), range(5, 0, inf, inf));
    REFUSED(biquad(PEL_NOTCH, 1000, -inf, 48000), range(5, 0, inf, -inf));
    REFUSED(biquad(PEL_NOTCH, 1000, quiet, 48000), range(5, 0, inf, quiet));
}

static int takes_centre(double centre, double rate)
{
    return centre > 0.0 && centre < rate / 2.0 && isfinite(rate);
}

/* 7, 8, 2, 5; and where none of them, the formula's numbers. */
static void biquad_told(uint64_t response, double centre, double q, double rate, size_t bytes)
{
    pel_report r = pel_biquad_coefs(response, centre, q, rate, lend(bytes), bytes);
    if (response > 3)
        report("7 first", r, plain(7));
    else if (bytes != 40)
        report("then 8", r, length(40, bytes));
    else if (!takes_centre(centre, rate))
        report("then 2", r, range(2, 0, rate / 2.0, centre));
    else if (!(q > 0.0 && q < inf))
        report("then 5", r, range(5, 0, inf, q));
    else
        biquad_accepted(response, centre, q, rate);
    r.number == 0 ? around("accepted") : as_it_came("refused");
}

/* ---- Butterworth filters ----------------------------------------------------------------------- */

static void butterworth_accepted(uint64_t response, uint64_t order, double cutoff, double rate)
{
    double want[5];
    char what[120];
    uint64_t sections = (order + 1) / 2;
    size_t bytes = 40 * sections;
    snprintf(what, sizeof what, "Butterworth %s of order %d (%g, %g)", names[response], (int)order, cutoff, rate);
    pel_report r = pel_butterworth_sos(response, order, cutoff, rate, lend(bytes), bytes);
    report(what, r, counted(5 * sections));
    around(what);
    for (uint64_t i = 0; i < sections; i++) {
        if (2 * i + 1 == order)
            straight_first_order(response, cutoff, rate, want);
        else
            straight_biquad(response, cutoff, straight_quality(order, i), rate, want);
        for (uint64_t k = 0; k < 5; k++)
            coefficient(what, tap(5 * i + k), want[k]);
    }
}

static double cascade_gain(uint64_t order, double w)
{
    double product = 1.0;
    for (uint64_t i = 0; i < (order + 1) / 2; i++)
        product *= gain(i, w);
    return product;
}

/* The bilinear transform of a Butterworth filter: 1/sqrt(1 + (tan(w/2)/tan(cutoff/2))^(2 order)), and for a
 * high-pass the other way up. */
static void butterworth_gains(uint64_t order, double cutoff, double rate)
{
    double at_cutoff = 2.0 * pi * cutoff / rate;
    butterworth_accepted(PEL_LOWPASS, order, cutoff, rate);
    near("a low-pass at 0", cascade_gain(order, 0.0), 1.0, 1e-9);
    near("a low-pass at its cutoff", cascade_gain(order, at_cutoff), 1.0 / sqrt(2.0), 1e-9);
    near("a low-pass at half the rate", cascade_gain(order, pi), 0.0, 1e-9);
    for (double w = 0.1; w < pi; w += 0.1) {
        double ratio = tan(w / 2.0) / tan(at_cutoff / 2.0);
        near("a low-pass", cascade_gain(order, w), 1.0 / sqrt(1.0 + pow(ratio, 2.0 * (double)order)), 1e-9);
    }
    butterworth_accepted(PEL_HIGHPASS, order, cutoff, rate);
    near("a high-pass at 0", cascade_gain(order, 0.0), 0.0, 1e-9);
    near("a high-pass at its cutoff", cascade_gain(order, at_cutoff), 1.0 / sqrt(2.0), 1e-9);
    near("a high-pass at half the rate", cascade_gain(order, pi), 1.0, 1e-9);
    for (double w = 0.1; w < pi; w += 0.1) {
        double ratio = tan(at_cutoff / 2.0) / tan(w / 2.0);
        near("a high-pass", cascade_gain(order, w), 1.0 / sqrt(1.0 + pow(ratio, 2.0 * (double)order)), 1e-9);
    }
}

static void butterworths(void)
{
    static const double cutoffs[] = {480, 1000, 8000, 12000, 20000, 23500};
    for (uint64_t order = 2; order <= 8; order++)
        for (size_t i = 0; i < COUNT(cutoffs); i++)
            butterworth_gains(order, cutoffs[i], 48000);

    /* The tables' qualities, to their eight digits: a2 is (1 - alpha)/(1 + alpha), and alpha 1/(2 q) here. */
    static const double tables[][4] = {{0.70710678},
                                       {1.0},
                                       {0.54119610, 1.3065630},
                                       {0.61803399, 1.6180340},
                                       {0.51763809, 0.70710678, 1.9318517},
                                       {0.55495813, 0.80193774, 2.2469796},
                                       {0.50979558, 0.60134489, 0.89997622, 2.5629154}};
    for (uint64_t order = 2; order <= 8; order++) {
        butterworth_accepted(PEL_LOWPASS, order, 0.25, 1);
        for (uint64_t i = 0; i < order / 2; i++) {
            double alpha = 1.0 / (2.0 * tables[order - 2][i]);
            near("a quality of the tables", tap(5 * i + 4), (1.0 - alpha) / (1.0 + alpha), 1e-7);
        }
    }
    butterworth_accepted(PEL_LOWPASS, 8, tiny, 1);
    butterworth_accepted(PEL_HIGHPASS, 8, nextafter(0.5, 0), 1);
    butterworth_accepted(PEL_HIGHPASS, 2, 1e300, 1e301);
    butterworth_accepted(PEL_LOWPASS, 7, tiny, 1);
    butterworth_accepted(PEL_HIGHPASS, 5, 1e300, 1e301);

    /* 2 PI cutoff overflows. */
    REPORT(pel_butterworth_sos(PEL_LOWPASS, 4, 8e307, huge, lend(80), 80), counted(10));
    for (uint64_t k = 0; k < 10; k++)
        expect("an infinite angle", tap(k), quiet);
    around("an infinite angle");
}

/* The last section of an accepted filter of odd order has these numbers, zeros with their signs. */
static void ends_with(const char *what, uint64_t response, uint64_t order, double cutoff, double rate,
                      const double *want)
{
    size_t bytes = 20 * (order + 1);
    report(what, pel_butterworth_sos(response, order, cutoff, rate, lend(bytes), bytes), counted(bytes / 8));
    around(what);
    for (uint64_t k = 0; k < 5; k++)
        expect(what, tap(bytes / 8 - 5 + k), want[k]);
}

static void first_orders(void)
{
    double below = nextafter(0.5, 0);
    for (uint64_t order = 3; order <= 7; order += 2) {
        /* By hand: at a quarter of the rate s and d are 1. */
        ends_with("a low-pass at a quarter", PEL_LOWPASS, order, 0.25, 1, (double[]){0.5, 0.5, 0.0, 0.0, 0.0});
        ends_with("a high-pass at a quarter", PEL_HIGHPASS, order, 0.25, 1, (double[]){0.5, -0.5, 0.0, 0.0, 0.0});
        /* Next to half the rate d is 0: the pole is on the circle, under the zero of a low-pass. */
        ends_with("a low-pass next to half", PEL_LOWPASS, order, below, 1, (double[]){1.0, 1.0, 0.0, 1.0, 0.0});
        ends_with("a high-pass next to half", PEL_HIGHPASS, order, below, 1, (double[]){0.0, -0.0, 0.0, 1.0, 0.0});
        /* Next to 0 s is lost in the sum and the difference, and the pole is on the circle at 1. */
        ends_with("a low-pass next to 0", PEL_LOWPASS, order, tiny, 1e300, (double[]){0.0, 0.0, 0.0, -1.0, 0.0});
        ends_with("a high-pass next to 0", PEL_HIGHPASS, order, tiny, 1e300, (double[]){1.0, -1.0, 0.0, -1.0, 0.0});
        /* 2 PI cutoff overflows, and b2 and a2 are 0 all the same. */
        for (uint64_t response = PEL_LOWPASS; response <= PEL_HIGHPASS; response++)
            ends_with("an infinite angle", response, order, 8e307, huge, (double[]){quiet, quiet, 0.0, quiet, 0.0});
    }
    /* By hand: order 3 at a quarter begins with the quality 1, so alpha is 1/2 and 1 + alpha 3/2. What the formula
     * gives is 0.9999999999999998, so to a rounding. */
    pel_butterworth_sos(PEL_LOWPASS, 3, 0.25, 1, lend(80), 80);
    near("b0 of order 3", tap(0), 1.0 / 3.0, 1e-15);
    near("a2 of order 3", tap(4), 1.0 / 3.0, 1e-15);
    near("half the power at its cutoff", power_at_quarter(0) * power_at_quarter(1), 0.5, 1e-14);
}

static void butterworth_examples(void)
{
    /* The Rust's: the section with the lower quality comes first, and its a2 is the lower. By hand: the gain of all at
     * 0 is 1, and half the power passes at the cutoff. */
    report("order 4 at 1000", pel_butterworth_sos(PEL_LOWPASS, 4, 1000, 48000, lend(80), 80), counted(10));
    expect_count("the a2 of section 0 is below that of section 1", tap(4) < tap(9), 1);
    near("the gain of both at 0", gain_at_0(0) * gain_at_0(1), 1.0, 1e-12);
    report("order 4 at 12000", pel_butterworth_sos(PEL_HIGHPASS, 4, 12000, 48000, lend(80), 80), counted(10));
    near("half the power at 12000", power_at_quarter(0) * power_at_quarter(1), 0.5, 1e-14);

    /* The Rust's buffer of one section for order 4. By the order of the limits: 7 before 6, 8 before 2. */
    REFUSED(pel_butterworth_sos(PEL_LOWPASS, 4, 24000, 48000, lend(40), 40), length(10, 5));
    REFUSED(pel_butterworth_sos(PEL_BANDPASS, 4, 1000, 48000, lend(40), 40), plain(7));
    REFUSED(pel_butterworth_sos(PEL_BANDPASS, 9, 1000, 48000, lend(40), 40), plain(7));
    REFUSED(pel_butterworth_sos(PEL_BANDPASS, 3, 1000, 48000, lend(40), 40), plain(7));

    /* Next to where 2 pi cutoff overflows, as of a biquad. */
    butterworth_accepted(PEL_LOWPASS, 4, 2.861117485757028e307, huge);
    for (uint64_t k = 0; k < 10; k++)
        expect_count("the last angle", isnan(tap(k)), 0);
    pel_butterworth_sos(PEL_LOWPASS, 4, 2.8611174857570283e307, huge, lend(80), 80);
    for (uint64_t k = 0; k < 10; k++)
        expect("the first infinite angle", tap(k), quiet);
}

static void butterworth_refusals(void)
{
    REFUSED(pel_butterworth_sos(4, 0, quiet, quiet, lend(13), 13), plain(7));
    REFUSED(pel_butterworth_sos(UINT64_MAX, 4, 1000, 48000, lend(80), 80), plain(7));

    REFUSED(pel_butterworth_sos(PEL_NOTCH, 0, quiet, quiet, lend(13), 13), length(8, 13));
    REFUSED(pel_butterworth_sos(PEL_LOWPASS, 4, 1000, 48000, lend(81), 81), length(80, 81));
    REFUSED(pel_butterworth_sos(PEL_LOWPASS, 4, 1000, 48000, lend(79), 79), length(72, 79));
    REFUSED(pel_butterworth_sos(PEL_LOWPASS, 4, 1000, 48000, lend(7), 7), length(0, 7));

    REFUSED(pel_butterworth_sos(PEL_BANDPASS, 9, quiet, quiet, lend(8), 8), plain(7));
    REFUSED(pel_butterworth_sos(PEL_NOTCH, 4, 1000, 48000, lend(80), 80), plain(7));
    REFUSED(pel_butterworth_sos(PEL_BANDPASS, 4, 1000, 48000, lend(0), 0), plain(7));

    static const uint64_t orders[] = {0, 1, 9, 10, 11, 12, 1ull << 32, (1ull << 32) + 3, (1ull << 63) + 4, UINT64_MAX};
    for (size_t i = 0; i < COUNT(orders); i++) {
        REFUSED(pel_butterworth_sos(PEL_LOWPASS, orders[i], 1000, 48000, lend(80), 80), plain(6));
        REFUSED(pel_butterworth_sos(PEL_HIGHPASS, orders[i], quiet, quiet, lend(0), 0), plain(6));
    }

    /* The buffer before the cutoff, unlike pel_lowpass. */
    REFUSED(pel_butterworth_sos(PEL_LOWPASS, 4, quiet, quiet, lend(0), 0), length(10, 0));
    REFUSED(pel_butterworth_sos(PEL_LOWPASS, 4, 1000, 48000, lend(72), 72), length(10, 9));
    REFUSED(pel_butterworth_sos(PEL_LOWPASS, 4, 1000, 48000, lend(88), 88), length(10, 11));
    REFUSED(pel_butterworth_sos(PEL_LOWPASS, 2, 0, 48000, lend(80), 80), length(5, 10));
    REFUSED(pel_butterworth_sos(PEL_LOWPASS, 8, 1000, 48000, lend(80), 80), length(20, 10));
    REFUSED(pel_butterworth_sos(PEL_LOWPASS, 3, 1000, 48000, lend(40), 40), length(10, 5));
    REFUSED(pel_butterworth_sos(PEL_HIGHPASS, 5, quiet, quiet, lend(80), 80), length(15, 10));
    REFUSED(pel_butterworth_sos(PEL_LOWPASS, 7, 1000, 48000, lend(140), 140), length(136, 140));
    REFUSED(pel_butterworth_sos(PEL_LOWPASS, 7, 1000, 48000, lend(120), 120), length(20, 15));

    REFUSED(pel_butterworth_sos(PEL_LOWPASS, 2, 0, 48000, lend(40), 40), range(2, 0, 24000, 0));
    REFUSED(pel_butterworth_sos(PEL_LOWPASS, 4, 24000, 48000, lend(80), 80), range(2, 0, 24000, 24000));
    REFUSED(pel_butterworth_sos(PEL_LOWPASS, 4, -inf, 48000, lend(80), 80), range(2, 0, 24000, -inf));
    REFUSED(pel_butterworth_sos(PEL_HIGHPASS, 6, quiet, quiet, lend(120), 120), range(2, 0, quiet, quiet));
    REFUSED(pel_butterworth_sos(PEL_HIGHPASS, 8, 1000, inf, lend(160), 160), range(2, 0, inf, 1000));
    REFUSED(pel_butterworth_sos(PEL_HIGHPASS, 8, 1000, -48000, lend(160), 160), range(2, 0, -24000, 1000));
    REFUSED(pel_butterworth_sos(PEL_LOWPASS, 3, 24000, 48000, lend(80), 80), range(2, 0, 24000, 24000));
    REFUSED(pel_butterworth_sos(PEL_HIGHPASS, 7, quiet, 48000, lend(160), 160), range(2, 0, 24000, quiet));
}

/* 7, 8 in bytes, 7, 6, 8 in numbers, 2; and where none of them, the formula's numbers. */
static void butterworth_told(uint64_t response, uint64_t order, double cutoff, double rate, size_t bytes)
{
    pel_report r = pel_butterworth_sos(response, order, cutoff, rate, lend(bytes), bytes);
    if (response > 3)
        report("7 of the code first", r, plain(7));
    else if (bytes % 8 != 0)
        report("then 8 in bytes", r, length(bytes - bytes % 8, bytes));
    else if (response > 1)
        report("then 7 of the response", r, plain(7));
    else if (order < 2 || order > 8)
        report("then 6", r, plain(6));
    else if (bytes != 40 * ((order + 1) / 2))
        report("then 8 in numbers", r, length(5 * ((order + 1) / 2), bytes / 8));
    else if (!takes_centre(cutoff, rate))
        report("then 2", r, range(2, 0, rate / 2.0, cutoff));
    else
        butterworth_accepted(response, order, cutoff, rate);
    r.number == 0 ? around("accepted") : as_it_came("refused");
}

/* ---- Pre-emphasis ------------------------------------------------------------------------------ */

/* (1 + s tau)/(1 + s p), p = 1/(2 pi rate/2.4), with s = 2 rate (1 - z)/(1 + z), z one sample's delay. */
static void straight_preemphasis(double tau, double rate, double *want)
{
    double p = 1.0 / (2.0 * pi * (rate / 2.4)), k = 2.0 * rate;
    want[0] = (1.0 + k * tau) / (1.0 + k * p);
    want[1] = (1.0 - k * tau) / (1.0 + k * p);
    want[2] = (1.0 - k * p) / (1.0 + k * p);
}

static pel_report preemphasis(double tau, double rate)
{
    return pel_preemphasis_coefs(tau, rate, lend(24), 24);
}

/* Every operation of the formula is exact or rounded once and none is the C library's: the bits must agree. */
static void preemphasis_accepted(double tau, double rate)
{
    double want[3];
    char what[120];
    snprintf(what, sizeof what, "pre-emphasis (%g, %g)", tau, rate);
    report(what, preemphasis(tau, rate), counted(3));
    around(what);
    straight_preemphasis(tau, rate, want);
    for (uint64_t k = 0; k < 3; k++)
        expect(what, tap(k), want[k]);
}

/* The analog filter at the frequency that the transform puts at w. */
static double analog_gain(double tau, double rate, double w)
{
    double s = 2.0 * rate * tan(w / 2.0);
    return hypot(1.0, s * tau) / hypot(1.0, s * 2.4 / (2.0 * pi * rate));
}

static void preemphases(void)
{
    static const double taus[] = {50e-6, 75e-6, 5e-324, 1e-12, 530e-6, 0.001};
    static const double rates[] = {40000, 44100, 48000, 192000, 2e6};
    for (size_t i = 0; i < COUNT(taus); i++)
        for (size_t k = 0; k < COUNT(rates); k++) {
            preemphasis_accepted(taus[i], rates[k]);
            near("at 0", (tap(0) + tap(1)) / (1.0 + tap(2)), 1.0, 1e-12);
            /* The pole is the same for every rate. */
            near("a1", tap(2), (pi - 2.4) / (pi + 2.4), 1e-14);
            for (double w = 0.1; w < pi; w += 0.1) {
                double complex z = cexp(-I * w);
                double got = cabs((tap(0) + z * tap(1)) / (1.0 + z * tap(2)));
                near("a gain", got / analog_gain(taus[i], rates[k], w), 1.0, 1e-9);
            }
        }
    preemphasis_accepted(nextafter(0.001, 0), nextafter(40000, 50000));
    preemphasis_accepted(0.001, 1e300);

    /* The pole's frequency overflows and the pole is 0, by hand; then 2 rate too, and infinity by 0 is NaN. */
    report("no pole", preemphasis(0.001, 8e307), counted(3));
    expect("b0 without a pole", tap(0), 1.6e308 * 0.001 + 1.0);
    expect("b1 without a pole", tap(1), 1.0 - 1.6e308 * 0.001);
    expect("a1 without a pole", tap(2), 1.0);
    report("the largest rate", preemphasis(50e-6, huge), counted(3));
    for (uint64_t k = 0; k < 3; k++)
        expect("the largest rate", tap(k), quiet);
    around("the largest rate");
}

static void preemphasis_examples(void)
{
    /* The Rust's 50 us; by hand: the gain at half the rate is tau times the pole, 50e-6 2 pi 48000/2.4. */
    report("50 us", preemphasis(50e-6, 48000), counted(3));
    near("its gain at half the rate", (tap(0) - tap(1)) / (1.0 - tap(2)), 6.283185307179586, 1e-12);

    /* The Rust's 2 ms and 32 kHz; the time constant is told first. */
    REFUSED(preemphasis(2e-3, 48000), range(5, 0, 0.001, 2e-3));
    REFUSED(preemphasis(50e-6, 32000), range(1, 40000, inf, 32000));
    REFUSED(preemphasis(2e-3, 32000), range(5, 0, 0.001, 2e-3));
}

static void preemphasis_refusals(void)
{
    REFUSED(pel_preemphasis_coefs(quiet, quiet, lend(0), 0), length(24, 0));
    REFUSED(pel_preemphasis_coefs(50e-6, 48000, lend(13), 13), length(24, 13));
    REFUSED(pel_preemphasis_coefs(50e-6, 48000, lend(16), 16), length(24, 16));
    REFUSED(pel_preemphasis_coefs(50e-6, 48000, lend(23), 23), length(24, 23));
    REFUSED(pel_preemphasis_coefs(50e-6, 48000, lend(25), 25), length(24, 25));
    REFUSED(pel_preemphasis_coefs(50e-6, 48000, lend(40), 40), length(24, 40));

    /* The time constant before the rate. */
    REFUSED(preemphasis(0, quiet), range(5, 0, 0.001, 0));
    REFUSED(preemphasis(-0.0, 48000), range(5, 0, 0.001, -0.0));
    REFUSED(preemphasis(-tiny, 48000), range(5, 0, 0.001, -tiny));
    REFUSED(preemphasis(nextafter(0.001, 1), 48000), range(5, 0, 0.001, nextafter(0.001, 1)));
    REFUSED(preemphasis(50, 1), range(5, 0, 0.001, 50));
    REFUSED(preemphasis(inf, 48000), range(5, 0, 0.001, inf));
    REFUSED(preemphasis(-inf, 48000), range(5, 0, 0.001, -inf));
    REFUSED(preemphasis(quiet, 48000), range(5, 0, 0.001, quiet));

    REFUSED(preemphasis(50e-6, nextafter(40000, 0)), range(1, 40000, inf, nextafter(40000, 0)));
    REFUSED(preemphasis(50e-6, 0), range(1, 40000, inf, 0));
    REFUSED(preemphasis(50e-6, -48000), range(1, 40000, inf, -48000));
    REFUSED(preemphasis(50e-6, inf), range(1, 40000, inf, inf));
    REFUSED(preemphasis(50e-6, -inf), range(1, 40000, inf, -inf));
    REFUSED(preemphasis(50e-6, quiet), range(1, 40000, inf, quiet));
}

/* 8, 5, 1; and where none of them, the formula's numbers. */
static void preemphasis_told(double tau, double rate, size_t bytes)
{
    pel_report r = pel_preemphasis_coefs(tau, rate, lend(bytes), bytes);
    if (bytes != 24)
        report("8 first", r, length(24, bytes));
    else if (!(tau > 0.0 && tau <= 0.001))
        report("then 5", r, range(5, 0, 0.001, tau));
    else if (!(rate >= 40000.0 && rate < inf))
        report("then 1", r, range(1, 40000, inf, rate));
    else
        preemphasis_accepted(tau, rate);
    r.number == 0 ? around("accepted") : as_it_came("refused");
}

/* ---- Orders of refusals, and random bits ------------------------------------------------------- */

/* Every combination of good and bad arguments. */
static void orders(void)
{
    static const uint64_t responses[] = {0, 1, 2, 3, 4, UINT64_MAX};
    static const uint64_t cascade_orders[] = {2, 3, 4, 7, 8, 0, 1, 9, UINT64_MAX};
    static const double numbers[] = {1000, 24000, 48000, 0.5, 0.001, 5e-324, 0, -1, INFINITY, -INFINITY, NAN};
    static const size_t lengths[] = {24, 40, 80, 160, 0, 8, 13};
    for (size_t a = 0; a < COUNT(numbers); a++)
        for (size_t b = 0; b < COUNT(numbers); b++)
            for (size_t c = 0; c < COUNT(lengths); c++) {
                preemphasis_told(numbers[a], numbers[b], lengths[c]);
                for (size_t d = 0; d < COUNT(responses); d++) {
                    for (size_t e = 0; e < COUNT(numbers); e++)
                        biquad_told(responses[d], numbers[a], numbers[e], numbers[b], lengths[c]);
                    for (size_t e = 0; e < COUNT(cascade_orders); e++)
                        butterworth_told(responses[d], cascade_orders[e], numbers[a], numbers[b], lengths[c]);
                }
            }
}

/* Random bits everywhere, and half of the time numbers that are taken. */
static void hostile(void)
{
    uint64_t state = 17;
    for (int i = 0; i < 20000; i++) {
        double x[3];
        for (int k = 0; k < 3; k++) {
            state = state * 6364136223846793005u + 1442695040888963407u;
            x[k] = of_bits(state ^ state >> 31);
        }
        uint64_t n = state >> 40;
        biquad_told(n % 5, x[0], x[1], x[2], n % 7 == 0 ? n % 50 : 40);
        biquad_told(n % 4, fabs(x[0]), fabs(x[1]), huge, 40);
        butterworth_told(n % 3, n % 10, x[0], x[2], n % 9 * 20);
        butterworth_told(n % 2, n % 7 + 2, fabs(x[0]), huge, (n % 7 + 3) / 2 * 40);
        preemphasis_told(x[0], x[1], n % 7 == 0 ? n % 50 : 24);
        preemphasis_told(fmod(fabs(x[0]), 0.001), 40000 + fabs(x[1]), 24);
    }
}

static void tests(void)
{
    biquads();
    biquad_examples();
    extreme_biquads();
    overflowing_biquads();
    biquad_refusals();
    butterworths();
    first_orders();
    butterworth_examples();
    butterworth_refusals();
    preemphases();
    preemphasis_examples();
    preemphasis_refusals();
    orders();
    hostile();
}

int main(void)
{
    return both_ways(tests, "sections");
}
