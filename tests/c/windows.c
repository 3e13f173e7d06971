/* Calls the exports of windows from C: samples against the formulas over the C library's functions and against
 * known ones, what a window does to a level, every refusal with what it carries, and the order of refusals. */
#include "ticket.h"

#include "straight.h"

static const double inf = INFINITY, quiet = NAN, tiny = 5e-324, huge = 1.7976931348623157e308;

/* ---- The windows, by one pair of functions each ------------------------------------------------ */

static double straight_hann(double beta, uint64_t d, uint64_t i)
{
    (void)beta;
    return 0.5 - 0.5 * cos(2.0 * pi * (double)i / (double)d);
}

static double straight_harris(double beta, uint64_t d, uint64_t i)
{
    (void)beta;
    double x = 2.0 * pi * (double)i / (double)d;
    return 0.35875 - 0.48829 * cos(x) + 0.14128 * cos(2.0 * x) - 0.01168 * cos(3.0 * x);
}

static double straight_kaiser_window(double beta, uint64_t d, uint64_t i)
{
    return straight_kaiser(beta, d + 1, i);
}

static pel_report hann_f32(double beta, uint64_t symmetry, uint8_t *to, size_t bytes)
{
    (void)beta;
    return pel_hann_f32(symmetry, to, bytes);
}

static pel_report hann_q15(double beta, uint64_t symmetry, uint8_t *to, size_t bytes)
{
    (void)beta;
    return pel_hann_q15(symmetry, to, bytes);
}

static pel_report harris_f32(double beta, uint64_t symmetry, uint8_t *to, size_t bytes)
{
    (void)beta;
    return pel_blackman_harris_f32(symmetry, to, bytes);
}

static pel_report harris_q15(double beta, uint64_t symmetry, uint8_t *to, size_t bytes)
{
    (void)beta;
    return pel_blackman_harris_q15(symmetry, to, bytes);
}

typedef pel_report window(double beta, uint64_t symmetry, uint8_t *to, size_t bytes);

static const struct shape {
    const char *name;
    window *f32, *q15;
    /* Sample i, the period being d samples. */
    double (*straight)(double beta, uint64_t d, uint64_t i);
    int has_beta;
} shapes[] = {
    {"Hann", hann_f32, hann_q15, straight_hann, 0},
    {"Blackman-Harris", harris_f32, harris_q15, straight_harris, 0},
    {"Kaiser", pel_kaiser_f32, pel_kaiser_q15, straight_kaiser_window, 1},
};

static const struct shape *const hann = &shapes[0], *const harris = &shapes[1], *const kaiser = &shapes[2];

/* A symmetric window of one sample has no period, and is 1. */
static double straight_sample(const struct shape *s, double beta, uint64_t symmetry, uint64_t n, uint64_t i)
{
    uint64_t d = symmetry == PEL_SYMMETRIC ? n - 1 : n;
    return d == 0 ? 1.0 : s->straight(beta, d, i);
}

static double f32_at(const uint8_t *bytes)
{
    uint32_t b = bytes[0] | (uint32_t)bytes[1] << 8 | (uint32_t)bytes[2] << 16 | (uint32_t)bytes[3] << 24;
    float x;
    memcpy(&x, &b, sizeof x);
    return x;
}

static double sample(uint64_t i)
{
    return f32_at(out.at + 4 * i);
}

static double code(uint64_t i)
{
    int b = out.at[2 * i] | out.at[2 * i + 1] << 8;
    return b < 32768 ? b : b - 65536;
}

static double straight_q15(double x)
{
    return fmin(fmax(floor(x * 32768.0 + 0.5), -32768.0), 32767.0);
}

/* ---- Samples against the formulas -------------------------------------------------------------- */

static void between(const char *what, double got, double least, double most)
{
    checked++;
    if (got >= least && got <= most)
        return;
    wrong++;
    printf("%s gives %.17g, which is not from %.17g to %.17g\n", what, got, least, most);
}

/* The elementary functions of both sides differ in the last places, so each sample is held to what rounding
 * makes of the formula's value less and more `slack`: nearly always one and the same number. */
static void accepted(const struct shape *s, double beta, uint64_t symmetry, uint64_t n, double slack)
{
    char what[100];
    snprintf(what, sizeof what, "%s of %d samples, symmetry %d, beta %g", s->name, (int)n, (int)symmetry, beta);
    report(what, s->f32(beta, symmetry, lend(4 * n), 4 * n), counted(n));
    around(what);
    for (uint64_t i = 0; i < n; i++) {
        double x = straight_sample(s, beta, symmetry, n, i);
        between(what, sample(i), (float)(x - slack), (float)(x + slack));
    }
    report(what, s->q15(beta, symmetry, lend(2 * n), 2 * n), counted(n));
    around(what);
    for (uint64_t i = 0; i < n; i++) {
        double x = straight_sample(s, beta, symmetry, n, i);
        between(what, code(i), straight_q15(x - slack), straight_q15(x + slack));
    }
}

static void formulas(void)
{
    static const uint64_t lengths[] = {0, 1, 2, 3, 4, 5, 7, 8, 16, 31, 64, 100, 255, 1000, 1024, 4096};
    static const double betas[] = {0.0, -0.0, 0.5, 2.0, 6.0, 8.6, 14.0};
    for (uint64_t symmetry = PEL_PERIODIC; symmetry <= PEL_SYMMETRIC; symmetry++)
        for (size_t i = 0; i < COUNT(lengths); i++) {
            accepted(hann, 0, symmetry, lengths[i], 1e-14);
            accepted(harris, 0, symmetry, lengths[i], 1e-14);
            for (size_t k = 0; k < COUNT(betas); k++)
                accepted(kaiser, betas[k], symmetry, lengths[i], 1e-14);
            /* The error of a series grows with its argument's. */
            accepted(kaiser, 100, symmetry, lengths[i], 1e-12);
            accepted(kaiser, 700, symmetry, lengths[i], 1e-12);
        }
    accepted(hann, 0, PEL_PERIODIC, 65536, 1e-14);
    accepted(harris, 0, PEL_SYMMETRIC, 65535, 1e-14);
    accepted(kaiser, 8.6, PEL_PERIODIC, 65536, 1e-14);
}

/* ---- Samples that are known -------------------------------------------------------------------- */

static void known(const struct shape *s, double beta, uint64_t symmetry, uint64_t n, const double *floats,
                  const double *codes)
{
    report(s->name, s->f32(beta, symmetry, lend(4 * n), 4 * n), counted(n));
    for (uint64_t i = 0; i < n; i++)
        expect(s->name, sample(i), floats[i]);
    around(s->name);
    report(s->name, s->q15(beta, symmetry, lend(2 * n), 2 * n), counted(n));
    for (uint64_t i = 0; i < n; i++)
        expect(s->name, code(i), codes[i]);
    around(s->name);
}

static void examples(void)
{
    static const double ones[] = {1, 1, 1}, full[] = {32767, 32767, 32767}, zero[] = {0};
    known(hann, 0, PEL_PERIODIC, 4, (double[]){0, 0.5, 1, 0.5}, (double[]){0, 16384, 32767, 16384});
    known(hann, 0, PEL_SYMMETRIC, 5, (double[]){0, 0.5, 1, 0.5, 0}, (double[]){0, 16384, 32767, 16384, 0});
    known(hann, 0, PEL_SYMMETRIC, 3, (double[]){0, 1, 0}, (double[]){0, 32767, 0});
    known(hann, 0, PEL_PERIODIC, 2, (double[]){0, 1}, (double[]){0, 32767});
    known(hann, 0, PEL_SYMMETRIC, 2, (double[]){0, 0}, (double[]){0, 0});
    known(hann, 0, PEL_PERIODIC, 1, zero, zero);
    /* The coefficients with signs by turns add up to 0.00006, and to 1 in the middle; 0.35875 - 0.14128 is the
     * quarter. In Q15 they are 1.97, 7126.1 and 32768. */
    known(harris, 0, PEL_PERIODIC, 4, (double[]){0.00006f, 0.21747f, 1, 0.21747f}, (double[]){2, 7126, 32767, 7126});
    known(harris, 0, PEL_SYMMETRIC, 3, (double[]){0.00006f, 1, 0.00006f}, (double[]){2, 32767, 2});
    known(harris, 0, PEL_PERIODIC, 1, (double[]){0.00006f}, (double[]){2});
    known(kaiser, 0, PEL_PERIODIC, 3, ones, full);
    known(kaiser, 0, PEL_SYMMETRIC, 3, ones, full);
    /* I0(2) is 2.2795853023360673 (Abramowitz and Stegun, table 9.8), and 1 by that 0.43867628. */
    static const float end = 1.0 / 2.2795853023360673;
    known(kaiser, 2, PEL_SYMMETRIC, 3, (double[]){end, 1, end}, (double[]){14375, 32767, 14375});
    known(kaiser, 2, PEL_PERIODIC, 2, (double[]){end, 1}, (double[]){14375, 32767});
    known(kaiser, 2, PEL_PERIODIC, 1, (double[]){end}, (double[]){14375});
    /* The Rust's: eight Blackman-Harris samples, and Kaiser's window with beta 0. */
    report("eight", pel_blackman_harris_f32(PEL_PERIODIC, lend(32), 32), counted(8));
    near("the first of eight", sample(0), 6e-5, 1e-6);
    near("the fifth of eight", sample(4), 1.0, 1e-6);
    static const double five[] = {1, 1, 1, 1, 1}, five_full[] = {32767, 32767, 32767, 32767, 32767};
    known(kaiser, 0, PEL_SYMMETRIC, 5, five, five_full);
    known(harris, 0, PEL_PERIODIC, 2, (double[]){0.00006f, 1}, (double[]){2, 32767});
    /* I0(1) is 1.2660658777520084 by the Rust's example, and 1 by that 0.789848315. */
    report("beta 1", pel_kaiser_f32(1, PEL_SYMMETRIC, lend(12), 12), counted(3));
    near("the first for beta 1", sample(0), 0.789848315, 1e-6);
    expect("the middle for beta 1", sample(1), 1.0);
    expect("the last for beta 1", sample(2), sample(0));
    for (size_t i = 0; i < COUNT(shapes); i++) {
        known(&shapes[i], 5, PEL_SYMMETRIC, 1, ones, full);
        known(&shapes[i], 5, PEL_SYMMETRIC, 0, NULL, NULL);
        known(&shapes[i], 5, PEL_PERIODIC, 0, NULL, NULL);
    }
}

/* ---- Kaiser's window past 713: settled and accepted, or refused with 16 ------------------------------ */

/* D: n, or one less where the window is symmetric; 0 for no samples. */
static uint64_t divisor(uint64_t symmetry, uint64_t n)
{
    return symmetry == PEL_SYMMETRIC && n > 0 ? n - 1 : n;
}

/* To the bit, and by the formula. */
static void settled(double beta, uint64_t symmetry, uint64_t n)
{
    uint64_t d = divisor(symmetry, n);
    expect_count("settles", (uint64_t)straight_settles(beta, d, n), 1);
    accepted(kaiser, beta, symmetry, n, 1e-12);
    pel_kaiser_f32(beta, symmetry, lend(4 * n), 4 * n);
    for (uint64_t i = 0; i < n; i++)
        expect("a sample that settles", sample(i), (float)straight_element(beta, d, i));
    pel_kaiser_q15(beta, symmetry, lend(2 * n), 2 * n);
    for (uint64_t i = 0; i < n; i++)
        expect("a sample that settles", code(i), straight_q15(straight_element(beta, d, i)));
}

static void betas(void)
{
    static const double ones[] = {1}, full[] = {32767};
    static const uint64_t lengths[] = {0, 1, 2, 3, 4, 5, 8, 9, 64, 255};
    for (uint64_t symmetry = PEL_PERIODIC; symmetry <= PEL_SYMMETRIC; symmetry++)
        for (size_t i = 0; i < COUNT(lengths); i++) {
            uint64_t n = lengths[i];
            for (size_t k = 0; k < COUNT(settled_betas); k++)
                settled(settled_betas[k], symmetry, n);
            for (size_t k = 0; k < COUNT(unsettled_betas); k++) {
                double beta = unsettled_betas[k];
                /* No series is taken where there are no samples, and for a symmetric window of one. */
                if (divisor(symmetry, n) == 0) {
                    known(kaiser, beta, symmetry, n, ones, full);
                    continue;
                }
                REFUSED(pel_kaiser_f32(beta, symmetry, lend(4 * n), 4 * n), plain(16));
                REFUSED(pel_kaiser_q15(beta, symmetry, lend(2 * n), 2 * n), plain(16));
            }
        }
    /* One sample by name: a symmetric one is 1, and a periodic one takes its series. */
    known(kaiser, huge, PEL_SYMMETRIC, 1, ones, full);
    REFUSED(pel_kaiser_f32(huge, PEL_PERIODIC, lend(4), 4), plain(16));
    REFUSED(pel_kaiser_q15(huge, PEL_PERIODIC, lend(2), 2), plain(16));
    REPORT(pel_kaiser_f32(huge, PEL_PERIODIC, lend(0), 0), counted(0));
    REPORT(pel_kaiser_q15(huge, PEL_SYMMETRIC, lend(0), 0), counted(0));
}

/* ---- What windows do --------------------------------------------------------------------------- */

static void properties(const struct shape *s, double beta, uint64_t n)
{
    static double symmetric[4097];
    s->f32(beta, PEL_SYMMETRIC, lend(4 * (n + 1)), 4 * (n + 1));
    for (uint64_t i = 0; i <= n; i++) {
        symmetric[i] = sample(i);
        /* A last place of a float below 1. */
        near("a mirror image", sample(i), sample(n - i), 0x1p-24);
        between("from 0 to 1", sample(i), 0.0, 1.0);
    }
    /* A period begins anew where the symmetric window, one longer, ends. */
    s->f32(beta, PEL_PERIODIC, lend(4 * n), 4 * n);
    for (uint64_t i = 0; i < n; i++)
        expect("periodic", sample(i), symmetric[i]);
    if (n % 2 == 0)
        expect("1 in the middle", sample(n / 2), 1.0);
    for (uint64_t i = 1; i <= n / 2; i++)
        expect_count("rises to the middle", sample(i) >= sample(i - 1), 1);
}

/* Hann windows half a period apart add up to 1, where there is half a period. */
static void overlap(uint64_t n)
{
    if (n % 2 != 0)
        return;
    pel_hann_f32(PEL_PERIODIC, lend(4 * n), 4 * n);
    for (uint64_t i = 0; i < n / 2; i++)
        near("overlapped", sample(i) + sample(i + n / 2), 1.0, 0x1p-24);
}

/* ---- The gain ---------------------------------------------------------------------------------- */

static struct lent source;

static void gain_report(const char *what, pel_gain_report got, pel_gain_report want)
{
    char name[240];
#define FIELD(how, field) (snprintf(name, sizeof name, "%s: " #field, what), how(name, got.field, want.field))
    FIELD(expect_count, number);
    FIELD(expect_count, carries);
    FIELD(expect_count, expected);
    FIELD(expect_count, given);
    FIELD(expect_count, count);
    FIELD(expect, gain);
    FIELD(expect, bandwidth);
#undef FIELD
}

static pel_gain_report gain_of(const float *x, size_t n)
{
    lend_in(&source, 4 * n);
    for (size_t i = 0; i < 4 * n; i++) {
        uint32_t b;
        memcpy(&b, &x[i / 4], sizeof b);
        source.at[i] = (uint8_t)(b >> 8 * (i % 4));
    }
    return pel_window_gain(source.at, 4 * n);
}

static void gain_is(const char *what, const float *x, size_t n, double gain, double bandwidth)
{
    gain_report(what, gain_of(x, n), (pel_gain_report){.count = n, .gain = gain, .bandwidth = bandwidth});
}

/* The figures of the literature, for the samples in the buffer. */
static void figures(const char *what, uint64_t n, double gain, double bandwidth, double most)
{
    pel_gain_report r = pel_window_gain(out.at, 4 * n);
    near(what, r.gain, gain, most);
    near(what, r.bandwidth, bandwidth, most);
    gain_report(what, r, (pel_gain_report){.count = n, .gain = r.gain, .bandwidth = r.bandwidth});
}

static void gains(void)
{
    const float none[1] = {1};
    gain_is("none", none, 0, 0, 0);
    gain_is("the example", (const float[]){0, 0.5f, 1, 0.5f}, 4, 0.5, 1.5);
    gain_is("ones", (const float[]){1, 1, 1}, 3, 1, 1);
    gain_is("one", (const float[]){0.5f}, 1, 0.5, 1);
    gain_is("below 0", (const float[]){-1, -3}, 2, -2, 20.0 / 16.0);
    gain_is("a sum of 0", (const float[]){1, -1}, 2, 0, inf);
    gain_is("zeros", (const float[]){0, 0}, 2, 0, quiet);
    gain_is("four zeros", (const float[]){0, 0, 0, 0}, 4, 0, quiet);
    gain_is("a NaN", (const float[]){1, NAN, 1}, 3, quiet, quiet);
    gain_is("an infinity", (const float[]){1, INFINITY}, 2, inf, quiet);
    gain_is("both infinities", (const float[]){-INFINITY, INFINITY}, 2, quiet, quiet);
    /* What a float can't hold of sums and squares, a double can. */
    gain_is("the largest", (const float[]){0x1p127f, 0x1p127f}, 2, 0x1p127, 1);
    gain_is("the least", (const float[]){0x1p-149f, 0x1p-149f, 0, 0}, 4, 0x1p-150, 2);

    /* Random samples, over long doubles. */
    uint64_t state = 29;
    for (int k = 0; k < 2000; k++) {
        float x[40];
        size_t n = 1 + (size_t)(state >> 33) % 40;
        long double sum = 0.0L, squares = 0.0L;
        for (size_t i = 0; i < n; i++) {
            state = state * 6364136223846793005u + 1442695040888963407u;
            x[i] = (float)(state >> 40) / 16777216.0f;
            sum += x[i];
            squares += (long double)x[i] * x[i];
        }
        pel_gain_report r = gain_of(x, n);
        expect_count("random samples", r.number, 0);
        expect_count("random samples", r.count, n);
        near("random samples", r.gain, (double)(sum / (long double)n), 1e-14);
        near("random samples", r.bandwidth, (double)((long double)n * squares / (sum * sum)), 1e-12);
    }

    pel_hann_f32(PEL_PERIODIC, lend(4 * 4096), 4 * 4096);
    /* A float is off by 2^-25 at most. */
    figures("Hann", 4096, 0.5, 1.5, 1e-6);
    /* a0, and (a0^2 + (a1^2 + a2^2 + a3^2)/2)/a0^2. */
    pel_blackman_harris_f32(PEL_PERIODIC, lend(4 * 4096), 4 * 4096);
    double a0 = 0.35875, others = 0.48829 * 0.48829 + 0.14128 * 0.14128 + 0.01168 * 0.01168;
    figures("Blackman-Harris", 4096, a0, 1.0 + others / 2.0 / (a0 * a0), 1e-6);
    /* The same of eight samples, by hand: over a whole turn a cosine sums to 0, and its square to half the number of
     * samples. */
    pel_blackman_harris_f32(PEL_PERIODIC, lend(32), 32);
    pel_gain_report eight = pel_window_gain(out.at, 32);
    expect_count("eight samples", eight.number, 0);
    near("the gain of eight samples", eight.gain, 0.35875, 1e-7);
    near("the bandwidth of eight samples", eight.bandwidth, 2.00435294, 1e-6);
    /* Harris, On the Use of Windows for Harmonic Analysis (1978), table I; beta is pi times his alpha. */
    static const double table[][3] = {{2.0, 0.49, 1.50}, {2.5, 0.44, 1.65}, {3.0, 0.40, 1.80}, {3.5, 0.37, 1.93}};
    for (size_t i = 0; i < COUNT(table); i++) {
        pel_kaiser_f32(pi * table[i][0], PEL_PERIODIC, lend(4 * 4096), 4 * 4096);
        figures("Kaiser", 4096, table[i][1], table[i][2], 0.01);
    }
    pel_kaiser_f32(0, PEL_SYMMETRIC, lend(4 * 1001), 4 * 1001);
    figures("a rectangle", 1001, 1, 1, 0);
}

/* The source isn't read where its length is wrong: most of it may not even be. */
static void gain_refusals(void)
{
    size_t bytes = (size_t)1 << 32;
    uint8_t *locked = forbidden(bytes);
    static const size_t lengths[] = {1, 2, 3, 5, 13, 4097, ((size_t)1 << 32) - 1};
    for (size_t i = 0; i < COUNT(lengths); i++)
        gain_report(
            "8", pel_window_gain(locked, lengths[i]),
            (pel_gain_report){
                .number = 8, .carries = PEL_LENGTH, .expected = lengths[i] - lengths[i] % 4, .given = lengths[i]});
    munmap(locked, bytes);
}

/* ---- Refusals ---------------------------------------------------------------------------------- */

/* 7, 8, and Kaiser's 4 and 16. */
static void told(const struct shape *s, window *fill, size_t width, double beta, uint64_t symmetry, size_t bytes)
{
    pel_report r = fill(beta, symmetry, lend(bytes), bytes);
    if (symmetry > 1)
        report("7 first", r, plain(7));
    else if (bytes % width != 0)
        report("then 8", r, length(bytes - bytes % width, bytes));
    else if (s->has_beta && !(beta >= 0.0 && beta < inf))
        report("then 4", r, plain(4));
    else if (s->has_beta && !straight_settles(beta, divisor(symmetry, bytes / width), bytes / width))
        report("then 16", r, plain(16));
    else
        report("accepted", r, counted(bytes / width));
    r.number == 0 ? around("accepted") : as_it_came("refused");
}

static void orders(void)
{
    static const double all[] = {0.0,   -0.0,    5.0,  713.98690854396818, 713.9869085439683, 750.0, 1e3,
                                 1e308, -5e-324, -5.0, INFINITY,           -INFINITY,         NAN};
    static const uint64_t symmetries[] = {0, 1, 2, 1ull << 32, 1ull << 63, UINT64_MAX};
    for (size_t s = 0; s < COUNT(shapes); s++)
        for (size_t a = 0; a < COUNT(all); a++)
            for (size_t b = 0; b < COUNT(symmetries); b++)
                for (size_t bytes = 0; bytes <= 33; bytes++) {
                    told(&shapes[s], shapes[s].f32, 4, all[a], symmetries[b], bytes);
                    told(&shapes[s], shapes[s].q15, 2, all[a], symmetries[b], bytes);
                }
}

static void refusals(void)
{
    REFUSED(pel_hann_f32(2, lend(16), 16), plain(7));
    REFUSED(pel_hann_q15(UINT64_MAX, lend(0), 0), plain(7));
    REFUSED(pel_blackman_harris_f32(2, lend(13), 13), plain(7));
    REFUSED(pel_kaiser_q15(quiet, 2, lend(13), 13), plain(7));
    REFUSED(pel_hann_f32(PEL_PERIODIC, lend(18), 18), length(16, 18));
    REFUSED(pel_hann_q15(PEL_PERIODIC, lend(17), 17), length(16, 17));
    REFUSED(pel_blackman_harris_f32(PEL_SYMMETRIC, lend(3), 3), length(0, 3));
    REFUSED(pel_blackman_harris_q15(PEL_SYMMETRIC, lend(1), 1), length(0, 1));
    REFUSED(pel_kaiser_f32(quiet, PEL_SYMMETRIC, lend(6), 6), length(4, 6));
    REFUSED(pel_kaiser_f32(quiet, PEL_PERIODIC, lend(0), 0), plain(4));
    /* The Rust's beta of -1: in a buffer, in an empty one, and as Q15 numbers. */
    REFUSED(pel_kaiser_f32(-1, PEL_SYMMETRIC, lend(8), 8), plain(4));
    REFUSED(pel_kaiser_f32(-1, PEL_PERIODIC, lend(0), 0), plain(4));
    REFUSED(pel_kaiser_q15(-1, PEL_PERIODIC, lend(4), 4), plain(4));
    REFUSED(pel_kaiser_q15(-tiny, PEL_PERIODIC, lend(16), 16), plain(4));
    REFUSED(pel_kaiser_q15(inf, PEL_SYMMETRIC, lend(2), 2), plain(4));

    /* Buffers that may not even be read: these refusals need nothing of them. */
    size_t bytes = (size_t)1 << 32;
    uint8_t *locked = forbidden(bytes);
    for (size_t s = 0; s < COUNT(shapes); s++) {
        report("a huge window", shapes[s].f32(quiet, 2, locked, bytes - 1), plain(7));
        report("a huge window", shapes[s].q15(quiet, UINT64_MAX, locked, bytes), plain(7));
        report("a huge window", shapes[s].f32(quiet, 0, locked, bytes - 1), length(bytes - 4, bytes - 1));
        report("a huge window", shapes[s].q15(quiet, 1, locked, bytes - 1), length(bytes - 2, bytes - 1));
    }
    report("a huge window", pel_kaiser_f32(quiet, 0, locked, bytes), plain(4));
    report("a huge window", pel_kaiser_q15(-1, 1, locked, bytes), plain(4));
    report("7 before 16", pel_kaiser_f32(1e4, 2, locked, bytes), plain(7));
    report("8 before 16", pel_kaiser_f32(1e4, 0, locked, bytes - 1), length(bytes - 4, bytes - 1));
    report("a huge window", pel_kaiser_f32(1e4, 0, locked, bytes), plain(16));
    report("a huge window", pel_kaiser_q15(714, 1, locked, bytes), plain(16));
    munmap(locked, bytes);
}

/* Random bits as beta, symmetry and length: nothing may crash, hang or touch a byte that it should not. */
static void hostile(void)
{
    uint64_t state = 31;
    for (int i = 0; i < 20000; i++) {
        state = state * 6364136223846793005u + 1442695040888963407u;
        double beta = of_bits(state ^ state >> 31);
        size_t bytes = state >> 40 & 63;
        uint64_t symmetry = state >> 50 & 3;
        told(kaiser, pel_kaiser_f32, 4, beta, symmetry, bytes);
        told(kaiser, pel_kaiser_q15, 2, fabs(beta), symmetry, bytes);
    }
}

static void tests(void)
{
    formulas();
    examples();
    betas();
    static const uint64_t lengths[] = {1, 2, 3, 4, 9, 64, 1000, 1023, 4096};
    for (size_t i = 0; i < COUNT(lengths); i++) {
        properties(hann, 0, lengths[i]);
        properties(harris, 0, lengths[i]);
        properties(kaiser, 3, lengths[i]);
        properties(kaiser, 8.6, lengths[i]);
        overlap(lengths[i]);
    }
    gains();
    gain_refusals();
    refusals();
    orders();
    hostile();
}

int main(void)
{
    return both_ways(tests, "windows");
}
