/* Calls the exports of pulses from C, the Gaussian's and the root-raised-cosine's: taps against the formula,
 * every refusal with what it carries, and the order of refusals. */
#include "ticket.h"

#include "straight.h"

static const double inf = INFINITY, quiet = NAN;

/* ---- Gaussian ---------------------------------------------------------------------------------- */

/* (2^24 - 1)/span rounded down, for a span of 2 to 8 symbols. */
static uint64_t most_samples(uint64_t span)
{
    return 16777215 / span;
}

static void accepted(double bt, uint64_t samples, uint64_t span)
{
    static double want[4096];
    uint64_t n = samples * span + 1;
    char what[80];
    snprintf(what, sizeof what, "Gaussian (%g, %d, %d)", bt, (int)samples, (int)span);
    pel_report r = pel_gaussian(bt, samples, span, lend(8 * n), 8 * n);
    double sum = straight_gaussian(bt, samples, span, want);
    near(what, r.value / sum, 1.0, 1e-12);
    report(what, r, (pel_report){.count = n, .value = r.value});
    report(what, pel_gaussian_new(bt, samples, span), r);
    around(what);

    for (uint64_t i = 0; i < n; i++) {
        near(what, tap(i), want[i], 1e-12);
        /* Only the square of the time enters, so the halves are alike to the bit. */
        expect_count("a tap and its mirror image", bits(tap(i)), bits(tap(n - 1 - i)));
        expect_count("the middle is the peak", tap(i) <= tap((n - 1) / 2), 1);
    }
    expect_count("and falls off", n % 2 == 0 || tap((n - 1) / 2) > tap((n - 1) / 2 - 1), 1);
    total_is_one(what, n);
}

static void designs(void)
{
    expect_count("the example's taps", pel_gaussian_new(0.5, 8, 4).count, 33);
    accepted(0.5, 8, 4);
    static const double bts[] = {0.2, 0.3, 0.5, 1.0};
    static const uint64_t samples[] = {2, 3, 7, 40, 300};
    for (size_t i = 0; i < sizeof bts / sizeof bts[0]; i++)
        for (size_t k = 0; k < sizeof samples / sizeof samples[0]; k++)
            for (uint64_t span = 2; span <= 8; span++)
                accepted(bts[i], samples[k], span);
    expect_count("the longest", pel_gaussian_new(0.5, most_samples(2), 2).count, 16777215);
}

static void examples(void)
{
    /* The Rust's: its peak is in the middle, and a bt below 0.2 is refused. */
    expect_count("bt 0.5", pel_gaussian(0.5, 8, 4, lend(8 * 33), 8 * 33).number, 0);
    peak_at("bt 0.5 has its peak at tap 16", 33, 16);
    RANGE(pel_gaussian_new(0.1, 8, 4), 5, 0.2, 1, 0.1);

    /* By hand: 2 pi^2/ln 2 is 28.478, and the samples lie at 1/6, 1/2, 5/6 .. of a symbol to both sides, so
     * 2 exp(-0.7911) + 2 exp(-7.1195) + .. is 0.908. */
    near("the divisor of bt 1", pel_gaussian_new(1, 3, 3).value, 0.908, 5e-4);

    /* By the limits: the span first, then the samples, up to (2^24 - 1)/4. */
    RANGE(pel_gaussian_new(0.5, 8, 9), 6, 2, 8, 9);
    RANGE(pel_gaussian_new(0.5, 0, 9), 6, 2, 8, 9);
    RANGE(pel_gaussian_new(0.5, 1, 4), 6, 2, 4194303, 1);
}

static void refusals(void)
{
    REFUSED(pel_gaussian(quiet, 0, 0, lend(13), 13), length(8, 13));
    REFUSED(pel_gaussian(0.5, 8, 4, lend(8 * 33 + 5), 8 * 33 + 5), length(264, 269));
    REFUSED(pel_gaussian(0.5, 8, 4, lend(5), 5), length(0, 5));

    REFUSED(pel_gaussian(0.1, 8, 4, lend(8 * 33), 8 * 33), range(5, 0.2, 1, 0.1));
    REFUSED(pel_gaussian(quiet, 8, 4, lend(8 * 33), 8 * 33), range(5, 0.2, 1, quiet));
    REFUSED(pel_gaussian(inf, 0, 99, lend(0), 0), range(5, 0.2, 1, inf));
    REFUSED(pel_gaussian(-0.5, 8, 4, lend(8), 8), range(5, 0.2, 1, -0.5));
    RANGE(pel_gaussian_new(nextafter(0.2, 0), 8, 4), 5, 0.2, 1, nextafter(0.2, 0));
    RANGE(pel_gaussian_new(nextafter(1, 2), 8, 4), 5, 0.2, 1, nextafter(1, 2));

    /* The span is tested before the samples. */
    REFUSED(pel_gaussian(0.5, 8, 1, lend(8 * 9), 8 * 9), range(6, 2, 8, 1));
    REFUSED(pel_gaussian(0.5, 1, 9, lend(8 * 10), 8 * 10), range(6, 2, 8, 9));
    REFUSED(pel_gaussian(0.5, UINT64_MAX, 0, lend(0), 0), range(6, 2, 8, 0));
    RANGE(pel_gaussian_new(0.5, 0, UINT64_MAX), 6, 2, 8, 18446744073709551616.0);
    RANGE(pel_gaussian_new(0.5, 8, 1ull << 63), 6, 2, 8, 9223372036854775808.0);

    REFUSED(pel_gaussian(0.5, 1, 4, lend(8 * 5), 8 * 5), range(6, 2, 4194303, 1));
    REFUSED(pel_gaussian(0.5, 0, 4, lend(8), 8), range(6, 2, 4194303, 0));
    for (uint64_t span = 2; span <= 8; span++) {
        uint64_t most = most_samples(span);
        RANGE(pel_gaussian_new(0.5, 1ull << 63, span), 6, 2, (double)most, 9223372036854775808.0);
        RANGE(pel_gaussian_new(0.5, UINT64_MAX, span), 6, 2, (double)most, 18446744073709551616.0);
        RANGE(pel_gaussian_new(0.5, most + 1, span), 6, 2, (double)most, (double)(most + 1));
        /* A count is offered as the nearest double, ties to even. */
        RANGE(pel_gaussian_new(0.5, (1ull << 53) + 1, span), 6, 2, (double)most, 9007199254740992.0);
        RANGE(pel_gaussian_new(0.5, (1ull << 53) + 3, span), 6, 2, (double)most, 9007199254740996.0);
        /* 2^64/span samples would be a small number of taps, were the product formed. */
        REFUSED(pel_gaussian(0.5, 1ull << 63, span, lend(8), 8), range(6, 2, (double)most, 9223372036854775808.0));
    }

    REFUSED(pel_gaussian(0.5, 8, 4, lend(8 * 32), 8 * 32), length(33, 32));
    REFUSED(pel_gaussian(0.5, 8, 4, lend(8 * 34), 8 * 34), length(33, 34));
    REFUSED(pel_gaussian(0.5, 8, 4, lend(0), 0), length(33, 0));
}

/* Every combination of good and bad arguments: 8 in bytes, 5, 6 the span, 6 the samples, 8 in taps. */
static void orders(void)
{
    static const double bts[] = {0.2, 0.5, 1.0, 0.0, 0.19999999999999998, 1.0000000000000002, -0.5, INFINITY, NAN};
    static const uint64_t samples[] = {2, 5, 0, 1, 16777216, 1ull << 61, UINT64_MAX};
    static const uint64_t spans[] = {2, 5, 8, 0, 1, 9, 16777216, UINT64_MAX};
    static const size_t lengths[] = {0, 3, 8, 12, 8 * 5, 8 * 11, 8 * 17, 8 * 26, 8 * 41, 8 * 41 + 7};
    for (size_t a = 0; a < sizeof bts / sizeof bts[0]; a++)
        for (size_t b = 0; b < sizeof samples / sizeof samples[0]; b++)
            for (size_t c = 0; c < sizeof spans / sizeof spans[0]; c++)
                for (size_t d = 0; d < sizeof lengths / sizeof lengths[0]; d++) {
                    double bt = bts[a];
                    uint64_t s = samples[b], p = spans[c];
                    size_t bytes = lengths[d];
                    pel_report r = pel_gaussian(bt, s, p, lend(bytes), bytes);
                    if (bytes % 8 != 0)
                        report("8 in bytes first", r, length(bytes - bytes % 8, bytes));
                    else if (!(bt >= 0.2 && bt <= 1.0))
                        report("then 5", r, range(5, 0.2, 1, bt));
                    else if (p < 2 || p > 8)
                        report("then 6 of the span", r, range(6, 2, 8, (double)p));
                    else if (s < 2 || s > most_samples(p))
                        report("then 6 of the samples", r, range(6, 2, (double)most_samples(p), (double)s));
                    else if (s * p + 1 != bytes / 8)
                        report("then 8 in taps", r, length(s * p + 1, bytes / 8));
                    else
                        report("accepted", r, pel_gaussian_new(bt, s, p));
                    r.number == 0 ? around("accepted") : as_it_came("refused");
                }
}

/* ---- Root-raised-cosine ------------------------------------------------------------------------ */

enum { LONGEST = 1024 * 32 + 1 };

static double rrc_want[LONGEST];

/* The sum of products of taps so far from each other; the energy at 0. */
static double correlation(uint64_t n, uint64_t distance)
{
    long double sum = 0.0L;
    for (uint64_t i = distance; i < n; i++)
        sum += (long double)tap(i) * tap(i - distance);
    return (double)sum;
}

/* Within `most` of the formula: 1e-12 away from where it is 0/0. */
static void rrc_within(double rolloff, uint64_t samples, uint64_t span, double most)
{
    uint64_t n = samples * span + 1;
    char what[80];
    snprintf(what, sizeof what, "root-raised-cosine (%.17g, %d, %d)", rolloff, (int)samples, (int)span);
    pel_report r = pel_rrc(rolloff, samples, span, lend(8 * n), 8 * n);
    double factor = straight_rrc(rolloff, samples, span, rrc_want);
    near(what, r.value / factor, 1.0, most);
    report(what, r, (pel_report){.count = n, .value = r.value});
    report(what, pel_rrc_new(rolloff, samples, span), r);
    report(what, pel_rrc_len(samples, span), counted(n));
    around(what);

    for (uint64_t i = 0; i < n; i++) {
        near(what, tap(i), rrc_want[i], most);
        /* The sine isn't odd to the bit. */
        near("a tap and its mirror image", tap(i), tap(n - 1 - i), most);
        expect_count("the middle is the peak", fabs(tap(i)) <= tap((n - 1) / 2) + most, 1);
    }
    near("energy 1", correlation(n, 0), 1.0, 1e-12);
}

static void rrc_designs(void)
{
    REPORT(pel_rrc_len(2, 4), counted(9)); /* the scope document's */
    expect_count("the example's taps", pel_rrc_new(0.5, 8, 8).count, 65);
    static const double rolloffs[] = {0.05, 0.1, 0.2, 0.22, 0.25, 0.3, 1.0 / 3.0, 0.35, 0.5, 0.75, 0.999, 1.0};
    static const uint64_t samples[] = {2, 3, 4, 5, 8, 10, 25}, spans[] = {4, 5, 7, 8, 16, 31, 32};
    for (size_t i = 0; i < COUNT(rolloffs); i++)
        for (size_t k = 0; k < COUNT(samples); k++)
            for (size_t m = 0; m < COUNT(spans); m++)
                rrc_within(rolloffs[i], samples[k], spans[m], 1e-12);
    rrc_within(0.05, 1024, 32, 1e-12);
    rrc_within(1.0, 1024, 32, 1e-12);
    rrc_within(0.35, 1023, 31, 1e-12);

    /* A roll-off of 1 by hand: h(t) = 4 cos(2 pi t)/(pi (1 - 16 t^2)), so the tap d half symbols from the middle
     * is (-1)^d/(1 - 4 d^2) of the middle one. */
    pel_rrc(1.0, 2, 4, lend(8 * 9), 8 * 9);
    static const double ratios[] = {1.0, 1.0 / 3.0, -1.0 / 15.0, 1.0 / 35.0, -1.0 / 63.0};
    for (uint64_t d = 0; d < 5; d++) {
        near("a roll-off of 1", tap(4 + d) / tap(4), ratios[d], 1e-12);
        near("a roll-off of 1", tap(4 - d) / tap(4), ratios[d], 1e-12);
    }
}

/* Next to 0/0 the formula loses digits, and within 1e-9 of it the limit stands: either way the taps are
 * those of the roll-off beside, but for so many digits. */
static void rrc_corners(void)
{
    static double beside[129];
    pel_rrc(0.25, 8, 16, lend(8 * 129), 8 * 129);
    for (uint64_t i = 0; i < 129; i++)
        beside[i] = tap(i);
    static const double steps[] = {1e-16, 1e-12, 2e-10, 4.9e-10, 5.1e-10, 1e-9, 1e-8};
    for (size_t i = 0; i < COUNT(steps); i++)
        for (int sign = -1; sign <= 1; sign += 2) {
            rrc_within(0.25 * (1.0 + sign * steps[i]), 8, 16, 1e-6);
            for (uint64_t k = 0; k < 129; k++)
                near("next to the corner", tap(k), beside[k], 1e-6);
        }
}

/* The pulse sent through itself is a raised cosine, which is 0 at every other symbol. What is cut off past 16
 * symbols to each side costs less than 1e-3 where the roll-off is a quarter or more. */
static void no_intersymbol_interference(void)
{
    static const double rolloffs[] = {0.25, 0.35, 0.5, 1.0};
    for (size_t i = 0; i < COUNT(rolloffs); i++) {
        pel_report r = pel_rrc(rolloffs[i], 8, 32, lend(8 * 257), 8 * 257);
        for (uint64_t symbol = 1; symbol <= 16; symbol++)
            near("at another symbol", correlation(r.count, 8 * symbol), 0.0, 1e-3);
    }
}

static void rrc_examples(void)
{
    /* The Rust's lengths, and those past its limits; 2^64 - 1 is 2^64 as a double. */
    REPORT(pel_rrc_len(8, 10), counted(81));
    RANGE(pel_rrc_len(1, 10), 6, 2, 1024, 1);
    RANGE(pel_rrc_len(1025, 10), 6, 2, 1024, 1025);
    RANGE(pel_rrc_len(UINT64_MAX, 10), 6, 2, 1024, 18446744073709551616.0);
    RANGE(pel_rrc_len(8, 3), 6, 4, 32, 3);
    RANGE(pel_rrc_len(8, 33), 6, 4, 32, 33);

    /* The Rust's pulse. By hand: half a symbol from the middle, at tap 36, the formula is 0/0 for a roll-off of 0.5,
     * and its limit (0.5/sqrt 2) (1 + 2/pi); the middle is 0.5 + 2/pi. */
    expect_count("a roll-off of 0.5", pel_rrc(0.5, 8, 8, lend(8 * 65), 8 * 65).number, 0);
    peak_at("a roll-off of 0.5 has its peak at tap 32", 65, 32);
    near("a roll-off of 0.5 at its corner", tap(36), 0.509081826394114 * tap(32), 1e-15);

    /* By hand: at whole halves of a symbol a roll-off of 1 has 1/3, -1/15, 1/35, -1/63 of the middle, so the energy is
     * 122369/99225 of the middle's, and 1 by the root of that 0.900481610795753. */
    expect_count("a roll-off of 1", pel_rrc(1.0, 2, 4, lend(8 * 9), 8 * 9).number, 0);
    near("the middle for a roll-off of 1", tap(4), 0.900481610795753, 1e-14);
    near("the tap before it", 3.0 * tap(3), tap(4), 1e-14);
    near("the first tap", -63.0 * tap(0), tap(4), 1e-13);

    /* The Rust's refusal of 0.01. By the limits' order: the roll-off, the samples, the span, and a buffer last. */
    RANGE(pel_rrc_new(0.01, 8, 8), 5, 0.05, 1, 0.01);
    RANGE(pel_rrc_new(quiet, 8, 8), 5, 0.05, 1, quiet);
    RANGE(pel_rrc_new(0.01, 1, 8), 5, 0.05, 1, 0.01);
    RANGE(pel_rrc_new(0.5, 1, 3), 6, 2, 1024, 1);
    REFUSED(pel_rrc(0.5, 8, 3, lend(8 * 64), 8 * 64), range(6, 4, 32, 3));
}

static void rrc_refusals(void)
{
    REFUSED(pel_rrc(quiet, 0, 0, lend(13), 13), length(8, 13));
    REFUSED(pel_rrc(0.5, 8, 8, lend(8 * 65 + 7), 8 * 65 + 7), length(520, 527));
    REFUSED(pel_rrc(0.5, 8, 8, lend(1), 1), length(0, 1));

    REFUSED(pel_rrc(0.04, 8, 8, lend(8 * 65), 8 * 65), range(5, 0.05, 1, 0.04));
    REFUSED(pel_rrc(quiet, 8, 8, lend(8 * 65), 8 * 65), range(5, 0.05, 1, quiet));
    REFUSED(pel_rrc(inf, 0, 99, lend(0), 0), range(5, 0.05, 1, inf));
    REFUSED(pel_rrc(-inf, UINT64_MAX, UINT64_MAX, lend(8), 8), range(5, 0.05, 1, -inf));
    REFUSED(pel_rrc(-0.5, 8, 8, lend(8), 8), range(5, 0.05, 1, -0.5));
    RANGE(pel_rrc_new(nextafter(0.05, 0), 8, 8), 5, 0.05, 1, nextafter(0.05, 0));
    RANGE(pel_rrc_new(nextafter(1, 2), 0, 0), 5, 0.05, 1, nextafter(1, 2));
    RANGE(pel_rrc_new(0.0, 8, 8), 5, 0.05, 1, 0.0);
    RANGE(pel_rrc_new(-0.0, 8, 8), 5, 0.05, 1, -0.0);

    /* The samples are tested before the span, the Gaussian's the other way round. */
    REFUSED(pel_rrc(0.5, 1, 3, lend(8 * 4), 8 * 4), range(6, 2, 1024, 1));
    REFUSED(pel_rrc(0.5, 0, 8, lend(8), 8), range(6, 2, 1024, 0));
    REFUSED(pel_rrc(0.5, 1025, 33, lend(0), 0), range(6, 2, 1024, 1025));
    REFUSED(pel_rrc(0.5, 8, 3, lend(8 * 25), 8 * 25), range(6, 4, 32, 3));
    REFUSED(pel_rrc(0.5, 8, 33, lend(8 * 265), 8 * 265), range(6, 4, 32, 33));
    REFUSED(pel_rrc(0.5, 8, 0, lend(8), 8), range(6, 4, 32, 0));
    RANGE(pel_rrc_new(0.5, UINT64_MAX, UINT64_MAX), 6, 2, 1024, 18446744073709551616.0);
    RANGE(pel_rrc_new(0.5, 2, UINT64_MAX), 6, 4, 32, 18446744073709551616.0);
    RANGE(pel_rrc_len(1, 3), 6, 2, 1024, 1);
    RANGE(pel_rrc_len(2, 3), 6, 4, 32, 3);
    /* 2^64/span samples would be a small number of taps, were the product formed. */
    REFUSED(pel_rrc(0.5, 1ull << 62, 4, lend(8), 8), range(6, 2, 1024, 4611686018427387904.0));
    REFUSED(pel_rrc(0.5, 4, 1ull << 62, lend(8), 8), range(6, 4, 32, 4611686018427387904.0));
    /* A count is offered as the nearest double, ties to even. */
    RANGE(pel_rrc_len((1ull << 53) + 1, 8), 6, 2, 1024, 9007199254740992.0);
    RANGE(pel_rrc_len(8, (1ull << 53) + 3), 6, 4, 32, 9007199254740996.0);

    REFUSED(pel_rrc(0.5, 8, 8, lend(8 * 64), 8 * 64), length(65, 64));
    REFUSED(pel_rrc(0.5, 8, 8, lend(8 * 66), 8 * 66), length(65, 66));
    REFUSED(pel_rrc(1.0, 1024, 32, lend(0), 0), length(LONGEST, 0));
}

/* Every combination of good and bad arguments: 8 in bytes, 5, 6 the samples, 6 the span, 8 in taps. */
static void rrc_orders(void)
{
    static const double rolloffs[] = {0.05, 0.5, 1.0, 0.0, 0.0499999999999999, 1.0000000000000002, -0.5, INFINITY, NAN};
    static const uint64_t samples[] = {2, 5, 1024, 0, 1, 1025, 1ull << 61, UINT64_MAX};
    static const uint64_t spans[] = {4, 8, 32, 0, 3, 33, 1ull << 61, UINT64_MAX};
    static const size_t lengths[] = {0, 3, 8, 12, 8 * 9, 8 * 17, 8 * 21, 8 * 41, 8 * 41 + 7, 8 * 65};
    for (size_t a = 0; a < COUNT(rolloffs); a++)
        for (size_t b = 0; b < COUNT(samples); b++)
            for (size_t c = 0; c < COUNT(spans); c++)
                for (size_t d = 0; d < COUNT(lengths); d++) {
                    double rolloff = rolloffs[a];
                    uint64_t s = samples[b], p = spans[c];
                    size_t bytes = lengths[d];
                    pel_report r = pel_rrc(rolloff, s, p, lend(bytes), bytes);
                    if (bytes % 8 != 0)
                        report("8 in bytes first", r, length(bytes - bytes % 8, bytes));
                    else if (!(rolloff >= 0.05 && rolloff <= 1.0))
                        report("then 5", r, range(5, 0.05, 1, rolloff));
                    else if (s < 2 || s > 1024)
                        report("then 6 of the samples", r, range(6, 2, 1024, (double)s));
                    else if (p < 4 || p > 32)
                        report("then 6 of the span", r, range(6, 4, 32, (double)p));
                    else if (s * p + 1 != bytes / 8)
                        report("then 8 in taps", r, length(s * p + 1, bytes / 8));
                    else
                        report("accepted", r, pel_rrc_new(rolloff, s, p));
                    if (r.number == 5 || r.number == 6)
                        report("without a buffer", pel_rrc_new(rolloff, s, p), r);
                    if (r.number == 6)
                        report("without a roll-off", pel_rrc_len(s, p), r);
                    r.number == 0 ? around("accepted") : as_it_came("refused");
                }
}

/* Random bits as roll-off, small counts and large ones: nothing may crash, hang or touch a byte that it
 * should not. */
static void rrc_hostile(void)
{
    uint64_t state = 37;
    for (int i = 0; i < 20000; i++) {
        state = state * 6364136223846793005u + 1442695040888963407u;
        double rolloff = of_bits(state ^ state >> 31), taken = 0.05 + 0.95 * (double)(state >> 32) / 4294967296.0;
        uint64_t samples = state >> 40 & 7, span = state >> 50 & 15;
        size_t bytes = (state >> 20 & 3) == 0 ? state >> 44 & 1023 : 8 * (samples * span + 1);
        pel_report r = pel_rrc(rolloff, samples, span, lend(bytes), bytes);
        r.number == 0 ? around("hostile") : as_it_came("hostile");
        r = pel_rrc(taken, samples, span, lend(bytes), bytes);
        r.number == 0 ? around("hostile") : as_it_came("hostile");
        near("hostile, and energy 1", r.number == 0 ? correlation(r.count, 0) : 1.0, 1.0, 1e-12);
        expect_count("too many samples", pel_rrc_new(taken, state | 1 << 20, span).number, 6);
        expect_count("too long a span", pel_rrc_len(2 + samples, state | 1 << 20).number, 6);
    }
}

static void tests(void)
{
    designs();
    examples();
    refusals();
    orders();
    rrc_designs();
    rrc_examples();
    rrc_corners();
    no_intersymbol_interference();
    rrc_refusals();
    rrc_orders();
    rrc_hostile();
}

int main(void)
{
    return both_ways(tests, "pulses");
}
