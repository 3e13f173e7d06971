/* Calls the exports of Kaiser's formulas and of low-pass filters from C with good, bad and hostile
 * arguments: what is answered, what a refusal carries, and every byte of the buffer and around it.
 * Expected values are from the formulas by hand, never from the functions under test. */
#include "ticket.h"

#include "straight.h"

static const double inf = INFINITY, quiet = NAN, tiny = 5e-324, huge = 1.7976931348623157e308;

/* The series in plain doubles; 16 where it isn't settled, with the sum and the terms told all the same. */
static void series_at(double x)
{
    char what[60];
    struct straight_series s = straight_series(x);
    snprintf(what, sizeof what, "I0(%.17g)", x);
    report(what, pel_bessel_i0(x), (pel_report){.number = s.settled ? 0 : 16, .count = s.terms, .value = s.sum});
}

static void series(void)
{
    /* The scope document's 0, and the request's figures: the last that settles; the next, which meets its test with an
     * infinite sum; and 750, which does so sooner. */
    const struct {
        double x;
        uint32_t number;
        uint64_t terms;
        double sum;
    } known[] = {
        {0.0, 0, 1, 1.0},
        {last_settled, 0, 476, 1.797693134862172e308},
        {nextafter(last_settled, inf), 16, 461, inf},
        {750, 16, 269, inf},
        {1e3, 16, 500, inf},
        {huge, 16, 500, inf},
        {inf, 16, 500, inf},
        {quiet, 16, 500, quiet},
    };
    for (size_t i = 0; i < COUNT(known); i++) {
        pel_report want = {.number = known[i].number, .count = known[i].terms, .value = known[i].sum};
        report("a series", pel_bessel_i0(known[i].x), want);
        report("a series below 0", pel_bessel_i0(-known[i].x), want);
    }
    for (size_t i = 0; i < COUNT(settled_betas); i++) {
        expect_count("settles", (uint64_t)straight_series(settled_betas[i]).settled, 1);
        series_at(settled_betas[i]);
        series_at(-settled_betas[i]);
    }
    for (size_t i = 0; i < COUNT(unsettled_betas); i++) {
        expect_count("doesn't settle", (uint64_t)straight_series(unsettled_betas[i]).settled, 0);
        series_at(unsettled_betas[i]);
        series_at(-unsettled_betas[i]);
    }
    for (int i = -80; i <= 4000; i++)
        series_at(0.2 * i);
}

static void formulas(void)
{
    EXPECT(pel_kaiser_beta(10.0), 0.0);
    EXPECT(pel_kaiser_beta(quiet), 0.0);
    EXPECT(pel_kaiser_beta(-60.0), 0.0);
    EXPECT(pel_kaiser_beta(inf), inf);
    EXPECT(pel_kaiser_beta(60.0), 0.1102 * (60.0 - 8.7));

    /* Two negative signs are taken: the scope document's numbers of taps, here and of the half-band below. */
    pel_report r = pel_kaiserord(60, -100, -8000);
    expect_count("kaiserord(60, -100, -8000)", r.count, 293);
    expect("its beta", r.value, 0.1102 * (60.0 - 8.7));
    r = pel_kaiserord(8, 1, 1);
    expect_count("kaiserord(8, 1, 1)", r.count, 3);
    expect("its beta", r.value, 0.0);
    expect_count("the longest", pel_kaiserord(60, of_bits(0x3E8D00CC45E93F3A), 1).count, 16777217);
    RANGE(pel_kaiserord(60, of_bits(0x3E8D00CC45E93F39), 1), 3, 0.0, 1.0, of_bits(0x3E8D00CC45E93F39));
    PLAIN(pel_kaiserord(7.9999, 1, 1), 4);
    PLAIN(pel_kaiserord(quiet, quiet, quiet), 4);
    PLAIN(pel_kaiserord(60, 1, -1), 3);
    PLAIN(pel_kaiserord(60, 1, 0), 3);
    PLAIN(pel_kaiserord(60, huge, 1), 3);

    expect_count("halfband_len", pel_halfband_len(-100, 60, -8000).count, 295);
    PLAIN(pel_halfband_len(1, 3, 1), 4);
    PLAIN(pel_halfband_len(quiet, 60, 1), 3);

    expect_count("half samples of 1", pel_delay(1).count, 0);
    expect_count("half samples of 32", pel_delay(32).count, 31);
    expect_count("half samples of the largest count", pel_delay(UINT64_MAX).count, UINT64_MAX - 1);
    PLAIN(pel_delay(0), 6);
}

static void lowpass(void)
{
    /* The scope document's one tap. */
    pel_report r = pel_lowpass(0.25, 1, PEL_HANN, quiet, lend(8), 8);
    expect_count("one tap", r.number, 0);
    expect_count("one tap", r.count, 1);
    expect("one tap's divisor", r.value, 0.5);
    expect("one tap", tap(0), 1.0);
    around("one tap");

    r = pel_lowpass(1000, 8000, PEL_KAISER, 5.65326, lend(8 * 63), 8 * 63);
    expect_count("63 taps", r.number, 0);
    double sum = 0.0, largest = 0.0;
    for (uint64_t i = 0; i < 63; i++) {
        sum += tap(i);
        if (fabs(tap(i)) > largest)
            largest = fabs(tap(i));
    }
    expect("63 taps add up to 1", fabs(sum - 1.0) < 1e-14 ? 1.0 : sum, 1.0);
    expect("the middle tap is the largest", largest, tap(31));
    around("63 taps");

    PLAIN(pel_lowpass(0.25, 1, PEL_HANN, 0, lend(16), 16), 10);
    as_it_came("10");
    PLAIN(pel_lowpass(quiet, quiet, 4, quiet, lend(13), 13), 7);
    as_it_came("7 before all others");
    PLAIN(pel_lowpass(0.25, 1, UINT64_MAX, 0, lend(8), 8), 7);
    report("8 before the rate", pel_lowpass(quiet, quiet, PEL_KAISER, quiet, lend(13), 13), length(8, 13));
    as_it_came("8");
    report("8 below one tap", pel_lowpass(0.25, 1, 0, 0, lend(5), 5), length(0, 5));
    PLAIN(pel_lowpass(quiet, -1, PEL_KAISER, quiet, lend(0), 0), 1);
    PLAIN(pel_lowpass(0.25, inf, PEL_HANN, 0, lend(8), 8), 1);
    RANGE(pel_lowpass(4000, 8000, PEL_KAISER, quiet, lend(0), 0), 2, 0.0, 4000.0, 4000.0);
    as_it_came("2");
    RANGE(pel_lowpass(quiet, 8000, PEL_HANN, 0, lend(8), 8), 2, 0.0, 4000.0, quiet);
    RANGE(pel_lowpass(tiny, 8000, PEL_HANN, 0, lend(8), 8), 2, 0.0, 4000.0, tiny);
    PLAIN(pel_lowpass(1000, 8000, PEL_KAISER, quiet, lend(0), 0), 6);
    PLAIN(pel_lowpass(1000, 8000, PEL_KAISER, -tiny, lend(24), 24), 4);
    as_it_came("4");
    PLAIN(pel_lowpass(1000, 8000, PEL_KAISER, inf, lend(24), 24), 4);
    expect_count("beta -0 is taken", pel_lowpass(1000, 8000, PEL_KAISER, -0.0, lend(24), 24).number, 0);

    PLAIN(pel_lowpass_new(1000, 8000, PEL_HANN, 0, 0), 6);
    PLAIN(pel_lowpass_new(1000, 8000, PEL_HANN, 0, 16777217), 6);
    PLAIN(pel_lowpass_new(1000, 8000, PEL_HANN, 0, UINT64_MAX), 6);
    PLAIN(pel_lowpass_new(1000, 8000, 9, 0, 31), 7);
    expect("the divisor without a buffer", pel_lowpass_new(0.25, 1, PEL_HANN, 0, 1).value, 0.5);
}

/* ---- Kaiser's window past 713: settled and accepted, or refused with 16 ------------------------------ */

/* Tap i before the division, to the bit, over the library's own sine and cosine: of Kaiser's window or of Hann's. */
static double raw_tap(double f, uint64_t window, double beta, uint64_t n, uint64_t i)
{
    double x = 2.0 * f * ((double)i - (double)(n - 1) / 2.0);
    double sinc = x == 0.0 ? 1.0 : pel_sin(pi * x) / (pi * x);
    double shape = window == PEL_KAISER ? straight_element(beta, n - 1, i)
                   : n == 1             ? 1.0
                                        : 0.5 - 0.5 * pel_cos(2.0 * pi * (double)i / (double)(n - 1));
    return 2.0 * f * sinc * shape;
}

static double raw_sum(double f, uint64_t window, double beta, uint64_t n)
{
    double sum = 0.0;
    for (uint64_t i = 0; i < n; i++)
        sum += raw_tap(f, window, beta, n, i);
    return sum;
}

/* Taps in the buffer: to the bit over those, and by the C library's functions. Two at least. */
static void settled(const char *what, double f, double beta, uint64_t n, pel_report r)
{
    static double want[2048];
    double sum = raw_sum(f, PEL_KAISER, beta, n);
    report(what, r, (pel_report){.count = n, .value = sum});
    around(what);
    for (uint64_t i = 0; i < n; i++)
        expect(what, tap(i), raw_tap(f, PEL_KAISER, beta, n, i) / sum);
    straight_lowpass(f, beta, n, want);
    for (uint64_t i = 0; i < n; i++)
        near(what, tap(i), want[i], 1e-12);
}

static void lowpass_betas(void)
{
    static const uint64_t counts[] = {2, 3, 4, 5, 8, 31, 64};
    for (size_t c = 0; c < COUNT(counts); c++) {
        uint64_t n = counts[c];
        for (size_t k = 0; k < COUNT(settled_betas); k++) {
            double beta = settled_betas[k];
            pel_report r = pel_lowpass(1000, 8000, PEL_KAISER, beta, lend(8 * n), 8 * n);
            settled("a beta that settles", 0.125, beta, n, r);
            report("without a buffer", pel_lowpass_new(1000, 8000, PEL_KAISER, beta, n), r);
        }
        for (size_t k = 0; k < COUNT(unsettled_betas); k++) {
            double beta = unsettled_betas[k];
            REFUSED(pel_lowpass(1000, 8000, PEL_KAISER, beta, lend(8 * n), 8 * n), plain(16));
            PLAIN(pel_lowpass_new(1000, 8000, PEL_KAISER, beta, n), 16);
            /* To the other windows a beta is nothing. */
            expect_count("no beta", pel_lowpass_new(1000, 8000, PEL_HAMMING, beta, n).number, 0);
        }
    }
    /* One tap takes no series: its window is 1, whatever beta is. */
    for (size_t k = 0; k < COUNT(unsettled_betas); k++) {
        pel_report r = pel_lowpass(1000, 8000, PEL_KAISER, unsettled_betas[k], lend(8), 8);
        report("one tap", r, (pel_report){.count = 1, .value = 0.25});
        expect("one tap", tap(0), 1.0);
        around("one tap");
        report("one tap", pel_lowpass_new(1000, 8000, PEL_KAISER, unsettled_betas[k], 1), r);
    }
    /* A design as long as can be is refused by beta's own series at once. */
    PLAIN(pel_lowpass_new(1000, 8000, PEL_KAISER, 1e4, 16777216), 16);
}

/* 7, 8, 1, 2, 6, 4, 16, 10. */
static pel_report judged(double cutoff, double rate, uint64_t window, double beta, size_t bytes)
{
    uint64_t n = bytes / 8;
    double f = cutoff / rate;
    if (window > PEL_KAISER)
        return plain(7);
    if (bytes % 8 != 0)
        return length(bytes - bytes % 8, bytes);
    if (!(rate > 0.0 && rate < inf))
        return plain(1);
    if (!(f > 0.0 && f < 0.5))
        return range(2, 0, rate / 2.0, cutoff);
    if (n == 0)
        return plain(6);
    if (window == PEL_KAISER && !(beta >= 0.0 && beta < inf))
        return plain(4);
    if (window == PEL_KAISER && !straight_settles(beta, n - 1, n))
        return plain(16);
    double sum = raw_sum(f, window, beta, n);
    if (sum == 0.0 || !isfinite(sum))
        return plain(10);
    return (pel_report){.count = n, .value = sum};
}

/* Every combination of good and bad numbers. Two taps at so small a cutoff have a sum of 0 with a beta that settles, by
 * underflow: a ticket with 10, and with a beta that doesn't settle both. */
static void lowpass_orders(void)
{
    static const uint64_t windows[] = {PEL_HANN, PEL_KAISER, 4};
    static const size_t sizes[] = {8, 16, 24, 40, 0, 21};
    static const double rates[] = {1, 0, INFINITY};
    static const double cutoffs[] = {0.25, 1e-20, 0.5, NAN};
    static const double betas[] = {5, 713, 713.98690854396818, 713.9869085439683, 750, 1e308, -5e-324, INFINITY, NAN};
    PLAIN(pel_lowpass_new(1e-20, 1, PEL_KAISER, 713, 2), 10);
    PLAIN(pel_lowpass_new(1e-20, 1, PEL_KAISER, 714, 2), 16);
    for (size_t a = 0; a < COUNT(windows); a++)
        for (size_t b = 0; b < COUNT(sizes); b++)
            for (size_t c = 0; c < COUNT(rates); c++)
                for (size_t d = 0; d < COUNT(cutoffs); d++)
                    for (size_t e = 0; e < COUNT(betas); e++) {
                        double cutoff = cutoffs[d], rate = rates[c], beta = betas[e];
                        size_t bytes = sizes[b];
                        pel_report want = judged(cutoff, rate, windows[a], beta, bytes);
                        report("in order", pel_lowpass(cutoff, rate, windows[a], beta, lend(bytes), bytes), want);
                        want.number == 0 ? around("in order") : as_it_came("in order");
                        if (bytes % 8 == 0)
                            report("in order", pel_lowpass_new(cutoff, rate, windows[a], beta, bytes / 8), want);
                    }
    /* What isn't among them: too many taps, in a buffer that may not even be read. */
    size_t bytes = ((size_t)1 << 27) + 8;
    uint8_t *locked = forbidden(bytes);
    report("6 before 16", pel_lowpass(0.25, 1, PEL_KAISER, 1e4, locked, bytes), plain(6));
    report("16 before 10", pel_lowpass(0.25, 1, PEL_KAISER, 1e4, locked, bytes - 8), plain(16));
    munmap(locked, bytes);
    PLAIN(pel_lowpass_new(0.25, 1, PEL_KAISER, 1e4, 16777217), 6);
}

/* Kaiser's beta is 0.1102 (a - 8.7) for so many dB; a transition of 0.45 needs about a thousand taps for them. */
static uint64_t taps_for(double attenuation)
{
    return (uint64_t)ceil((attenuation - 7.95) / 2.285 / (pi * 0.9) + 1.0) | 1;
}

static void spec_betas(void)
{
    /* The last attenuation whose beta settles, and the next; by hand 6479.76/2.285/(0.9 pi) + 1 is 1003.96, rounded up
     * 1004, made odd 1005. */
    const double last = 6487.7100593826508, next = nextafter(last, inf);
    expect("the last beta", 0.1102 * (last - 8.7), last_settled);
    expect("the next one", 0.1102 * (next - 8.7), nextafter(last_settled, inf));
    expect_count("taps", taps_for(last), 1005);
    static const double fewer[] = {6479, 6487, 6487.7100593826508};
    for (size_t i = 0; i < COUNT(fewer); i++) {
        double a = fewer[i];
        uint64_t n = taps_for(a);
        pel_report r = pel_spec_design(0.25, 0.45, a, 1, 1005, lend(8 * n), 8 * n);
        settled("dB that settle", 0.25, 0.1102 * (a - 8.7), n, r);
        report("without a buffer", pel_spec_lowpass(0.25, 0.45, a, 1, 1005), r);
    }
    const double more[] = {next, 6488, 7000, 1e4};
    for (size_t i = 0; i < COUNT(more); i++) {
        double a = more[i];
        uint64_t n = taps_for(a);
        /* How many taps are needed takes no series. An attenuation goes by its size. */
        REPORT(pel_spec_num_taps(0.25, 0.45, a, 1, n), counted(n));
        PLAIN(pel_spec_lowpass(0.25, 0.45, a, 1, n), 16);
        PLAIN(pel_spec_lowpass(0.25, 0.45, -a, 1, n), 16);
        REFUSED(pel_spec_design(0.25, 0.45, a, 1, n, lend(8 * n), 8 * n), plain(16));
        /* Everything else comes first. */
        REFUSED(pel_spec_design(0.25, 0.45, a, 1, n, lend(8 * n + 4), 8 * n + 4), length(8 * n, 8 * n + 4));
        REFUSED(pel_spec_design(0.25, 0.45, a, inf, n, lend(8 * n), 8 * n), plain(1));
        REFUSED(pel_spec_design(0.25, -0.45, a, 1, n, lend(8 * n), 8 * n), range(3, 0, 0.5, -0.45));
        REFUSED(pel_spec_design(0.3, 0.45, a, 1, n, lend(8 * n), 8 * n), range(2, 0, 0.5 - 0.45 / 2, 0.3));
        REFUSED(pel_spec_design(0.25, 0.45, a, 1, n - 1, lend(8 * n), 8 * n), cap(n, n - 1));
        REFUSED(pel_spec_design(0.25, 0.45, a, 1, n, lend(8 * n - 8), 8 * n - 8), length(n, n - 1));
    }
    /* The low-pass's own 2 and 6: a quotient that is 0, and 16777217 taps. */
    RANGE(pel_spec_lowpass(2 * tiny, tiny, 7000, 4 * tiny, 100000), 2, 0.0, 2 * tiny, 2 * tiny);
    PLAIN(pel_spec_lowpass(0.25, (7000 - 7.95) / 2.285 / (2.0 * pi * 16777214.5), 7000, 1, UINT64_MAX), 6);
}

static void spec(void)
{
    /* The scope document's specification: 293 taps, and 9 with one fewer allowed. */
    pel_report r = pel_spec_num_taps(1000, 100, 60, 8000, 293);
    expect_count("spec", r.count, 293);
    report("9", pel_spec_num_taps(1000, 100, 60, 8000, 292), cap(293, 292));
    PLAIN(pel_spec_num_taps(1000, 100, 60, -8000, 292), 1);
    RANGE(pel_spec_num_taps(quiet, -100, 3, 8000, 0), 3, 0.0, 4000.0, -100.0);
    RANGE(pel_spec_num_taps(3951, 100, 3, 8000, 0), 2, 0.0, 3950.0, 3951.0);
    PLAIN(pel_spec_num_taps(1000, 100, 3, 8000, 0), 4);
    RANGE(pel_spec_num_taps(1000, 1e-6, 60, 8000, UINT64_MAX), 3, 0.0, 8000.0, 1e-6);

    r = pel_spec_design(1000, 100, 60, 8000, 1000, lend(8 * 293), 8 * 293);
    expect_count("designed", r.number, 0);
    expect_count("designed", r.count, 293);
    double sum = 0.0;
    for (uint64_t i = 0; i < 293; i++)
        sum += tap(i);
    expect("its taps add up to 1", fabs(sum - 1.0) < 1e-14 ? 1.0 : sum, 1.0);
    around("designed");
    report("8 in taps", pel_spec_design(1000, 100, 60, 8000, 1000, lend(8 * 292), 8 * 292), length(293, 292));
    as_it_came("8 in taps");
    report("8 in bytes", pel_spec_design(quiet, quiet, quiet, quiet, 0, lend(17), 17), length(16, 17));
    as_it_came("8 in bytes");
    report("9 before 8", pel_spec_design(1000, 100, 60, 8000, 292, lend(8), 8), cap(293, 292));
    as_it_came("9");

    /* The quotient cutoff/rate can still be 0 after all tests of the specification. */
    RANGE(pel_spec_lowpass(2 * tiny, tiny, 60, 4 * tiny, 100), 2, 0.0, 2 * tiny, 2 * tiny);
    PLAIN(pel_spec_lowpass(0.25, of_bits(0x3E8D00CC45E93F3A), 60, 1, UINT64_MAX), 6);
    expect("the same divisor", pel_spec_lowpass(1000, 100, 60, 8000, 1000).value, r.value);
}

/* ---- Worked examples --------------------------------------------------------------------------- */

static void formula_examples(void)
{
    /* The Rust's: the series at 1, the beta of 60 dB, and lengths. */
    near("I0(1)", pel_bessel_i0(1).value, 1.2660658777520084, 1e-15);
    near("the beta of 60 dB", pel_kaiser_beta(60), 5.65326, 1e-9);
    pel_report r = pel_kaiserord(60, 1000, 48000);
    expect_count("1000 at 48000 needs an odd number of taps", r.count % 2, 1);
    expect_count("1000 at 48000 needs above 100 taps", r.count > 100, 1);
    near("1000 at 48000 has the beta of 60 dB", r.value, 5.65326, 1e-4);
    uint64_t wide = pel_halfband_len(0.1, 60, 1).count, narrow = pel_halfband_len(0.05, 60, 1).count;
    expect_count("a wider transition needs no more taps", wide <= narrow, 1);
    PLAIN(pel_halfband_len(0.1, 3, 1), 4);

    /* Kaiser's formulas by hand: 0.5842 29^0.4 + 0.07886 29; nothing yet at 21 dB; and 52.05/2.285/(pi/24) + 1 is
     * 175.02, rounded up 176, made odd 177. */
    near("the beta of 50 dB", pel_kaiser_beta(50), 4.533514120981248, 1e-12);
    EXPECT(pel_kaiser_beta(21), 0.0);
    expect_count("1000 at 48000", r.count, 177);

    /* By hand: the series of either zero is its first term. */
    r = pel_bessel_i0(-0.0);
    expect("I0(-0)", r.value, 1.0);
    expect_count("I0(-0) terms", r.count, 1);

    /* Half samples by hand, from the place about which the taps mirror: between both of two taps, on the middle one of
     * 31, between the middle two of a channelizer's 128. No f64 holds 2^53 + 1. */
    REPORT(pel_delay(2), counted(1));
    REPORT(pel_delay(31), counted(2 * 15));
    REPORT(pel_delay(128), counted(63 + 64));
    REPORT(pel_delay((UINT64_C(1) << 53) + 2), counted((UINT64_C(1) << 53) + 1));
}

static void lowpass_examples(void)
{
    /* The scope document's: a cutoff at half the rate. The Rust's: one above it. */
    REFUSED(pel_lowpass(4000, 8000, PEL_HANN, 0, lend(8 * 31), 8 * 31), range(2, 0, 4000, 4000));
    REFUSED(pel_lowpass(6000, 10000, PEL_HANN, 0, lend(8 * 31), 8 * 31), range(2, 0, 5000, 6000));

    /* The Rust's: a tenth of the rate, 31 taps. */
    pel_report r = pel_lowpass(1000, 10000, PEL_HAMMING, 0, lend(8 * 31), 8 * 31);
    report("31 Hamming taps", r, (pel_report){.count = 31, .value = r.value});
    near("31 Hamming taps add up to 1", sum_of_taps(31), 1.0, 1e-12);
    expect("their first equals their last", tap(0), tap(30));
    around("31 Hamming taps");

    /* A quarter of the rate, without a buffer. The scope document's: two Hann taps, which are zeros; then its limits:
     * 1 to 2^24 taps, and a beta that isn't below 0. */
    static const struct {
        uint64_t window;
        double beta;
        uint64_t taps;
        uint32_t number;
    } quarters[] = {
        {PEL_HANN, 0, 2, 10},         {PEL_HANN, 0, 0, 6},    {PEL_HANN, 0, 16777217, 6},
        {PEL_HANN, 0, UINT64_MAX, 6}, {PEL_KAISER, -1, 5, 4}, {PEL_KAISER, NAN, 5, 4},
    };
    for (size_t i = 0; i < COUNT(quarters); i++)
        report("a quarter of the rate",
               pel_lowpass_new(0.25, 1, quarters[i].window, quarters[i].beta, quarters[i].taps),
               plain(quarters[i].number));
    r = pel_lowpass_new(0.25, 1, PEL_KAISER, -0.0, 5);
    report("a beta of -0", r, (pel_report){.count = 5, .value = r.value});
}

static void spec_examples(void)
{
    /* The scope document's, with a cap that its taps would fit: the rate is told first. */
    PLAIN(pel_spec_num_taps(1000, 100, 60, -8000, 293), 1);

    /* The Rust's: its taps add up to 1, and a cap of 10 is too low. How many they are, by hand: 52.05/2.285/(pi/12) + 1
     * is 88.01, rounded up 89, which is odd. */
    REPORT(pel_spec_num_taps(10000, 2000, 60, 48000, 1023), counted(89));
    pel_report r = pel_spec_design(10000, 2000, 60, 48000, 1023, lend(8 * 89), 8 * 89);
    report("89 taps", r, (pel_report){.count = 89, .value = r.value});
    near("89 taps add up to 1", sum_of_taps(89), 1.0, 1e-12);
    around("89 taps");
    REFUSED(pel_spec_design(10000, 2000, 60, 48000, 10, lend(8 * 89), 8 * 89), cap(89, 10));
    REFUSED(pel_spec_design(10000, 2000, 60, 48000, 1023, lend(8 * 88), 8 * 88), length(89, 88));
}

/* Random bits everywhere: nothing may crash, hang or touch a byte that it should not. */
static void hostile(void)
{
    uint64_t state = 7;
    for (int i = 0; i < 20000; i++) {
        double x[4];
        uint64_t n[2];
        for (int k = 0; k < 6; k++) {
            state = state * 6364136223846793005u + 1442695040888963407u;
            uint64_t b = state ^ state >> 31;
            if (k < 4)
                x[k] = of_bits(b);
            else
                n[k - 4] = b;
        }
        size_t bytes = n[0] % 100;
        pel_report r = pel_lowpass(x[0], x[1], n[1] % 5, x[2], lend(bytes), bytes);
        r.number == 0 ? around("hostile") : as_it_came("hostile");
        r = pel_spec_design(x[0], x[1], x[2], x[3], n[1], lend(bytes), bytes);
        r.number == 0 ? around("hostile") : as_it_came("hostile");
        expect_count("too many taps", pel_lowpass_new(x[0], x[1], n[1], x[2], n[0] | 1 << 25).number != 0, 1);
        r = pel_kaiserord(x[0], x[1], x[2]);
        expect_count("taps are odd", r.number == 0 ? r.count % 2 : 1, 1);
        series_at(x[0]);
    }
}

static void tests(void)
{
    series();
    formulas();
    lowpass();
    lowpass_betas();
    lowpass_orders();
    spec();
    spec_betas();
    formula_examples();
    lowpass_examples();
    spec_examples();
    hostile();
}

int main(void)
{
    return both_ways(tests, "low-pass designs");
}
