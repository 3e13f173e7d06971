/* Calls the half-band exports from C: taps against the formula, their mirror to the bit and their zeros,
 * every refusal with what it carries, and the order of refusals. */
#include "ticket.h"

#include "straight.h"

static const double inf = INFINITY, quiet = NAN, tiny = 5e-324;

static void accepted(double beta, uint64_t n)
{
    static double want[8192];
    char what[80];
    snprintf(what, sizeof what, "half-band of %d taps, beta %g", (int)n, beta);
    pel_report r = pel_halfband(beta, lend(8 * n), 8 * n);
    /* The zeroed taps were about 1e-17, so the second divisor is 1 but for rounding. */
    near(what, r.value, 1.0, 1e-12);
    report(what, r, (pel_report){.count = n, .value = r.value});
    report(what, pel_halfband_new(beta, n), r);
    around(what);

    straight_halfband(beta, n, want);
    uint64_t middle = (n - 1) / 2;
    for (uint64_t i = 0; i < n; i++) {
        uint64_t distance = i > middle ? i - middle : middle - i;
        near(what, tap(i), want[i], 1e-12);
        expect_count("a tap and its mirror image", bits(tap(i)), bits(tap(n - 1 - i)));
        expect_count("a zero, at even distances and nowhere else", tap(i) == 0.0, distance != 0 && distance % 2 == 0);
    }
    total_is_one(what, n);
}

/* To the bit: the low-pass of as many taps, its left half on both sides, zeros, and divided by their sum.
 * A right half mirrored to the left would first show at 11 taps and beta 8. */
static void from_lowpass(double beta, uint64_t n)
{
    static double low[8192];
    pel_report r = pel_lowpass(0.25, 1, PEL_KAISER, beta, lend(8 * n), 8 * n);
    expect_count("its low-pass", r.number, 0);
    uint64_t middle = (n - 1) / 2;
    for (uint64_t i = 0; i < n; i++)
        low[i] = i > middle ? low[n - 1 - i] : i == middle || (middle - i) % 2 == 1 ? tap(i) : 0.0;
    double sum = 0.0;
    for (uint64_t i = 0; i < n; i++)
        sum += low[i];
    r = pel_halfband(beta, lend(8 * n), 8 * n);
    expect("the second divisor", r.value, sum);
    for (uint64_t i = 0; i < n; i++)
        expect("a tap from the low-pass", tap(i), low[i] / sum);
}

static void designs(void)
{
    static const uint64_t lengths[] = {3, 7, 11, 23, 127, 1019, 1023, 1027, 2047};
    static const double betas[] = {0.0, 2.0, 0.1102 * (60.0 - 8.7), 8.0};
    for (size_t i = 0; i < sizeof lengths / sizeof lengths[0]; i++)
        for (size_t k = 0; k < sizeof betas / sizeof betas[0]; k++) {
            accepted(betas[k], lengths[i]);
            from_lowpass(betas[k], lengths[i]);
        }

    expect_count("beta -0 is taken", pel_halfband_new(-0.0, 7).number, 0);

    /* The Rust's example: a length from a transition is one that a half-band has. */
    pel_report r = pel_halfband_len(0.1, 60, 1);
    expect_count("a length is 3 mod 4", r.count % 4, 3);
    expect_count("and is taken", pel_halfband_new(pel_kaiser_beta(60), r.count).number, 0);
}

/* Past 713: a beta that settles is accepted, and another refused with 16, of every length; three taps at least have a
 * series at beta and one for each. */
static void betas(void)
{
    static const uint64_t lengths[] = {3, 7, 11, 127, 1027};
    for (size_t i = 0; i < COUNT(lengths); i++) {
        uint64_t n = lengths[i];
        for (size_t k = 0; k < COUNT(settled_betas); k++) {
            accepted(settled_betas[k], n);
            from_lowpass(settled_betas[k], n);
        }
        for (size_t k = 0; k < COUNT(unsettled_betas); k++) {
            double beta = unsettled_betas[k];
            REFUSED(pel_halfband(beta, lend(8 * n), 8 * n), plain(16));
            PLAIN(pel_halfband_new(beta, n), 16);
        }
    }
}

static void examples(void)
{
    /* By hand: with beta 0 the three taps before the division are 1/pi, 1/2, 1/pi, so the first is 2/(pi + 4) of
     * their sum and the middle one pi/(pi + 4). */
    expect_count("3 taps, beta 0", pel_halfband(0, lend(24), 24).number, 0);
    near("the first of 3 taps", tap(0), 0.2800495767557787, 1e-15);
    near("the middle of 3 taps", tap(1), 0.4399008464884426, 1e-15);

    /* The Rust's: 23 taps for 60 dB. Their ends, zeros and mirror images are looked at with all others. */
    expect_count("23 taps", pel_halfband(pel_kaiser_beta(60), lend(8 * 23), 8 * 23).number, 0);
    near("23 taps add up to 1", sum_of_taps(23), 1.0, 1e-14);

    /* By the limits: 16777219 leaves 3 mod 4 but is above 2^24, whatever the beta; of 23 taps the beta
     * is told. The series at 1000 is past the largest double, and isn't settled. */
    PLAIN(pel_halfband_new(5, 16777219), 6);
    PLAIN(pel_halfband_new(-1, 16777219), 6);
    PLAIN(pel_halfband_new(quiet, 23), 4);
    PLAIN(pel_halfband_new(-1, 23), 4);
    PLAIN(pel_halfband_new(1000, 23), 16);
}

static void refusals(void)
{
    REFUSED(pel_halfband(quiet, lend(13), 13), length(8, 13));
    REFUSED(pel_halfband(5, lend(5), 5), length(0, 5));
    REFUSED(pel_halfband(5, lend(8 * 7 + 1), 8 * 7 + 1), length(56, 57));

    /* The scope document's 5 taps and the Rust's 21: both leave 1 mod 4. */
    REFUSED(pel_halfband(5, lend(8 * 5), 8 * 5), plain(6));
    REFUSED(pel_halfband(5, lend(8 * 21), 8 * 21), plain(6));
    REFUSED(pel_halfband(5, lend(0), 0), plain(6));
    REFUSED(pel_halfband(quiet, lend(8 * 4), 8 * 4), plain(6));
    REFUSED(pel_halfband(1e4, lend(8 * 6), 8 * 6), plain(6));
    PLAIN(pel_halfband_new(5, 0), 6);
    PLAIN(pel_halfband_new(5, 1), 6);
    PLAIN(pel_halfband_new(quiet, 2), 6);
    PLAIN(pel_halfband_new(5, 16777216), 6);
    PLAIN(pel_halfband_new(quiet, 16777219), 6);
    PLAIN(pel_halfband_new(5, (1ull << 63) + 3), 6);
    PLAIN(pel_halfband_new(quiet, UINT64_MAX), 6);

    /* A buffer that may not even be read: this refusal needs none of it. */
    size_t bytes = ((size_t)1 << 27) + 24;
    uint8_t *locked = forbidden(bytes);
    report("16777219 taps", pel_halfband(quiet, locked, bytes), plain(6));
    munmap(locked, bytes);

    REFUSED(pel_halfband(quiet, lend(8 * 7), 8 * 7), plain(4));
    REFUSED(pel_halfband(inf, lend(8 * 7), 8 * 7), plain(4));
    REFUSED(pel_halfband(-inf, lend(8 * 7), 8 * 7), plain(4));
    REFUSED(pel_halfband(-tiny, lend(8 * 3), 8 * 3), plain(4));
    PLAIN(pel_halfband_new(-1, 7), 4);

    /* Before the whole of a long buffer, which may not even be read. */
    locked = forbidden(bytes);
    report("6 before 16", pel_halfband(1e4, locked, bytes), plain(6));
    report("16", pel_halfband(1e4, locked, bytes - 32), plain(16));
    munmap(locked, bytes);
    PLAIN(pel_halfband_new(1e4, 16777215), 16);
}

/* Every combination of a length and a beta, good or bad: 8, then 6, 4, 16. No ticket is known that gives 10: the middle
 * tap of a beta that settles has the window 1, and the sum is about 1. */
static void orders(void)
{
    static const double all[] = {0.0,   -0.0,    5.0,  713.98690854396818, 713.9869085439683, 750.0, 1e4,
                                 1e308, -1e-300, -5.0, INFINITY,           -INFINITY,         NAN};
    for (size_t bytes = 0; bytes <= 8 * 23 + 3; bytes++)
        for (size_t k = 0; k < COUNT(all); k++) {
            double beta = all[k];
            pel_report r = pel_halfband(beta, lend(bytes), bytes);
            if (bytes % 8 != 0)
                report("8 first", r, length(bytes - bytes % 8, bytes));
            else if (bytes / 8 % 4 != 3)
                report("then 6", r, plain(6));
            else if (!(beta >= 0.0 && beta < inf))
                report("then 4", r, plain(4));
            else if (!straight_settles(beta, bytes / 8 - 1, bytes / 8))
                report("then 16", r, plain(16));
            else
                expect_count("accepted", r.number, 0);
            r.number == 0 ? around("accepted") : as_it_came("refused");
            if (bytes % 8 == 0)
                report("without a buffer", pel_halfband_new(beta, bytes / 8), r);
        }
}

/* Random bits as beta and as a count: nothing may crash, hang or touch a byte that it should not. */
static void hostile(void)
{
    uint64_t state = 11;
    for (int i = 0; i < 20000; i++) {
        state = state * 6364136223846793005u + 1442695040888963407u;
        double beta = of_bits(state ^ state >> 31);
        size_t bytes = state >> 40 & 127;
        pel_report r = pel_halfband(beta, lend(bytes), bytes);
        r.number == 0 ? around("hostile") : as_it_came("hostile");
        expect_count("too many taps", pel_halfband_new(beta, state | 1 << 25).number, 6);
    }
}

static void tests(void)
{
    designs();
    betas();
    examples();
    refusals();
    orders();
    hostile();
}

int main(void)
{
    return both_ways(tests, "half-band");
}
