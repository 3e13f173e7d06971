/* Calls the channelizer's exports from C: lengths and taps against the formulas, every refusal with what
 * it carries, and the order of refusals. */
#include "ticket.h"

#include "straight.h"

static const double inf = INFINITY, quiet = NAN, tiny = 5e-324;

/* Kaiser's formula for beta, over the C library's power. */
static double straight_beta(double a)
{
    return a > 50.0 ? 0.1102 * (a - 8.7) : a >= 21.0 ? 0.5842 * pow(a - 21.0, 0.4) + 0.07886 * (a - 21.0) : 0.0;
}

/* Kaiser's estimate. The operations are all exact or rounded once, so it is the same on every machine. */
static double straight_estimate(uint64_t channels, double passband, double stopband, double attenuation)
{
    double width = 2.0 * (stopband - passband) / (double)channels;
    return (attenuation - 7.95) / 2.285 / (pi * width) + 1.0;
}

static void accepted(uint64_t channels, uint64_t branch, double passband, double stopband, double attenuation)
{
    static double want[8192];
    uint64_t n = channels * branch;
    char what[120];
    snprintf(what, sizeof what, "prototype (%d, %d, %g, %g, %g)", (int)channels, (int)branch, passband, stopband,
             attenuation);
    pel_report r = pel_channelizer_prototype(channels, branch, passband, stopband, attenuation, lend(8 * n), 8 * n);
    double f = (passband + stopband) / 2.0 / (double)channels;
    double sum = straight_lowpass(f, straight_beta(attenuation), n, want);
    near(what, r.value / sum, 1.0, 1e-12);
    report(what, r, (pel_report){.count = n, .value = r.value});
    report(what, pel_channelizer_lowpass(channels, branch, passband, stopband, attenuation), r);
    around(what);
    for (uint64_t i = 0; i < n; i++)
        near(what, tap(i), want[i], 1e-12);
    total_is_one(what, n);
}

static void lengths(void)
{
    /* The Rust's examples; by hand: 52.05/2.285/(pi/16) + 1 is 117.01 and /(pi/40) + 1 is 291.03, rounded up and not
     * made odd; a 16th of 118 is 7.4, of 292 is 18.3. */
    REPORT(pel_channelizer_taps(16, 0.5, 1, 60), counted(118));
    REPORT(pel_channelizer_taps_per_branch(16, 0.5, 1, 60), counted(8));
    REPORT(pel_channelizer_taps(16, 0.4, 0.6, 60), counted(292));
    REPORT(pel_channelizer_taps_per_branch(16, 0.4, 0.6, 60), counted(19));

    static const double edges[] = {0.1, 0.4, 0.45, 0.5, 0.6, 1.0, 1.4999, 1.5};
    static const double attenuations[] = {20, 21, 50, 60, 87.5, 120};
    for (uint64_t channels = 4; channels <= 256; channels *= 2)
        for (size_t a = 0; a < 8; a++)
            for (size_t b = a + 1; b < 8; b++)
                for (size_t k = 0; k < 6; k++) {
                    double estimate = straight_estimate(channels, edges[a], edges[b], attenuations[k]);
                    uint64_t n = (uint64_t)ceil(estimate);
                    int too_long = estimate > 16777216.0;
                    report("length", pel_channelizer_taps(channels, edges[a], edges[b], attenuations[k]),
                           too_long ? plain(3) : counted(n));
                    report("branch", pel_channelizer_taps_per_branch(channels, edges[a], edges[b], attenuations[k]),
                           too_long ? plain(3) : counted((n + channels - 1) / channels));
                }
    /* 145 taps; a branch isn't held to 4 to 32 here. */
    REPORT(pel_channelizer_taps_per_branch(256, 0.001, 1.5, 20), counted(1));
}

static void designs(void)
{
    accepted(16, 8, 0.5, 1, 60);
    accepted(16, 19, 0.4, 0.6, 60);
    accepted(4, 4, 0.5, 1.5, 20);
    accepted(4, 32, 1e-300, 0.75, 120);
    accepted(64, 17, 0.4, 0.6, 35);
    accepted(256, 4, 1.4, 1.5, 21);
    accepted(256, 32, 0.5, 1, 100);
}

static void examples(void)
{
    /* The Rust's: edges that are swapped, and a stopband above 1.5. The scope document's: 20 to 120 dB, and 12
     * channels, which are told before a buffer of another length. */
    PLAIN(pel_channelizer_taps(16, 1, 0.5, 60), 2);
    PLAIN(pel_channelizer_taps(16, 0.5, 1.6, 60), 2);
    RANGE(pel_channelizer_taps(16, 0.5, 1, 10), 4, 20, 120, 10);
    REFUSED(pel_channelizer_prototype(12, 8, 0.5, 1, 60, lend(800), 800), plain(6));
}

static void length_refusals(void)
{
    static const uint64_t channels[] = {0, 1, 2, 3, 5, 12, 255, 257, 512, 1ull << 32, 1ull << 63, UINT64_MAX};
    for (size_t i = 0; i < sizeof channels / sizeof channels[0]; i++) {
        report("channels", pel_channelizer_taps(channels[i], 0.5, 1, 60), plain(6));
        report("channels", pel_channelizer_taps_per_branch(channels[i], quiet, quiet, quiet), plain(6));
        report("channels", pel_channelizer_lowpass(channels[i], 8, quiet, quiet, quiet), plain(6));
        report("channels", pel_channelizer_prototype(channels[i], 99, quiet, quiet, quiet, lend(8), 8), plain(6));
        as_it_came("channels");
    }
    PLAIN(pel_channelizer_taps(16, 0, 1, 60), 2);
    PLAIN(pel_channelizer_taps(16, -0.5, 1, quiet), 2);
    PLAIN(pel_channelizer_taps(16, quiet, quiet, quiet), 2);
    PLAIN(pel_channelizer_taps(16, inf, 1, 60), 2);
    PLAIN(pel_channelizer_taps(16, 0.6, 0.4, quiet), 2);
    PLAIN(pel_channelizer_taps(16, 0.5, 0.5, 60), 2);
    PLAIN(pel_channelizer_taps(16, 0.5, nextafter(1.5, 2), 60), 2);
    PLAIN(pel_channelizer_taps(16, 0.5, inf, 60), 2);
    PLAIN(pel_channelizer_taps(16, 0.5, quiet, 60), 2);
    RANGE(pel_channelizer_taps(16, 0.5, 1, nextafter(20, 0)), 4, 20, 120, nextafter(20, 0));
    RANGE(pel_channelizer_taps(16, 0.5, 1, nextafter(120, 200)), 4, 20, 120, nextafter(120, 200));
    RANGE(pel_channelizer_taps_per_branch(16, 0.5, 1, -60), 4, 20, 120, -60);
    RANGE(pel_channelizer_taps(16, 0.5, 1, quiet), 4, 20, 120, quiet);
    RANGE(pel_channelizer_taps(16, 0.5, nextafter(0.5, 1), inf), 4, 20, 120, inf);
    PLAIN(pel_channelizer_taps(16, 0.5, nextafter(0.5, 1), 60), 3);
    PLAIN(pel_channelizer_taps_per_branch(256, tiny, 2 * tiny, 60), 3);
}

static void refusals(void)
{
    REFUSED(pel_channelizer_prototype(12, 99, quiet, quiet, quiet, lend(13), 13), length(8, 13));
    REFUSED(pel_channelizer_prototype(16, 8, 0.5, 1, 60, lend(1025), 1025), length(1024, 1025));
    REFUSED(pel_channelizer_prototype(12, 8, 0.5, 1, 60, lend(8 * 96), 8 * 96), plain(6));
    REFUSED(pel_channelizer_prototype(16, 3, quiet, quiet, quiet, lend(8 * 48), 8 * 48), plain(6));
    REFUSED(pel_channelizer_prototype(16, 33, 0.5, 1, 60, lend(8 * 528), 8 * 528), plain(6));
    REFUSED(pel_channelizer_prototype(16, 0, 0.5, 1, 60, lend(0), 0), plain(6));
    REFUSED(pel_channelizer_prototype(16, (1ull << 60) + 8, 0.5, 1, 60, lend(1024), 1024), plain(6));
    PLAIN(pel_channelizer_lowpass(16, UINT64_MAX, 0.5, 1, 60), 6);
    REFUSED(pel_channelizer_prototype(16, 8, 0, 1, quiet, lend(1024), 1024), plain(2));
    REFUSED(pel_channelizer_prototype(16, 8, 1, 0.5, quiet, lend(1024), 1024), plain(2));
    REFUSED(pel_channelizer_prototype(16, 8, 0.5, 1.6, 60, lend(8), 8), plain(2));
    REFUSED(pel_channelizer_prototype(16, 8, 0.5, 1, 19, lend(800), 800), range(4, 20, 120, 19));
    REFUSED(pel_channelizer_prototype(16, 8, 0.5, 1, quiet, lend(1024), 1024), range(4, 20, 120, quiet));

    /* The edges are good, and yet the cutoff (u + 2u)/512 is 0: the low-pass's own refusal, before 8. */
    REFUSED(pel_channelizer_prototype(256, 4, tiny, 2 * tiny, 60, lend(8), 8), range(2, 0, 0.5, 0));
    RANGE(pel_channelizer_lowpass(256, 4, tiny, 2 * tiny, 60), 2, 0, 0.5, 0);

    /* Edges that no estimate takes are none of the prototype's business. */
    expect_count("no 3 here", pel_channelizer_lowpass(16, 8, 0.5, nextafter(0.5, 1), 60).number, 0);

    REFUSED(pel_channelizer_prototype(16, 8, 0.5, 1, 60, lend(800), 800), length(128, 100));
    REFUSED(pel_channelizer_prototype(16, 8, 0.5, 1, 60, lend(8 * 129), 8 * 129), length(128, 129));
    REFUSED(pel_channelizer_prototype(16, 8, 0.5, 1, 60, lend(0), 0), length(128, 0));
}

/* Every combination of good and bad arguments: 8 in bytes, 6, 6, 2, 2, 4, the low-pass's 2, 8 in taps. */
static void orders(void)
{
    static const uint64_t channels[] = {4, 8, 6, 512};
    static const uint64_t branches[] = {4, 5, 3, 33};
    static const double passbands[] = {0.5, 5e-324, 0.0, 1.5, NAN};
    static const double stopbands[] = {1.0, 1e-323, 0.5, 1.5000000000000002, NAN};
    static const double attenuations[] = {20, 120, 19, 121, NAN};
    static const size_t sizes[] = {8 * 16, 8 * 40, 0, 8, 11};
    for (size_t a = 0; a < 4; a++)
        for (size_t b = 0; b < 4; b++)
            for (size_t c = 0; c < 5; c++)
                for (size_t d = 0; d < 5; d++)
                    for (size_t e = 0; e < 5; e++)
                        for (size_t k = 0; k < 5; k++) {
                            uint64_t m = channels[a], l = branches[b];
                            double p = passbands[c], s = stopbands[d], att = attenuations[e];
                            size_t bytes = sizes[k];
                            pel_report r = pel_channelizer_prototype(m, l, p, s, att, lend(bytes), bytes);
                            double cutoff = (p + s) / (2.0 * (double)m);
                            if (bytes % 8 != 0)
                                report("8 in bytes first", r, length(bytes - bytes % 8, bytes));
                            else if (m == 6 || m == 512 || l == 3 || l == 33)
                                report("then 6", r, plain(6));
                            else if (!(p > 0.0) || !(s > p && s <= 1.5))
                                report("then 2", r, plain(2));
                            else if (!(att >= 20 && att <= 120))
                                report("then 4", r, range(4, 20, 120, att));
                            else if (cutoff == 0.0)
                                report("then the low-pass's 2", r, range(2, 0, 0.5, 0));
                            else if (m * l != bytes / 8)
                                report("then 8 in taps", r, length(m * l, bytes / 8));
                            else
                                report("accepted", r, pel_channelizer_lowpass(m, l, p, s, att));
                            r.number == 0 ? around("accepted") : as_it_came("refused");
                        }
}

static void tests(void)
{
    lengths();
    designs();
    examples();
    length_refusals();
    refusals();
    orders();
}

int main(void)
{
    return both_ways(tests, "channelizer");
}
