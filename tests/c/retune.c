/* Turns the knob of a low-pass from C: lists of turns with good, bad and hostile numbers, each held to pel_lowpass for
 * the numbers that were accepted last, by every field of the report and of the record and every byte of the buffer and
 * around it; tickets with two faults each, for the order of the refusals; and records that no design gave. */
#include "ticket.h"

#include "straight.h"

static const double inf = INFINITY, quiet = NAN, tiny = 5e-324;

/* The record of pel_lowpass's numbers, by the request: what pel_lowpass doesn't tell are a quotient and the series. */
static pel_design recorded(double cutoff, double rate, uint64_t window, double beta, uint64_t taps)
{
    int kaiser = window == PEL_KAISER;
    pel_report r = pel_lowpass_new(cutoff, rate, window, beta, taps);
    return (pel_design){taps,   cutoff / rate, window, kaiser ? beta : 0.0, kaiser ? pel_bessel_i0(beta).value : 1.0,
                        r.value};
}

static void same_record(const char *what, pel_design got, pel_design want)
{
    expect_count(what, got.taps, want.taps);
    expect(what, got.fraction, want.fraction);
    expect_count(what, got.window, want.window);
    expect(what, got.beta, want.beta);
    expect(what, got.series, want.series);
    expect(what, got.sum, want.sum);
}

/* ---- Lists of turns ------------------------------------------------------------------------------ */

enum { TAPS = 33, BYTES = 8 * TAPS };

/* A turn: to a cutoff at a rate, or, where the rate is 0, to a beta. */
struct turn {
    double to, rate;
    uint32_t number; /* of the refusal that it must meet */
};

static void list(const char *what, uint64_t window, const struct turn *turns, size_t count)
{
    double cutoff = 1000.0, rate = 8000.0, beta = 6.0;
    uint8_t want[BYTES], *bytes = lend(BYTES);
    pel_tuned t = pel_design_lowpass(cutoff, rate, window, beta, bytes, BYTES);
    report(what, t.report, pel_lowpass(cutoff, rate, window, beta, want, BYTES));
    for (size_t i = 0; i < count; i++) {
        pel_design before = t.design;
        if (turns[i].rate != 0.0)
            t = pel_design_new_cutoff(t.design, turns[i].to, turns[i].rate, bytes, BYTES);
        else
            t = pel_design_new_beta(t.design, turns[i].to, bytes, BYTES);
        expect_count(what, t.report.number, turns[i].number);
        if (turns[i].number == 0 && turns[i].rate != 0.0) {
            cutoff = turns[i].to;
            rate = turns[i].rate;
        } else if (turns[i].number == 0) {
            beta = turns[i].to;
        } else {
            same_record(what, t.design, before);
        }
        pel_report r = pel_lowpass(cutoff, rate, window, beta, want, BYTES);
        if (turns[i].number == 0)
            report(what, t.report, r);
        same_record(what, t.design, recorded(cutoff, rate, window, beta, TAPS));
        expect_count(what, (uint64_t)memcmp(bytes, want, BYTES), 0);
        around(what);
    }
}

static void lists(void)
{
    const struct turn kaiser[] = {
        {1200, 8000, 0},  {4000, 8000, 2}, {8, 0, 0},       {quiet, 0, 4},   {700, 6000, 0}, {700, quiet, 1},
        {700, -6000, 1},  {-tiny, 0, 4},   {0, 0, 0},       {-0.0, 0, 0},    {inf, 0, 4},    {1e4, 0, 16},
        {quiet, 8000, 2}, {12, 0, 0},      {24000, 1e5, 0}, {tiny, 8000, 2}, {1, 1e9, 0},    {3.9, 0, 0},
    };
    list("Kaiser's list", PEL_KAISER, kaiser, COUNT(kaiser));
    /* About the last beta that settles: after a refusal the next turn goes on from the numbers accepted last. */
    const double next = nextafter(last_settled, inf);
    const struct turn edge[] = {
        {713, 0, 0},    {next, 0, 16},  {1200, 8000, 0}, {last_settled, 0, 0}, {750, 0, 16},
        {700, 6000, 0}, {1e308, 0, 16}, {1e3, 0, 16},    {713.5, 0, 0},        {714, 0, 16},
        {quiet, 0, 4},  {754, 0, 16},   {4000, 8000, 2}, {713.98, 0, 0},       {0.3, 1, 0},
        {next, 0, 16},  {5, 0, 0},      {next, 0, 16},   {last_settled, 0, 0},
    };
    list("Kaiser's edge", PEL_KAISER, edge, COUNT(edge));
    const struct turn others[] = {{8, 0, 7},       {1200, 8000, 0},  {quiet, 0, 7},   {4000, 8000, 2},
                                  {1200, inf, 1},  {0.3, 1, 0},      {0, 8000, 2},    {6, 0, 7},
                                  {0.49999, 1, 0}, {-1000, 8000, 2}, {1200, 48000, 0}};
    list("Hann's list", PEL_HANN, others, COUNT(others));
    list("Hamming's list", PEL_HAMMING, others, COUNT(others));
    list("Blackman's list", PEL_BLACKMAN, others, COUNT(others));
}

/* ---- One tap: its window is 1 and takes no series; its record keeps what the series at beta reached --- */

static void one_tap(void)
{
    for (size_t k = 0; k < COUNT(unsettled_betas); k++) {
        double beta = unsettled_betas[k], reached = pel_bessel_i0(beta).value;
        expect("what is reached", reached, straight_series(beta).sum);
        pel_tuned t = pel_design_lowpass(0.25, 1, PEL_KAISER, beta, lend(8), 8);
        report("one tap", t.report, (pel_report){.count = 1, .value = 0.5});
        same_record("one tap", t.design, (pel_design){1, 0.25, PEL_KAISER, beta, reached, 0.5});
        expect("its tap", tap(0), 1.0);
        around("one tap");
        t = pel_design_new_cutoff(t.design, 0.125, 1, lend(8), 8);
        report("its new cutoff", t.report, (pel_report){.count = 1, .value = 0.25});
        same_record("its new cutoff", t.design, (pel_design){1, 0.125, PEL_KAISER, beta, reached, 0.25});
        t = pel_design_new_beta(t.design, 5, lend(8), 8);
        same_record("a beta that settles", t.design, recorded(0.125, 1, PEL_KAISER, 5, 1));
        t = pel_design_new_beta(t.design, beta, lend(8), 8);
        same_record("and back", t.design, (pel_design){1, 0.125, PEL_KAISER, beta, reached, 0.25});
        expect("its tap", tap(0), 1.0);
        around("and back");
        /* The series that its record has is nothing to one tap. */
        t.design.series = quiet;
        t = pel_design_new_cutoff(t.design, 0.25, 1, lend(8), 8);
        same_record("another series", t.design, (pel_design){1, 0.25, PEL_KAISER, beta, quiet, 0.5});
        expect("its tap", tap(0), 1.0);
    }
    pel_tuned t = pel_design_lowpass(0.25, 1, PEL_KAISER, 1e4, lend(8), 8);
    expect_count("one tap", t.report.number, 0);
    same_record("one tap", t.design, (pel_design){1, 0.25, PEL_KAISER, 1e4, pel_bessel_i0(1e4).value, 0.5});
    t = pel_design_new_cutoff(t.design, 0.125, 1, lend(8), 8);
    same_record("its new cutoff", t.design, (pel_design){1, 0.125, PEL_KAISER, 1e4, pel_bessel_i0(1e4).value, 0.25});
    expect("its tap", tap(0), 1.0);
    t = pel_design_new_beta(t.design, -0.0, lend(8), 8);
    same_record("beta -0", t.design, (pel_design){1, 0.125, PEL_KAISER, -0.0, 1.0, 0.25});
    around("one tap");
}

/* ---- Two faults: which refusal comes first -------------------------------------------------------- */

static void kept_at(const char *what, pel_tuned t, pel_design d, pel_report want)
{
    report(what, t.report, want);
    same_record(what, t.design, d);
    as_it_came(what);
}

static void orders(void)
{
    pel_design k = pel_design_lowpass(1000, 8000, PEL_KAISER, 6, lend(40), 40).design;
    pel_design h = pel_design_lowpass(1000, 8000, PEL_HANN, 6, lend(40), 40).design;
    kept_at("7 before 8 in bytes", pel_design_new_beta(h, 6, lend(41), 41), h, plain(7));
    kept_at("7 before 8 in taps", pel_design_new_beta(h, 6, lend(32), 32), h, plain(7));
    kept_at("7 before 4", pel_design_new_beta(h, quiet, lend(40), 40), h, plain(7));
    kept_at("8 in bytes before taps", pel_design_new_beta(k, 6, lend(33), 33), k, length(32, 33));
    kept_at("8 in bytes before 4", pel_design_new_beta(k, quiet, lend(41), 41), k, length(40, 41));
    kept_at("8 in taps before 4", pel_design_new_beta(k, quiet, lend(32), 32), k, length(5, 4));
    kept_at("8 in bytes before 1", pel_design_new_cutoff(k, quiet, quiet, lend(39), 39), k, length(32, 39));
    kept_at("8 in taps before 1", pel_design_new_cutoff(k, quiet, quiet, lend(48), 48), k, length(5, 6));
    kept_at("8 for no taps", pel_design_new_cutoff(k, 1000, 8000, lend(0), 0), k, length(5, 0));
    kept_at("1 before 2", pel_design_new_cutoff(k, quiet, 0, lend(40), 40), k, plain(1));
    kept_at("2", pel_design_new_cutoff(k, 4000, 8000, lend(40), 40), k, range(2, 0, 4000, 4000));
    kept_at("16", pel_design_new_beta(k, 1e4, lend(40), 40), k, plain(16));

    /* 7, 8 and 8 before 16, of a new beta. Two taps at so small a cutoff have a sum of 0 with a beta that settles, by
     * underflow: 10, and with one that doesn't settle 16 before it. */
    kept_at("7 before 16", pel_design_new_beta(h, 1e4, lend(40), 40), h, plain(7));
    kept_at("8 in bytes before 16", pel_design_new_beta(k, 1e4, lend(41), 41), k, length(40, 41));
    kept_at("8 in taps before 16", pel_design_new_beta(k, 1e4, lend(32), 32), k, length(5, 4));
    pel_design two = pel_design_lowpass(1e-20, 1, PEL_KAISER, 5, lend(16), 16).design;
    kept_at("10", pel_design_new_beta(two, 713, lend(16), 16), two, plain(10));
    kept_at("16 before 10", pel_design_new_beta(two, 714, lend(16), 16), two, plain(16));
    two = pel_design_lowpass(0.25, 1, PEL_KAISER, 713, lend(16), 16).design;
    kept_at("10", pel_design_new_cutoff(two, 1e-20, 1, lend(16), 16), two, plain(10));
}

/* Every beta about the last that settles, as a first design, as a turn, and on the way back. */
static void betas(void)
{
    static const uint64_t counts[] = {2, 3, 4, 7, 32};
    const pel_design none = {0, 0, 0, 0, 0, 0};
    for (size_t c = 0; c < COUNT(counts); c++) {
        size_t bytes = 8 * counts[c];
        pel_design five = pel_design_lowpass(1000, 8000, PEL_KAISER, 5, lend(bytes), bytes).design;
        for (size_t i = 0; i < COUNT(settled_betas); i++) {
            double beta = settled_betas[i];
            pel_design d = {counts[c],
                            0.125,
                            PEL_KAISER,
                            beta,
                            straight_series(beta).sum,
                            pel_lowpass_new(1000, 8000, PEL_KAISER, beta, counts[c]).value};
            uint8_t fresh[8 * 32];
            pel_report want = pel_lowpass(1000, 8000, PEL_KAISER, beta, fresh, bytes);
            expect_count("settles", want.number, 0);
            pel_tuned t = pel_design_lowpass(1000, 8000, PEL_KAISER, beta, lend(bytes), bytes);
            report("designed", t.report, want);
            same_record("designed", t.design, d);
            expect_count("designed", (uint64_t)memcmp(out.at, fresh, bytes), 0);
            around("designed");
            t = pel_design_new_beta(five, beta, lend(bytes), bytes);
            report("turned", t.report, want);
            same_record("turned", t.design, d);
            expect_count("turned", (uint64_t)memcmp(out.at, fresh, bytes), 0);
            around("turned");
        }
        for (size_t i = 0; i < COUNT(unsettled_betas); i++) {
            double beta = unsettled_betas[i];
            kept_at("begun", pel_design_lowpass(1000, 8000, PEL_KAISER, beta, lend(bytes), bytes), none, plain(16));
            kept_at("turned", pel_design_new_beta(five, beta, lend(bytes), bytes), five, plain(16));
        }
    }
}

/* ---- The first design, refused --------------------------------------------------------------------- */

static void begun(void)
{
    const pel_design none = {0, 0, 0, 0, 0, 0};
    kept_at("begun with 7", pel_design_lowpass(quiet, quiet, 4, quiet, lend(13), 13), none, plain(7));
    kept_at("begun with 8", pel_design_lowpass(quiet, quiet, 3, quiet, lend(13), 13), none, length(8, 13));
    kept_at("begun with 1", pel_design_lowpass(1000, 0, 3, quiet, lend(0), 0), none, plain(1));
    kept_at("begun with 6", pel_design_lowpass(1000, 8000, 3, quiet, lend(0), 0), none, plain(6));
    kept_at("begun with 4", pel_design_lowpass(1000, 8000, 3, quiet, lend(16), 16), none, plain(4));
    kept_at("begun with 16", pel_design_lowpass(1000, 8000, 3, 1e4, lend(16), 16), none, plain(16));
    kept_at("7 before 16", pel_design_lowpass(1000, 8000, 4, 1e4, lend(16), 16), none, plain(7));
    kept_at("8 before 16", pel_design_lowpass(1000, 8000, 3, 1e4, lend(17), 17), none, length(16, 17));
    kept_at("1 before 16", pel_design_lowpass(1000, inf, 3, 1e4, lend(16), 16), none, plain(1));
    kept_at("2 before 16", pel_design_lowpass(4000, 8000, 3, 1e4, lend(16), 16), none, range(2, 0, 4000, 4000));
    kept_at("6 before 16", pel_design_lowpass(1000, 8000, 3, 1e4, lend(0), 0), none, plain(6));
    kept_at("16 before 10", pel_design_lowpass(1e-20, 1, 3, 714, lend(16), 16), none, plain(16));
    kept_at("10 alone", pel_design_lowpass(1e-20, 1, 3, 713, lend(16), 16), none, plain(10));
    kept_at("begun with 10", pel_design_lowpass(1000, 8000, 0, quiet, lend(16), 16), none, plain(10));
    /* A record of zeros is one of Hann's window without taps. */
    kept_at("no beta for it", pel_design_new_beta(none, 6, lend(0), 0), none, plain(7));
    kept_at("8 for it", pel_design_new_cutoff(none, 1000, 8000, lend(8), 8), none, length(0, 1));
    kept_at("6 for it", pel_design_new_cutoff(none, 1000, 8000, lend(0), 0), none, plain(6));
}

/* ---- Records that no design gave ------------------------------------------------------------------- */

static void forged(void)
{
    const pel_design good = pel_design_lowpass(1000, 8000, PEL_KAISER, 6, lend(40), 40).design;
    pel_design d = good;
    d.window = 4;
    kept_at("an unknown window", pel_design_new_cutoff(d, 1000, 8000, lend(41), 41), d, plain(7));
    kept_at("an unknown window", pel_design_new_beta(d, 6, lend(41), 41), d, plain(7));
    d = good;
    d.taps = UINT64_MAX;
    kept_at("taps that nobody has", pel_design_new_cutoff(d, 1000, 8000, lend(40), 40), d, length(UINT64_MAX, 5));
    d = good;
    d.beta = quiet;
    kept_at("a beta that no design has", pel_design_new_cutoff(d, 1000, 8000, lend(40), 40), d, plain(4));
    const double outside[] = {0.0, -0.125, 0.5, 0.625, inf, quiet};
    for (size_t i = 0; i < COUNT(outside); i++) {
        d = good;
        d.fraction = outside[i];
        kept_at("no cutoff", pel_design_new_beta(d, 6, lend(40), 40), d, range(2, 0, 0.5, outside[i]));
    }
    /* Its window is divided by what it says: by twice the series each raw tap is half as large, exactly, and so is
     * their sum. */
    pel_tuned t = pel_design_new_cutoff(good, 1200, 8000, lend(40), 40);
    double taps[5];
    for (uint64_t i = 0; i < 5; i++)
        taps[i] = tap(i);
    d = good;
    d.series *= 2.0;
    pel_tuned f = pel_design_new_cutoff(d, 1200, 8000, lend(40), 40);
    expect("half the sum", f.design.sum, t.design.sum / 2.0);
    expect("the series that it keeps", f.design.series, good.series * 2.0);
    for (uint64_t i = 0; i < 5; i++)
        expect("the same taps", tap(i), taps[i]);
    d.series = 0.0;
    kept_at("a series of 0", pel_design_new_cutoff(d, 1200, 8000, lend(40), 40), d, plain(10));
    d.series = quiet;
    kept_at("a series that is none", pel_design_new_cutoff(d, 1200, 8000, lend(40), 40), d, plain(10));
    /* A new beta needs neither the series nor the sum: it makes a design of the record again. */
    d.sum = quiet;
    f = pel_design_new_beta(d, 7, lend(40), 40);
    same_record("healed", f.design, recorded(1000, 8000, PEL_KAISER, 7, 5));
    around("healed");
}

/* 16 goes by the beta and the taps, whatever the series is: it may be one that settled, or give a sum of 0. */
static void forged_betas(void)
{
    const pel_design good = pel_design_lowpass(1000, 8000, PEL_KAISER, 6, lend(40), 40).design;
    static const double held[] = {1.0, 67.23, 0.0, INFINITY, NAN};
    for (size_t i = 0; i < COUNT(held); i++) {
        pel_design u = good;
        u.beta = 1e4;
        u.series = held[i];
        kept_at("16 by its beta", pel_design_new_cutoff(u, 1200, 8000, lend(40), 40), u, plain(16));
        u.window = 4;
        kept_at("7 before 16", pel_design_new_cutoff(u, 1200, 8000, lend(40), 40), u, plain(7));
        u.window = PEL_KAISER;
        kept_at("8 in bytes before 16", pel_design_new_cutoff(u, 1200, 8000, lend(41), 41), u, length(40, 41));
        kept_at("8 in taps before 16", pel_design_new_cutoff(u, 1200, 8000, lend(48), 48), u, length(5, 6));
        kept_at("1 before 16", pel_design_new_cutoff(u, 1200, 0, lend(40), 40), u, plain(1));
        kept_at("2 before 16", pel_design_new_cutoff(u, 0, 8000, lend(40), 40), u, range(2, 0, 4000, 0));
        u.taps = 0;
        kept_at("6 before 16", pel_design_new_cutoff(u, 1200, 8000, lend(0), 0), u, plain(6));
        kept_at("6 before 16", pel_design_new_beta(u, 1e4, lend(0), 0), u, plain(6));
        u.taps = 5;
        u.fraction = 0.5;
        kept_at("2 before 16", pel_design_new_beta(u, 1e4, lend(40), 40), u, range(2, 0, 0.5, 0.5));
        /* To a new beta the old one is nothing, nor is the series. */
        u.fraction = 0.125;
        kept_at("16 by the new beta", pel_design_new_beta(u, 714, lend(40), 40), u, plain(16));
        pel_design healed = pel_design_new_beta(u, 7, lend(40), 40).design;
        same_record("healed", healed, recorded(1000, 8000, PEL_KAISER, 7, 5));
        /* And to a window without a beta. */
        u.window = PEL_HANN;
        expect_count("Hann's beta", pel_design_new_cutoff(u, 1200, 8000, lend(40), 40).report.number, 0);
    }
    /* Too many taps, and then as many as there may be, in a buffer that may not even be read. */
    size_t bytes = ((size_t)1 << 27) + 8;
    uint8_t *locked = forbidden(bytes);
    pel_design u = good;
    u.taps = 16777217;
    lend(0);
    kept_at("6 before 16", pel_design_new_beta(u, 1e4, locked, bytes), u, plain(6));
    u.taps = 16777216;
    kept_at("16", pel_design_new_beta(u, 1e4, locked, bytes - 8), u, plain(16));
    munmap(locked, bytes);
}

static void all(void)
{
    lists();
    one_tap();
    orders();
    betas();
    begun();
    forged();
    forged_betas();
}

int main(void)
{
    return both_ways(all, "the knob");
}
