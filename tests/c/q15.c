/* Calls the Q15 exports from C: roundings, limits, every refusal with what it carries, which bytes a
 * refusal keeps, and what the Q15 numbers of whole filters add up to. */
#include "ticket.h"

static const double inf = INFINITY, quiet = NAN, tiny = 5e-324;

/* What a tap may measure at most, by document 01's formula. */
static const double limit = (1.0 - 1.0 / 32768.0) * 1.01;

static pel_report element(uint64_t index, double offered)
{
    return (pel_report){.number = 11,
                        .carries = PEL_ELEMENT,
                        .smallest = -limit,
                        .largest = limit,
                        .offered = offered,
                        .index = index};
}

/* The C library's floor is exact. */
static int straight_q15(double x)
{
    double v = floor(x * 32768.0 + 0.5);
    return v >= 32767.0 ? 32767 : v <= -32768.0 ? -32768 : isnan(v) ? 0 : (int)v;
}

static void from_f64(const char *what, double x, int want)
{
    expect(what, pel_q15_from_f64(x), want);
}

static void single(void)
{
    from_f64("NaN", quiet, 0);
    from_f64("+infinity", inf, 32767);
    from_f64("-infinity", -inf, -32768);
    from_f64("0", 0.0, 0);
    from_f64("-0", -0.0, 0);
    from_f64("the least number", tiny, 0);
    from_f64("the least number below 0", -tiny, 0);
    from_f64("1", 1.0, 32767);
    from_f64("-1", -1.0, -32768);
    from_f64("2^-16", 1.0 / 65536.0, 1);
    from_f64("-2^-16", -1.0 / 65536.0, 0);
    from_f64("below -2^-16", nextafter(-1.0 / 65536.0, -1.0), -1);
    /* 32768 x + 0.5 rounds up to 1 here. */
    from_f64("below 2^-16", nextafter(1.0 / 65536.0, 0.0), 1);
    from_f64("0.5", 0.5, 16384);
    from_f64("-0.25", -0.25, -8192);
    from_f64("a saturated half", 32767.5 / 32768.0, 32767);
    from_f64("below that", 32767.25 / 32768.0, 32767);
    from_f64("a half below -1", -32768.5 / 32768.0, -32768);
    from_f64("beyond -1", -1.5, -32768);
    from_f64("a large number", 1e300, 32767);
    for (int q = -32768; q <= 32767; q++) {
        from_f64("a Q15 number", q / 32768.0, q);
        if (q < 32767)
            from_f64("halves go up", (q + 0.5) / 32768.0, q + 1);
    }

    REPORT(pel_q15_tap(1.0), ((pel_report){.value = 32767}));
    REPORT(pel_q15_tap(-1.0), ((pel_report){.value = -32768}));
    REPORT(pel_q15_tap(1.0 / 65536.0), ((pel_report){.value = 1}));
    REPORT(pel_q15_tap(-1.0 / 65536.0), ((pel_report){.value = 0}));
    REPORT(pel_q15_tap(0.5), ((pel_report){.value = 16384}));
    REPORT(pel_q15_tap(limit), ((pel_report){.value = 32767}));
    REPORT(pel_q15_tap(-limit), ((pel_report){.value = -32768}));
    REPORT(pel_q15_tap(nextafter(limit, 2)), element(0, nextafter(limit, 2)));
    REPORT(pel_q15_tap(nextafter(-limit, -2)), element(0, nextafter(-limit, -2)));
    REPORT(pel_q15_tap(1.01), element(0, 1.01));
    REPORT(pel_q15_tap(quiet), element(0, quiet));
    REPORT(pel_q15_tap(-inf), element(0, -inf));
}

static struct lent source;

/* The source's eight bytes a number, lowest first, with a whole copy to hold it to afterwards. */
static uint8_t copy[8 * 4096];

static const uint8_t *lend_source(const double *x, size_t n)
{
    lend_in(&source, 8 * n);
    for (size_t i = 0; i < 8 * n; i++)
        source.at[i] = (uint8_t)(bits(x[i / 8]) >> 8 * (i % 8));
    memcpy(copy, source.at, 8 * n);
    return source.at;
}

static int code(uint64_t i)
{
    int b = out.at[2 * i] | out.at[2 * i + 1] << 8;
    return b < 32768 ? b : b - 65536;
}

/* Converts n numbers, of which the first `good` are taken, and looks at every byte. */
static void convert(const char *what, const double *x, size_t n, size_t good)
{
    lend_source(x, n);
    pel_report r = pel_to_q15(source.at, 8 * n, lend(2 * n), 2 * n);
    report(what, r, good == n ? counted(n) : element(good, x[good]));
    for (size_t i = 0; i < good; i++)
        expect(what, code(i), straight_q15(x[i]));
    around(what);
    untouched("behind the prefix", out.at + 2 * good, out.at + out.bytes);
    expect_count("the source stays", memcmp(source.at, copy, 8 * n) != 0, 0);
}

static void buffers(void)
{
    convert("the Rust's example", (double[]){0.5, -0.25}, 2, 2);
    convert("refused at once", (double[]){1.5, 0.0}, 2, 0);
    convert("a prefix", (double[]){1.0, -1.0, 1.0 / 65536.0, 1.01, 0.5}, 5, 3);
    convert("a NaN in the middle", (double[]){0.5, quiet, 0.25}, 3, 1);
    convert("a NaN at the end", (double[]){0.5, -0.5, limit, -limit, quiet}, 5, 4);
    convert("the first of two", (double[]){0.5, -0.5, -inf, 0.0, 7.0}, 5, 2);
    convert("just above the limit", (double[]){limit, nextafter(limit, 2)}, 2, 1);
    convert("just below the least", (double[]){-limit, nextafter(-limit, -2), 0.0}, 3, 1);
    convert("a NaN with a payload", (double[]){of_bits(0x7FF0000000000001), 0.0}, 2, 0);
    convert("one", (double[]){-1.0}, 1, 1);
    convert("none", (double[]){quiet}, 0, 0);

    /* By hand: 32768 x + 0.5 is rounded before its floor, so the double below 2^-16, 3EEFFFFFFFFFFFFF, gives 1 as 2^-16
     * does; and the double above the limit, 3FF028D570A3D70B, is the first that isn't taken. */
    REPORT(pel_q15_tap(1.5258789062499998e-5), ((pel_report){.value = 1}));
    expect_count("the double below 2^-16", bits(1.5258789062499998e-5), 0x3EEFFFFFFFFFFFFF);
    expect_count("the limit", bits(1.0099691772460937), bits(limit));
    expect_count("the double above the limit", bits(1.009969177246094), 0x3FF028D570A3D70B);
    convert("element 2", (double[]){0.5, -0.25, 1.009969177246094, 0.5}, 4, 2);
    expect("the Rust's 0.5", code(0), 16384);
    expect("the Rust's -0.25", code(1), -8192);

    /* Lengths: the source in bytes, the destination in bytes, both in elements; 11 after all of them. */
    const double x[4] = {quiet, 0.5, 0.25, 2.0};
    lend_source(x, 4);
    REFUSED(pel_to_q15(source.at, 13, lend(3), 3), length(8, 13));
    REFUSED(pel_to_q15(source.at, 7, lend(2), 2), length(0, 7));
    REFUSED(pel_to_q15(source.at, 31, lend(8), 8), length(24, 31));
    REFUSED(pel_to_q15(source.at, 32, lend(7), 7), length(6, 7));
    REFUSED(pel_to_q15(source.at, 8, lend(1), 1), length(0, 1));
    REFUSED(pel_to_q15(source.at, 24, lend(4), 4), length(3, 2));
    REFUSED(pel_to_q15(source.at, 16, lend(6), 6), length(2, 3));
    REFUSED(pel_to_q15(source.at, 0, lend(2), 2), length(0, 1));
    REFUSED(pel_to_q15(source.at, 8, lend(0), 0), length(1, 0));

    /* Random bits: most are refused somewhere. */
    uint64_t state = 13;
    for (int i = 0; i < 20000; i++) {
        double y[8];
        size_t good = 8;
        for (size_t k = 8; k-- > 0;) {
            state = state * 6364136223846793005u + 1442695040888963407u;
            y[k] = of_bits(state ^ state >> 31);
            if (!(fabs(y[k]) <= limit))
                good = k;
        }
        convert("hostile", y, 8, good);
        expect("hostile", pel_q15_from_f64(y[0]), straight_q15(y[0]));
        y[1] = (double)(int64_t)state / 9223372036854775808.0;
        expect("from -1 to 1", pel_q15_from_f64(y[1]), straight_q15(y[1]));
    }
}

/* Takes the designed taps on to Q15. Where no tap saturates, the whole numbers add up to 32768 but for
 * n (1/2 + (1 + A)/2^37), A the sum of the taps' sizes. */
static void total(const char *what, pel_report r, uint64_t n)
{
    static double x[4096];
    expect_count(what, r.number, 0);
    expect_count(what, r.count, n);
    double sizes = 0.0;
    for (uint64_t i = 0; i < n; i++) {
        x[i] = tap(i);
        sizes += fabs(x[i]);
        expect_count("does not saturate", floor(32768.0 * x[i] + 0.5) <= 32767.0, 1);
    }
    total_is_one(what, n);
    convert(what, x, n, n);
    double sum = 0.0;
    for (uint64_t i = 0; i < n; i++)
        sum += code(i);
    near(what, sum, 32768.0, (double)n * (0.5 + (1.0 + sizes) / 137438953472.0));
}

static void totals(void)
{
    total("low-pass of 127", pel_lowpass(1000, 8000, PEL_KAISER, 5.65326, lend(8 * 127), 8 * 127), 127);
    total("half-band of 127", pel_halfband(5.65326, lend(8 * 127), 8 * 127), 127);
    total("Gaussian of 33", pel_gaussian(0.5, 8, 4, lend(8 * 33), 8 * 33), 33);
    total("channelizer of 128", pel_channelizer_prototype(16, 8, 0.5, 1, 60, lend(1024), 1024), 128);

    for (uint64_t window = PEL_HANN; window <= PEL_KAISER; window++)
        for (uint64_t n = 4; n <= 2048; n *= 2)
            total("low-pass", pel_lowpass(0.01, 1, window, 3, lend(8 * n), 8 * n), n);
    for (uint64_t n = 3; n < 2048; n = 2 * n + 1)
        total("half-band", pel_halfband(8, lend(8 * n), 8 * n), n);
    for (uint64_t span = 2; span <= 8; span++) {
        uint64_t n = 100 * span + 1;
        total("Gaussian", pel_gaussian(0.3, 100, span, lend(8 * n), 8 * n), n);
    }
    for (uint64_t branch = 4; branch <= 32; branch++)
        total("channelizer", pel_channelizer_prototype(64, branch, 0.4, 0.6, 60, lend(512 * branch), 512 * branch),
              64 * branch);
}

static void tests(void)
{
    single();
    buffers();
    totals();
}

int main(void)
{
    expect_count("the limit", bits(limit), 0x3FF028D570A3D70A);
    return both_ways(tests, "Q15");
}
