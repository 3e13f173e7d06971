/* Calls the Q14 and float conversions from C: roundings and limits against the C library's floor and C's own
 * cast, every refusal with what it carries, which bytes a refusal keeps, and the order of refusals. Q15 has a
 * file of its own. */
#include "ticket.h"

#include <fenv.h>
#include <float.h>

static const double inf = INFINITY, quiet = NAN, tiny = 5e-324;

/* ---- Straight conversions ---------------------------------------------------------------------- */

/* The C library's floor is exact. Nothing saturates: what 16 bits can't hold is refused. */
static double straight_floor(double x)
{
    return floor(x * 16384.0 + 0.5);
}

static int takes_q14(double x)
{
    return straight_floor(x) >= -32768.0 && straight_floor(x) <= 32767.0;
}

static pel_report outside_q14(uint64_t index, double offered)
{
    return (pel_report){.number = 11,
                        .carries = PEL_ELEMENT,
                        .smallest = -2.0,
                        .largest = 2.0 - 1.0 / 16384.0,
                        .offered = offered,
                        .index = index};
}

static uint32_t bits_f32(float x)
{
    uint32_t b;
    memcpy(&b, &x, sizeof b);
    return b;
}

/* The compiler's cast rounds to the nearest, ties to even, as long as nobody sets another mode. */
static uint32_t straight_f32(double x)
{
    return isnan(x) ? 0x7FC00000 : bits_f32((float)x);
}

/* ---- Sources ----------------------------------------------------------------------------------- */

enum { MOST = 8 * 16 };

static struct lent source;
static uint8_t copy[MOST];

/* The source's eight bytes a number, lowest first, with a whole copy to hold it to afterwards. */
static void lend_source(const double *x, size_t n)
{
    lend_in(&source, 8 * n);
    for (size_t i = 0; i < 8 * n; i++)
        source.at[i] = (uint8_t)(bits(x[i / 8]) >> 8 * (i % 8));
    memcpy(copy, source.at, 8 * n);
}

static void source_stays(void)
{
    expect_count("the source stays", memcmp(source.at, copy, source.bytes) != 0, 0);
    untouched("before the source", source.at - GUARD, source.at);
    untouched("behind the source", source.at + source.bytes, source.at + source.bytes + source.after);
}

/* Number i of the destination, of so many bytes. */
static uint32_t number(uint64_t i, size_t width)
{
    uint32_t b = 0;
    for (size_t k = width; k-- > 0;)
        b = b << 8 | out.at[width * i + k];
    return b;
}

/* ---- Q14 --------------------------------------------------------------------------------------- */

static void single(const char *what, double x)
{
    /* Added to 0, so that a floor of -0 is 0. */
    report(what, pel_q14_from_f64(x),
           takes_q14(x) ? (pel_report){.value = straight_floor(x) + 0.0} : outside_q14(0, x));
}

static void value(const char *what, double x, double want)
{
    report(what, pel_q14_from_f64(x), (pel_report){.value = want});
    single(what, x);
}

static void refused(const char *what, double x)
{
    report(what, pel_q14_from_f64(x), outside_q14(0, x));
    single(what, x);
}

static void singles(void)
{
    value("0", 0.0, 0);
    value("-0", -0.0, 0);
    value("the least number", tiny, 0);
    value("the least number below 0", -tiny, 0);
    value("1", 1.0, 16384);
    value("-1", -1.0, -16384);
    value("0.5", 0.5, 8192);
    value("-0.25", -0.25, -4096);
    value("2^-15", 1.0 / 32768.0, 1);
    value("-2^-15", -1.0 / 32768.0, 0);
    value("below -2^-15", nextafter(-1.0 / 32768.0, -1.0), -1);
    /* 16384 x + 0.5 rounds up to 1 here. */
    value("below 2^-15", nextafter(1.0 / 32768.0, 0.0), 1);
    value("the largest", 2.0 - 1.0 / 16384.0, 32767);
    value("below 2 - 2^-15", nextafter(2.0 - 1.0 / 32768.0, 0.0), 32767);
    value("-2", -2.0, -32768);
    value("-2 - 2^-15", -2.0 - 1.0 / 32768.0, -32768);

    refused("2 - 2^-15", 2.0 - 1.0 / 32768.0);
    refused("2", 2.0);
    refused("below -2 - 2^-15", nextafter(-2.0 - 1.0 / 32768.0, -3.0));
    refused("-3", -3.0);
    refused("a large number", 1e300);
    refused("a large number below 0", -1e308); /* 16384 x overflows */
    refused("infinity", inf);
    refused("-infinity", -inf);
    refused("NaN", quiet);
    refused("a NaN with a payload and a sign", of_bits(0xFFF0000000000001));

    for (int q = -32768; q <= 32767; q++) {
        value("a Q14 number", q / 16384.0, q);
        if (q < 32767)
            value("halves go up", (q + 0.5) / 16384.0, q + 1);
    }
}

/* Converts n numbers, of which the first `good` are taken, and looks at every byte. */
static void convert_q14(const char *what, const double *x, size_t n, size_t good)
{
    lend_source(x, n);
    pel_report r = pel_to_q14(source.at, 8 * n, lend(2 * n), 2 * n);
    report(what, r, good == n ? counted(n) : outside_q14(good, x[good]));
    for (size_t i = 0; i < good; i++)
        expect_count(what, number(i, 2), (uint16_t)(int16_t)straight_floor(x[i]));
    around(what);
    untouched("behind the prefix", out.at + 2 * good, out.at + out.bytes);
    source_stays();
}

static void q14_buffers(void)
{
    convert_q14("none", &quiet, 0, 0);
    convert_q14("a section", (double[]){0.5, -0.25, 1.0, -2.0, 1.99993896484375}, 5, 5);
    convert_q14("refused at once", (double[]){2.0, 0.0, 0.0, 0.0, 0.0}, 5, 0);
    convert_q14("refused at the end", (double[]){0.5, 1.0, 0.5, -1.5, -2.1}, 5, 4);
    convert_q14("a NaN in the middle", (double[]){0.5, 1.0, quiet, -1.5, 0.9}, 5, 2);
    convert_q14("a NaN with a payload", (double[]){of_bits(0x7FF0000000000001), 0, 0, 0, 0}, 5, 0);
    convert_q14("the first of two", (double[]){0.5, inf, 0.5, -inf, 0.9}, 5, 1);
    convert_q14("just outside",
                (double[]){1.0, -2.0 - 1.0 / 32768.0, nextafter(2.0 - 1.0 / 32768.0, 0.0),
                           nextafter(-2.0 - 1.0 / 32768.0, -3.0), 0.0},
                5, 3);
    /* Counted from the first number of all, not of its section. */
    convert_q14("in the second section", (double[]){0, 0, 0, 0, 0, 0.5, -0.5, 7.0, 0.25, 8.0}, 10, 7);
    convert_q14("in the third section", (double[]){1, 1, 1, 1, 1, -1, -1, -1, -1, -1, 1, 1, 1, 1, 2}, 15, 14);

    /* By hand, 16384 to the unit: 2 and 2 - 2^-15 are past the largest, 2 - 2^-14, and a NaN isn't taken; the Rust
     * refuses 2 too. The index counts through all sections. */
    convert_q14("element 3, a 2", (double[]){0, 0, 0, 2, 0}, 5, 3);
    convert_q14("element 4, 2 - 2^-15", (double[]){0, 0, 0, 0, 1.999969482421875}, 5, 4);
    convert_q14("element 5, a NaN", (double[]){0, 0, 0, 0, 0, NAN, 0, 0, 0, 0}, 10, 5);
    convert_q14("element 7, a 2", (double[]){0.5, -0.5, 0.5, -1.0, 1.0, -2.0, 0.25, 2.0, 0.5, 0.5}, 10, 7);
    static const int16_t seven[] = {8192, -8192, 8192, -16384, 16384, -32768, 4096};
    for (size_t i = 0; i < COUNT(seven); i++)
        expect_count("before element 7", number(i, 2), (uint16_t)seven[i]);

    /* Where a real design leaves Q14: next to half the rate a sharp low-pass has b1 next to 2. */
    double x[5], angle = 3.141592653589793 * 2.0 * 23999.0 / 48000.0;
    pel_report r = pel_biquad_coefs(PEL_LOWPASS, 23999, 1000, 48000, lend(40), 40);
    expect_count("a sharp low-pass", r.number, 0);
    for (uint64_t k = 0; k < 5; k++)
        x[k] = tap(k);
    near("its b1", x[1], (1.0 - cos(angle)) / (1.0 + sin(angle) / 2000.0), 1e-14);
    convert_q14("a sharp low-pass", x, 5, 1);

    /* Random bits, most of which are refused somewhere, and whole sections from -2 to 2. */
    uint64_t state = 19;
    for (int i = 0; i < 20000; i++) {
        double y[10], z[10];
        size_t good = 10;
        for (size_t k = 10; k-- > 0;) {
            state = state * 6364136223846793005u + 1442695040888963407u;
            y[k] = of_bits(state ^ state >> 31);
            z[k] = (double)(int64_t)state / 4611686018427387904.0;
            if (!takes_q14(z[k]))
                z[k] = 0.0;
            if (!takes_q14(y[k]))
                good = k;
        }
        convert_q14("hostile", y, 10, good);
        convert_q14("from -2 to 2", z, 10, 10);
        single("hostile", y[0]);
        single("around the ends", z[0] * 1.01);
    }
}

/* ---- Floats ------------------------------------------------------------------------------------ */

static void convert_f32(const char *what, const double *x, size_t n)
{
    lend_source(x, n);
    report(what, pel_to_f32(source.at, 8 * n, lend(4 * n), 4 * n), counted(n));
    for (size_t i = 0; i < n; i++)
        expect_count(what, number(i, 4), straight_f32(x[i]));
    around(what);
    source_stays();
    if (n % 5 != 0)
        return;
    report(what, pel_to_f32_sos(source.at, 8 * n, lend(4 * n), 4 * n), counted(n));
    for (size_t i = 0; i < n; i++)
        expect_count(what, number(i, 4), straight_f32(x[i]));
    around(what);
    source_stays();
}

/* One number and its negation, whose pattern differs in the sign alone. */
static void float_is(const char *what, double x, uint32_t want)
{
    convert_f32(what, (double[]){x, -x}, 2);
    expect_count(what, number(0, 4), want);
    expect_count(what, number(1, 4), isnan(x) ? want : want ^ 0x80000000);
}

static void floats(void)
{
    expect_count("to the nearest", fegetround(), FE_TONEAREST);
    convert_f32("none", &quiet, 0);
    convert_f32("one", &tiny, 1);
    convert_f32("a section", (double[]){0.1, -0.2, 0.3, -1.9, 0.95}, 5);

    float_is("0", 0.0, 0x00000000);
    float_is("1.5", 1.5, 0x3FC00000);
    float_is("0.1", 0.1, 0x3DCCCCCD);
    float_is("infinity", inf, 0x7F800000);
    float_is("NaN", quiet, 0x7FC00000);
    float_is("a NaN with a payload", of_bits(0x7FF0000000000001), 0x7FC00000);
    float_is("a NaN with all bits", of_bits(0x7FFFFFFFFFFFFFFF), 0x7FC00000);
    float_is("a NaN with a sign", of_bits(0xFFF8000000000000), 0x7FC00000);

    /* By hand: 1e300 is past all floats, and what a float holds is as it was. */
    float_is("1e300", 1e300, 0x7F800000);
    static const uint32_t three[] = {0x3FC00000, 0xBE800000, 0x7F800000};
    convert_f32("1.5, -0.25, 1e300", (double[]){1.5, -0.25, 1e300}, 3);
    for (size_t i = 0; i < COUNT(three); i++)
        expect_count("1.5, -0.25, infinity", number(i, 4), three[i]);
    static const uint32_t five[] = {0x3F800000, 0x40000000, 0x3F800000, 0xBF000000, 0x3E800000};
    convert_f32("1, 2, 1, -0.5, 0.25", (double[]){1, 2, 1, -0.5, 0.25}, 5);
    for (size_t i = 0; i < COUNT(five); i++)
        expect_count("a section as it was", number(i, 4), five[i]);

    /* Halves of a last place: to the even one, and to the nearer one on either side of it. */
    float_is("1 + 2^-24", 1.0 + 0x1p-24, 0x3F800000);
    float_is("above 1 + 2^-24", nextafter(1.0 + 0x1p-24, 2.0), 0x3F800001);
    float_is("below 1 + 2^-24", nextafter(1.0 + 0x1p-24, 1.0), 0x3F800000);
    float_is("1 + 3 2^-24", 1.0 + 0x3p-24, 0x3F800002);
    float_is("below 1 + 3 2^-24", nextafter(1.0 + 0x3p-24, 1.0), 0x3F800001);
    float_is("up to the next power of 2", nextafter(2.0, 1.0), 0x40000000);

    /* The largest float, and where infinity begins. */
    float_is("the largest", (double)FLT_MAX, 0x7F7FFFFF);
    float_is("below 2^128 - 2^103", nextafter(0x1p128 - 0x1p103, 0.0), 0x7F7FFFFF);
    float_is("2^128 - 2^103", 0x1p128 - 0x1p103, 0x7F800000);
    float_is("2^128", 0x1p128, 0x7F800000);
    float_is("the largest double", DBL_MAX, 0x7F800000);

    /* Subnormal floats, and where 0 begins. */
    float_is("the least normal float", 0x1p-126, 0x00800000);
    float_is("up to a normal float", nextafter(0x1p-126, 0.0), 0x00800000);
    float_is("the largest subnormal float", 0x1p-126 - 0x1p-149, 0x007FFFFF);
    float_is("a half below the least normal", 0x1p-126 - 0x1p-150, 0x00800000);
    float_is("the least float", 0x1p-149, 0x00000001);
    float_is("one and a half of it", 0x3p-150, 0x00000002);
    float_is("below that", nextafter(0x3p-150, 0.0), 0x00000001);
    float_is("two and a half of it", 0x5p-150, 0x00000002);
    float_is("half of it", 0x1p-150, 0x00000000);
    float_is("above half of it", nextafter(0x1p-150, 1.0), 0x00000001);
    float_is("a subnormal double", 1e-310, 0x00000000);
    float_is("the least double", tiny, 0x00000000);
}

/* Random patterns: of doubles, of floats, of the halves between two floats, and next to those. */
static void random_floats(void)
{
    uint64_t state = 23;
    for (int i = 0; i < 40000; i++) {
        double x[10];
        state = state * 6364136223846793005u + 1442695040888963407u;
        uint64_t b = state ^ state >> 31;
        uint32_t pattern = (uint32_t)(b >> 32);
        float f, next;
        memcpy(&f, &pattern, sizeof f);
        pattern++;
        memcpy(&next, &pattern, sizeof next);
        double half = ((double)f + (double)next) / 2.0;
        x[0] = of_bits(b);
        x[1] = f;
        x[2] = half;
        x[3] = nextafter(half, inf);
        x[4] = nextafter(half, -inf);
        x[5] = nextafter((double)f, inf);
        x[6] = (double)f + ((double)next - (double)f) / 3.0;
        x[7] = of_bits(b & ~0x1FFFFFFFull);
        x[8] = of_bits((b & ~0x1FFFFFFFull) + 0x10000000);
        x[9] = (double)(int64_t)b / 9223372036854775808.0;
        convert_f32("random bits", x, 10);
    }
}

/* ---- Lengths ----------------------------------------------------------------------------------- */

typedef pel_report conversion(const uint8_t *source, size_t source_bytes, uint8_t *out, size_t bytes);

static const struct format {
    conversion *convert;
    size_t width, group;
} formats[] = {{pel_to_q14, 2, 5}, {pel_to_f32, 4, 1}, {pel_to_f32_sos, 4, 5}};

/* Every pair of lengths: the source in bytes, the destination in bytes, sections, both in numbers. */
static void lengths(const struct format *f)
{
    static const double zeros[12];
    lend_source(zeros, 12);
    for (size_t from = 0; from <= 96; from++)
        for (size_t to = 0; to <= 12 * f->width; to++) {
            pel_report r = f->convert(source.at, from, lend(to), to);
            size_t n = from / 8, m = to / f->width;
            if (from % 8 != 0)
                report("8 of the source first", r, length(8 * n, from));
            else if (to % f->width != 0)
                report("then 8 of the destination", r, length(f->width * m, to));
            else if (n % f->group != 0)
                report("then 8 of the sections", r, length(n - n % f->group, n));
            else if (n != m)
                report("then 8 of both", r, length(n, m));
            else
                report("accepted", r, counted(n));
            r.number == 0 ? around("accepted") : as_it_came("refused");
        }
    source_stays();
}

static void refusals(void)
{
    for (size_t i = 0; i < COUNT(formats); i++)
        lengths(&formats[i]);

    /* Two and more faults: NaNs that Q14 can't take besides lengths that are wrong. */
    double x[7] = {NAN, NAN, NAN, NAN, NAN, NAN, NAN};
    lend_source(x, 7);
    REFUSED(pel_to_q14(source.at, 13, lend(3), 3), length(8, 13));
    REFUSED(pel_to_q14(source.at, 56, lend(3), 3), length(2, 3));
    REFUSED(pel_to_q14(source.at, 56, lend(4), 4), length(5, 7));
    REFUSED(pel_to_q14(source.at, 56, lend(14), 14), length(5, 7));
    REFUSED(pel_to_q14(source.at, 40, lend(12), 12), length(5, 6));
    REFUSED(pel_to_q14(source.at, 0, lend(10), 10), length(0, 5));
    REFUSED(pel_to_q14(source.at, 40, lend(0), 0), length(5, 0));
    REFUSED(pel_to_f32(source.at, 13, lend(3), 3), length(8, 13));
    REFUSED(pel_to_f32(source.at, 56, lend(27), 27), length(24, 27));
    REFUSED(pel_to_f32(source.at, 56, lend(24), 24), length(7, 6));
    REFUSED(pel_to_f32(source.at, 56, lend(32), 32), length(7, 8));
    REFUSED(pel_to_f32(source.at, 0, lend(4), 4), length(0, 1));
    REFUSED(pel_to_f32_sos(source.at, 13, lend(3), 3), length(8, 13));
    REFUSED(pel_to_f32_sos(source.at, 56, lend(3), 3), length(0, 3));
    REFUSED(pel_to_f32_sos(source.at, 56, lend(28), 28), length(5, 7));
    REFUSED(pel_to_f32_sos(source.at, 8, lend(4), 4), length(0, 1));
    REFUSED(pel_to_f32_sos(source.at, 40, lend(24), 24), length(5, 6));

    /* Buffers that may not even be read: these refusals need nothing of them. */
    size_t huge = (size_t)1 << 32;
    uint8_t *locked = forbidden(huge);
    for (size_t i = 0; i < COUNT(formats); i++) {
        uint64_t n = huge / 8;
        report("a huge source", formats[i].convert(locked, huge - 1, lend(8), 8), length(huge - 8, huge - 1));
        as_it_came("a huge source");
        report("a huge source", formats[i].convert(locked, huge, lend(20), 20),
               formats[i].group == 5 ? length(n - n % 5, n) : length(n, 5));
        as_it_came("a huge source");
        lend_source(x, 5);
        report("a huge destination", formats[i].convert(source.at, 40, locked, huge - 1),
               length(huge - formats[i].width, huge - 1));
        report("a huge destination", formats[i].convert(source.at, 40, locked, huge),
               length(5, huge / formats[i].width));
    }
    munmap(locked, huge);
}

static void tests(void)
{
    singles();
    q14_buffers();
    floats();
    random_floats();
    refusals();
}

int main(void)
{
    return both_ways(tests, "Q14 and floats");
}
