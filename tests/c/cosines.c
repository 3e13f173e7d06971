/* A customer's own cosine window from C. The loader: windows from the papers, sums on both sides of 2^-40 held to an
 * exact sum, hostile numbers and lengths, lists with two faults each for the order of the refusals. Then low-passes
 * with what was loaded: held to pel_lowpass where a code has the same window, to the formula elsewhere, and with
 * records that nobody loaded. */
#include "ticket.h"

#include "straight.h"

static const double inf = INFINITY, quiet = NAN, tiny = 5e-324, huge = 1.7976931348623157e308;
static const double near_one = 0x1p-40; /* so far from 1 a sum may be */

static uint64_t state;

static uint64_t any_bits(void)
{
    state = state * 6364136223846793005u + 1442695040888963407u;
    return state ^ state >> 31;
}

/* From -1 to 1. */
static double any_size(void)
{
    return (double)(int64_t)any_bits() / 9223372036854775808.0;
}

/* ---- The exact sum ----------------------------------------------------------------------------- */

/* How often each power of two stands in a sum of numbers up to 1 in size, from 2^-1074 on. */
struct exact {
    int times[1088];
};

static void add(struct exact *e, double x)
{
    uint64_t b = bits(x), exponent = b >> 52 & 2047, fraction = b & 0xFFFFFFFFFFFFF;
    uint64_t place = exponent == 0 ? 0 : exponent - 1;
    fraction |= (uint64_t)(exponent != 0) << 52;
    for (uint64_t k = 0; k < 53; k++)
        if ((fraction >> k & 1) != 0)
            e->times[place + k] += b >> 63 != 0 ? -1 : 1;
}

/* Below 0, 0 or above: each power once at most, but for the highest, whose sign is the sum's. */
static int sign_of(struct exact e)
{
    int any = 0;
    for (size_t k = 0; k + 1 < COUNT(e.times); k++) {
        int left = e.times[k] & 1;
        e.times[k + 1] += (e.times[k] - left) / 2;
        any |= left;
    }
    int last = e.times[COUNT(e.times) - 1];
    return last != 0 ? last : any;
}

static int is_near_one(const double *c, size_t n)
{
    struct exact above = {{0}}, below = {{0}};
    for (size_t i = 0; i < n; i++) {
        add(&above, c[i]);
        add(&below, c[i]);
    }
    add(&above, -1.0);
    add(&below, -1.0);
    add(&above, -near_one);
    add(&below, near_one);
    return sign_of(above) <= 0 && sign_of(below) >= 0;
}

/* ---- The loader -------------------------------------------------------------------------------- */

enum { MOST = 64 };

static struct lent source;

static void lend_source(const double *x, size_t bytes)
{
    lend_in(&source, bytes);
    for (size_t i = 0; i < bytes; i++)
        source.at[i] = (uint8_t)(bits(x[i / 8]) >> 8 * (i % 8));
}

static void source_stays(const char *what, const double *x)
{
    for (size_t i = 0; i < source.bytes; i++)
        if (source.at[i] != (uint8_t)(bits(x[i / 8]) >> 8 * (i % 8))) {
            expect_count(what, source.at[i], (uint8_t)(bits(x[i / 8]) >> 8 * (i % 8)));
            return;
        }
    untouched(what, source.at - GUARD, source.at);
    untouched(what, source.at + source.bytes, source.at + source.bytes + source.after);
}

static void same_window(const char *what, pel_cosines got, pel_cosines want)
{
    expect(what, got.c0, want.c0);
    expect(what, got.c1, want.c1);
    expect(what, got.c2, want.c2);
    expect(what, got.c3, want.c3);
    expect(what, got.c4, want.c4);
}

static pel_cosines window_of(const double *c, size_t n)
{
    double all[5] = {0.0, 0.0, 0.0, 0.0, 0.0};
    memcpy(all, c, n * sizeof *c);
    return (pel_cosines){all[0], all[1], all[2], all[3], all[4]};
}

/* Loads the first so many bytes of a list, and holds every field to what is wanted. */
static pel_cosines loaded(const char *what, const double *x, size_t bytes, pel_report want)
{
    lend_source(x, bytes);
    pel_loaded l = pel_load_cosines(source.at, bytes);
    report(what, l.report, want);
    same_window(what, l.window, window_of(x, want.number == 0 ? bytes / 8 : 0));
    source_stays(what, x);
    return l.window;
}

static pel_cosines load(const char *what, const double *x, size_t n)
{
    return loaded(what, x, 8 * n, counted(n));
}

static void load_refused(const char *what, const double *x, size_t n, uint32_t number)
{
    loaded(what, x, 8 * n, plain(number));
}

static pel_report many(uint64_t n)
{
    return range(17, 1.0, 5.0, (double)n);
}

static pel_report outside(double offered)
{
    return range(18, -1.0, 1.0, offered);
}

/* 8, 17, 18, 19. */
static pel_report judged_load(const double *x, size_t bytes)
{
    size_t n = bytes / 8;
    if (bytes % 8 != 0)
        return length(8 * n, bytes);
    if (n < 1 || n > 5)
        return many(n);
    for (size_t i = 0; i < n; i++)
        if (!(fabs(x[i]) <= 1.0))
            return outside(x[i]);
    return is_near_one(x, n) ? counted(n) : plain(19);
}

/* Windows as the papers print them, and what Hann, Hamming and Blackman are by their codes. */
static const struct printed {
    const char *name;
    size_t n;
    double c[5];
    int code; /* -1 where there is none */
} printed[] = {
    {"Hann", 2, {0.5, 0.5}, PEL_HANN},
    {"Hamming", 2, {0.54, 0.46}, PEL_HAMMING},
    {"Blackman", 3, {0.42, 0.5, 0.08}, PEL_BLACKMAN},
    {"Blackman-Harris", 4, {0.35875, 0.48829, 0.14128, 0.01168}, -1},
    {"Nuttall", 4, {0.355768, 0.487396, 0.144232, 0.012604}, -1},
    {"a flat top", 5, {0.215578947, 0.41663158, 0.277263158, 0.083578947, 0.006947368}, -1},
};

static const double flat_top[] = {0.21557895, 0.41663158, 0.277263158, 0.083578947, 0.006947368};

static void papers(void)
{
    for (size_t i = 0; i < COUNT(printed); i++)
        load(printed[i].name, printed[i].c, printed[i].n);
    /* Its digits add up to 1.000000003. */
    load_refused("the printed flat top", flat_top, 5, 19);
    load_refused("a Hamming of 25/46", (double[]){0.543478, 0.46}, 2, 19);
    /* Numbers not given are +0, and so those given as 0 make the same window. */
    load("zeros behind", (double[]){0.42, 0.5, 0.08, 0.0, 0.0}, 5);
    load("one number", (double[]){1.0}, 1);
}

/* Every order of a list, since a sum has none. */
static void in_every_order(const char *what, double *x, size_t n, size_t fixed, int good)
{
    if (fixed == n) {
        if (good)
            load(what, x, n);
        else
            load_refused(what, x, n, 19);
        return;
    }
    for (size_t k = fixed; k < n; k++) {
        double was = x[fixed];
        x[fixed] = x[k];
        x[k] = was;
        in_every_order(what, x, n, fixed + 1, good);
        x[k] = x[fixed];
        x[fixed] = was;
    }
}

/* By hand: on the border and a hair beyond, the hair down to the least number that there is. */
static void borders(void)
{
    const double b = near_one, half = near_one / 2.0, below = nextafter(1.0, 0.0), gap = 1.0 - below;
    const struct {
        size_t n;
        double x[5];
        int good;
    } lists[] = {
        {1, {1.0}, 1},
        {2, {1.0, b}, 1},
        {2, {1.0, -b}, 1},
        {3, {1.0, b, tiny}, 0},
        {3, {1.0, -b, -tiny}, 0},
        {3, {1.0, b, -tiny}, 1},
        {3, {1.0, -b, tiny}, 1},
        {4, {1.0, b, tiny, -tiny}, 1},
        {5, {1.0, b, tiny, tiny, -tiny}, 0},
        {5, {1.0, -b, -tiny, -tiny, tiny}, 0},
        {5, {1.0, -b, tiny, tiny, -tiny}, 1},
        {3, {1.0, b, 0.0}, 1},
        {3, {1.0, -b, -0.0}, 1},
        /* More than 53 bits. */
        {3, {1.0, half, half}, 1},
        {4, {1.0, half, half, tiny}, 0},
        {3, {1.0, -half, -half}, 1},
        {4, {1.0, -half, -half, -tiny}, 0},
        {4, {1.0, half, half, -tiny}, 1},
        {3, {1.0, b, 0x1p-94}, 0},
        {3, {1.0, b, -0x1p-94}, 1},
        {3, {1.0, -b, 0x1p-94}, 1},
        {3, {1.0, -b, -0x1p-94}, 0},
        {3, {1.0, b, 0x1p-1022}, 0},
        {3, {1.0, b, -0x1p-1022}, 1},
        {3, {below, b, gap}, 1},
        {4, {below, b, gap, tiny}, 0},
        {4, {below, b, gap, -tiny}, 1},
        {3, {below, -b, gap}, 1},
        {4, {below, -b, gap, -tiny}, 0},
        {2, {below, b}, 1},
        {2, {below, -b}, 0},
        {2, {1.0, nextafter(b, 1.0)}, 0},
        {2, {1.0, nextafter(b, 0.0)}, 1},
        {2, {1.0, -nextafter(b, 1.0)}, 0},
        {2, {1.0, -nextafter(b, 0.0)}, 1},
        {4, {0.5, 0.25, 0.25, b}, 1},
        {5, {0.5, 0.25, 0.25, b, tiny}, 0},
        {5, {0.1, 0.2, 0.3, 0.4, b}, 0},
        {4, {0.1, 0.2, 0.3, 0.4}, 1},
        /* What cancels. */
        {3, {1.0, 1.0, -1.0}, 1},
        {4, {1.0, 1.0, -1.0, b}, 1},
        {5, {1.0, 1.0, -1.0, b, tiny}, 0},
        {5, {1.0, 1.0, -1.0, -b, -tiny}, 0},
        {5, {1.0, 1.0, -1.0, b, -tiny}, 1},
        {5, {1.0, 1.0, 1.0, -1.0, -1.0}, 1},
        {5, {1.0, 1.0, 1.0, -1.0, nextafter(-1.0, 0.0)}, 1},
        /* Far off. */
        {1, {0.0}, 0},
        {1, {-0.0}, 0},
        {1, {0.5}, 0},
        {1, {-1.0}, 0},
        {1, {tiny}, 0},
        {2, {1.0, 1.0}, 0},
        {2, {1.0, -1.0}, 0},
        {3, {-1.0, -1.0, 1.0}, 0},
        {5, {1.0, 1.0, 1.0, 1.0, 1.0}, 0},
        {5, {-1.0, -1.0, -1.0, -1.0, -1.0}, 0},
        {5, {0.0, 0.0, 0.0, 0.0, 0.0}, 0},
    };
    for (size_t i = 0; i < COUNT(lists); i++) {
        char what[40];
        double x[5];
        memcpy(x, lists[i].x, sizeof x);
        snprintf(what, sizeof what, "list %d about the border", (int)i);
        /* The exact sum of this file agrees with the hand's. */
        expect_count(what, (uint64_t)is_near_one(x, lists[i].n), (uint64_t)lists[i].good);
        in_every_order(what, x, lists[i].n, 0, lists[i].good);
    }
}

/* Random lists that miss 1 by about 2^-40, by less and by more, with small numbers beside. */
static void random_sums(void)
{
    uint64_t good = 0, bad = 0;
    state = 41;
    for (int i = 0; i < 20000; i++) {
        double x[5] = {0.0, 0.0, 0.0, 0.0, 0.0}, sum = 0.0;
        size_t n = 1 + any_bits() % 5;
        for (size_t k = 0; k + 1 < n; k++) {
            x[k] = any_size() * ldexp(1.0, -(int)(any_bits() % 4 == 0 ? any_bits() % 1074 : any_bits() % 3));
            sum += x[k];
        }
        /* The last makes the sum 1, or 1 with 2^-40 to it, to some last places; no rounding is looked after. */
        static const double off[] = {0.0, 0x1p-40, -0x1p-40, 0x1.fp-41, -0x1.1p-40, 0.25};
        x[n - 1] = 1.0 + off[any_bits() % COUNT(off)] - sum;
        for (uint64_t k = any_bits() % 4; k > 0; k--)
            x[n - 1] = nextafter(x[n - 1], any_bits() % 2 == 0 ? inf : -inf);
        /* And another place for the last, and sometimes for a tiny number. */
        size_t other = any_bits() % n;
        double moved = x[other];
        x[other] = x[n - 1];
        x[n - 1] = moved;
        if (n < 5 && any_bits() % 2 == 0)
            x[n++] = any_bits() % 2 == 0 ? tiny : -ldexp(1.0, -(int)(any_bits() % 1074));
        pel_report want = judged_load(x, 8 * n);
        loaded("a random sum", x, 8 * n, want);
        good += want.number == 0;
        bad += want.number == 19;
    }
    expect_count("thousands of random sums are taken", good > 4000, 1);
    expect_count("and thousands aren't", bad > 4000, 1);
}

/* ---- Numbers that aren't taken ------------------------------------------------------------------- */

static void sizes(void)
{
    const double bad[] = {nextafter(1.0, 2.0),        -nextafter(1.0, 2.0), 1.5, -2.0, huge, -huge, inf, -inf, quiet,
                          of_bits(0xFFF0000000000001)};
    const double good[] = {1.0, -1.0, nextafter(1.0, 0.0), 0.0, -0.0, tiny, -tiny, 0x1p-1022, 0x0.fffffffffffffp-1022};
    /* Each at each place of each count, among good ones. With a good number there the list goes by its sum. */
    for (size_t n = 1; n <= 5; n++)
        for (size_t at = 0; at < n; at++) {
            double x[5] = {0.0, 0.0, 0.0, 0.0, 0.0};
            x[at == 0 ? n - 1 : 0] = 1.0;
            for (size_t k = 0; k < COUNT(bad); k++) {
                x[at] = bad[k];
                loaded("a number that isn't taken", x, 8 * n, outside(bad[k]));
            }
            for (size_t k = 0; k < COUNT(good); k++) {
                x[at] = good[k];
                loaded("a number that is taken", x, 8 * n, judged_load(x, 8 * n));
            }
        }
    /* Zeros keep their sign, and small numbers their bits. */
    load("a zero below", (double[]){1.0, -0.0, 0.0, -0.0}, 4);
    load("a first zero below", (double[]){-0.0, 1.0}, 2);
    load("subnormal numbers", (double[]){1.0, tiny, -tiny, 0x0.fffffffffffffp-1022, -0x1p-1022}, 5);
    load("one number down", (double[]){0.0, -tiny, 1.0}, 3);
}

/* ---- Lengths --------------------------------------------------------------------------------------- */

static void lengths(void)
{
    /* Of a list whose first number is a window, and of one that no length makes good. */
    const double one[8] = {1.0, 0.0, 0.0, 0.0, 0.0, 0.0, 0.0, 0.0};
    double none[8];
    for (size_t i = 0; i < 8; i++)
        none[i] = quiet;
    for (size_t bytes = 0; bytes <= MOST; bytes++) {
        size_t n = bytes / 8;
        pel_report want = bytes % 8 != 0 ? length(8 * n, bytes) : n < 1 || n > 5 ? many(n) : counted(n);
        loaded("a length", one, bytes, want);
        loaded("a length of NaNs", none, bytes, want.number == 0 ? outside(quiet) : want);
    }
    /* At every alignment. */
    uint8_t room[64];
    for (size_t start = 0; start < 8; start++) {
        memset(room, MARK, sizeof room);
        for (size_t i = 0; i < 24; i++)
            room[start + i] = (uint8_t)(bits(printed[2].c[i / 8]) >> 8 * (i % 8));
        pel_loaded l = pel_load_cosines(room + start, 24);
        report("at every alignment", l.report, counted(3));
        same_window("at every alignment", l.window, window_of(printed[2].c, 3));
    }
    /* As many as there may be, and in a buffer larger than anybody's numbers. */
    size_t bytes = (size_t)1 << 33;
    uint8_t *zeros = forbidden(bytes);
    if (mprotect(zeros, bytes, PROT_READ) != 0)
        abort();
    REPORT(pel_load_cosines(zeros, bytes).report, many((uint64_t)1 << 30));
    REPORT(pel_load_cosines(zeros, bytes - 8).report, many(((uint64_t)1 << 30) - 1));
    REPORT(pel_load_cosines(zeros, bytes - 3).report, length(bytes - 8, bytes - 3));
    munmap(zeros, bytes);
}

/* ---- Two faults: which refusal comes first --------------------------------------------------------- */

static void two_faults(void)
{
    const struct {
        const char *what;
        size_t bytes;
        double x[8];
        pel_report want;
    } lists[] = {
        /* Each alone. */
        {"8 alone", 15, {0.5, 0.5}, length(8, 15)},
        {"17 alone", 48, {0.5, 0.5, 0.0, 0.0, 0.0, 0.0}, many(6)},
        {"18 alone", 16, {1.5, -0.5}, outside(1.5)},
        {"18 alone", 16, {-0.5, 1.5}, outside(1.5)},
        {"18 alone, a sum of 1", 24, {-2.0, 1.0, 2.0}, outside(-2.0)},
        {"19 alone", 16, {0.5, 0.25}, plain(19)},
        /* 8 before 17, below one number and above five. */
        {"8 before 17", 1, {1.0}, length(0, 1)},
        {"8 before 17", 7, {1.0}, length(0, 7)},
        {"8 before 17", 49, {1.0, 0.0, 0.0, 0.0, 0.0, 0.0, 0.0}, length(48, 49)},
        {"8 before 17", 55, {1.0, 0.0, 0.0, 0.0, 0.0, 0.0, 0.0}, length(48, 55)},
        /* 8 before 18 and before 19. */
        {"8 before 18", 9, {2.0, 1.0}, length(8, 9)},
        {"8 before 18", 41, {quiet, 1.0, 0.0, 0.0, 0.0, 0.0}, length(40, 41)},
        {"8 before 19", 23, {0.5, 0.25, 0.25}, length(16, 23)},
        {"8 before 19", 44, {1.0, 1.0, 1.0, 1.0, 1.0, 1.0}, length(40, 44)},
        /* 17 before 18, the bad number first and last. */
        {"17 before 18", 48, {2.0, -1.0, 0.0, 0.0, 0.0, 0.0}, many(6)},
        {"17 before 18", 48, {1.0, 0.0, 0.0, 0.0, 0.0, inf}, many(6)},
        {"17 before 18", 48, {1.0, 0.0, quiet, 0.0, 0.0, 0.0}, many(6)},
        {"17 before 18", 64, {1.0, 0.0, 0.0, 0.0, 0.0, 0.0, 0.0, -huge}, many(8)},
        /* 17 before 19: none, which add up to 0, and too many. */
        {"17 before 19", 0, {0.0}, many(0)},
        {"17 before 19", 48, {1.0, 1.0, 0.0, 0.0, 0.0, 0.0}, many(6)},
        {"17 before 19", 48, {0.0, 0.0, 0.0, 0.0, 0.0, 0.5}, many(6)},
        {"17 before 19", 56, {1.0, near_one, tiny, 0.0, 0.0, 0.0, 0.0}, many(7)},
        /* 18 before 19, the bad number first and last, and behind numbers whose sum is already too much. */
        {"18 before 19", 16, {2.0, 1.0}, outside(2.0)},
        {"18 before 19", 16, {1.0, 2.0}, outside(2.0)},
        {"18 before 19", 40, {1.0, 1.0, 1.0, 1.0, -1.25}, outside(-1.25)},
        {"18 before 19", 40, {nextafter(1.0, 2.0), 1.0, 1.0, 1.0, 1.0}, outside(nextafter(1.0, 2.0))},
        {"18 before 19", 8, {nextafter(-1.0, -2.0)}, outside(nextafter(-1.0, -2.0))},
        {"18 before 19", 8, {huge}, outside(huge)},
        {"18 before 19", 16, {0.25, quiet}, outside(quiet)},
        {"18 before 19", 24, {inf, -inf, 1.0}, outside(inf)},
        /* The first number of two that aren't taken. */
        {"the first of two", 16, {3.0, 2.0}, outside(3.0)},
        {"the first of two", 16, {2.0, 3.0}, outside(2.0)},
        {"the first of two", 24, {1.0, -inf, quiet}, outside(-inf)},
        {"the first of two", 24, {1.0, quiet, -inf}, outside(quiet)},
        {"the first of two", 40, {0.0, 0.0, 0.0, -1.5, 1.5}, outside(-1.5)},
    };
    for (size_t i = 0; i < COUNT(lists); i++)
        loaded(lists[i].what, lists[i].x, lists[i].bytes, lists[i].want);
}

/* Random bits, and good numbers among them: never a window but by the rules. */
static void hostile_lists(void)
{
    uint64_t met[20] = {0};
    state = 43;
    for (int i = 0; i < 20000; i++) {
        double x[8];
        for (size_t k = 0; k < 8; k++) {
            uint64_t b = any_bits();
            x[k] = b % 3 == 0 ? of_bits(any_bits()) : b % 3 == 1 ? any_size() : (double)(any_bits() % 3) / 2.0;
        }
        size_t bytes = any_bits() % 4 == 0 ? any_bits() % 64 : 8 * (any_bits() % 7);
        pel_report want = judged_load(x, bytes);
        loaded("hostile", x, bytes, want);
        met[want.number]++;
    }
    expect_count("windows, 8, 17, 18 and 19 are met", met[0] && met[8] && met[17] && met[18] && met[19], 1);
}

/* ---- Low-passes by the formula ----------------------------------------------------------------------- */

/* From left to right over the library's own cosine; one tap has the window 1. */
static double window_at(pel_cosines w, uint64_t n, uint64_t i)
{
    if (n == 1)
        return 1.0;
    double x = 2.0 * pi * (double)i / (double)(n - 1);
    double value = w.c0 - w.c1 * pel_cos(x);
    value = value + w.c2 * pel_cos(2.0 * x);
    value = value - w.c3 * pel_cos(3.0 * x);
    return value + w.c4 * pel_cos(4.0 * x);
}

/* Tap i before the division, to the bit. */
static double raw_tap(double f, pel_cosines w, uint64_t n, uint64_t i)
{
    double x = 2.0 * f * ((double)i - (double)(n - 1) / 2.0);
    double sinc = x == 0.0 ? 1.0 : pel_sin(pi * x) / (pi * x);
    return 2.0 * f * sinc * window_at(w, n, i);
}

static double raw_sum(double f, pel_cosines w, uint64_t n)
{
    double sum = 0.0;
    for (uint64_t i = 0; i < n; i++)
        sum += raw_tap(f, w, n, i);
    return sum;
}

/* 8, 1, 2, 6, 10. */
static pel_report judged(double cutoff, double rate, pel_cosines w, size_t bytes)
{
    uint64_t n = bytes / 8;
    double f = cutoff / rate;
    if (bytes % 8 != 0)
        return length(bytes - bytes % 8, bytes);
    if (!(rate > 0.0 && rate < inf))
        return plain(1);
    if (!(f > 0.0 && f < 0.5))
        return range(2, 0, rate / 2.0, cutoff);
    if (n == 0)
        return plain(6);
    double sum = raw_sum(f, w, n);
    if (sum == 0.0 || !isfinite(sum))
        return plain(10);
    return (pel_report){.count = n, .value = sum};
}

/* A design held to the formula by every byte, and the one without a buffer to the same report. */
static pel_report designed(const char *what, double cutoff, double rate, pel_cosines w, size_t bytes)
{
    pel_report want = judged(cutoff, rate, w, bytes), r = pel_lowpass_cosines(cutoff, rate, w, lend(bytes), bytes);
    report(what, r, want);
    if (want.number == 0) {
        around(what);
        for (uint64_t i = 0; i < bytes / 8; i++)
            expect(what, tap(i), raw_tap(cutoff / rate, w, bytes / 8, i) / want.value);
    } else
        as_it_came(what);
    if (bytes % 8 == 0)
        report(what, pel_lowpass_cosines_new(cutoff, rate, w, bytes / 8), want);
    return want;
}

static void formula(void)
{
    static const uint64_t counts[] = {1, 2, 3, 4, 5, 6, 7, 8, 9, 16, 31, 64, 127, 200, 1023};
    for (size_t k = 0; k < COUNT(printed); k++) {
        pel_cosines w = load(printed[k].name, printed[k].c, printed[k].n);
        for (size_t c = 0; c < COUNT(counts); c++) {
            designed(printed[k].name, 1000, 8000, w, 8 * counts[c]);
            designed(printed[k].name, 0.4999, 1, w, 8 * counts[c]);
            designed(printed[k].name, 1, 1e9, w, 8 * counts[c]);
        }
    }
    /* By the C library's cosine and sine, and so of the formula and not of its bits. */
    const double c[5] = {0.25, 0.375, 0.1875, -0.0625, 0.25};
    pel_cosines w = load("five numbers", c, 5);
    double want[63];
    for (uint64_t i = 0; i < 63; i++) {
        double x = 2.0 * pi * (double)i / 62.0, d = ((double)i - 31.0) / 4.0;
        double window = c[0];
        for (int k = 1; k < 5; k++)
            window += (k % 2 == 0 ? c[k] : -c[k]) * cos(k * x);
        want[i] = (d == 0.0 ? 1.0 : sin(pi * d) / (pi * d)) / 4.0 * window;
    }
    double sum = straight_divide(63, want);
    pel_report r = designed("five numbers", 1000, 8000, w, 8 * 63);
    near("their divisor", r.value, sum, 1e-12);
    for (uint64_t i = 0; i < 63; i++)
        near("their taps", tap(i), want[i], 1e-12);
    total_is_one("their total", 63);
    /* A number for each cosine alone: what the others do can't hide it. */
    for (size_t k = 1; k < 5; k++) {
        double alone[5] = {1.0, 0.0, 0.0, 0.0, 0.0};
        alone[k] = 0x1p-40;
        for (size_t n = 2; n <= 33; n++)
            designed("one cosine", 0.2, 1, load("one cosine", alone, 5), 8 * n);
    }
}

/* Loaded windows of random numbers, at random counts and cutoffs. */
static void random_windows(void)
{
    state = 47;
    for (int i = 0; i < 300; i++) {
        double c[5], f = 0.001 + 0.24 * (1.0 + any_size()), sum = 0.0;
        size_t n = 2 + any_bits() % 4, bytes = 8 * (1 + any_bits() % 300);
        for (size_t k = 1; k < n; k++) {
            c[k] = any_size() / 4.0;
            sum += c[k];
        }
        c[0] = 1.0 - sum;
        /* A sum below 0 leaves too much for the first: its number is given to the second too. */
        if (c[0] > 1.0) {
            c[1] += c[0] - 1.0;
            c[0] = 1.0;
        }
        designed("a random window", f, 1, load("a random window", c, n), bytes);
    }
}

/* ---- Low-passes by their codes ------------------------------------------------------------------------ */

/* What a code and a loaded window write, in memory with marks on both sides. */
static void as_by_code(const char *what, double cutoff, double rate, uint64_t code, pel_cosines w, size_t n)
{
    size_t bytes = 8 * n;
    uint8_t *by_code = malloc(bytes), *lent = malloc(bytes + 2 * GUARD);
    if (by_code == NULL || lent == NULL)
        abort();
    memset(lent, MARK, bytes + 2 * GUARD);
    pel_report want = pel_lowpass(cutoff, rate, code, quiet, by_code, bytes);
    report(what, pel_lowpass_cosines(cutoff, rate, w, lent + GUARD, bytes), want);
    report(what, pel_lowpass_cosines_new(cutoff, rate, w, n), want);
    if (want.number == 0)
        expect_count(what, (uint64_t)(memcmp(lent + GUARD, by_code, bytes) != 0), 0);
    else
        untouched(what, lent + GUARD, lent + GUARD + bytes);
    untouched(what, lent, lent + GUARD);
    untouched(what, lent + GUARD + bytes, lent + bytes + 2 * GUARD);
    free(by_code);
    free(lent);
}

static void codes(void)
{
    static const struct {
        double cutoff, rate;
    } bands[] = {{1000, 8000}, {0.25, 1}, {0.499999, 1}, {1e-9, 1}, {3.3e8, 1e9}};
    for (size_t k = 0; k < COUNT(printed) && printed[k].code >= 0; k++) {
        char what[60];
        uint64_t code = (uint64_t)printed[k].code;
        pel_cosines w = load(printed[k].name, printed[k].c, printed[k].n);
        snprintf(what, sizeof what, "%s loaded and by its code", printed[k].name);
        for (size_t n = 1; n <= 200; n++)
            for (size_t b = 0; b < COUNT(bands); b++)
                as_by_code(what, bands[b].cutoff, bands[b].rate, code, w, n);
        as_by_code(what, 1000, 8000, code, w, 4095);
        as_by_code(what, 0.1, 1, code, w, 4097);
        as_by_code(what, 1000, 8000, code, w, 0);
        as_by_code(what, 4000, 8000, code, w, 31);
        /* Past what is kept of raw taps. */
        if (!at_odd_address)
            as_by_code(what, 1000, 8000, code, w, 100001);
    }
    /* A loaded window has no code: the first that is unknown is the one it was. */
    REFUSED(pel_lowpass(1000, 8000, 4, 0, lend(8 * 31), 8 * 31), plain(7));
    PLAIN(pel_lowpass_new(1000, 8000, 4, 0, 31), 7);
    pel_tuned t = pel_design_lowpass(1000, 8000, 4, 0, lend(8 * 31), 8 * 31);
    report("a record of code 4", t.report, plain(7));
    as_it_came("a record of code 4");
    t = pel_design_lowpass(1000, 8000, PEL_HANN, 0, lend(8 * 31), 8 * 31);
    t.design.window = 4;
    report("a turn of code 4", pel_design_new_cutoff(t.design, 1200, 8000, lend(8 * 31), 8 * 31).report, plain(7));
    as_it_came("a turn of code 4");
}

/* ---- Refusals of the low-pass -------------------------------------------------------------------------- */

/* Every combination of good and bad. Two Hann taps add up to 0, and so do the zeros that a refused load leaves. */
static void orders(void)
{
    const pel_cosines windows[] = {
        {0.5, 0.5, 0.0, 0.0, 0.0},
        {0.0, 0.0, 0.0, 0.0, 0.0},
        {0.215578947, 0.41663158, 0.277263158, 0.083578947, 0.006947368},
        {quiet, 0.5, 0.0, 0.0, 0.0},
    };
    static const size_t bytes[] = {8, 16, 24, 40, 0, 21, 1, 47};
    static const double rates[] = {1, 0, -1, INFINITY, NAN};
    static const double cutoffs[] = {0.25, 0.5, 0.0, -0.25, NAN, INFINITY};
    for (size_t a = 0; a < COUNT(windows); a++)
        for (size_t b = 0; b < COUNT(bytes); b++)
            for (size_t c = 0; c < COUNT(rates); c++)
                for (size_t d = 0; d < COUNT(cutoffs); d++)
                    designed("in order", cutoffs[d], rates[c], windows[a], bytes[b]);

    /* By hand, two faults each. */
    pel_cosines hann = windows[0], none = windows[1];
    REFUSED(pel_lowpass_cosines(0.25, 0, hann, lend(9), 9), length(8, 9));                 /* 8 before 1 */
    REFUSED(pel_lowpass_cosines(0.5, 1, hann, lend(9), 9), length(8, 9));                  /* 8 before 2 */
    REFUSED(pel_lowpass_cosines(0.25, 1, hann, lend(7), 7), length(0, 7));                 /* 8 before 6 */
    REFUSED(pel_lowpass_cosines(0.25, 1, none, lend(23), 23), length(16, 23));             /* 8 before 10 */
    REFUSED(pel_lowpass_cosines(0.5, 0, hann, lend(16), 16), plain(1));                    /* 1 before 2 */
    REFUSED(pel_lowpass_cosines(0.25, inf, hann, lend(0), 0), plain(1));                   /* 1 before 6 */
    REFUSED(pel_lowpass_cosines(0.25, quiet, hann, lend(16), 16), plain(1));               /* 1 before 10 */
    REFUSED(pel_lowpass_cosines(4000, 8000, hann, lend(0), 0), range(2, 0, 4000, 4000));   /* 2 before 6 */
    REFUSED(pel_lowpass_cosines(-0.0, 8000, none, lend(16), 16), range(2, 0, 4000, -0.0)); /* 2 before 10 */
    REFUSED(pel_lowpass_cosines(0.25, 1, none, lend(0), 0), plain(6));                     /* 6 before 10 */
    REFUSED(pel_lowpass_cosines(0.25, 1, hann, lend(16), 16), plain(10));
    REFUSED(pel_lowpass_cosines(tiny, 8000, hann, lend(24), 24), range(2, 0, 4000, tiny));
    PLAIN(pel_lowpass_cosines_new(0.25, 1, hann, 2), 10);
    PLAIN(pel_lowpass_cosines_new(0.25, 1, hann, 0), 6);
    PLAIN(pel_lowpass_cosines_new(0.25, 1, none, 16777217), 6);
    PLAIN(pel_lowpass_cosines_new(0.25, 1, hann, UINT64_MAX), 6);
    PLAIN(pel_lowpass_cosines_new(0.25, 0, hann, UINT64_MAX), 1);
    RANGE(pel_lowpass_cosines_new(0.5, 1, hann, UINT64_MAX), 2, 0.0, 0.5, 0.5);
    /* Too many taps, in a buffer that may not even be read. */
    size_t most = ((size_t)1 << 27) + 8;
    uint8_t *locked = forbidden(most);
    report("too many taps", pel_lowpass_cosines(0.25, 1, hann, locked, most), plain(6));
    report("8 before 6", pel_lowpass_cosines(0.25, 1, hann, locked, most - 1), length(most - 8, most - 1));
    report("1 before 6", pel_lowpass_cosines(0.25, 0, hann, locked, most), plain(1));
    report("2 before 6", pel_lowpass_cosines(0.5, 1, hann, locked, most), range(2, 0, 0.5, 0.5));
    munmap(locked, most);
}

/* One tap has the window 1, whatever the record: 2 f over itself. */
static void one_tap(void)
{
    const pel_cosines windows[] = {{0.5, 0.5, 0, 0, 0},
                                   {0, 0, 0, 0, 0},
                                   {quiet, quiet, quiet, quiet, quiet},
                                   {huge, huge, 0, 0, 0},
                                   {-1, 0, 0, 0, inf}};
    for (size_t k = 0; k < COUNT(windows); k++) {
        report("one tap", pel_lowpass_cosines(0.125, 1, windows[k], lend(8), 8),
               (pel_report){.count = 1, .value = 0.25});
        expect("one tap", tap(0), 1.0);
        around("one tap");
        report("one tap", pel_lowpass_cosines_new(0.125, 1, windows[k], 1), (pel_report){.count = 1, .value = 0.25});
    }
    /* What a refused load leaves: 10 for every other number of taps. */
    pel_cosines none = loaded("the printed flat top", flat_top, 40, plain(19));
    report("one tap of zeros", pel_lowpass_cosines_new(0.25, 1, none, 1), (pel_report){.count = 1, .value = 0.5});
    for (size_t n = 2; n <= 40; n++) {
        REFUSED(pel_lowpass_cosines(0.25, 1, none, lend(8 * n), 8 * n), plain(10));
        PLAIN(pel_lowpass_cosines_new(0.25, 1, none, n), 10);
    }
    PLAIN(pel_lowpass_cosines_new(0.25, 1, none, 4097), 10);
}

/* ---- Records that nobody loaded ------------------------------------------------------------------------- */

/* Taken as they say: taps by the formula, or 10, and nothing else. */
static void forged(void)
{
    static const double odd[] = {
        NAN,  INFINITY, -INFINITY, 1.7976931348623157e308, -1.7976931348623157e308, 1e300, 5e-324, -0.0, 2.0,
        -1.0, 0.5,      0x1p-1022};
    for (size_t k = 0; k < 5; k++)
        for (size_t o = 0; o < COUNT(odd); o++) {
            double c[5] = {0.42, 0.5, 0.08, 0.0, 0.0};
            c[k] = odd[o];
            for (size_t n = 1; n <= 33; n += 4)
                designed("one odd number", 0.2, 1, window_of(c, 5), 8 * n);
        }
    /* A window of 2: its taps are those of a window of 1. */
    designed("a window of 2", 0.2, 1, (pel_cosines){2.0, 0.0, 0.0, 0.0, 0.0}, 8 * 31);
    double first = tap(0);
    designed("a window of 1", 0.2, 1, (pel_cosines){1.0, 0.0, 0.0, 0.0, 0.0}, 8 * 31);
    expect("the same taps", tap(0), first);

    uint64_t taken = 0, refused = 0;
    state = 53;
    for (int i = 0; i < 20000; i++) {
        double c[5], cutoff, rate;
        for (size_t k = 0; k < 5; k++)
            c[k] = any_bits() % 8 == 0   ? odd[any_bits() % COUNT(odd)]
                   : any_bits() % 2 == 0 ? of_bits(any_bits())
                                         : any_size();
        cutoff = any_bits() % 4 == 0 ? of_bits(any_bits()) : 0.3;
        rate = any_bits() % 4 == 0 ? of_bits(any_bits()) : 1.0;
        size_t bytes = any_bits() % 4 == 0 ? any_bits() % 100 : 8 * (any_bits() % 12);
        pel_report r = designed("random bits", cutoff, rate, window_of(c, 5), bytes);
        taken += r.number == 0;
        refused += r.number == 10;
    }
    expect_count("random records are taken, and refused with 10", taken > 100 && refused > 100, 1);
}

/* The longest: 2^24 taps are taken. Once, since so many take a second. */
static void longest(void)
{
    if (at_odd_address)
        return;
    pel_report r = pel_lowpass_cosines_new(0.25, 1, (pel_cosines){0.5, 0.5, 0.0, 0.0, 0.0}, 16777216);
    report("2^24 taps", r, pel_lowpass_new(0.25, 1, PEL_HANN, 0, 16777216));
    expect_count("2^24 taps", r.count, 16777216);
}

static void tests(void)
{
    papers();
    borders();
    random_sums();
    sizes();
    lengths();
    two_faults();
    hostile_lists();
    formula();
    random_windows();
    codes();
    orders();
    one_tap();
    forged();
    longest();
}

int main(void)
{
    return both_ways(tests, "cosine windows");
}
