/* Filters straight by the papers' formulas over the C library's functions: what the designers' taps are
 * held to within 1e-12. */
#ifndef STRAIGHT_H
#define STRAIGHT_H

#include <math.h>
#include <stddef.h>
#include <stdint.h>

static const double pi = 3.141592653589793;

/* I0(x) = sum over k of ((x/2)^k / k!)^2. */
static inline double straight_i0(double x)
{
    double sum = 1.0, root = 1.0;
    for (int k = 1; k < 2000; k++) {
        root *= x / 2.0 / k;
        sum += root * root;
        if (root * root < 1e-20 * sum)
            break;
    }
    return sum;
}

/* The same term by term in doubles, each from the one before, as the scope document counts them: the sum after the
 * first term below 1e-17 of it, or after 500. It is settled where such a term was met and the sum is finite. */
struct straight_series {
    double sum;
    uint64_t terms;
    int settled;
};

static inline struct straight_series straight_series(double x)
{
    double term = 1.0, sum = 1.0;
    for (uint64_t k = 1; k <= 500; k++) {
        double root = x / 2.0 / (double)k;
        term *= root * root;
        sum += term;
        if (term < 1e-17 * sum)
            return (struct straight_series){sum, k, isfinite(sum)};
    }
    return (struct straight_series){sum, 500, 0};
}

/* The last beta that settles, and betas about it: from 713 on those that settle, and those that don't, with the next
 * double first. The sums of these are infinite; up to 754 they meet their test, from 757.75 on they don't. */
static const double last_settled = 713.98690854396818;
static const double settled_betas[] = {
    713.0, 713.0000000000001, 713.5, 713.9, 713.98, 713.98690854396807, 713.98690854396818};
static const double unsettled_betas[] = {713.9869085439683, 714.0, 750.0, 754.0, 757.75, 1e3, 1e4, 1e100, 1e308};

/* What Kaiser's window takes its series at, at element i with the length divisor d. */
static inline double straight_argument(double beta, uint64_t d, uint64_t i)
{
    double t = 2.0 * (double)i / (double)d - 1.0, radicand = 1.0 - t * t;
    return beta * sqrt(radicand > 0.0 ? radicand : 0.0);
}

/* Whether each series settles that a window of n elements takes, that at beta and one for each; none where d is 0. */
static inline int straight_settles(double beta, uint64_t d, uint64_t n)
{
    int settled = d == 0 || straight_series(beta).settled;
    for (uint64_t i = 0; d != 0 && settled && i < n; i++)
        settled = straight_series(straight_argument(beta, d, i)).settled;
    return settled;
}

/* Element i to the bit: the root of the C library is rounded once too. */
static inline double straight_element(double beta, uint64_t d, uint64_t i)
{
    return d == 0 ? 1.0 : straight_series(straight_argument(beta, d, i)).sum / straight_series(beta).sum;
}

/* Kaiser's window of n taps at tap i. */
static inline double straight_kaiser(double beta, size_t n, size_t i)
{
    double t = 2.0 * (double)i / (double)(n - 1) - 1.0;
    return straight_i0(beta * sqrt(fmax(0.0, 1.0 - t * t))) / straight_i0(beta);
}

/* Divides by the sum, and tells it. */
static inline double straight_divide(size_t n, double *taps)
{
    double sum = 0.0;
    for (size_t i = 0; i < n; i++)
        sum += taps[i];
    for (size_t i = 0; i < n; i++)
        taps[i] /= sum;
    return sum;
}

/* 2 f sin(2 pi f d)/(2 pi f d) times the window, d the distance from the middle. */
static inline double straight_lowpass(double f, double beta, size_t n, double *taps)
{
    for (size_t i = 0; i < n; i++) {
        double d = (double)i - (double)(n - 1) / 2.0;
        double sinc = d == 0.0 ? 1.0 : sin(2.0 * pi * f * d) / (2.0 * pi * f * d);
        taps[i] = 2.0 * f * sinc * straight_kaiser(beta, n, i);
    }
    return straight_divide(n, taps);
}

/* The ideal half-band is 1/2 in the middle, (-1)^((d-1)/2)/(pi d) at odd distances d and 0 at even ones. */
static inline void straight_halfband(double beta, size_t n, double *taps)
{
    size_t middle = (n - 1) / 2;
    for (size_t i = 0; i < n; i++) {
        size_t d = i > middle ? i - middle : middle - i;
        double ideal = d == 0 ? 0.5 : d % 2 == 0 ? 0.0 : (d % 4 == 1 ? 1.0 : -1.0) / (pi * (double)d);
        taps[i] = ideal * straight_kaiser(beta, n, i);
    }
    straight_divide(n, taps);
}

/* exp(-(2 pi^2 bt^2 / ln 2) t^2), t the time from the middle in symbols. */
static inline double straight_gaussian(double bt, size_t samples, size_t span, double *taps)
{
    size_t n = samples * span + 1;
    for (size_t i = 0; i < n; i++) {
        double t = ((double)i - (double)(n - 1) / 2.0) / (double)samples;
        taps[i] = exp(-2.0 * pi * pi * bt * bt / log(2.0) * t * t);
    }
    return straight_divide(n, taps);
}

/* The root-raised-cosine pulse at t symbols from its middle, over long doubles. Where 4 b t is 1 or nearly so
 * the formula is 0/0 and its limit stands. */
static inline long double straight_root_raised_cosine(long double b, long double t)
{
    const long double lpi = 3.14159265358979323846264338327950288L;
    long double x = 4.0L * b * t, rest = 1.0L - x * x, a = lpi / (4.0L * b);
    if (t == 0.0L)
        return 1.0L - b + 4.0L * b / lpi;
    if (fabsl(rest) < 1e-9L)
        return b / sqrtl(2.0L) * ((1.0L + 2.0L / lpi) * sinl(a) + (1.0L - 2.0L / lpi) * cosl(a));
    return (sinl(lpi * t * (1.0L - b)) + x * cosl(lpi * t * (1.0L + b))) / (lpi * t * rest);
}

/* Its taps, times the factor that makes the sum of their squares 1; tells the factor. */
static inline double straight_rrc(double rolloff, size_t samples, size_t span, double *taps)
{
    size_t n = samples * span + 1;
    long double energy = 0.0L;
    for (size_t i = 0; i < n; i++) {
        long double t = ((long double)i - (long double)(n - 1) / 2.0L) / (long double)samples;
        long double h = straight_root_raised_cosine(rolloff, t);
        taps[i] = (double)h;
        energy += h * h;
    }
    double factor = (double)(1.0L / sqrtl(energy));
    for (size_t i = 0; i < n; i++)
        taps[i] *= factor;
    return factor;
}

#endif
