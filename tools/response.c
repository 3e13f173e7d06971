/* Magnitudes over frequency, of taps and of sections. */
#include "response.h"

#include <math.h>
#include <stdlib.h>

static const double turn = 6.283185307179586;

static bool room_for(struct response *r, size_t n)
{
    r->n = n;
    r->frequency = malloc(n * sizeof *r->frequency);
    r->db = malloc(n * sizeof *r->db);
    if (r->frequency != NULL && r->db != NULL)
        return true;
    free_response(r);
    return false;
}

void free_response(struct response *r)
{
    free(r->frequency);
    free(r->db);
    *r = (struct response){0};
}

/* What isn't finite stays so, to be found. */
static double decibels(double magnitude)
{
    double db = 20.0 * log10(magnitude);
    return db < FLOOR_DB ? FLOOR_DB : db;
}

bool is_finite_response(const struct response *r)
{
    for (size_t i = 0; i < r->n; i++)
        if (!isfinite(r->db[i]))
            return false;
    return true;
}

/* ---- Taps -------------------------------------------------------------------------------------- */

/* Pairs of real and imaginary parts, as many as a power of two. */
static void swap_bits(double *z, size_t size)
{
    for (size_t i = 1, j = 0; i < size; i++) {
        size_t bit = size >> 1;
        for (; (j & bit) != 0; bit >>= 1)
            j ^= bit;
        j |= bit;
        if (i < j)
            for (int part = 0; part < 2; part++) {
                double kept = z[2 * i + part];
                z[2 * i + part] = z[2 * j + part];
                z[2 * j + part] = kept;
            }
    }
}

/* The transform in place. Each factor is worked out from its angle, since products of factors lose digits. */
static void transform(double *z, size_t size)
{
    swap_bits(z, size);
    for (size_t half = 1; half < size; half *= 2)
        for (size_t k = 0; k < half; k++) {
            double angle = -turn * (double)k / (double)(2 * half);
            double re = cos(angle), im = sin(angle);
            for (size_t i = k; i < size; i += 2 * half) {
                double *a = z + 2 * i, *b = z + 2 * (i + half);
                double x = b[0] * re - b[1] * im, y = b[0] * im + b[1] * re;
                b[0] = a[0] - x;
                b[1] = a[1] - y;
                a[0] += x;
                a[1] += y;
            }
        }
}

/* So many points to a lobe that its top and its foot are met, and fewer of the longest filters. */
static size_t transform_size(size_t taps)
{
    size_t least = taps <= 1 << 16 ? 16 * taps : taps <= 1 << 20 ? 8 * taps : 2 * taps, size = 1 << 16;
    while (size < least)
        size *= 2;
    return size;
}

bool taps_response(const double *taps, size_t n, bool relative, struct response *r)
{
    size_t size = transform_size(n);
    double *z = calloc(2 * size, sizeof *z);
    if (z == NULL || !room_for(r, size / 2 + 1)) {
        free(z);
        return false;
    }
    for (size_t i = 0; i < n; i++)
        z[2 * i] = taps[i];
    transform(z, size);
    double whole = hypot(z[0], z[1]);
    double one = relative && whole > 0.0 ? whole : 1.0;
    for (size_t i = 0; i < r->n; i++) {
        r->frequency[i] = (double)i / (double)size;
        r->db[i] = decibels(hypot(z[2 * i], z[2 * i + 1]) / one);
    }
    free(z);
    return true;
}

/* ---- Sections ---------------------------------------------------------------------------------- */

/* |c0 + c1/z + c2/z^2| on the unit circle. */
static double size_at(double c0, double c1, double c2, double angle)
{
    return hypot(c0 + c1 * cos(angle) + c2 * cos(2.0 * angle), c1 * sin(angle) + c2 * sin(2.0 * angle));
}

static double magnitude_at(const double *sections, size_t n, double frequency)
{
    double product = 1.0, angle = turn * frequency;
    for (const double *c = sections; c < sections + 5 * n; c += 5)
        product *= size_at(c[0], c[1], c[2], angle) / size_at(1.0, c[3], c[4], angle);
    return product;
}

static int by_size(const void *a, const void *b)
{
    double x = *(const double *)a, y = *(const double *)b;
    return (x > y) - (x < y);
}

/* Evenly, and ever nearer to one frequency from both sides, since a sharp section has all it does there. */
bool sections_response(const double *sections, size_t n, double around, struct response *r)
{
    enum { EVEN = 4097, NEAR = 160 };
    if (!room_for(r, EVEN + 2 * NEAR))
        return false;
    for (size_t i = 0; i < EVEN; i++)
        r->frequency[i] = 0.5 * (double)i / (EVEN - 1);
    around = fmin(fmax(around, 0.0), 0.5);
    for (size_t i = 0; i < NEAR; i++) {
        double away = 0.01 * pow(0.9, (double)i);
        r->frequency[EVEN + 2 * i] = fmax(0.0, around - away);
        r->frequency[EVEN + 2 * i + 1] = fmin(0.5, around + away);
    }
    qsort(r->frequency, r->n, sizeof *r->frequency, by_size);
    for (size_t i = 0; i < r->n; i++)
        r->db[i] = decibels(magnitude_at(sections, n, r->frequency[i]));
    return true;
}

/* One section over the samples in place, its two states as in the transposed form. */
static void run_section(const double *c, double *x, size_t samples)
{
    double first = 0.0, second = 0.0;
    for (size_t i = 0; i < samples; i++) {
        double y = c[0] * x[i] + first;
        first = c[1] * x[i] - c[3] * y + second;
        second = c[2] * x[i] - c[4] * y;
        x[i] = y;
    }
}

void sections_impulse(const double *sections, size_t n, double *out, size_t samples)
{
    for (size_t i = 0; i < samples; i++)
        out[i] = i == 0 ? 1.0 : 0.0;
    for (size_t k = 0; k < n; k++)
        run_section(sections + 5 * k, out, samples);
}
