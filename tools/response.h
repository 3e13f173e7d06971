/* What filters do: magnitudes over frequency, and the samples that follow an impulse. */
#ifndef RESPONSE_H
#define RESPONSE_H

#include <stdbool.h>
#include <stddef.h>

/* Below this, in dB, is as good as nothing. */
#define FLOOR_DB (-160.0)

/* Points by rising frequency, in cycles per sample from 0 to a half; magnitudes in dB, at least FLOOR_DB. */
struct response {
    size_t n;
    double *frequency, *db;
};

/* Of taps, by a Fourier transform; `relative` to frequency 0, where there is something. False where there's no
 * memory, with nothing to free. */
bool taps_response(const double *taps, size_t n, bool relative, struct response *r);

/* Of sections, five numbers each, one after the other, with points crowded around a frequency. */
bool sections_response(const double *sections, size_t n, double around, struct response *r);

/* The first samples that follow a 1. */
void sections_impulse(const double *sections, size_t n, double *out, size_t samples);

/* False where a magnitude is infinite or no number. */
bool is_finite_response(const struct response *r);

void free_response(struct response *r);

#endif
