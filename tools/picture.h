/* From a ticket and its numbers to a picture: what each kind shows beside them. */
#ifndef PICTURE_H
#define PICTURE_H

#include <stdbool.h>
#include <stdio.h>

#include "plot.h"
#include "words.h"

/* What the numbers are. */
enum parts { TAP_PARTS, SECTION_PARTS, FIRST_ORDER, WINDOW_PARTS };

/* The title, the axis of frequency and the marks of a kind's picture; how long the numbers are it knows. */
typedef void show_kind(const struct ticket *t, size_t n, struct picture *p);

show_kind show_lowpass, show_spec, show_halfband, show_gaussian, show_rrc, show_channelizer, show_biquad,
    show_butterworth, show_preemphasis, show_hann, show_blackman_harris, show_kaiser;

/* What a picture is made from. */
struct subject {
    const struct ticket *ticket;
    show_kind *show;
    enum parts parts;
    option_set said;    /* the options told in the picture's head */
    const char *format; /* what the numbers were rounded to; null where they weren't */
    const double *numbers;
    size_t n;
};

/* A picture of it: null, or what is wrong in words, and then nothing is written. */
const char *draw_subject(FILE *to, const struct subject *s);

#endif
