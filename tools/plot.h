/* A picture of a filter as SVG: stems over taps or samples, and dB over frequency with what was asked for. */
#ifndef PLOT_H
#define PLOT_H

#include <stdbool.h>
#include <stddef.h>
#include <stdio.h>

#include "response.h"

/* What was asked for, drawn with the magnitudes and told in the line above them; and a delay, with the stems. */
struct mark {
    enum { AT, BETWEEN, LEVEL } shape; /* a frequency, a band, or a level from `from` on */
    double from, to;                   /* in the axis's unit; a level's dB in `to` */
    char label[80];
};

enum { MARKS = 6 };

struct picture {
    char title[120], numbers[400]; /* the two lines at the head */
    const char *stems, *index;     /* what the stems are, and are counted in */
    const double *samples;
    size_t n;
    const struct response *response;
    bool relative;           /* whether the magnitudes are relative to that of frequency 0 */
    const char *axis, *unit; /* what the frequency is called, and its unit behind a number */
    double scale, last;      /* the unit's worth of one cycle per sample, and where the axis ends in units */
    double deepest;          /* a level worth showing, beside those of the response; 0 where there is none */
    struct mark marks[MARKS];
    size_t marked;
    struct mark delay; /* where the stems mirror, in samples; without a label where they don't */
};

/* One whole SVG file. The samples, one at least, and the response are finite. */
void draw(FILE *to, const struct picture *p);

#endif
