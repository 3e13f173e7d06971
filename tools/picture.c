/* From a ticket and its numbers to a picture: what each kind shows beside them. */
#define _XOPEN_SOURCE 700
#include "picture.h"

#include <inttypes.h>
#include <math.h>
#include <stdarg.h>
#include <stdlib.h>
#include <string.h>

#include "forms.h"
#include "peldozkar.h"
#include "turns.h"

static const double half_power = -3.0102999566398120; /* dB */

/* ---- Marks and axes ---------------------------------------------------------------------------- */

static void mark(struct picture *p, int shape, double from, double to, const char *format, ...)
{
    struct mark *m = &p->marks[p->marked++];
    m->shape = shape;
    m->from = from;
    m->to = to;
    va_list words;
    va_start(words, format);
    vsnprintf(m->label, sizeof m->label, format, words);
    va_end(words);
}

static void mark_at(struct picture *p, const char *what, double x)
{
    mark(p, AT, x, x, "%s %.6g%s", what, x, p->unit);
}

static void mark_between(struct picture *p, const char *what, double from, double to)
{
    mark(p, BETWEEN, from, to, "%s %.6g to %.6g%s", what, from, to, p->unit);
}

static void mark_level(struct picture *p, double from, double db)
{
    mark(p, LEVEL, from, db, "%.*f dB", db == floor(db) ? 0 : 2, db);
}

/* A stopband as deep as asked for, and some of what lies below it. */
static void mark_stopband(struct picture *p, double from, double attenuation)
{
    mark(p, LEVEL, from, -attenuation, "attenuation -%.6g dB", attenuation);
    p->deepest = -attenuation - 30.0;
}

/* A filter that delays every tone alike delays it by as much as lies before the middle of its taps. */
static void mark_delay(struct picture *p, size_t taps)
{
    uint64_t half_samples = pel_delay(taps).count;
    p->delay.shape = AT;
    p->delay.from = p->delay.to = (double)half_samples / 2.0;
    snprintf(p->delay.label, sizeof p->delay.label, "delay %s", samples_of(half_samples).text);
}

static void name_axis(struct picture *p, double scale, double last, const char *axis, const char *unit)
{
    p->scale = scale;
    p->last = last;
    p->axis = axis;
    p->unit = unit;
}

/* Up to half the rate, in hertz or in what makes short numbers; how many hertz that is. */
static double in_hertz(struct picture *p, double rate)
{
    static const struct {
        double hertz;
        const char *axis, *unit;
    } units[] = {
        {1e9, "frequency (GHz)", " GHz"},
        {1e6, "frequency (MHz)", " MHz"},
        {1e3, "frequency (kHz)", " kHz"},
        {1.0, "frequency (Hz)", " Hz"},
    };
    size_t k = 0;
    while (k < 3 && rate < 2e1 * units[k].hertz)
        k++;
    name_axis(p, rate / units[k].hertz, rate / units[k].hertz / 2.0, units[k].axis, units[k].unit);
    return units[k].hertz;
}

/* ---- Filters and pulses ------------------------------------------------------------------------ */

void show_lowpass(const struct ticket *t, size_t n, struct picture *p)
{
    (void)n;
    struct knob last = turn_knob(t->turns, (struct knob){t->cutoff, t->rate, t->beta});
    strcpy(p->title, "Low-pass filter");
    double hertz = in_hertz(p, last.rate);
    mark_at(p, "cutoff", last.cutoff / hertz);
}

/* The attenuation's size counts, as for the taps. */
void show_spec(const struct ticket *t, size_t n, struct picture *p)
{
    (void)n;
    strcpy(p->title, "Low-pass filter to a specification");
    double hertz = in_hertz(p, t->rate);
    double from = (t->cutoff - t->transition / 2.0) / hertz, to = (t->cutoff + t->transition / 2.0) / hertz;
    mark_at(p, "cutoff", t->cutoff / hertz);
    mark_between(p, "transition", from, to);
    mark_stopband(p, to, fabs(t->attenuation));
}

void show_halfband(const struct ticket *t, size_t n, struct picture *p)
{
    (void)n;
    strcpy(p->title, "Half-band filter");
    if ((t->given & RATE) == 0) {
        name_axis(p, 1.0, 0.5, "frequency (cycles per sample)", "");
        mark_at(p, "rate/4:", 0.25);
        return;
    }
    double rate = fabs(t->rate), hertz = in_hertz(p, rate), half = fabs(t->transition) / 2.0;
    mark_at(p, "rate/4:", rate / 4.0 / hertz);
    mark_between(p, "transition", (rate / 4.0 - half) / hertz, (rate / 4.0 + half) / hertz);
    mark_stopband(p, (rate / 4.0 + half) / hertz, fabs(t->attenuation));
}

/* In symbol rates, and not beyond where anything happens. */
static void in_symbol_rates(struct picture *p, const struct ticket *t)
{
    name_axis(p, (double)t->samples, fmin((double)t->samples / 2.0, 4.0), "frequency (symbol rates)", "");
}

void show_gaussian(const struct ticket *t, size_t n, struct picture *p)
{
    (void)n;
    strcpy(p->title, "Gaussian pulse");
    in_symbol_rates(p, t);
    mark_at(p, "bt", t->bt);
    mark_level(p, 0.0, half_power);
}

void show_rrc(const struct ticket *t, size_t n, struct picture *p)
{
    (void)n;
    strcpy(p->title, "Root-raised-cosine pulse");
    in_symbol_rates(p, t);
    p->relative = true;
    mark_at(p, "symbol rate/2:", 0.5);
    mark_between(p, "roll-off", (1.0 - t->rolloff) / 2.0, (1.0 + t->rolloff) / 2.0);
    mark_level(p, 0.0, half_power);
}

void show_channelizer(const struct ticket *t, size_t n, struct picture *p)
{
    (void)n;
    strcpy(p->title, "Prototype of a channelizer");
    name_axis(p, (double)t->channels, fmin((double)t->channels / 2.0, 8.0), "frequency (channel spacings)", "");
    mark_at(p, "passband", t->passband);
    mark_at(p, "stopband", t->stopband);
    mark(p, BETWEEN, t->passband, t->stopband, "transition");
    mark_stopband(p, t->stopband, t->attenuation);
}

/* ---- Sections ---------------------------------------------------------------------------------- */

static const char *const responses[] = {"low-pass", "high-pass", "band-pass", "notch"};

void show_biquad(const struct ticket *t, size_t n, struct picture *p)
{
    (void)n;
    snprintf(p->title, sizeof p->title, "Biquad, %s", responses[t->response]);
    double hertz = in_hertz(p, t->rate);
    mark_at(p, "centre", t->centre / hertz);
    mark_level(p, 0.0, half_power);
    /* A notch is narrow, and its foot is what it is for. */
    if (t->response == PEL_NOTCH)
        p->deepest = -60.0;
}

void show_butterworth(const struct ticket *t, size_t n, struct picture *p)
{
    (void)n;
    snprintf(p->title, sizeof p->title, "Butterworth %s of order %" PRIu64, responses[t->response], t->order);
    double hertz = in_hertz(p, t->rate);
    mark_at(p, "cutoff", t->cutoff / hertz);
    mark_level(p, 0.0, half_power);
    /* What an order is for shows in the stopband, however narrow that is. */
    p->deepest = -60.0;
}

/* Where an analogue network of this time constant has risen by 3 dB. */
static double corner(const struct ticket *t)
{
    return 1.0 / (6.283185307179586 * t->tau);
}

void show_preemphasis(const struct ticket *t, size_t n, struct picture *p)
{
    (void)n;
    strcpy(p->title, "Pre-emphasis");
    double hertz = in_hertz(p, t->rate);
    mark_at(p, "1/(2 pi tau):", corner(t) / hertz);
    mark_level(p, 0.0, -half_power);
}

/* ---- Windows ----------------------------------------------------------------------------------- */

/* A long window's lobes are near 0: the first of them fill the axis. */
static void show_window(struct picture *p, const char *title, size_t n)
{
    strcpy(p->title, title);
    name_axis(p, 1.0, fmin(0.5, 32.0 / (double)n), "frequency (cycles per sample)", "");
    p->stems = "Window";
    p->index = "sample";
    p->relative = true;
}

void show_hann(const struct ticket *t, size_t n, struct picture *p)
{
    (void)t;
    show_window(p, "Hann window", n);
}

void show_blackman_harris(const struct ticket *t, size_t n, struct picture *p)
{
    (void)t;
    show_window(p, "Blackman-Harris window", n);
}

void show_kaiser(const struct ticket *t, size_t n, struct picture *p)
{
    (void)t;
    show_window(p, "Kaiser window", n);
}

/* ---- The whole --------------------------------------------------------------------------------- */

enum { IMPULSE = 64 };

/* Not so large that an axis over them overflows, and no NaN. */
static bool can_be_drawn(const double *x, size_t n)
{
    for (size_t i = 0; i < n; i++)
        if (!(fabs(x[i]) <= 1e300))
            return false;
    return true;
}

/* "Low-pass filter, 31 taps, Q15", and the numbers that it was made from. */
static void put_head(const struct subject *s, struct picture *p)
{
    static const char *const counted[] = {"tap", "section", NULL, "sample"};
    size_t n = s->parts == SECTION_PARTS ? s->n / 5 : s->n, room = sizeof p->title, used = strlen(p->title);
    if (counted[s->parts] != NULL)
        used += (size_t)snprintf(p->title + used, room - used, ", %zu %s%s", n, counted[s->parts], n == 1 ? "" : "s");
    if (s->format != NULL)
        snprintf(p->title + used, room - used, ", %s", s->format);
    write_options(p->numbers, sizeof p->numbers, s->ticket, s->said);
}

static const char no_memory[] = "there is no memory for the picture";
static const char too_large[] = "no picture of numbers that aren't finite or are beyond 1e300";

static const char *draw_finite(FILE *to, const struct subject *s, struct picture *p, struct response *r)
{
    if (!can_be_drawn(p->samples, p->n) || !is_finite_response(r))
        return too_large;
    p->response = r;
    put_head(s, p);
    draw(to, p);
    return NULL;
}

/* Taps are their own impulse response. */
static const char *draw_taps(FILE *to, const struct subject *s, struct picture *p)
{
    struct response r;
    if (!taps_response(s->numbers, s->n, p->relative, &r))
        return no_memory;
    p->samples = s->numbers;
    p->n = s->n;
    if (s->parts == TAP_PARTS)
        mark_delay(p, s->n);
    const char *wrong = draw_finite(to, s, p, &r);
    free_response(&r);
    return wrong;
}

/* Sections are drawn by what all of them together do; three numbers are a section without its last two. */
static const char *draw_sections(FILE *to, const struct subject *s, struct picture *p)
{
    double impulse[IMPULSE];
    double first_order[5] = {s->numbers[0], s->numbers[1], 0.0, s->numbers[2], 0.0};
    const double *sections = s->parts == FIRST_ORDER ? first_order : s->numbers;
    size_t n = s->parts == FIRST_ORDER ? 1 : s->n / 5;
    struct response r;
    if (!sections_response(sections, n, p->marks[0].from / p->scale, &r))
        return no_memory;
    sections_impulse(sections, n, impulse, IMPULSE);
    p->samples = impulse;
    p->n = IMPULSE;
    const char *wrong = draw_finite(to, s, p, &r);
    free_response(&r);
    return wrong;
}

const char *draw_subject(FILE *to, const struct subject *s)
{
    struct picture p = {.stems = "Impulse response", .index = "tap"};
    if (s->n == 0)
        return "no picture of nothing";
    if (!can_be_drawn(s->numbers, s->n))
        return too_large;
    s->show(s->ticket, s->n, &p);
    if (s->parts == TAP_PARTS || s->parts == WINDOW_PARTS)
        return draw_taps(to, s, &p);
    p.index = "sample";
    return draw_sections(to, s, &p);
}
