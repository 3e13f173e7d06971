/* The forms that numbers come in: as text one number a line, and for a window also what it does, for taps how long they
 * delay; as C an array. */
#include "forms.h"

#include <inttypes.h>
#include <math.h>
#include <stdbool.h>
#include <stdlib.h>
#include <string.h>

/* ---- Numbers in words -------------------------------------------------------------------------- */

static double read_f64(const char *text)
{
    return strtod(text, NULL);
}

static double read_f32(const char *text)
{
    return strtof(text, NULL);
}

/* The fewest digits, but at least so many, that `read` takes back to the number, so that 0.2 is said as 0.2.
 * A NaN's sign is free, and isn't said. */
static struct words fewest(double x, int digits, double (*read)(const char *))
{
    struct words w = {"nan"};
    for (; x == x && read(w.text) != x; digits++)
        snprintf(w.text, sizeof w.text, "%.*g", digits, x);
    return w;
}

struct words words_of(double x)
{
    return fewest(x, 15, read_f64);
}

void say_number(FILE *to, double x)
{
    fputs(words_of(x).text, to);
}

/* With all digits; a NaN, which extreme sections have, without its sign. */
static void say_f64(FILE *to, double x)
{
    if (x == x)
        fprintf(to, "%.17g", x);
    else
        fputs("nan", to);
}

static void say_f32(FILE *to, double x)
{
    fputs(fewest(x, 6, read_f32).text, to);
}

/* Q15 or Q14. */
static void say_i16(FILE *to, double x)
{
    fprintf(to, "%d", (int)x);
}

/* A whole number needs its point: without it 1 is an int, and 1f nothing at all. */
static void say_constant(FILE *to, double x, struct words w, const char *suffix)
{
    if (isnan(x))
        fputs("NAN", to);
    else if (isinf(x))
        fputs(x > 0.0 ? "INFINITY" : "-INFINITY", to);
    else
        fprintf(to, "%s%s%s", w.text, strpbrk(w.text, ".e") == NULL ? ".0" : "", suffix);
}

static void say_double(FILE *to, double x)
{
    say_constant(to, x, words_of(x), "");
}

static void say_float(FILE *to, double x)
{
    say_constant(to, x, fewest(x, 6, read_f32), "f");
}

struct words samples_of(uint64_t half_samples)
{
    struct words w;
    snprintf(w.text, sizeof w.text, "%" PRIu64 "%s sample%s", half_samples / 2, half_samples % 2 == 1 ? ".5" : "",
             half_samples == 2 ? "" : "s");
    return w;
}

/* ---- From bytes -------------------------------------------------------------------------------- */

uint64_t bits_at(const uint8_t *bytes, size_t width)
{
    uint64_t bits = 0;
    for (size_t i = width; i-- > 0;)
        bits = bits << 8 | bytes[i];
    return bits;
}

static double f64_at(const uint8_t *bytes)
{
    uint64_t bits = bits_at(bytes, 8);
    double x;
    memcpy(&x, &bits, sizeof x);
    return x;
}

static double f32_at(const uint8_t *bytes)
{
    uint32_t bits = (uint32_t)bits_at(bytes, 4);
    float x;
    memcpy(&x, &bits, sizeof x);
    return x;
}

static double i16_at(const uint8_t *bytes)
{
    int bits = (int)bits_at(bytes, 2);
    return bits < 32768 ? bits : bits - 65536;
}

/* Whole floats are never refused. */
static void say_gain(FILE *to, const uint8_t *bytes, size_t n)
{
    pel_gain_report r = pel_window_gain(bytes, 4 * n);
    fputs("gain ", to);
    say_number(to, r.gain);
    fputs("\nbandwidth ", to);
    say_number(to, r.bandwidth);
    fputc('\n', to);
}

/* Of the filter that was designed, so there is a tap. */
static void say_delay(FILE *to, const uint8_t *bytes, size_t n)
{
    (void)bytes;
    fprintf(to, "delay %s\n", samples_of(pel_delay(n).count).text);
}

/* ---- The forms --------------------------------------------------------------------------------- */

static const struct number f64 = {8, "double", 4, NULL, 1.0, f64_at, say_f64, say_double};
static const struct number f32 = {4, "float", 6, "f32", 1.0, f32_at, say_f32, say_float};
static const struct number q15 = {2, "int16_t", 12, "Q15", 32768.0, i16_at, say_i16, say_i16};
static const struct number q14 = {2, "int16_t", 12, "Q14", 16384.0, i16_at, say_i16, say_i16};
/* A window's own: floats without an option, and Q15 numbers in which 1 is the largest. */
static const struct number window_f32 = {4, "float", 6, NULL, 1.0, f32_at, say_f32, say_float};
static const struct number window_q15 = {2, "int16_t", 12, "Q15", 32767.0, i16_at, say_i16, say_i16};

const struct form tap_forms[] = {
    {0, 8, 0, NULL, &f64, NULL},
    {Q15, 8, 2, pel_to_q15, &q15, NULL},
    {F32, 8, 4, pel_to_f32, &f32, NULL},
    /* The taps are filled in all the same: what is refused has no delay. */
    {DELAY, 8, 0, NULL, &f64, say_delay},
    {0, 0, 0, NULL, NULL, NULL},
};

/* Whole sections, five numbers each. */
const struct form section_forms[] = {
    {0, 8, 0, NULL, &f64, NULL},
    {Q14, 8, 2, pel_to_q14, &q14, NULL},
    {F32, 8, 4, pel_to_f32_sos, &f32, NULL},
    {0, 0, 0, NULL, NULL, NULL},
};

/* Three numbers are no section. */
const struct form preemphasis_forms[] = {
    {0, 8, 0, NULL, &f64, NULL},
    {F32, 8, 4, pel_to_f32, &f32, NULL},
    {0, 0, 0, NULL, NULL, NULL},
};

/* A window is filled in as floats or as Q15 numbers, and nothing is converted; the gain is the floats'. */
const struct form window_forms[] = {
    {0, 4, 0, NULL, &window_f32, NULL},
    {Q15, 2, 0, NULL, &window_q15, NULL},
    {GAIN, 4, 0, NULL, &window_f32, say_gain},
    {0, 0, 0, NULL, NULL, NULL},
};

/* A list is words, and comes in no other form. */
const struct form list_forms[] = {
    {0, 8, 0, NULL, &f64, NULL},
    {0, 0, 0, NULL, NULL, NULL},
};

option_set form_options(const struct form *forms)
{
    option_set set = 0;
    for (; forms->filled != 0; forms++)
        set |= forms->option;
    return set;
}

const struct form *form_for(const struct form *forms, option_set given)
{
    const struct form *asked = forms;
    for (; forms->filled != 0; forms++)
        if ((forms->option & given) != 0)
            asked = forms;
    return asked;
}

/* ---- Many numbers ------------------------------------------------------------------------------ */

void print_text(FILE *to, const struct form *f, const uint8_t *bytes, size_t n)
{
    if (f->instead != NULL) {
        f->instead(to, bytes, n);
        return;
    }
    for (size_t i = 0; i < n; i++) {
        f->number->say(to, f->number->read(bytes + f->number->bytes * i));
        fputc('\n', to);
    }
}

static bool all_finite(const struct number *m, const uint8_t *bytes, size_t n)
{
    for (size_t i = 0; i < n; i++)
        if (!isfinite(m->read(bytes + m->bytes * i)))
            return false;
    return true;
}

void print_c(FILE *to, const struct form *f, const uint8_t *bytes, size_t n, const char *name)
{
    const struct number *m = f->number;
    if (m->bytes == 2)
        fputs("#include <stdint.h>\n", to);
    if (!all_finite(m, bytes, n))
        fputs("#include <math.h>\n", to);
    fprintf(to, "static const %s %s[%zu] = {", m->type, name, n);
    for (size_t i = 0; i < n; i++) {
        fputs(i % (size_t)m->to_a_line == 0 ? "\n    " : " ", to);
        m->say_in_c(to, m->read(bytes + m->bytes * i));
        fputs(",", to);
    }
    fputs("\n};\n", to);
}

void worth(const struct form *f, const uint8_t *bytes, size_t n, double *out)
{
    for (size_t i = 0; i < n; i++)
        out[i] = f->number->read(bytes + f->number->bytes * i) / f->number->one;
}
