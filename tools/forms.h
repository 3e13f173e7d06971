/* The forms that numbers come in: how wide they are, what converts them, how they are said, and what they are
 * worth. */
#ifndef FORMS_H
#define FORMS_H

#include <stddef.h>
#include <stdint.h>
#include <stdio.h>

#include "peldozkar.h"
#include "words.h"

/* Room for any number that is said. */
struct words {
    char text[40];
};

/* A format of numbers in bytes. */
struct number {
    size_t bytes;
    const char *type;  /* in C, */
    int to_a_line;     /* so many of which stand on a line there */
    const char *title; /* what a picture calls it; null for the numbers without an option */
    double one;        /* the number that stands for 1 */
    double (*read)(const uint8_t *bytes);
    void (*say)(FILE *to, double x);      /* as text, */
    void (*say_in_c)(FILE *to, double x); /* and as a constant */
};

struct form {
    option_set option;        /* what asks for it; 0 for the form without an option */
    size_t filled, converted; /* bytes of a number as a kind fills it in, and as converted; 0 where it isn't */
    pel_report (*convert)(const uint8_t *source, size_t source_bytes, uint8_t *out, size_t bytes);
    const struct number *number;
    /* What is said instead of the numbers; null where they are said. */
    void (*instead)(FILE *to, const uint8_t *bytes, size_t n);
};

/* The forms of a kind of number, the one without an option first, up to one that is 0 bytes wide. */
extern const struct form tap_forms[], section_forms[], preemphasis_forms[], window_forms[], list_forms[];

/* All options of the forms. */
option_set form_options(const struct form *forms);

/* The form that the options given ask for. */
const struct form *form_for(const struct form *forms, option_set given);

/* One number a line, or what the form says instead. */
void print_text(FILE *to, const struct form *f, const uint8_t *bytes, size_t n);

/* The numbers, one at least, as a constant array of C that reads back to the same bits. */
void print_c(FILE *to, const struct form *f, const uint8_t *bytes, size_t n, const char *name);

/* Little-endian bytes as bits, whatever the machine's own order. */
uint64_t bits_at(const uint8_t *bytes, size_t width);

/* What the numbers are worth, in room for n of them. */
void worth(const struct form *f, const uint8_t *bytes, size_t n, double *out);

/* With the fewest digits that still name the number. */
struct words words_of(double x);
void say_number(FILE *to, double x);

/* Half samples in samples, with the half: 127 as 63.5 samples. */
struct words samples_of(uint64_t half_samples);

#endif
