/* The kinds of coefficients that the command line can ask for: their options, and the exports behind them. */
#ifndef KINDS_H
#define KINDS_H

#include <stddef.h>
#include <stdint.h>
#include <stdio.h>

#include "forms.h"
#include "peldozkar.h"
#include "picture.h"
#include "words.h"

/* One way to ask for coefficients. Two rows of a name are two sets of options for one kind. */
struct kind {
    const char *name, *usage;
    option_set needs, may;    /* options that must stand, and those that may besides */
    const char *numbers;      /* what the numbers are called, */
    const struct form *forms; /* the forms that they can be printed in, */
    enum parts parts;         /* what they are, and what a picture shows beside them */
    show_kind *show;
    /* The ticket's judgement, with how many numbers there are as the count. What the options leave open,
     * such as a length, is put into the ticket. */
    pel_report (*judge)(struct ticket *t);
    pel_report (*fill)(const struct ticket *t, uint8_t *out, size_t bytes);
    /* What a refusal means for this kind; null where it means the same for every kind. */
    const char *(*meaning)(const struct ticket *t, const pel_report *r);
};

/* What a refusal means where it means the same for every kind, and for this kind in any case. */
const char *common_meaning(uint32_t number);
const char *meaning_of(const struct kind *k, const struct ticket *t, const pel_report *r);

/* A refusal in words: the number, what is wrong, and what was allowed. */
void say_refusal(FILE *to, const struct kind *k, const struct ticket *t, const pel_report *r);

/* The rows of a card have nothing that judges, fills or shows: its tickets do that. */
enum { KINDS = 16 };
extern const struct kind kinds[KINDS];

#endif
