/* Which options the fields of a card's tickets are, in both directions. */
#include "fields.h"

#include <string.h>

#include "turns.h"

enum { MOST_KINDS = PEL_TICKET_CHANNELIZER };

const struct written writtens[] = {
    {NULL, 0, {0}},
    {"lowpass", 5, {CUTOFF, RATE, WINDOW, BETA, TAPS}},
    {"spec", 5, {CUTOFF, TRANSITION, ATTENUATION, RATE, MAX_TAPS}},
    {"halfband", 2, {BETA, TAPS}},
    {"gaussian", 3, {BT, SAMPLES, SPAN}},
    {"rrc", 3, {ROLLOFF, SAMPLES, SPAN}},
    {"channelizer", 5, {CHANNELS, BRANCH, PASSBAND, STOPBAND, ATTENUATION}},
};

const char own_window_on_card[] =
    "a card has no code for a window of your own numbers: take hann, hamming, blackman or kaiser";

uint64_t kind_on_card(const char *name)
{
    for (uint64_t kind = 1; kind <= MOST_KINDS; kind++)
        if (strcmp(name, writtens[kind].name) == 0)
            return kind;
    return 0;
}

option_set fields_of(uint64_t kind)
{
    option_set set = 0;
    for (uint64_t k = 1; k <= MOST_KINDS; k++)
        for (size_t i = 0; i < writtens[k].fields; i++)
            set |= kind == 0 || kind == k ? writtens[k].field[i] : 0;
    return set;
}

pel_ticket ticket_of(uint64_t kind, const struct ticket *t)
{
    const struct written *w = &writtens[kind];
    struct knob last = turn_knob(t->turns, (struct knob){t->cutoff, t->rate, t->beta});
    struct ticket turned = *t;
    turned.cutoff = last.cutoff;
    turned.rate = last.rate;
    turned.beta = last.beta;
    pel_ticket written = {.kind = kind};
    for (size_t i = 0; i < w->fields; i++)
        written.fields[i] = value_of_option(&turned, w->field[i]);
    return written;
}

void put_ticket(struct ticket *t, pel_ticket written)
{
    const struct written *w = &writtens[written.kind];
    t->written = written;
    for (size_t i = 0; i < w->fields; i++)
        if (w->field[i] != BETA || written.kind != PEL_TICKET_LOWPASS || t->window == PEL_KAISER)
            put_option(t, w->field[i], written.fields[i]);
}
