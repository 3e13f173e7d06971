/* A list of turns of a low-pass's knob, as in cutoff=1200,beta=8,cutoff=900@48000. */
#ifndef TURNS_H
#define TURNS_H

#include <stdbool.h>

/* A new beta, or a new cutoff with its rate. */
struct turn {
    bool beta;
    double to, rate;
    const char *word; /* as it stands in the list, */
    int letters;      /* and so long */
};

/* Takes the first turn off a list; false where the list is empty or begins with something else, and is left there. A
 * cutoff without a rate is at the one that `t` has from before. */
bool take_turn(const char **list, struct turn *t);

/* What the knob stands at. */
struct knob {
    double cutoff, rate, beta;
};

/* The same after a list of turns; as it was for a null one. */
struct knob turn_knob(const char *list, struct knob from);

#endif
