/* Corrections of a ticket, as in cutoff=1200,taps=63. */
#ifndef CORRECT_H
#define CORRECT_H

#include "words.h"

/* What is wrong in words with a list of corrections, whatever ticket it is for; null where nothing is. */
const char *wrong_corrections(const char *list);

/* Corrects a ticket that was taken from a card by its own list of corrections, what is written of it too: null, or what
 * is wrong in words. */
const char *correct_ticket(struct ticket *t);

#endif
