/* The fields of a card's tickets as options: a ticket by its options, and the options by a ticket. */
#ifndef FIELDS_H
#define FIELDS_H

#include <stddef.h>
#include <stdint.h>

#include "peldozkar.h"
#include "words.h"

/* A kind of ticket: its name, and the options that its fields are, in their order. */
struct written {
    const char *name;
    size_t fields;
    option_set field[5];
};

/* The kinds of tickets by their number, from 1 to 6. */
extern const struct written writtens[];

/* What a window of the user's own is told by, which no ticket there can have. */
extern const char own_window_on_card[];

/* The number of a kind on a card; 0 for a name that no ticket there has. */
uint64_t kind_on_card(const char *name);

/* The options that the fields of a kind are; for 0 those of all kinds. */
option_set fields_of(uint64_t kind);

/* The ticket of a kind that the options ask for, a low-pass after its turns. */
pel_ticket ticket_of(uint64_t kind, const struct ticket *t);

/* Gives the options what a ticket says; the window's beta is said where there is one. */
void put_ticket(struct ticket *t, pel_ticket written);

#endif
