/* The tickets on a card: a list of them with a verdict each, or one of them to design or to write over. */
#ifndef CARD_H
#define CARD_H

#include <stdbool.h>
#include <stddef.h>
#include <stdint.h>
#include <stdio.h>

#include "kinds.h"
#include "peldozkar.h"
#include "words.h"

/* A card's bytes, what they were read from in words, and what checking them found. */
struct card {
    const char *source;
    uint8_t *bytes;
    size_t n;
    pel_card found;
};

/* Reads a card, from standard input where the path is null. Hundreds of thousands of tickets are no card that somebody
 * carries, so no more than 2^24 bytes are taken: false, and what is wrong in one line, where there are more, or where
 * none can be read. */
bool read_card(struct card *c, const char *path);

void free_card(struct card *c);

/* Lists the card: a line a ticket, one for the record that is broken, and one for all of them. What it gives is which
 * record the exit status is for, counted from 1: the broken one, since nobody sees what stands behind it, else the
 * first whose ticket is refused; 0 where there is neither. */
uint64_t list_card(FILE *to, const struct card *c);

/* Puts a ticket of the card, counted from 1 and no more than were found, into `t` as if its kind's own words had said
 * it, and gives its kind: one that is judged and filled in as the card's ticket, and whose refusals name it. */
struct kind take_ticket(const struct card *c, uint64_t number, struct ticket *t);

/* The bits of the beta of a ticket whose window takes none, as they stand on the card; 0 for any other ticket. */
uint64_t unused_beta(const struct card *c, uint64_t number);

/* Writes a ticket over one of its kind, whose record is as long; every other byte of the card stays. */
pel_report write_over(struct card *c, uint64_t number, pel_ticket written);

/* Says that a record can't be had, since it or one before it is broken, and why. */
void say_broken(FILE *to, const struct card *c, uint64_t number);

#endif
