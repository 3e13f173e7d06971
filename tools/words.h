/* The words of a command line as a ticket: options by name, each at most once, in any order. */
#ifndef WORDS_H
#define WORDS_H

#include <stdbool.h>
#include <stdint.h>
#include <stdio.h>

#include "peldozkar.h"

/* A set of options is a sum of these. */
typedef uint64_t option_set;
enum {
    CUTOFF = 1 << 0,
    RATE = 1 << 1,
    TRANSITION = 1 << 2,
    ATTENUATION = 1 << 3,
    BETA = 1 << 4,
    TAPS = 1 << 5,
    MAX_TAPS = 1 << 6,
    WINDOW = 1 << 7,
    BT = 1 << 8,
    SAMPLES = 1 << 9,
    SPAN = 1 << 10,
    CHANNELS = 1 << 11,
    BRANCH = 1 << 12,
    PASSBAND = 1 << 13,
    STOPBAND = 1 << 14,
    ROLLOFF = 1 << 15,
    RESPONSE = 1 << 16,
    CENTRE = 1 << 17,
    QUALITY = 1 << 18,
    ORDER = 1 << 19,
    TAU = 1 << 20,
    SYMMETRY = 1 << 21,
    /* What is printed. */
    Q15 = 1 << 22,
    Q14 = 1 << 23,
    F32 = 1 << 24,
    GAIN = 1 << 25,
    DELAY = 1 << 26,
    /* How, and where to. */
    FORM = 1 << 27,
    ARRAY = 1 << 28,
    OUT = 1 << 29,
    PLOT = 1 << 30
};
/* Of a low-pass, past the bits that an enum's constant has. */
#define TURNS ((option_set)1 << 31)
#define COEFFICIENTS ((option_set)1 << 32)
/* Of a card: the word without a name, which of its records, and what is corrected there. */
#define CARD ((option_set)1 << 33)
#define RECORD ((option_set)1 << 34)
#define SET ((option_set)1 << 35)

/* The options that every kind has. */
enum { EVERY = FORM | ARRAY | OUT | PLOT };

/* What --window cosines is beside the header's codes of windows: the first that the header hasn't. */
enum { OWN_WINDOW = PEL_KAISER + 1 };

/* The codes of --form. */
enum { AS_TEXT = 0, AS_C = 1, AS_RAW = 2, AS_CARD = 3 };

/* What the options said; a value counts where its bit is in `given`, and is the caller's default elsewhere. */
struct ticket {
    double cutoff, rate, transition, attenuation, beta, bt, passband, stopband, rolloff, centre, q, tau;
    uint64_t taps, max_taps, window, samples, span, channels, branch, response, order, symmetry, form;
    uint64_t record;
    const char *array, *out, *plot, *turns, *coefficients, *card, *corrections;
    option_set given;
    /* The numbers of --coefficients, and the window that they make once they are judged. */
    const uint8_t *numbers;
    size_t numbers_bytes;
    pel_cosines own;
    /* What stands on the card that the other numbers were taken from. */
    pel_ticket written;
};

/* What is wrong, and with which word; `what` is null where nothing is. */
struct complaint {
    const char *what, *word;
};

/* Takes the options apart; those outside `allowed` are unknown words. */
struct complaint take_words(int n, char **word, option_set allowed, struct ticket *t);

/* The options of a set that were given, in one order whatever that of the words: each after `lead`, without the
 * first `skip` letters of its name, and its value behind a blank, with digits that name the very number. */
void say_options(FILE *to, const struct ticket *t, option_set set, const char *lead, int skip);

/* The same in room for so many letters, as pictures and lists have it: cutoff 1000, rate 8000. */
void write_options(char *text, size_t room, const struct ticket *t, option_set set);

/* Gives an option the value that eight bytes of a card are, and the other way round: a number's bits, a count, or a
 * name's code. */
void put_option(struct ticket *t, option_set bit, uint64_t value);
uint64_t value_of_option(const struct ticket *t, option_set bit);

/* An entry of a list such as cutoff=1200,window=hann: an option's name without its dashes, and its value. */
struct setting {
    option_set bit;           /* the option, 0 where none has that name, */
    const char *wrong;        /* and what its value isn't; null where it is good */
    const char *word, *value; /* as the entry and its value stand in the list, */
    int letters;              /* and so long is the entry */
};

/* Takes the first entry off a list, and puts its value into the ticket as it is read behind the option itself; those
 * outside `allowed` have unknown names. False where the list is empty or begins with something else, and is left
 * there. */
bool take_setting(const char **list, option_set allowed, struct ticket *t, struct setting *s);

/* The name of option i of a set, counted from 0; null where the set has no more. */
const char *option_of(option_set set, int i);

#endif
