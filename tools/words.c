/* Takes the words of a command line apart into a ticket. A word that isn't wholly a number, a count or a
 * known name is refused here; whether the number is a good one is the designer's to judge. */
#define _XOPEN_SOURCE 700
#include "words.h"

#include <errno.h>
#include <inttypes.h>
#include <stddef.h>
#include <stdlib.h>
#include <string.h>

#include "forms.h"
#include "lists.h"
#include "turns.h"

enum reading { NUMBER, COUNT, NAME, IDENTIFIER, PATH, LIST, NUMBERS, SETTINGS, ALONE, BARE };

/* What an option can be called, in the order of the header's codes, up to a null. */
struct names {
    const char *unknown; /* said of another word */
    const char *name[6];
};

/* And behind them OWN_WINDOW. */
static const struct names windows = {"unknown window:", {"hann", "hamming", "blackman", "kaiser", "cosines"}};
static const struct names responses = {"unknown response:", {"lowpass", "highpass", "bandpass", "notch"}};
static const struct names symmetries = {"unknown symmetry:", {"periodic", "symmetric"}};
static const struct names forms = {"unknown form:", {"text", "c", "raw", "card"}};

static const struct option {
    const char *name;
    option_set bit;
    enum reading reading;
    size_t place; /* where the ticket keeps it; nothing is kept of an option that stands alone */
    const struct names *names;
} options[] = {
    {"FILE", CARD, BARE, offsetof(struct ticket, card), NULL},
    {"--record", RECORD, COUNT, offsetof(struct ticket, record), NULL},
    {"--set", SET, SETTINGS, offsetof(struct ticket, corrections), NULL},
    {"--cutoff", CUTOFF, NUMBER, offsetof(struct ticket, cutoff), NULL},
    {"--rate", RATE, NUMBER, offsetof(struct ticket, rate), NULL},
    {"--transition", TRANSITION, NUMBER, offsetof(struct ticket, transition), NULL},
    {"--attenuation", ATTENUATION, NUMBER, offsetof(struct ticket, attenuation), NULL},
    {"--taps", TAPS, COUNT, offsetof(struct ticket, taps), NULL},
    {"--max-taps", MAX_TAPS, COUNT, offsetof(struct ticket, max_taps), NULL},
    {"--window", WINDOW, NAME, offsetof(struct ticket, window), &windows},
    {"--beta", BETA, NUMBER, offsetof(struct ticket, beta), NULL},
    {"--coefficients", COEFFICIENTS, NUMBERS, offsetof(struct ticket, coefficients), NULL},
    {"--turns", TURNS, LIST, offsetof(struct ticket, turns), NULL},
    {"--bt", BT, NUMBER, offsetof(struct ticket, bt), NULL},
    {"--rolloff", ROLLOFF, NUMBER, offsetof(struct ticket, rolloff), NULL},
    {"--samples", SAMPLES, COUNT, offsetof(struct ticket, samples), NULL},
    {"--span", SPAN, COUNT, offsetof(struct ticket, span), NULL},
    {"--channels", CHANNELS, COUNT, offsetof(struct ticket, channels), NULL},
    {"--branch", BRANCH, COUNT, offsetof(struct ticket, branch), NULL},
    {"--passband", PASSBAND, NUMBER, offsetof(struct ticket, passband), NULL},
    {"--stopband", STOPBAND, NUMBER, offsetof(struct ticket, stopband), NULL},
    {"--response", RESPONSE, NAME, offsetof(struct ticket, response), &responses},
    {"--centre", CENTRE, NUMBER, offsetof(struct ticket, centre), NULL},
    {"--q", QUALITY, NUMBER, offsetof(struct ticket, q), NULL},
    {"--order", ORDER, COUNT, offsetof(struct ticket, order), NULL},
    {"--tau", TAU, NUMBER, offsetof(struct ticket, tau), NULL},
    {"--symmetry", SYMMETRY, NAME, offsetof(struct ticket, symmetry), &symmetries},
    {"--q15", Q15, ALONE, 0, NULL},
    {"--q14", Q14, ALONE, 0, NULL},
    {"--f32", F32, ALONE, 0, NULL},
    {"--gain", GAIN, ALONE, 0, NULL},
    {"--delay", DELAY, ALONE, 0, NULL},
    {"--form", FORM, NAME, offsetof(struct ticket, form), &forms},
    {"--name", ARRAY, IDENTIFIER, offsetof(struct ticket, array), NULL},
    {"--out", OUT, PATH, offsetof(struct ticket, out), NULL},
    {"--plot", PLOT, PATH, offsetof(struct ticket, plot), NULL},
};

enum { OPTIONS = sizeof options / sizeof options[0] };

/* A value is so many letters, up to the end of the word or to a comma in a list; no value has a comma of its own.
 * NaN and infinities are numbers too: the designer refuses them by number. */
static bool read_number(const char *word, size_t letters, double *x)
{
    const char *end = word;
    return take_number(&end, x) && end == word + letters;
}

/* Decimal digits only, since strtoumax alone would take a sign and wrap a negative count around. */
static bool read_count(const char *word, size_t letters, uint64_t *n)
{
    if (letters == 0 || strspn(word, "0123456789") != letters)
        return false;
    errno = 0;
    uintmax_t value = strtoumax(word, NULL, 10);
    if (errno == ERANGE || value > UINT64_MAX)
        return false;
    *n = value;
    return true;
}

static bool is_word(const char *word, size_t letters, const char *name)
{
    return strlen(name) == letters && strncmp(word, name, letters) == 0;
}

static bool read_name(const char *word, size_t letters, const struct names *names, uint64_t *code)
{
    for (uint64_t k = 0; names->name[k] != NULL; k++)
        if (is_word(word, letters, names->name[k])) {
            *code = k;
            return true;
        }
    return false;
}

/* What C11 keeps for itself. */
static const char *const keywords[] = {
    "auto",       "break",     "case",           "char",         "const",    "continue", "default",  "do",
    "double",     "else",      "enum",           "extern",       "float",    "for",      "goto",     "if",
    "inline",     "int",       "long",           "register",     "restrict", "return",   "short",    "signed",
    "sizeof",     "static",    "struct",         "switch",       "typedef",  "union",    "unsigned", "void",
    "volatile",   "while",     "_Alignas",       "_Alignof",     "_Atomic",  "_Bool",    "_Complex", "_Generic",
    "_Imaginary", "_Noreturn", "_Static_assert", "_Thread_local"};

/* The letters of ASCII and no others, whatever the locale. */
static bool is_identifier(const char *word)
{
    static const char letters[] = "0123456789_abcdefghijklmnopqrstuvwxyzABCDEFGHIJKLMNOPQRSTUVWXYZ";
    for (size_t k = 0; k < sizeof keywords / sizeof keywords[0]; k++)
        if (strcmp(word, keywords[k]) == 0)
            return false;
    return *word != '\0' && strspn(word, letters) == strlen(word) && strspn(word, "0123456789") == 0;
}

/* One turn at least, and nothing but turns. */
static bool is_list(const char *word)
{
    struct turn t = {0};
    while (take_turn(&word, &t))
        if (*word == '\0')
            return true;
    return false;
}

/* One entry at least, and nothing but entries; whether they fit a ticket is seen where there is one. */
static bool is_settings(const char *word)
{
    struct setting s;
    while (take_setting(&word, 0, NULL, &s))
        if (*word == '\0')
            return true;
    return false;
}

/* One value into its place: null, or what the word isn't. */
static const char *read_value(const struct option *o, const char *word, size_t letters, struct ticket *t)
{
    void *place = (char *)t + o->place;
    switch (o->reading) {
    case NUMBER:
        return read_number(word, letters, place) ? NULL : "not a number:";
    case COUNT:
        return read_count(word, letters, place) ? NULL : "not a count from 0 to 2^64 - 1:";
    case NAME:
        return read_name(word, letters, o->names, place) ? NULL : o->names->unknown;
    case IDENTIFIER:
        *(const char **)place = word;
        return is_identifier(word) ? NULL : "not a C identifier:";
    case PATH:
    case BARE:
        *(const char **)place = word;
        return *word != '\0' ? NULL : "not a file's name:";
    case LIST:
        *(const char **)place = word;
        return is_list(word) ? NULL : "not turns such as cutoff=1200,beta=8 or cutoff=1200@48000:";
    case NUMBERS:
        *(const char **)place = word;
        return is_listed(word) ? NULL : "not numbers with commas between, such as 0.42,0.5,0.08:";
    case SETTINGS:
        *(const char **)place = word;
        return is_settings(word) ? NULL : "not corrections such as cutoff=1200,taps=63:";
    case ALONE:
        break;
    }
    return NULL;
}

/* A word without a dash, or a dash alone, is a value whose option has no name of its own, where there is such a one. */
static const struct option *find(const char *word, option_set allowed)
{
    bool bare = word[0] != '-' || word[1] == '\0';
    for (size_t k = 0; k < OPTIONS; k++)
        if ((options[k].bit & allowed) != 0 && (options[k].reading == BARE ? bare : strcmp(word, options[k].name) == 0))
            return &options[k];
    return NULL;
}

struct complaint take_words(int n, char **word, option_set allowed, struct ticket *t)
{
    for (int i = 0; i < n; i++) {
        const struct option *o = find(word[i], allowed);
        if (o == NULL)
            return (struct complaint){"unknown word", word[i]};
        if ((t->given & o->bit) != 0)
            return (struct complaint){o->reading == BARE ? "more than one file:" : "given twice:", word[i]};
        t->given |= o->bit;
        if (o->reading == ALONE)
            continue;
        if (o->reading != BARE && ++i == n)
            return (struct complaint){"a value is missing after", word[i - 1]};
        const char *what = read_value(o, word[i], strlen(word[i]), t);
        if (what != NULL)
            return (struct complaint){what, word[i]};
    }
    return (struct complaint){NULL, NULL};
}

/* Any of the set by its name behind the dashes. */
static const struct option *find_named(const char *name, size_t letters, option_set allowed)
{
    for (size_t k = 0; k < OPTIONS; k++)
        if ((options[k].bit & allowed) != 0 && is_word(name, letters, options[k].name + 2))
            return &options[k];
    return NULL;
}

bool take_setting(const char **list, option_set allowed, struct ticket *t, struct setting *s)
{
    size_t name = strcspn(*list, "=,");
    if (name == 0 || (*list)[name] != '=')
        return false;
    struct setting next = {.word = *list, .value = *list + name + 1};
    const char *at = next.value + strcspn(next.value, ",");
    size_t value = (size_t)(at - next.value);
    next.letters = (int)(at - next.word);
    if (!take_end(&at))
        return false;
    const struct option *o = find_named(next.word, name, allowed);
    if (o != NULL) {
        next.bit = o->bit;
        next.wrong = read_value(o, next.value, value, t);
        t->given |= o->bit;
    }
    *s = next;
    *list = at;
    return true;
}

/* Each with the digits that name it, whatever the word's were. */
static void say_list(FILE *to, const char *list)
{
    double x;
    for (const char *lead = ""; take_listed(&list, &x); lead = ",") {
        fputs(lead, to);
        say_number(to, x);
    }
}

static void say_value(FILE *to, const struct ticket *t, const struct option *o)
{
    const void *place = (const char *)t + o->place;
    if (o->reading != ALONE)
        fputc(' ', to);
    if (o->reading == NUMBER)
        say_number(to, *(const double *)place);
    if (o->reading == COUNT)
        fprintf(to, "%" PRIu64, *(const uint64_t *)place);
    if (o->reading == NAME)
        fputs(o->names->name[*(const uint64_t *)place], to);
    if (o->reading == IDENTIFIER || o->reading == PATH || o->reading == LIST || o->reading == SETTINGS ||
        o->reading == BARE)
        fputs(*(const char *const *)place, to);
    if (o->reading == NUMBERS)
        say_list(to, *(const char *const *)place);
}

void say_options(FILE *to, const struct ticket *t, option_set set, const char *lead, int skip)
{
    for (size_t k = 0; k < OPTIONS; k++)
        if ((options[k].bit & set & t->given) != 0) {
            fprintf(to, "%s%s", lead, options[k].name + skip);
            say_value(to, t, &options[k]);
        }
}

void write_options(char *text, size_t room, const struct ticket *t, option_set set)
{
    text[0] = '\0';
    FILE *to = fmemopen(text, room, "w");
    if (to == NULL)
        return;
    say_options(to, t, set, ", ", 2);
    fclose(to);
    text[room - 1] = '\0';
    size_t lead = strspn(text, ", ");
    memmove(text, text + lead, strlen(text + lead) + 1);
}

void put_option(struct ticket *t, option_set bit, uint64_t value)
{
    for (size_t k = 0; k < OPTIONS; k++)
        if (options[k].bit == bit)
            memcpy((char *)t + options[k].place, &value, sizeof value);
    t->given |= bit;
}

uint64_t value_of_option(const struct ticket *t, option_set bit)
{
    uint64_t value = 0;
    for (size_t k = 0; k < OPTIONS; k++)
        if (options[k].bit == bit)
            memcpy(&value, (const char *)t + options[k].place, sizeof value);
    return value;
}

const char *option_of(option_set set, int i)
{
    for (size_t k = 0; k < OPTIONS; k++)
        if ((options[k].bit & set) != 0 && i-- == 0)
            return options[k].name;
    return NULL;
}
