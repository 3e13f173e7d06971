/* Corrects a ticket by a list of its fields. A value is read as its option reads it; whether the ticket is a good one
 * then is the designer's to judge. */
#include "correct.h"

#include <inttypes.h>
#include <stdarg.h>
#include <stdbool.h>
#include <stdio.h>

#include "fields.h"

/* The entries of a list that belong together, and all that it names. */
struct corrections {
    struct setting window, beta;
    option_set named;
};

/* So many letters of a word are said. */
static int most_letters(ptrdiff_t letters)
{
    return letters < 80 ? (int)letters : 80;
}

/* The entry, and what is wrong with it, as printf has it. */
static const char *wrong_entry(const struct setting *s, const char *format, ...)
{
    static char text[700];
    va_list words;
    int n = snprintf(text, sizeof text, "in --set %.*s, ", most_letters(s->letters), s->word);
    va_start(words, format);
    vsnprintf(text + n, sizeof text - (size_t)n, format, words);
    va_end(words);
    return text;
}

static const char *names_in(option_set set)
{
    static char names[200];
    const char *name;
    size_t n = 0;
    for (int i = 0; n < sizeof names && (name = option_of(set, i)) != NULL; i++)
        n += (size_t)snprintf(names + n, sizeof names - n, "%s%s", i == 0 ? "" : ", ", name + 2);
    return names;
}

/* What is wrong with an entry whose value has been put into the ticket; null where nothing is. */
static const char *judge_entry(const struct setting *s, const char *whose, option_set fields, option_set named,
                               const struct ticket *t)
{
    ptrdiff_t name = s->value - s->word - 1, value = s->letters - name - 1;
    if (s->bit == 0)
        return wrong_entry(s, "%s has no %.*s: it has %s", whose, most_letters(name), s->word, names_in(fields));
    if ((s->bit & named) != 0)
        return wrong_entry(s, "%.*s is given twice", most_letters(name), s->word);
    if (s->wrong != NULL)
        return wrong_entry(s, "%s %.*s", s->wrong, most_letters(value), s->value);
    if (s->bit == WINDOW && t->window == OWN_WINDOW)
        return wrong_entry(s, "%s", own_window_on_card);
    return NULL;
}

static const char *take_corrections(const char *list, const char *whose, option_set fields, struct ticket *t,
                                    struct corrections *c)
{
    struct setting s;
    const char *wrong = NULL;
    *c = (struct corrections){.named = 0};
    while (wrong == NULL && take_setting(&list, fields, t, &s)) {
        wrong = judge_entry(&s, whose, fields, c->named, t);
        c->named |= s.bit;
        if (s.bit == WINDOW)
            c->window = s;
        if (s.bit == BETA)
            c->beta = s;
    }
    return wrong;
}

const char *wrong_corrections(const char *list)
{
    struct ticket nobodys = {.window = PEL_HANN};
    struct corrections c;
    return take_corrections(list, "a ticket", fields_of(0), &nobodys, &c);
}

/* Kaiser's window is the only one with a beta. One that stood behind another window is nobody's, and is none of it. */
static const char *judge_window(const struct corrections *c, bool was_kaiser, const struct ticket *t)
{
    char window[40];
    write_options(window, sizeof window, t, WINDOW);
    if (t->window != PEL_KAISER && (c->named & BETA) != 0)
        return wrong_entry(&c->beta, "the %s takes no beta: set window=kaiser too, or leave beta out", window);
    if (t->window == PEL_KAISER && !was_kaiser && (c->named & BETA) == 0)
        return wrong_entry(&c->window, "the %s needs a beta: set it too, as in window=kaiser,beta=8", window);
    return NULL;
}

const char *correct_ticket(struct ticket *t)
{
    uint64_t kind = t->written.kind;
    bool was_kaiser = t->window == PEL_KAISER;
    struct corrections c;
    char whose[60];
    snprintf(whose, sizeof whose, "ticket %" PRIu64 " (%s)", t->record, writtens[kind].name);
    const char *wrong = take_corrections(t->corrections, whose, fields_of(kind), t, &c);
    if (wrong == NULL && kind == PEL_TICKET_LOWPASS)
        wrong = judge_window(&c, was_kaiser, t);
    /* What another window doesn't take isn't told of it. */
    if (kind == PEL_TICKET_LOWPASS && t->window != PEL_KAISER)
        t->given &= ~(option_set)BETA;
    t->written = ticket_of(kind, t);
    return wrong;
}
