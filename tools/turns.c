/* Takes a list of turns apart, one at a time; whether a number is a good one is the designer's to judge. */
#include "turns.h"

#include <stddef.h>

#include "lists.h"

bool take_turn(const char **list, struct turn *t)
{
    const char *at = *list;
    struct turn next = *t;
    next.word = at;
    next.beta = take_word(&at, "beta=");
    if (!next.beta && !take_word(&at, "cutoff="))
        return false;
    if (!take_number(&at, &next.to) || (!next.beta && take_word(&at, "@") && !take_number(&at, &next.rate)))
        return false;
    next.letters = (int)(at - next.word);
    if (!take_end(&at))
        return false;
    *t = next;
    *list = at;
    return true;
}

struct knob turn_knob(const char *list, struct knob from)
{
    struct knob k = from;
    struct turn turn = {.rate = from.rate};
    while (list != NULL && take_turn(&list, &turn)) {
        *(turn.beta ? &k.beta : &k.cutoff) = turn.to;
        k.rate = turn.rate;
    }
    return k;
}
