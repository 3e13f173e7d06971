/* Takes lists apart; whether a number is a good one is the designer's to judge. */
#include "lists.h"

#include <ctype.h>
#include <stdlib.h>
#include <string.h>

bool take_word(const char **at, const char *word)
{
    size_t n = strlen(word);
    if (strncmp(*at, word, n) != 0)
        return false;
    *at += n;
    return true;
}

bool take_number(const char **at, double *x)
{
    if (isspace((unsigned char)**at))
        return false;
    char *end;
    *x = strtod(*at, &end);
    bool taken = end != *at;
    *at = end;
    return taken;
}

bool take_end(const char **at)
{
    return **at == '\0' || (take_word(at, ",") && **at != '\0');
}

bool take_listed(const char **list, double *x)
{
    const char *at = *list;
    if (!take_number(&at, x) || !take_end(&at))
        return false;
    *list = at;
    return true;
}

bool is_listed(const char *list)
{
    double x;
    while (take_listed(&list, &x))
        if (*list == '\0')
            return true;
    return false;
}

uint8_t *bytes_of_list(const char *list, size_t *bytes)
{
    double x;
    size_t n = 0;
    for (const char *at = list; take_listed(&at, &x);)
        n++;
    uint8_t *room = malloc(8 * n + 1);
    *bytes = 8 * n;
    for (size_t i = 0; room != NULL && take_listed(&list, &x); i += 8) {
        uint64_t bits;
        memcpy(&bits, &x, sizeof bits);
        for (size_t k = 0; k < 8; k++)
            room[i + k] = (uint8_t)(bits >> 8 * k);
    }
    return room;
}
