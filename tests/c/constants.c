/* Reads lines `constant TAB decimal TAB bits TAB words` and holds the bits to both: to the decimal as the C
 * library reads it, and to the constant as a definition writes it: `fraction A B`, the double nearest A/B;
 * `whole N`; `b64 0x..`, a bit pattern. A and B are numerals, hexadecimal ones with _ between digits, or
 * (base ^ power). */
#include <stdbool.h>
#include <stdint.h>
#include <stdio.h>
#include <stdlib.h>
#include <string.h>

static uint64_t bits(double x)
{
    uint64_t b;
    memcpy(&b, &x, sizeof b);
    return b;
}

/* The digits up to a space or the end, underscores left out; moves past them. */
static uint64_t digits(const char **at)
{
    const char *s = *at;
    unsigned base = 10;
    if (s[0] == '0' && s[1] == 'x') {
        base = 16;
        s += 2;
    }
    uint64_t n = 0;
    for (; *s != '\0' && strchr("0123456789ABCDEF_", *s) != NULL; s++)
        if (*s != '_')
            n = n * base + (uint64_t)(strchr("0123456789ABCDEF", *s) - "0123456789ABCDEF");
    *at = s;
    return n;
}

/* A numeral or (base ^ power). Each is a double exactly, so one division rounds a quotient of two once;
 * `exact` is cleared where one isn't. */
static double operand(const char **at, bool *exact)
{
    if (**at == ' ')
        ++*at;
    if (**at != '(') {
        uint64_t n = digits(at);
        *exact = *exact && n <= (uint64_t)1 << 53;
        return (double)n;
    }
    ++*at;
    uint64_t base = digits(at);
    *at += 3; /* " ^ " */
    uint64_t power = digits(at);
    ++*at; /* ")" */
    double x = 1;
    for (uint64_t i = 0; i < power; i++)
        x *= (double)base;
    *exact = *exact && (base == 2 || (base == 10 && power <= 22));
    return x;
}

static bool value(const char *constant, uint64_t *b)
{
    bool exact = true;
    const char *at = strchr(constant, ' ');
    if (at == NULL)
        return false;
    if (strncmp(constant, "b64 ", 4) == 0) {
        at++;
        *b = digits(&at);
    } else if (strncmp(constant, "whole ", 6) == 0) {
        *b = bits(operand(&at, &exact));
    } else if (strncmp(constant, "fraction ", 9) == 0) {
        double a = operand(&at, &exact);
        *b = bits(a / operand(&at, &exact));
    } else {
        return false;
    }
    return exact && *at == '\0';
}

int main(void)
{
    char line[400];
    int checked = 0, wrong = 0;
    while (fgets(line, sizeof line, stdin) != NULL) {
        char *constant = strtok(line, "\t\n");
        char *decimal = strtok(NULL, "\t\n");
        char *pattern = strtok(NULL, "\t\n");
        checked++;
        uint64_t defined = 0;
        char *end = NULL;
        if (constant == NULL || decimal == NULL || pattern == NULL || !value(constant, &defined)) {
            printf("line %d can't be read\n", checked);
            wrong++;
            continue;
        }
        uint64_t read = bits(strtod(decimal, &end));
        uint64_t said = strtoull(pattern, NULL, 16);
        if (*end != '\0' || read != said || defined != said) {
            printf("%s: %016llX, its decimal %s: %016llX, listed: %016llX\n", constant, (unsigned long long)defined,
                   decimal, (unsigned long long)read, (unsigned long long)said);
            wrong++;
        }
    }
    printf("constants of the definitions: %d, %d wrong\n", checked, wrong);
    return checked > 0 && wrong == 0 ? 0 : 1;
}
