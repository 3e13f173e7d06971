/* Counting checks for the C tests: by bits, any NaN matching any NaN. */
#ifndef EXPECT_H
#define EXPECT_H

#include <math.h>
#include <stdint.h>
#include <stdio.h>
#include <string.h>

static int wrong;
static int checked;

static inline uint64_t bits(double x)
{
    uint64_t b;
    memcpy(&b, &x, sizeof b);
    return b;
}

static inline double of_bits(uint64_t b)
{
    double x;
    memcpy(&x, &b, sizeof x);
    return x;
}

static inline void expect(const char *what, double got, double want)
{
    checked++;
    if (bits(got) == bits(want) || (isnan(got) && isnan(want)))
        return;
    wrong++;
    printf("%s gives %.17g (%016llX), not %.17g (%016llX)\n", what, got, (unsigned long long)bits(got), want,
           (unsigned long long)bits(want));
}

static inline void expect_count(const char *what, uint64_t got, uint64_t want)
{
    checked++;
    if (got == want)
        return;
    wrong++;
    printf("%s gives %llu, not %llu\n", what, (unsigned long long)got, (unsigned long long)want);
}

static inline int tally(const char *name)
{
    printf("C, %s: %d checks, %d wrong\n", name, checked, wrong);
    return wrong == 0 ? 0 : 1;
}

#define EXPECT(call, want) expect(#call, call, want)
#define COUNT(array) (sizeof array / sizeof array[0])

#endif
