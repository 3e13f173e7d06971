/* Prints the elementary functions at a few values, through the C header: what `make functions` shows. */
#include <stdio.h>

#include "peldozkar.h"

struct row {
    const char *name;
    double (*function)(double);
    double at[4];
};

static const struct row rows[] = {
    {"floor", pel_floor, {2.5, -2.5, -0.5, 1e300}},
    {"ceil", pel_ceil, {2.5, -2.5, -0.5, 1e300}},
    {"fabs", pel_fabs, {2.5, -2.5, -0.0, 1e300}},
    {"sqrt", pel_sqrt, {2.25, 2.0, -1.0, 5e-324}},
    {"sin", pel_sin, {0.5, -100.0, 33554432.0, 33554433.0}},
    {"cos", pel_cos, {0.5, -100.0, 33554432.0, 33554433.0}},
    {"exp", pel_exp, {0.0, -0.5, -700.0, 1.0}},
    {"pow04", pel_pow04, {0.0, 1.0, 29.0, 30.0}},
};

int main(void)
{
    for (size_t i = 0; i < sizeof rows / sizeof rows[0]; i++) {
        for (size_t k = 0; k < sizeof rows[i].at / sizeof rows[i].at[0]; k++) {
            double x = rows[i].at[k];
            printf("%-5s(%.17g) = %.17g\n", rows[i].name, x, rows[i].function(x));
        }
    }
    return fflush(stdout) == 0 ? 0 : 1;
}
