/* Low-passes with Kaiser's window, and how many float divisions each took: tests/divisions puts a call of `counted` in
 * the place of every division. A line for each number of taps: the taps, a sum over their bytes, and the divisions of
 * each kind. */
#include "peldozkar.h"
#include <inttypes.h>
#include <stdio.h>
#include <stdlib.h>

enum { KINDS = 4 };
static uint64_t divisions[KINDS];

double counted(int kind, double a, double b);

double counted(int kind, double a, double b)
{
    divisions[kind]++;
    return a / b;
}

int main(int argc, char **argv)
{
    for (int k = 1; k < argc; k++) {
        size_t bytes = 8 * (size_t)strtoul(argv[k], NULL, 10);
        uint8_t *taps = malloc(bytes);
        if (taps == NULL)
            return 1;
        for (int kind = 0; kind < KINDS; kind++)
            divisions[kind] = 0;
        pel_report r = pel_lowpass(0.1, 1.0, PEL_KAISER, 5.65326, taps, bytes);
        if (r.number != PEL_ACCEPTED) {
            fprintf(stderr, "divisions: %s taps are refused with %" PRIu32 "\n", argv[k], r.number);
            return 1;
        }
        /* FNV-1a: that two lists of taps have the same sum by chance is one in 2^64. */
        uint64_t sum = UINT64_C(0xCBF29CE484222325);
        for (size_t i = 0; i < bytes; i++)
            sum = (sum ^ taps[i]) * UINT64_C(0x100000001B3);
        printf("%zu %" PRIx64, bytes / 8, sum);
        for (int kind = 0; kind < KINDS; kind++)
            printf(" %" PRIu64, divisions[kind]);
        printf("\n");
        free(taps);
    }
    return 0;
}
