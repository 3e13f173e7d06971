/* Calls every elementary export from C with good, bad and hostile arguments, and holds the answers to
 * known bits. Each expected value is from the definition, by hand or by the C library where that is
 * exact, never from the functions under test. */
#include "expect.h"

#include "peldozkar.h"

int main(void)
{
    const double nan_value = NAN, inf = INFINITY, tiny = 5e-324, huge = 1.7976931348623157e308;

    EXPECT(pel_floor(2.5), 2.0);
    EXPECT(pel_floor(-2.5), -3.0);
    EXPECT(pel_floor(-0.0), -0.0);
    EXPECT(pel_floor(-tiny), -1.0);
    EXPECT(pel_floor(4503599627370495.5), 4503599627370495.0);
    EXPECT(pel_ceil(-0.5), -0.0);
    EXPECT(pel_ceil(tiny), 1.0);
    EXPECT(pel_ceil(-inf), -inf);
    EXPECT(pel_fabs(-0.0), 0.0);
    EXPECT(pel_fabs(-inf), inf);
    EXPECT(pel_fabs(-tiny), tiny);

    EXPECT(pel_sqrt(2.25), 1.5);
    EXPECT(pel_sqrt(-0.0), -0.0);
    EXPECT(pel_sqrt(inf), inf);
    EXPECT(pel_sqrt(-inf), nan_value);
    EXPECT(pel_sqrt(-tiny), nan_value);
    EXPECT(pel_sqrt(tiny), of_bits(0x1E60000000000000)); /* 2^-537 */

    EXPECT(pel_sin(0.0), 0.0);
    EXPECT(pel_cos(0.0), 1.0);
    EXPECT(pel_sin(33554432.000000007), nan_value);
    EXPECT(pel_cos(-inf), nan_value);

    EXPECT(pel_exp(0.0), 1.0);
    EXPECT(pel_exp(-0.0), 1.0);
    EXPECT(pel_exp(-700.0000000000001), 0.0);
    EXPECT(pel_exp(-inf), 0.0);
    EXPECT(pel_exp(tiny), nan_value);

    EXPECT(pel_pow04(0.0), 0.0);
    EXPECT(pel_pow04(-0.0), 0.0);
    EXPECT(pel_pow04(1.0), 1.0);
    EXPECT(pel_pow04(29.000000000000004), nan_value);
    EXPECT(pel_pow04(-tiny), nan_value);

    /* The C library's floor, ceil, fabs and sqrt are exact or rounded once: they must agree everywhere.
     * The others must give a number inside their range and NaN (exp: 0 below) outside it. */
    uint64_t state = 1;
    for (int i = 0; i < 300000; i++) {
        state = state * 6364136223846793005u + 1442695040888963407u;
        double x = of_bits(state ^ state >> 29);
        expect("floor", pel_floor(x), floor(x));
        expect("ceil", pel_ceil(x), ceil(x));
        expect("fabs", pel_fabs(x), fabs(x));
        expect("sqrt", pel_sqrt(x), sqrt(x));
        int in_turns = fabs(x) <= 33554432.0, in_exp = x <= 0.0, in_power = x >= 0.0 && x <= 29.0;
        expect("sin is a number", isnan(pel_sin(x)) ? 1.0 : 0.0, in_turns ? 0.0 : 1.0);
        expect("cos is a number", isnan(pel_cos(x)) ? 1.0 : 0.0, in_turns ? 0.0 : 1.0);
        expect("exp is a number", isnan(pel_exp(x)) ? 1.0 : 0.0, in_exp ? 0.0 : 1.0);
        expect("pow04 is a number", isnan(pel_pow04(x)) ? 1.0 : 0.0, in_power ? 0.0 : 1.0);
        if (in_turns)
            expect("sin is near", fabs(pel_sin(x) - sin(x)) < 1e-15 ? 0.0 : 1.0, 0.0);
        if (in_exp && x >= -700.0)
            expect("exp is near", fabs(pel_exp(x) / exp(x) - 1.0) < 1e-15 ? 0.0 : 1.0, 0.0);
    }
    EXPECT(pel_floor(nan_value), nan_value);
    EXPECT(pel_floor(huge), huge);

    return tally("elementary functions");
}
