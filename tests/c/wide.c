/* A Gaussian pulse with a tap that Q15 can't take, for the test of the command line: no ticket is known
 * whose taps are refused with 11, and the tool must still say it well. The tool is compiled with
 * pel_gaussian named wide_gaussian, and comes here for its taps. */
#undef pel_gaussian
#include "peldozkar.h"

pel_report wide_gaussian(double bt, uint64_t samples, uint64_t span, uint8_t *out, size_t bytes);

pel_report wide_gaussian(double bt, uint64_t samples, uint64_t span, uint8_t *out, size_t bytes)
{
    static const uint8_t one_and_a_half[8] = {0, 0, 0, 0, 0, 0, 0xF8, 0x3F};
    pel_report r = pel_gaussian(bt, samples, span, out, bytes);
    if (r.number == 0)
        for (size_t k = 0; k < 8; k++)
            out[bytes - 16 + k] = one_and_a_half[k];
    return r;
}
