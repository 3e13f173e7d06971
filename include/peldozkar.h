/* Peldozkar's filter designer: the functions that firmware calls.
 *
 * Link with libpeldozkar.a, which `make lib` writes; it is for x86-64 today. Each function is proved to give the value
 * that is said here for every argument, NaN, infinities, zeros of both signs, subnormal numbers and impossible counts
 * included; it allocates nothing, keeps nothing, calls nothing but memset and always returns. On the stack pel_lowpass,
 * pel_lowpass_cosines, pel_design_lowpass, pel_design_new_cutoff, pel_design_new_beta, pel_spec_design, pel_halfband,
 * pel_gaussian, pel_channelizer_prototype and pel_design_ticket take 10,272 bytes at most, the others under 1,920;
 * docs/FUNCTIONS.md has the bytes of each.
 *
 * The bits are the same on every reader: each operation is rounded once to a double, to the nearest, ties to even. A
 * NaN's sign and payload are free.
 *
 * For that the caller owes the floating-point environment that a C program starts with: rounding to nearest, no
 * flush-to-zero and no denormals-are-zero, exceptions masked. In another one nothing said here holds: where rounding is
 * toward zero, two Hann taps are accepted that must be refused; where it is upward, 146 of the 147 taps of a
 * specification are others. Status flags may be raised: a low-pass of one tap raises "invalid".
 *
 * A ticket, the numbers of one design and the buffer for it, is filled completely or refused by number with its buffer
 * as it came. A buffer is bytes, eight to a tap, little-endian, at any alignment. The caller owes what a C caller
 * always owes: `bytes` bytes at `out` that nobody else uses meanwhile, and a pointer that isn't null, also where
 * `bytes` is 0.
 */
#ifndef PELDOZKAR_H
#define PELDOZKAR_H

#include <stddef.h>
#include <stdint.h>

/* The version of this header and of the library that comes with it. */
#define PEL_VERSION_MAJOR 0
#define PEL_VERSION_MINOR 5
#define PEL_VERSION_PATCH 3
#define PEL_VERSION "0.5.3"

#ifdef __cplusplus
extern "C" {
#endif

/* ---- Elementary functions ------------------------------------------------------------------- */

/* The greatest whole number that is not above x, and the least that is not below it. Zeros keep their
 * sign, and pel_ceil(-0.5) is -0. NaN and infinities come back as they are. */
double pel_floor(double x);
double pel_ceil(double x);

/* x with its sign cleared. */
double pel_fabs(double x);

/* The double nearest the exact square root. A zero and +infinity give themselves, anything below zero
 * and NaN give NaN. Example: pel_sqrt(2.25) is 1.5. */
double pel_sqrt(double x);

/* Sine and cosine of x radians, for sizes up to 2^25, limits included; NaN beyond. They differ from
 * the true values by less than 3 units in the last place away from their zeros (measured, not proved:
 * docs/DIFFERENCES.md). */
double pel_sin(double x);
double pel_cos(double x);

/* e to the power x, for x from -700 to 0, limits included. 0 below -700, NaN above 0. */
double pel_exp(double x);

/* v to the power 0.4, for v from 0 to 29, limits included; NaN elsewhere. A zero of either sign gives
 * +0. Kaiser's formula for beta needs no more. */
double pel_pow04(double v);

/* ---- What a designer answers ------------------------------------------------------------------ */

/* The refusals by number, and what is wrong. The numbers are 1 to 14, and 16 to 19. Later versions add others, between
 * these and above them: a caller must treat every number but PEL_ACCEPTED as a refusal, those that it doesn't know
 * included. */
enum {
    PEL_ACCEPTED = 0,
    /* The ticket's author caused it. */
    PEL_BAD_RATE = 1,        /* the rate */
    PEL_BAD_FREQUENCY = 2,   /* the cutoff, the centre or a band edge */
    PEL_BAD_TRANSITION = 3,  /* the transition, or a length past 2^24 taps */
    PEL_BAD_ATTENUATION = 4, /* the attenuation or beta */
    PEL_BAD_SHAPE = 5,       /* the bandwidth bt, the roll-off, the quality q or the time constant */
    PEL_BAD_COUNT = 6,       /* a count: taps, order, span, samples, channels or branch */
    PEL_BAD_CODE = 7,        /* an unknown code, or a response that a Butterworth filter hasn't */
    /* The host program caused it. */
    PEL_BAD_LENGTH = 8,    /* the buffer's length */
    PEL_TOO_MANY_TAPS = 9, /* max_taps is below the number of taps needed */
    /* Arithmetic caused it. */
    PEL_BAD_SUM = 10,     /* the sum that the taps are divided by is 0 or not finite */
    PEL_BAD_ELEMENT = 11, /* an element that Q15 or Q14 can't take */
    /* The card caused it. */
    PEL_CUT_SHORT = 12,         /* the bytes end inside a record */
    PEL_UNKNOWN_KIND = 13,      /* a kind of ticket that isn't 1 to 6 */
    PEL_BAD_RECORD_LENGTH = 14, /* a record's length isn't its kind's */
    /* Arithmetic caused it. */
    PEL_NOT_SETTLED = 16, /* a Bessel series of Kaiser's window doesn't settle: take a beta of 713 or less, since above
                             about 714 none does */
    /* The ticket's author caused it. */
    PEL_BAD_COEFFICIENT_COUNT = 17, /* how many coefficients: not 1 to 5 */
    PEL_BAD_COEFFICIENT = 18,       /* a coefficient that isn't finite or whose size is above 1 */
    PEL_BAD_COEFFICIENT_SUM = 19    /* the exact sum of the coefficients is further than 2^-40 from 1 */
};

/* `number` is PEL_ACCEPTED where the ticket is accepted, and then `count` and `value` are the results. Otherwise it is
 * the refusal's number, and `carries` says which of the next fields belong to it. A field that does not apply is 0. */
typedef struct {
    uint32_t number;
    uint32_t carries; /* PEL_NOTHING and so on */
    double smallest;  /* PEL_RANGE, PEL_CAP, PEL_ELEMENT: the range, */
    double largest;
    double offered;    /* and the value that was offered */
    uint64_t expected; /* PEL_LENGTH: the length expected; PEL_CAP: the taps needed */
    uint64_t given;    /* PEL_LENGTH: the length given;    PEL_CAP: max_taps */
    uint64_t index;    /* PEL_ELEMENT: the element's index */
    /* Accepted, and of pel_bessel_i0 with 16 too: */
    uint64_t count; /* the number of taps, terms, half samples, samples, elements, coefficients, tickets or bytes */
    double value;   /* a divisor, a factor, a beta, a sum, or a Q15 or Q14 number */
} pel_report;

enum { PEL_NOTHING = 0, PEL_RANGE = 1, PEL_LENGTH = 2, PEL_CAP = 3, PEL_ELEMENT = 4 };

/* ---- Kaiser's formulas ------------------------------------------------------------------------ */

/* The modified Bessel function of order 0 by its power series: value is the sum, count the number of
 * terms taken, 1 to 500. It stops after the first term below 1e-17 of the sum, or after 500. The series is
 * settled where such a term was met, the 500th included, and the sum is finite. Where it isn't, NaN and
 * infinities among them, the number is 16, and value and count are told all the same: what was reached.
 * Every x of a size up to 713 is settled, which is proved; the last one found is 713.98690854396818.
 * Examples: pel_bessel_i0(0) has the value 1 and takes one term; pel_bessel_i0(714) has the number 16, an
 * infinite value and takes 387 terms. */
pel_report pel_bessel_i0(double x);

/* The shape of Kaiser's window for an attenuation in dB: 0.1102 (a - 8.7) above 50,
 * 0.5842 (a - 21)^0.4 + 0.07886 (a - 21) from 21 to 50, else 0, also for NaN. */
double pel_kaiser_beta(double attenuation);

/* The taps (count, odd) and beta (value) for a ripple in dB and a transition at a rate. Refused: 4 a
 * ripple whose size isn't finite or is below 8; 3 where 2 transition / rate isn't finite and positive;
 * 3 with (0, rate, transition) where more than 2^24 taps are estimated. Two negative signs are taken.
 * Example: (60, -100, -8000) has 293 taps. */
pel_report pel_kaiserord(double ripple, double transition, double rate);

/* The taps (count) of a half-band filter: kaiserord's, and 2 more where that leaves 1 over a multiple
 * of 4. Mind the order of the arguments. Refused as pel_kaiserord. Example: (-100, 60, -8000): 295. */
pel_report pel_halfband_len(double transition, double attenuation, double rate);

/* Half samples (count), two of which are a sample, that a linear-phase filter delays by: taps - 1, so that
 * the half of an even length is kept, for every count. Refused: 6 no taps. Example: 128 taps delay by 127
 * half samples, which is 63.5 samples. */
pel_report pel_delay(uint64_t taps);

/* ---- Low-pass filters ------------------------------------------------------------------------- */

enum { PEL_HANN = 0, PEL_HAMMING = 1, PEL_BLACKMAN = 2, PEL_KAISER = 3 };

/* A windowed-sinc low-pass of bytes/8 taps, divided by their sum. `beta` counts for PEL_KAISER alone.
 * Accepted: count is the number of taps, value the divisor. Refused, in this order, with `out` as it
 * came:
 *   7   an unknown window code
 *   8   bytes isn't a multiple of 8: expected the multiple below it, given, both in bytes
 *   1   a rate that isn't finite and positive
 *   2   (0, rate/2, cutoff) where cutoff/rate isn't between 0 and 1/2
 *   6   no taps, or more than 2^24
 *   4   a beta that isn't finite and not negative
 *   16  (PEL_KAISER) a series that the window takes isn't settled, that at beta or one at a tap: beta is above
 *       about 714. One tap takes no series
 *   10  a divisor that is 0 or not finite: too few taps for the window
 * Example: a quarter of the rate, Hann, one tap is 1; two taps are refused with 10. */
pel_report pel_lowpass(double cutoff, double rate, uint64_t window, double beta, uint8_t *out, size_t bytes);

/* The same judgement for a number of taps, without a buffer. */
pel_report pel_lowpass_new(double cutoff, double rate, uint64_t window, double beta, uint64_t taps);

/* A low-pass by what it has to do: `transition` wide around `cutoff`, `attenuation` dB beyond, at most
 * `max_taps` taps, by Kaiser's formulas. pel_spec_num_taps gives the number of taps (count),
 * pel_spec_design the taps themselves (count and divisor), pel_spec_lowpass the same without a buffer.
 * Refused, in this order:
 *   8   (pel_spec_design) bytes isn't a multiple of 8, both figures in bytes
 *   1   a rate that isn't finite and positive
 *   3   (0, rate/2, transition) where the transition isn't finite and positive
 *   2   (0, rate/2 - transition/2, cutoff), each operation rounded, where the cutoff isn't above 0 and at most that
 *   4, 3, 3  as pel_kaiserord
 *   9   max_taps is below the taps needed (expected)
 *   8   (pel_spec_design) the buffer isn't that many taps: expected and given in taps
 *   then as pel_lowpass, but for pel_spec_num_taps, which takes no series; 2, 6 (16777217 taps), 16 (above about
 *   6488 dB) and 10 can occur.
 * Example: 1000, 100, 60 dB at 8000 needs 293 taps; max_taps 292 gives 9, rate -8000 gives 1. */
pel_report pel_spec_num_taps(double cutoff, double transition, double attenuation, double rate, uint64_t max_taps);
pel_report pel_spec_lowpass(double cutoff, double transition, double attenuation, double rate, uint64_t max_taps);
pel_report pel_spec_design(double cutoff, double transition, double attenuation, double rate, uint64_t max_taps,
                           uint8_t *out, size_t bytes);

/* ---- A customer's own window -------------------------------------------------------------------- */

/* The coefficients of a cosine window: at tap i of n, with x = 2 PI i/(n - 1), it is
 *   c0 - c1 cos(x) + c2 cos(2x) - c3 cos(3x) + c4 cos(4x)
 * from left to right, with pel_cos; one tap has the window 1. */
typedef struct {
    double c0;
    double c1;
    double c2;
    double c3;
    double c4;
} pel_cosines;

/* The window to design with from now on, and the report. */
typedef struct {
    pel_cosines window;
    pel_report report;
} pel_loaded;

/* Loads a window of one to five coefficients, c0 first, eight bytes each, little-endian, at any alignment. They are
 * checked here, once, and not by the designs. Accepted: the window has the coefficients as they are, -0 as -0, and +0
 * for those not given; count is how many were given. Refused, in this order, with a window of five zeros:
 *   8   source_bytes isn't a multiple of 8: expected the multiple below it, given, both in bytes
 *   17  (1, 5, count) where the count isn't 1 to 5
 *   18  (-1, 1, the first such number) where a number isn't finite or is above 1 in size
 *   19  the exact sum is further than 2^-40 from 1; exactly so far is taken
 * Printed windows whose digits add up to 1 are taken: Hann 0.5, 0.5; Hamming 0.54, 0.46; Blackman 0.42, 0.5, 0.08;
 * Blackman-Harris 0.35875, 0.48829, 0.14128, 0.01168; Nuttall 0.355768, 0.487396, 0.144232, 0.012604. The flat top
 * 0.21557895, 0.41663158, 0.277263158, 0.083578947, 0.006947368 adds up to 1 + 3e-9 and is 19; with 0.215578947 as the
 * first number it is taken.
 * Example: 1, 2^-40 is taken; 1, 2^-40, 2^-1074 is 19; six numbers are 17 with (1, 5, 6). */
pel_loaded pel_load_cosines(const uint8_t *source, size_t source_bytes);

/* pel_lowpass and pel_lowpass_new with a loaded window, which needs no code and no beta. A loaded Hann, Hamming or
 * Blackman gives the bytes and the report of pel_lowpass with that code, bit for bit: proved. Accepted: count is the
 * number of taps, value the divisor. Refused, in this order, with `out` as it came:
 *   8   (pel_lowpass_cosines) bytes isn't a multiple of 8, both figures in bytes
 *   1   a rate that isn't finite and positive
 *   2   (0, rate/2, cutoff) where cutoff/rate isn't between 0 and 1/2
 *   6   no taps, or more than 2^24
 *   10  a divisor that is 0 or not finite
 * The window isn't checked again: one that pel_load_cosines didn't give is taken as it says. The zeros that a refused
 * load leaves are 10 for any number of taps but one, so look at the load's own number first.
 * A loaded window has no knob to turn: that saves the series of PEL_KAISER, which it hasn't, so a new design costs the
 * same.
 * Example: Blackman's 0.42, 0.5, 0.08 loaded: (1000, 8000, window, out, 248) gives the 31 taps that
 * (1000, 8000, PEL_BLACKMAN, 0, out, 248) gives. */
pel_report pel_lowpass_cosines(double cutoff, double rate, pel_cosines window, uint8_t *out, size_t bytes);
pel_report pel_lowpass_cosines_new(double cutoff, double rate, pel_cosines window, uint64_t taps);

/* ---- A low-pass whose knob is turned ------------------------------------------------------------ */

/* The record of a low-pass, which the caller keeps from one turn to the next and may copy; it needn't look inside. */
typedef struct {
    uint64_t taps;   /* how many */
    double fraction; /* the cutoff over the rate */
    uint64_t window; /* PEL_HANN and so on */
    double beta;     /* of PEL_KAISER, else 0 */
    double series;   /* what the window is divided by: the series at beta, 1 for the other windows; of one tap, whose
                        window is 1, the sum that the series at beta reached, settled or not */
    double sum;      /* what the taps are divided by */
} pel_design;

/* The record to keep from now on, and the report. */
typedef struct {
    pel_design design;
    pel_report report;
} pel_tuned;

/* pel_lowpass, with the record of the design besides: the same report and the same bytes. Where it is refused the
 * record is all zeros, which no design has. */
pel_tuned pel_design_lowpass(double cutoff, double rate, uint64_t window, double beta, uint8_t *out, size_t bytes);

/* Turns the knob: the low-pass of `design` with a new cutoff, given with its rate, or with a new beta, its taps in
 * `out` in the same call. After any list of turns, refused ones included, a record that was designed is the one, bit
 * for bit, that pel_design_lowpass gives for the numbers that were accepted last, and so are the taps: proved, for
 * every list.
 * Refused, in this order, with the record and `out` as they came:
 *   7   (pel_design_new_beta) a window other than PEL_KAISER, before anything else
 *   7   a window that has no code: a record that no design gave
 *   8   bytes isn't a multiple of 8, both figures in bytes
 *   8   the buffer isn't for as many taps as the record has: expected and given in taps
 *   then as pel_lowpass: 1, 2, 6, 4, 16, 10 for a new cutoff, 4, 16, 10 for a new beta. 16 goes by the beta and the
 *   taps, whatever series the record has. 6, for a new cutoff 4 and 16, and for a new beta 2 with (0, 1/2, fraction),
 *   come only of a record that no design gave; such a record is answered by what it says.
 * Example: from (1000, 8000, PEL_KAISER, 8) a new beta 6 gives what (1000, 8000, PEL_KAISER, 6) gives. */
pel_tuned pel_design_new_cutoff(pel_design design, double cutoff, double rate, uint8_t *out, size_t bytes);
pel_tuned pel_design_new_beta(pel_design design, double beta, uint8_t *out, size_t bytes);

/* ---- Half-band filters ------------------------------------------------------------------------ */

/* A half-band of bytes/8 taps with Kaiser's window: the low-pass at a quarter of the rate with every tap
 * at an even distance from the middle, but the middle itself, set to 0, the right half mirrored from the
 * left, and divided once more by the sum. Accepted: count is the number of taps, value the last divisor.
 * The taps are mirror images to the bit, for every accepted ticket. Refused, in this order, with `out` as
 * it came:
 *   8   bytes isn't a multiple of 8, both figures in bytes
 *   6   the taps aren't 3 mod 4, or are more than 2^24
 *   4   a beta that isn't finite and not negative
 *   16  a series that the window takes isn't settled, as pel_lowpass
 *   10  a divisor that is 0 or not finite
 * pel_halfband_len says how many taps a transition needs. Example: 5 taps are refused with 6. */
pel_report pel_halfband(double beta, uint8_t *out, size_t bytes);

/* The same judgement for a number of taps, without a buffer. */
pel_report pel_halfband_new(double beta, uint64_t taps);

/* ---- Pulses ----------------------------------------------------------------------------------- */

/* The Gaussian pulse of GFSK and GMSK, samples * span + 1 taps, divided by their sum: `bt` is the
 * bandwidth in symbol rates, `samples` those of a symbol, `span` the length in symbols. Accepted: count
 * is the number of taps, value the divisor. Refused, in this order, with `out` as it came:
 *   8   bytes isn't a multiple of 8, both figures in bytes
 *   5   (0.2, 1, bt)
 *   6   (2, 8, span)
 *   6   (2, (2^24 - 1)/span rounded down, samples)
 *   8   the buffer isn't that many taps: expected and given in taps
 * Example: (0.5, 8, 4) has 33 taps. */
pel_report pel_gaussian(double bt, uint64_t samples, uint64_t span, uint8_t *out, size_t bytes);

/* The same judgement without a buffer. */
pel_report pel_gaussian_new(double bt, uint64_t samples, uint64_t span);

/* The root-raised-cosine pulse, samples * span + 1 taps, times the factor that makes their energy 1:
 * `rolloff`, `samples` those of a symbol, `span` the length in symbols. Accepted: count is the number of
 * taps, value the factor. Refused, in this order, with `out` as it came:
 *   8   bytes isn't a multiple of 8, both figures in bytes
 *   5   (0.05, 1, rolloff)
 *   6   (2, 1024, samples)
 *   6   (4, 32, span)
 *   8   the buffer isn't that many taps: expected and given in taps
 * Mind that the Gaussian tests the span first. Example: (0.5, 8, 8) has 65 taps. */
pel_report pel_rrc(double rolloff, uint64_t samples, uint64_t span, uint8_t *out, size_t bytes);

/* The same judgement without a buffer. */
pel_report pel_rrc_new(double rolloff, uint64_t samples, uint64_t span);

/* How many taps (count) it has: span * samples + 1. Refused: 6, 6 as pel_rrc. Example: (2, 4) has 9. */
pel_report pel_rrc_len(uint64_t samples, uint64_t span);

/* ---- Channelizer ------------------------------------------------------------------------------ */

/* How many taps (count) Kaiser's estimate has for band edges in channel spacings, not made odd; and how
 * many of them a branch takes, rounded up. Refused, in this order:
 *   6   channels isn't a power of two from 4 to 256
 *   2   a passband that isn't finite and positive
 *   2   a stopband that isn't above the passband and at most 1.5
 *   4   (20, 120, attenuation)
 *   3   the estimate isn't finite or is above 2^24
 * Example: 16 channels, 0.5, 1, 60 dB: 118 taps, 8 a branch. */
pel_report pel_channelizer_taps(uint64_t channels, double passband, double stopband, double attenuation);
pel_report pel_channelizer_taps_per_branch(uint64_t channels, double passband, double stopband, double attenuation);

/* The prototype low-pass of channels * branch taps, its cutoff half way between the edges. Accepted:
 * count is the number of taps, value the divisor. Refused, in this order, with `out` as it came:
 *   8   bytes isn't a multiple of 8, both figures in bytes
 *   6   channels isn't a power of two from 4 to 256
 *   6   branch isn't 4 to 32
 *   2, 2, 4  as pel_channelizer_taps
 *   then as pel_lowpass at rate 1: 2 (a cutoff that underflows) can occur; a beta of 12.3 at most settles
 *   8   the buffer isn't that many taps: expected and given in taps
 * Example: 16 channels of 8 taps, 0.5, 1, 60 dB: 128 taps. */
pel_report pel_channelizer_prototype(uint64_t channels, uint64_t branch, double passband, double stopband,
                                     double attenuation, uint8_t *out, size_t bytes);

/* The same judgement without a buffer. */
pel_report pel_channelizer_lowpass(uint64_t channels, uint64_t branch, double passband, double stopband,
                                   double attenuation);

/* ---- Sections --------------------------------------------------------------------------------- */

enum { PEL_LOWPASS = 0, PEL_HIGHPASS = 1, PEL_BANDPASS = 2, PEL_NOTCH = 3 };

/* One second-order section of the RBJ Audio EQ Cookbook: b0, b1, b2, a1, a2 with a0 = 1, eight bytes each,
 * 40 in all. Accepted: count is 5. Refused, in this order, with `out` as it came:
 *   7   an unknown response
 *   8   bytes isn't 40: expected 40, given, in bytes
 *   2   (0, rate/2, centre) where the centre isn't between 0 and half of a finite rate; a bad rate is 2 too
 *   5   (0, infinity, q) where the quality isn't finite and positive
 * Extreme numbers can give NaN coefficients, as the formulas do: they are accepted.
 * Example: a high-pass at a quarter of the rate with q = 0.5 has b0, b1, b2 = 0.25, -0.5, 0.25. */
pel_report pel_biquad_coefs(uint64_t response, double centre, double q, double rate, uint8_t *out, size_t bytes);

/* A Butterworth low-pass or high-pass as such sections, one after the other: one for each two poles, that of
 * the lowest quality first, and last, where the order is odd, one of first order, whose b2 and a2 are 0. So
 * there are (order + 1)/2 of them, as whole numbers divide: 1, 2, 2, 3, 3, 4 and 4 for the orders 2 to 8.
 * Accepted: count is the number of coefficients, 5 a section. Refused, in this order, with `out` as it came:
 *   7   an unknown response
 *   8   bytes isn't a multiple of 8, both figures in bytes
 *   7   a band-pass or a notch
 *   6   an order below 2 or above 8
 *   8   the buffer isn't 5 numbers a section: expected and given in numbers
 *   2   (0, rate/2, cutoff) as pel_biquad_coefs
 * Extreme numbers can give NaN coefficients, as of a biquad.
 * Example: order 3 needs 80 bytes, and so does order 4; a low-pass of order 3 with the cutoff 0.25 at the
 * rate 1 ends with 0.5, 0.5, 0, 0, 0. */
pel_report pel_butterworth_sos(uint64_t response, uint64_t order, double cutoff, double rate, uint8_t *out,
                               size_t bytes);

/* First-order pre-emphasis with the time constant `tau` in seconds: b0, b1, a1 with a0 = 1, eight bytes
 * each, 24 in all. Accepted: count is 3. Refused, in this order, with `out` as it came:
 *   8   bytes isn't 24: expected 24, given, in bytes
 *   5   (0, 0.001, tau) where tau isn't above 0 and at most 0.001
 *   1   (40000, infinity, rate) where the rate isn't finite and at least 40000
 * A rate above half of the largest double gives NaN coefficients: it is accepted. */
pel_report pel_preemphasis_coefs(double tau, double rate, uint8_t *out, size_t bytes);

/* ---- Coefficients in other formats ------------------------------------------------------------ */

/* floor(32768 x + 0.5), held to -32768 and 32767; 0 for a NaN. So halves go up: 2^-16 gives 1, -2^-16
 * gives 0. */
int16_t pel_q15_from_f64(double x);

/* One tap as a Q15 number (value). Refused: 11 with the index 0 and (-limit, limit, tap) where the size
 * of the tap is above the limit, (1 - 1/32768) * 1.01, or it is a NaN. Example: 1 gives 32767, -1 gives
 * -32768, 1.01 is refused. */
pel_report pel_q15_tap(double tap);

/* One coefficient as a Q2.14 number (value), floor(16384 x + 0.5). Refused: 11 with the index 0 and
 * (-2, 2 - 1/16384, x) where that floor isn't in -32768 to 32767, or for a NaN; nothing is held to an end.
 * Example: -2 - 2^-15 gives -32768, 2 - 2^-15 is refused. */
pel_report pel_q14_from_f64(double x);

/* Converts coefficients, eight bytes each, to another format, little-endian both: to Q15 in two bytes, to
 * Q14 in two, to the nearest float (ties to even; infinity beyond the largest, 7FC00000 for a NaN) in four.
 * pel_to_q14 and pel_to_f32_sos take whole sections, five numbers each. Accepted: count is how many
 * numbers. Refused, in this order:
 *   8   source_bytes isn't a multiple of 8, both figures in bytes
 *   8   bytes isn't whole numbers of the format, both figures in bytes
 *   8   (pel_to_q14, pel_to_f32_sos) the source isn't whole sections: expected the multiple of five below,
 *       given, in numbers
 *   8   the destination isn't for as many numbers: expected and given in numbers
 *   11  (pel_to_q15, pel_to_q14) the first number that isn't taken, as pel_q15_tap or pel_q14_from_f64,
 *       with its index, counted from the first number of all
 * An 8 leaves `out` as it came. An 11 keeps the numbers before its index and leaves the rest as it came.
 * Source and destination must not overlap. */
pel_report pel_to_q15(const uint8_t *source, size_t source_bytes, uint8_t *out, size_t bytes);
pel_report pel_to_q14(const uint8_t *source, size_t source_bytes, uint8_t *out, size_t bytes);
pel_report pel_to_f32(const uint8_t *source, size_t source_bytes, uint8_t *out, size_t bytes);
pel_report pel_to_f32_sos(const uint8_t *source, size_t source_bytes, uint8_t *out, size_t bytes);

/* ---- Windows ---------------------------------------------------------------------------------- */

enum { PEL_PERIODIC = 0, PEL_SYMMETRIC = 1 };

/* As many samples of a window as the buffer has room for: floats of four bytes, or Q15 numbers of two, in
 * which 1 is 32767. A symmetric window of one sample is 1; a periodic one of one sample has the formula's
 * first value, which for Hann is 0 (docs/DIFFERENCES.md). An empty buffer is filled. Accepted: count is the
 * number of samples. Refused, in this order, with `out` as it came:
 *   7   an unknown symmetry
 *   8   bytes isn't whole samples: expected the multiple below it, given, both in bytes
 *   4   (Kaiser) a beta that isn't finite and not negative, also where the buffer is empty
 *   16  (Kaiser) a series that the window takes isn't settled, that at beta or one at a sample: beta is above
 *       about 714. An empty buffer and a symmetric window of one sample take no series
 * Example: four periodic Hann samples are 0, 0.5, 1, 0.5. */
pel_report pel_hann_f32(uint64_t symmetry, uint8_t *out, size_t bytes);
pel_report pel_hann_q15(uint64_t symmetry, uint8_t *out, size_t bytes);
pel_report pel_blackman_harris_f32(uint64_t symmetry, uint8_t *out, size_t bytes);
pel_report pel_blackman_harris_q15(uint64_t symmetry, uint8_t *out, size_t bytes);
pel_report pel_kaiser_f32(double beta, uint64_t symmetry, uint8_t *out, size_t bytes);
pel_report pel_kaiser_q15(double beta, uint64_t symmetry, uint8_t *out, size_t bytes);

/* What a window of `count` float samples does: the mean, and the noise-equivalent bandwidth in bins,
 * n sum(w^2) / sum(w)^2. Both are 0 for no samples; samples that sum to 0 have an infinite or NaN bandwidth.
 * `number` is 0, or 8 with PEL_LENGTH where source_bytes isn't a multiple of 4, both figures in bytes.
 * Example: 0, 0.5, 1, 0.5 have 0.5 and 1.5. */
typedef struct {
    uint32_t number;
    uint32_t carries;
    uint64_t expected;
    uint64_t given;
    uint64_t count;
    double gain;
    double bandwidth;
} pel_gain_report;

pel_gain_report pel_window_gain(const uint8_t *source, size_t source_bytes);

/* ---- Tickets on a card --------------------------------------------------------------------------- */

/* A card is records one behind the other: four bytes with the length of what follows, two with the kind, then the
 * kind's fields, eight bytes each, all little-endian. A float stands as its bits, a count as an unsigned number.
 *   kind                   fields                                                  length  bytes in all
 *   1 PEL_TICKET_LOWPASS      cutoff, rate, window 0 to 3, beta, count                 42            46
 *   2 PEL_TICKET_SPEC         cutoff, transition, attenuation, rate, max_taps          42            46
 *   3 PEL_TICKET_HALFBAND     beta, count                                              18            22
 *   4 PEL_TICKET_GAUSSIAN     bt, samples, span                                        26            30
 *   5 PEL_TICKET_RRC          rolloff, samples, span                                   26            30
 *   6 PEL_TICKET_CHANNELIZER  channels, branch, passband, stopband, attenuation        42            46 */
enum {
    PEL_TICKET_LOWPASS = 1,
    PEL_TICKET_SPEC = 2,
    PEL_TICKET_HALFBAND = 3,
    PEL_TICKET_GAUSSIAN = 4,
    PEL_TICKET_RRC = 5,
    PEL_TICKET_CHANNELIZER = 6
};

/* Bytes that have room for a record of any kind. */
enum { PEL_LONGEST_RECORD = 46 };

/* A ticket: its kind and the fields of its record in their order, floats as their bits, which a NaN's are too: memcpy
 * makes a double of one. Fields past the kind's are 0, and so is the beta of a window other than PEL_KAISER; nobody
 * looks at these. */
typedef struct {
    uint64_t kind;
    uint64_t fields[5];
} pel_ticket;

/* What reading finds: the ticket, and the report. */
typedef struct {
    pel_ticket ticket;
    pel_report report;
} pel_reading;

/* Reads the record that the bytes begin with; what follows it doesn't matter. Accepted: count is how many bytes the
 * record takes, so that source + count is the unread part. No field but the window is judged: that is for
 * pel_judge_ticket. Refused, in this order, with a ticket of zeros; all of the bytes stay unread then:
 *   12  fewer than six bytes
 *   13  a kind that isn't 1 to 6
 *   14  a length that isn't the kind's
 *   12  fewer bytes than the record takes
 *   7   a window above 3
 * Example: 18 0 0 0, 3 0, the eight bytes of 8.0 and those of 31 are a half-band's ticket and take 22 bytes. */
pel_reading pel_read_ticket(const uint8_t *source, size_t source_bytes);

/* What checking a card finds: how many tickets were read, at which byte reading ended, and the report. */
typedef struct {
    uint64_t tickets;
    uint64_t place;
    pel_report report;
} pel_card;

/* Reads a card record by record, to its end or to the first record that is refused. Accepted: the whole card was read,
 * place is source_bytes, and count is the number of tickets. Refused as pel_read_ticket refuses the bytes from place
 * on: the `tickets` records before it are whole. An empty card is accepted with no ticket. */
pel_card pel_check_card(const uint8_t *source, size_t source_bytes);

/* Writes a ticket as a record into a buffer that is as long as the record: count is how many bytes that is. No field
 * but the window is judged, and the bits of floats are kept, so that pel_read_ticket reads this very ticket, whatever
 * follows the record. Fields past the kind's aren't written, and the beta of a window other than PEL_KAISER is written
 * as zeros; a record that has zeros there is written as it was read, byte for byte. Refused, in this order, with `out`
 * as it came:
 *   13  a kind that isn't 1 to 6
 *   7   (kind 1) a window above 3: a loaded window has no code, and can't be written
 *   8   bytes isn't the record's length: expected and given in bytes
 * Example: kind 3, the bits of 8.0 and 31 make the 22 bytes of the example above. */
pel_report pel_write_ticket(pel_ticket ticket, uint8_t *out, size_t bytes);

/* Judges a ticket, as it would be designed into a buffer of its own length: count is its number of taps, value the
 * divisor (of kind 5 the factor) that the design's own function tells. Refused, in this order:
 *   13  a kind that isn't 1 to 6
 *   7   (kind 1) a window above 3
 *   then as pel_lowpass_new, pel_spec_lowpass, pel_halfband_new, pel_gaussian_new, pel_rrc_new or
 *   pel_channelizer_lowpass with the ticket's numbers. */
pel_report pel_judge_ticket(pel_ticket ticket);

/* Designs a ticket into a buffer of eight bytes a tap: what pel_lowpass, pel_spec_design, pel_halfband, pel_gaussian,
 * pel_rrc or pel_channelizer_prototype leave there and tell. Refused, in this order, with `out` as it came:
 *   13  a kind that isn't 1 to 6
 *   7   (kind 1) a window above 3
 *   8   bytes isn't a multiple of 8, both figures in bytes
 *   8   (kinds 1 and 3) the ticket's count isn't the buffer's number of taps: expected and given in taps
 *   then as that function; the other kinds have their own 8 there.
 * Example: a half-band ticket with beta 8 and count 31 fills 248 bytes as pel_halfband(8, out, 248) does. */
pel_report pel_design_ticket(pel_ticket ticket, uint8_t *out, size_t bytes);

#ifdef __cplusplus
}
#endif

#endif
