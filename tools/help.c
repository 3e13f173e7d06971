/* What the kinds are and what their options mean, in words; the limits are those of the header. */
#include "help.h"

#include <stddef.h>
#include <string.h>

#define RATE_HELP "  --rate HZ          samples a second; finite and above 0\n"
#define FORM_HELP                                                                                                      \
    "  --form F           text (if not said), one number a line; c, a constant array; or raw, little-endian bytes\n"
/* Taps are what the tickets on a card are for. */
#define TAP_HELP                                                                                                       \
    "  --q15              16-bit whole numbers in which 1 is 32768; no tap may be beyond 1.00997\n"                    \
    "  --f32              the nearest floats instead of doubles\n"                                                     \
    "  --delay            samples, with the half, by which the filter delays, instead of its taps\n"                   \
    "  --form F           text (if not said), one number a line; c, a constant array; raw, little-endian bytes; or\n"  \
    "                     card, the ticket as a record of a card instead of its taps: records one behind the\n"        \
    "                     other are a card, so that cat a.card b.card makes one of two\n"
#define SECTION_HELP                                                                                                   \
    "  --q14              16-bit whole numbers in which 1 is 16384; from -2 to just below 2\n"                         \
    "  --f32              the nearest floats instead of doubles\n" FORM_HELP
#define WINDOW_HELP                                                                                                    \
    "  --samples N        how many samples, as many as there is memory for\n"                                          \
    "  --symmetry S       periodic (if not said), as for spectra, or symmetric, as for filters\n"                      \
    "  --q15              16-bit whole numbers in which 1 is 32767, instead of floats\n"                               \
    "  --gain             the window's mean and its noise bandwidth in bins instead of its samples\n" FORM_HELP

static const struct help helps[] = {
    {"lowpass", "a low-pass filter by its cutoff, a window and a number of taps",
     "  --cutoff HZ        where the response is down to a half; above 0 and below half the rate\n" RATE_HELP
     "  --taps N           how many taps; 1 to 2^24\n"
     "  --window W         hann, hamming (if not said), blackman, kaiser or cosines\n"
     "  --beta B           the shape of Kaiser's window, which needs it; finite and not negative, and its series\n"
     "                     settles up to about 714\n"
     "  --coefficients C   the numbers c0 to c4 of the window cosines, which needs them: one to five, with commas\n"
     "                     between, each from -1 to 1, their sum within 2^-40 of 1; at tap i of n, with\n"
     "                     x = 2 pi i/(n - 1), it is c0 - c1 cos(x) + c2 cos(2x) - c3 cos(3x) + c4 cos(4x)\n"
     "  --turns LIST       then turn the knob: cutoff=HZ, cutoff=HZ@RATE or beta=B, with commas between; the taps are\n"
     "                     those of the last turn, and a turn that is refused is told with its words; the window\n"
     "                     cosines has no knob\n" TAP_HELP,
     "lowpass --cutoff 1000 --rate 8000 --taps 31 --window kaiser --beta 5.65326"},
    {"spec", "a low-pass filter by what it has to do, with as many taps as that needs",
     "  --cutoff HZ        the middle of the transition; above 0, and half the transition or more below half\n"
     "                     the rate\n"
     "  --transition HZ    from the end of the passband to the start of the stopband; finite and above 0, and\n"
     "                     wide enough for 2^24 taps\n"
     "  --attenuation DB   how deep the stopband is; finite, and 8 or more, and the window's series settles up to\n"
     "                     about 6488\n" RATE_HELP
     "  --max-taps N       refuse a design of more taps; 2^24 if not said\n" TAP_HELP,
     "spec --cutoff 1000 --transition 200 --attenuation 60 --rate 8000"},
    {"halfband", "a half-band filter by its taps, or by its transition",
     "  --taps N           how many taps; 3 mod 4, such as 3, 7 or 11, and at most 2^24\n"
     "  --beta B           the shape of Kaiser's window; finite and not negative, and its series settles up to\n"
     "                     about 714\n"
     "  --transition HZ    how wide the transition around a quarter of the rate is; finite and above 0, and\n"
     "                     wide enough for 2^24 taps\n"
     "  --attenuation DB   how deep the stopband is; finite, and 8 or more, and the window's series settles up to\n"
     "                     about 6488\n" RATE_HELP TAP_HELP,
     "halfband --transition 500 --attenuation 60 --rate 8000"},
    {"gaussian", "the Gaussian pulse of GFSK and GMSK",
     "  --bt X             the bandwidth in symbol rates; 0.2 to 1\n"
     "  --samples N        samples of a symbol; 2 or more, and with the span at most 2^24 taps\n"
     "  --span N           the length in symbols; 2 to 8\n" TAP_HELP,
     "gaussian --bt 0.5 --samples 8 --span 4"},
    {"rrc", "a root-raised-cosine pulse of energy 1",
     "  --rolloff X        the roll-off; 0.05 to 1\n"
     "  --samples N        samples of a symbol; 2 to 1024\n"
     "  --span N           the length in symbols; 4 to 32\n" TAP_HELP,
     "rrc --rolloff 0.25 --samples 8 --span 12"},
    {"channelizer", "the prototype low-pass of a channelizer",
     "  --channels N       how many channels; 4, 8, 16, 32, 64, 128 or 256\n"
     "  --branch N         taps of a branch, 4 to 32; as many as the edges need if not said\n"
     "  --passband X       where the passband ends, in channel spacings; finite and above 0\n"
     "  --stopband X       where the stopband starts, in channel spacings; above the passband, at most 1.5\n"
     "  --attenuation DB   how deep the stopband is; 20 to 120\n" TAP_HELP,
     "channelizer --channels 16 --passband 0.5 --stopband 1 --attenuation 60"},
    {"biquad", "one second-order section, b0 b1 b2 a1 a2 with a0 = 1",
     "  --response R       lowpass, highpass, bandpass or notch\n"
     "  --centre HZ        the centre or the corner; above 0 and below half the rate\n"
     "  --q Q              the quality; finite and above 0\n" RATE_HELP SECTION_HELP,
     "biquad --response notch --centre 1000 --q 5 --rate 48000"},
    {"butterworth", "a Butterworth filter as sections, b0 b1 b2 a1 a2 each with a0 = 1",
     "  --response R       lowpass or highpass\n"
     "  --order N          2 to 8; an odd one ends with a section of first order, its b2 and a2 being 0\n"
     "  --cutoff HZ        where the response is down by 3.01 dB; above 0 and below half the rate\n" RATE_HELP
         SECTION_HELP,
     "butterworth --response highpass --order 3 --cutoff 2000 --rate 48000"},
    {"preemphasis", "first-order pre-emphasis, b0 b1 a1 with a0 = 1",
     "  --tau SECONDS      the time constant; above 0, and a millisecond or less\n"
     "  --rate HZ          samples a second; finite, and 40000 or more\n"
     "  --f32              the nearest floats instead of doubles\n" FORM_HELP,
     "preemphasis --tau 50e-6 --rate 48000"},
    {"hann", "a Hann window", WINDOW_HELP, "hann --samples 64"},
    {"blackman-harris", "a Blackman-Harris window of four terms", WINDOW_HELP, "blackman-harris --samples 64"},
    {"kaiser", "a Kaiser window",
     "  --beta B           the window's shape; finite and not negative, and its series settles up to\n"
     "                     about 714\n" WINDOW_HELP,
     "kaiser --beta 8.6 --samples 64 --symmetry symmetric"},
    {"card", "the tickets on a card: a list with a verdict each, the taps of one, or the card with one corrected",
     "  FILE               the card, of 2^24 bytes at most; - reads standard input\n"
     "  --record N         design ticket N, counted from 1, instead of listing them all; all options below but\n"
     "                     --out go with it only\n"
     "  --set LIST         write the whole card with that ticket corrected, unless it is refused then: NAME=VALUE,\n"
     "                     with commas between, where a name is an option of the ticket's kind without its dashes,\n"
     "                     as in cutoff=1200,taps=63; of the options below only --out goes with it\n" TAP_HELP,
     "card field.card --record 2"},
};

const char every_help[] =
    "  --name NAME        what the array of --form c is called, a C identifier; taps if not said\n"
    "  --out FILE         write there, all or nothing, instead of to standard output\n"
    "  --plot FILE        draw the impulse and magnitude responses there too, as SVG\n"
    "  --help             this text\n";

const struct help *help_for(const char *name)
{
    for (size_t k = 0; k < sizeof helps / sizeof helps[0]; k++)
        if (strcmp(name, helps[k].name) == 0)
            return &helps[k];
    return NULL;
}
