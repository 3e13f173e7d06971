/* The kinds of coefficients: for each the exports that judge and fill it, and what a refusal means for it. */
#include "kinds.h"

#include <inttypes.h>
#include <stdbool.h>
#include <stdio.h>

#include "fields.h"
#include "lists.h"
#include "turns.h"

/* Said of more kinds than one. */
static const char bad_beta[] = "beta must be finite and not negative";
static const char bad_samples[] = "the samples of a symbol are out of range";
static const char bad_span[] = "the span, in symbols, is out of range";
static const char not_q14[] = "Q14 can't take a coefficient";

const char *common_meaning(uint32_t number)
{
    switch (number) {
    case PEL_BAD_RATE:
        return "the rate must be finite and positive";
    case PEL_BAD_TRANSITION:
        return "the transition must be finite and positive, and wide enough for 2^24 taps";
    case PEL_BAD_ATTENUATION:
        return "the attenuation must be finite, and 8 dB or more";
    case PEL_BAD_CODE:
        return "the window code is unknown";
    case PEL_BAD_LENGTH:
        return "the buffer's length is wrong";
    case PEL_TOO_MANY_TAPS:
        return "more taps are needed than --max-taps allows";
    case PEL_BAD_SUM:
        return "the sum that the taps are divided by is zero or not finite: too few taps for the window";
    case PEL_BAD_ELEMENT:
        return "a tap is too large for Q15";
    case PEL_CUT_SHORT:
        return "the card ends inside a record";
    case PEL_UNKNOWN_KIND:
        return "the kind of a ticket must be 1 to 6";
    case PEL_BAD_RECORD_LENGTH:
        return "a record's length must be its kind's";
    default:
        return "the ticket is refused";
    }
}

const char *meaning_of(const struct kind *k, const struct ticket *t, const pel_report *r)
{
    const char *meaning = k->meaning(t, r);
    return meaning != NULL ? meaning : common_meaning(r->number);
}

static void say_after(FILE *to, const char *before, double x)
{
    fputs(before, to);
    say_number(to, x);
}

void say_refusal(FILE *to, const struct kind *k, const struct ticket *t, const pel_report *r)
{
    fprintf(to, "refused with %" PRIu32 ": %s", r->number, meaning_of(k, t, r));
    if (r->carries == PEL_RANGE || r->carries == PEL_ELEMENT) {
        if (r->carries == PEL_ELEMENT)
            fprintf(to, " (index %" PRIu64, r->index);
        say_after(to, r->carries == PEL_ELEMENT ? ", smallest " : " (smallest ", r->smallest);
        say_after(to, ", largest ", r->largest);
        say_after(to, ", offered ", r->offered);
        fputc(')', to);
    }
    if (r->carries == PEL_LENGTH)
        fprintf(to, " (expected %" PRIu64 ", given %" PRIu64 ")", r->expected, r->given);
    if (r->carries == PEL_CAP)
        fprintf(to, " (needed %" PRIu64 ", allowed %" PRIu64 ")", r->expected, r->given);
}

/* A series that doesn't settle, and what to do about it: by the beta, or by the attenuation that beta is for, whose size
 * counts. */
static const char *unsettled(const char *before, double x, const char *after)
{
    static char text[200];
    snprintf(text, sizeof text, "a Bessel series of Kaiser's window doesn't settle at %s%s%s", before, words_of(x).text,
             after);
    return text;
}

static const char *unsettled_beta(double beta)
{
    return unsettled("beta ", beta, ": take a beta of 713 or less (above about 714 none settles)");
}

static const char *unsettled_attenuation(double attenuation)
{
    return unsettled("", pel_fabs(attenuation), " dB: take 6478 dB or less (above about 6488 dB none settles)");
}

static pel_report counted(uint64_t n)
{
    return (pel_report){.count = n};
}

/* ---- Low-pass and half-band filters ------------------------------------------------------------ */

/* A customer's own window is loaded first. The knob has no code for it, and says so before anything else. */
static pel_report judge_lowpass(struct ticket *t)
{
    if (t->window != OWN_WINDOW || t->turns != NULL)
        return pel_lowpass_new(t->cutoff, t->rate, t->window, t->beta, t->taps);
    pel_loaded l = pel_load_cosines(t->numbers, t->numbers_bytes);
    if (l.report.number != PEL_ACCEPTED)
        return l.report;
    t->own = l.window;
    return pel_lowpass_cosines_new(t->cutoff, t->rate, t->own, t->taps);
}

/* The turn that was refused, in its list; without letters where none was. */
static struct turn refused;

/* The design, and then its knob turned through the list, up to a turn that is refused. */
static pel_report fill_lowpass(const struct ticket *t, uint8_t *out, size_t bytes)
{
    if (t->window == OWN_WINDOW)
        return pel_lowpass_cosines(t->cutoff, t->rate, t->own, out, bytes);
    const char *list = t->turns != NULL ? t->turns : "";
    struct turn turn = {.rate = t->rate};
    pel_tuned k = pel_design_lowpass(t->cutoff, t->rate, t->window, t->beta, out, bytes);
    while (k.report.number == PEL_ACCEPTED && take_turn(&list, &turn)) {
        if (turn.beta)
            k = pel_design_new_beta(k.design, turn.to, out, bytes);
        else
            k = pel_design_new_cutoff(k.design, turn.to, turn.rate, out, bytes);
        if (k.report.number != PEL_ACCEPTED)
            refused = turn;
    }
    return k.report;
}

/* Which number of the list it is, as the formula calls it and as it stands there. */
static const char *outside(const char *list)
{
    static char text[100];
    double x = 0.0;
    int k = 0;
    while (take_listed(&list, &x) && pel_fabs(x) <= 1.0)
        k++;
    snprintf(text, sizeof text, "a coefficient must be finite and from -1 to 1, and c%d, number %d of them, isn't", k,
             k + 1);
    return text;
}

/* The sum as far as a double tells it: what is judged is the exact one. */
static const char *off_one(const char *list)
{
    static const char rule[] = "the coefficients must add up to 1, or miss it by 2^-40 (about 9.09e-13) at most";
    static char text[200];
    double x, sum = 0.0;
    while (take_listed(&list, &x))
        sum += x;
    snprintf(text, sizeof text, "%s; as far as a double tells, they add up to %s", rule, words_of(sum).text);
    return text;
}

static const char *no_code(const struct ticket *t)
{
    if (t->window != OWN_WINDOW)
        return "only Kaiser's window has a beta to turn";
    if (t->form == AS_CARD)
        return own_window_on_card;
    return "a window of --coefficients has no knob: leave --turns out, and design anew";
}

static const char *lowpass_meaning(const struct ticket *t, uint32_t number)
{
    switch (number) {
    case PEL_BAD_FREQUENCY:
        return "the cutoff must lie above 0 and below half the rate";
    case PEL_BAD_ATTENUATION:
        return bad_beta;
    case PEL_BAD_COUNT:
        return "the number of taps must be from 1 to 2^24";
    case PEL_BAD_CODE:
        return no_code(t);
    case PEL_NOT_SETTLED:
        return unsettled_beta(refused.beta ? refused.to : t->beta);
    case PEL_BAD_COEFFICIENT_COUNT:
        return "a window has one to five coefficients";
    case PEL_BAD_COEFFICIENT:
        return outside(t->coefficients);
    case PEL_BAD_COEFFICIENT_SUM:
        return off_one(t->coefficients);
    default:
        return common_meaning(number);
    }
}

/* A turn's refusal begins with the turn. */
static const char *mean_lowpass(const struct ticket *t, const pel_report *r)
{
    static char text[300];
    const char *meaning = lowpass_meaning(t, r->number);
    if (refused.letters == 0)
        return meaning;
    snprintf(text, sizeof text, "at the turn %.*s, %s", refused.letters < 80 ? refused.letters : 80, refused.word,
             meaning);
    return text;
}

static pel_report judge_spec(struct ticket *t)
{
    return pel_spec_num_taps(t->cutoff, t->transition, t->attenuation, t->rate, t->max_taps);
}

static pel_report fill_spec(const struct ticket *t, uint8_t *out, size_t bytes)
{
    return pel_spec_design(t->cutoff, t->transition, t->attenuation, t->rate, t->max_taps, out, bytes);
}

static const char *mean_spec(const struct ticket *t, const pel_report *r)
{
    switch (r->number) {
    case PEL_BAD_FREQUENCY:
        return "the cutoff must lie above 0, and half the transition or more below half the rate";
    case PEL_BAD_COUNT:
        return "these numbers ask for more than 2^24 taps";
    case PEL_NOT_SETTLED:
        return unsettled_attenuation(t->attenuation);
    default:
        return NULL;
    }
}

static pel_report judge_halfband(struct ticket *t)
{
    return pel_halfband_new(t->beta, t->taps);
}

static pel_report judge_halfband_by_transition(struct ticket *t)
{
    pel_report r = pel_halfband_len(t->transition, t->attenuation, t->rate);
    if (r.number != PEL_ACCEPTED)
        return r;
    t->taps = r.count;
    /* The length goes by the attenuation's size, so the window does too. */
    t->beta = pel_kaiser_beta(pel_fabs(t->attenuation));
    return judge_halfband(t);
}

static pel_report fill_halfband(const struct ticket *t, uint8_t *out, size_t bytes)
{
    return pel_halfband(t->beta, out, bytes);
}

static const char *mean_halfband(const struct ticket *t, const pel_report *r)
{
    bool by_transition = (t->given & TRANSITION) != 0;
    switch (r->number) {
    case PEL_BAD_ATTENUATION:
        return by_transition ? NULL : bad_beta;
    case PEL_BAD_COUNT:
        if (by_transition)
            return "these numbers ask for more than 2^24 taps";
        return "the number of taps must be 3 mod 4, such as 3, 7 or 11, and at most 2^24";
    case PEL_NOT_SETTLED:
        return by_transition ? unsettled_attenuation(t->attenuation) : unsettled_beta(t->beta);
    default:
        return NULL;
    }
}

/* ---- Pulses ------------------------------------------------------------------------------------ */

static pel_report judge_gaussian(struct ticket *t)
{
    return pel_gaussian_new(t->bt, t->samples, t->span);
}

static pel_report fill_gaussian(const struct ticket *t, uint8_t *out, size_t bytes)
{
    return pel_gaussian(t->bt, t->samples, t->span, out, bytes);
}

static const char *mean_gaussian(const struct ticket *t, const pel_report *r)
{
    (void)t;
    switch (r->number) {
    case PEL_BAD_SHAPE:
        return "the bandwidth bt, in symbol rates, is out of range";
    case PEL_BAD_COUNT: /* the samples' own largest is above two million */
        return r->largest == 8.0 ? bad_span : bad_samples;
    default:
        return NULL;
    }
}

static pel_report judge_rrc(struct ticket *t)
{
    return pel_rrc_new(t->rolloff, t->samples, t->span);
}

static pel_report fill_rrc(const struct ticket *t, uint8_t *out, size_t bytes)
{
    return pel_rrc(t->rolloff, t->samples, t->span, out, bytes);
}

static const char *mean_rrc(const struct ticket *t, const pel_report *r)
{
    (void)t;
    switch (r->number) {
    case PEL_BAD_SHAPE:
        return "the roll-off is out of range";
    case PEL_BAD_COUNT: /* the samples' own largest is 1024 */
        return r->largest == 32.0 ? bad_span : bad_samples;
    default:
        return NULL;
    }
}

/* ---- Channelizer ------------------------------------------------------------------------------- */

static pel_report judge_channelizer(struct ticket *t)
{
    if ((t->given & BRANCH) == 0) {
        pel_report r = pel_channelizer_taps_per_branch(t->channels, t->passband, t->stopband, t->attenuation);
        if (r.number != PEL_ACCEPTED)
            return r;
        t->branch = r.count;
    }
    return pel_channelizer_lowpass(t->channels, t->branch, t->passband, t->stopband, t->attenuation);
}

static pel_report fill_channelizer(const struct ticket *t, uint8_t *out, size_t bytes)
{
    return pel_channelizer_prototype(t->channels, t->branch, t->passband, t->stopband, t->attenuation, out, bytes);
}

static const char *mean_channelizer(const struct ticket *t, const pel_report *r)
{
    static char text[100];
    switch (r->number) {
    case PEL_BAD_FREQUENCY:
        if (r->carries == PEL_RANGE)
            return "the cutoff half way between the edges is too small";
        return "the passband must be finite and above 0, the stopband above it and at most 1.5";
    case PEL_BAD_TRANSITION:
        return "the edges are so near each other that more than 2^24 taps are needed";
    case PEL_BAD_ATTENUATION:
        return "the attenuation, in dB, is out of range";
    case PEL_BAD_COUNT:
        /* The estimate judges the channels first, and no branch. */
        if (pel_channelizer_taps(t->channels, t->passband, t->stopband, t->attenuation).number == PEL_BAD_COUNT)
            return "the channels must be 4, 8, 16, 32, 64, 128 or 256";
        snprintf(text, sizeof text, "a branch must have 4 to 32 taps, and %s %" PRIu64,
                 (t->given & BRANCH) != 0 ? "was given" : "these edges need", t->branch);
        return text;
    default:
        return NULL;
    }
}

/* ---- Sections ---------------------------------------------------------------------------------- */

static pel_report judge_biquad(struct ticket *t)
{
    (void)t;
    return counted(5);
}

static pel_report fill_biquad(const struct ticket *t, uint8_t *out, size_t bytes)
{
    return pel_biquad_coefs(t->response, t->centre, t->q, t->rate, out, bytes);
}

static const char *mean_biquad(const struct ticket *t, const pel_report *r)
{
    (void)t;
    switch (r->number) {
    case PEL_BAD_FREQUENCY:
        return "the centre must lie above 0 and below half of a finite rate";
    case PEL_BAD_SHAPE:
        return "the quality q must be finite and positive";
    case PEL_BAD_ELEMENT:
        return not_q14;
    default:
        return NULL;
    }
}

/* An empty buffer is refused with the numbers that it should have, where the response and the order are good. */
static pel_report judge_butterworth(struct ticket *t)
{
    uint8_t nothing = 0;
    pel_report r = pel_butterworth_sos(t->response, t->order, t->cutoff, t->rate, &nothing, 0);
    return r.number == PEL_BAD_LENGTH ? counted(r.expected) : r;
}

static pel_report fill_butterworth(const struct ticket *t, uint8_t *out, size_t bytes)
{
    return pel_butterworth_sos(t->response, t->order, t->cutoff, t->rate, out, bytes);
}

static const char *mean_butterworth(const struct ticket *t, const pel_report *r)
{
    (void)t;
    switch (r->number) {
    case PEL_BAD_FREQUENCY:
        return "the cutoff must lie above 0 and below half of a finite rate";
    case PEL_BAD_COUNT:
        return "the order must be 2 to 8";
    case PEL_BAD_CODE:
        return "a Butterworth filter is a low-pass or a high-pass";
    case PEL_BAD_ELEMENT:
        return not_q14;
    default:
        return NULL;
    }
}

static pel_report judge_preemphasis(struct ticket *t)
{
    (void)t;
    return counted(3);
}

static pel_report fill_preemphasis(const struct ticket *t, uint8_t *out, size_t bytes)
{
    return pel_preemphasis_coefs(t->tau, t->rate, out, bytes);
}

static const char *mean_preemphasis(const struct ticket *t, const pel_report *r)
{
    (void)t;
    switch (r->number) {
    case PEL_BAD_RATE:
        return "the rate must be finite, and 40 kHz or more";
    case PEL_BAD_SHAPE:
        return "the time constant tau must be above 0, and a millisecond or less";
    default:
        return NULL;
    }
}

/* ---- Windows ----------------------------------------------------------------------------------- */

/* Nothing of a window's numbers is refused but Kaiser's beta, and memory sets the only limit to its samples. */
static pel_report judge_window(struct ticket *t)
{
    return counted(t->samples);
}

/* beta is judged for an empty buffer too. Two samples take the series at beta, as any more do, and what is refused for
 * two is refused for them: so no memory is wanted for that. */
static pel_report judge_kaiser(struct ticket *t)
{
    uint8_t two[2 * 4];
    pel_report r = pel_kaiser_f32(t->beta, t->symmetry, two, t->samples < 2 ? 4 * (size_t)t->samples : sizeof two);
    return r.number == PEL_ACCEPTED ? judge_window(t) : r;
}

static bool as_q15(const struct ticket *t)
{
    return (t->given & Q15) != 0;
}

static pel_report fill_hann(const struct ticket *t, uint8_t *out, size_t bytes)
{
    return (as_q15(t) ? pel_hann_q15 : pel_hann_f32)(t->symmetry, out, bytes);
}

static pel_report fill_blackman_harris(const struct ticket *t, uint8_t *out, size_t bytes)
{
    return (as_q15(t) ? pel_blackman_harris_q15 : pel_blackman_harris_f32)(t->symmetry, out, bytes);
}

static pel_report fill_kaiser(const struct ticket *t, uint8_t *out, size_t bytes)
{
    return (as_q15(t) ? pel_kaiser_q15 : pel_kaiser_f32)(t->beta, t->symmetry, out, bytes);
}

static const char *mean_window(const struct ticket *t, const pel_report *r)
{
    switch (r->number) {
    case PEL_BAD_ATTENUATION:
        return bad_beta;
    case PEL_NOT_SETTLED:
        return unsettled_beta(t->beta);
    default:
        return NULL;
    }
}

/* ---- The table --------------------------------------------------------------------------------- */

#define WINDOW_USAGE "--samples N [--symmetry periodic|symmetric]"
#define RESPONSE_USAGE "--response lowpass|highpass|bandpass|notch"

const struct kind kinds[KINDS] = {
    {"lowpass",
     "--cutoff HZ --rate HZ --taps N [--window hann|hamming|blackman|kaiser|cosines] [--beta B] [--coefficients C] "
     "[--turns LIST]",
     CUTOFF | RATE | TAPS, WINDOW | BETA | COEFFICIENTS | TURNS, "taps", tap_forms, TAP_PARTS, show_lowpass,
     judge_lowpass, fill_lowpass, mean_lowpass},
    {"spec", "--cutoff HZ --transition HZ --attenuation DB --rate HZ [--max-taps N]",
     CUTOFF | TRANSITION | ATTENUATION | RATE, MAX_TAPS, "taps", tap_forms, TAP_PARTS, show_spec, judge_spec, fill_spec,
     mean_spec},
    {"halfband", "--taps N --beta B", TAPS | BETA, 0, "taps", tap_forms, TAP_PARTS, show_halfband, judge_halfband,
     fill_halfband, mean_halfband},
    {"halfband", "--transition HZ --attenuation DB --rate HZ", TRANSITION | ATTENUATION | RATE, 0, "taps", tap_forms,
     TAP_PARTS, show_halfband, judge_halfband_by_transition, fill_halfband, mean_halfband},
    {"gaussian", "--bt X --samples N --span N", BT | SAMPLES | SPAN, 0, "taps", tap_forms, TAP_PARTS, show_gaussian,
     judge_gaussian, fill_gaussian, mean_gaussian},
    {"rrc", "--rolloff X --samples N --span N", ROLLOFF | SAMPLES | SPAN, 0, "taps", tap_forms, TAP_PARTS, show_rrc,
     judge_rrc, fill_rrc, mean_rrc},
    {"channelizer", "--channels N [--branch N] --passband X --stopband X --attenuation DB",
     CHANNELS | PASSBAND | STOPBAND | ATTENUATION, BRANCH, "taps", tap_forms, TAP_PARTS, show_channelizer,
     judge_channelizer, fill_channelizer, mean_channelizer},
    {"biquad", RESPONSE_USAGE " --centre HZ --q Q --rate HZ", RESPONSE | CENTRE | QUALITY | RATE, 0, "coefficients",
     section_forms, SECTION_PARTS, show_biquad, judge_biquad, fill_biquad, mean_biquad},
    {"butterworth", "--response lowpass|highpass --order N --cutoff HZ --rate HZ", RESPONSE | ORDER | CUTOFF | RATE, 0,
     "coefficients", section_forms, SECTION_PARTS, show_butterworth, judge_butterworth, fill_butterworth,
     mean_butterworth},
    {"preemphasis", "--tau SECONDS --rate HZ", TAU | RATE, 0, "coefficients", preemphasis_forms, FIRST_ORDER,
     show_preemphasis, judge_preemphasis, fill_preemphasis, mean_preemphasis},
    {"hann", WINDOW_USAGE, SAMPLES, SYMMETRY, "samples", window_forms, WINDOW_PARTS, show_hann, judge_window, fill_hann,
     mean_window},
    {"blackman-harris", WINDOW_USAGE, SAMPLES, SYMMETRY, "samples", window_forms, WINDOW_PARTS, show_blackman_harris,
     judge_window, fill_blackman_harris, mean_window},
    {"kaiser", "--beta B " WINDOW_USAGE, BETA | SAMPLES, SYMMETRY, "samples", window_forms, WINDOW_PARTS, show_kaiser,
     judge_kaiser, fill_kaiser, mean_window},
    {"card", "FILE", CARD, 0, "tickets", list_forms, TAP_PARTS, NULL, NULL, NULL, NULL},
    {"card", "FILE --record N", CARD | RECORD, 0, "taps", tap_forms, TAP_PARTS, NULL, NULL, NULL, NULL},
    {"card", "FILE --record N --set LIST", CARD | RECORD | SET, 0, "tickets", list_forms, TAP_PARTS, NULL, NULL, NULL,
     NULL},
};
