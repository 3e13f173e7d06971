/* Tickets on a card: check it, list its tickets and what each comes to, design one, correct one and write it back, and
 * see what broken cards say. */
#include <inttypes.h>
#include <peldozkar.h>
#include <stdio.h>

#include "taps.h"

enum { TAPS = 7, SECOND = 46, LAST = 98 };

/* Four records. Nobody uses the first one's beta, since its window is Hamming, and the last one's cutoff is a slip. */
static const uint8_t card[] = {
    42, 0, 0, 0, 1, 0,                /* a low-pass */
    0,  0, 0, 0, 0, 0x40, 0x8F, 0x40, /* cutoff 1000 */
    0,  0, 0, 0, 0, 0x40, 0xBF, 0x40, /* rate 8000 */
    1,  0, 0, 0, 0, 0,    0,    0,    /* window */
    0,  0, 0, 0, 0, 0,    0x20, 0x40, /* beta 8 */
    7,  0, 0, 0, 0, 0,    0,    0,    /* count */
    18, 0, 0, 0, 3, 0,                /* a half-band */
    0,  0, 0, 0, 0, 0,    0x20, 0x40, /* beta 8 */
    31, 0, 0, 0, 0, 0,    0,    0,    /* count */
    26, 0, 0, 0, 5, 0,                /* a root-raised cosine */
    0,  0, 0, 0, 0, 0,    0xE0, 0x3F, /* roll-off 0.5 */
    4,  0, 0, 0, 0, 0,    0,    0,    /* samples */
    8,  0, 0, 0, 0, 0,    0,    0,    /* span */
    42, 0, 0, 0, 1, 0,                /* a low-pass */
    0,  0, 0, 0, 0, 0x88, 0xB3, 0x40, /* cutoff 5000 */
    0,  0, 0, 0, 0, 0x40, 0xBF, 0x40, /* rate 8000 */
    3,  0, 0, 0, 0, 0,    0,    0,    /* window */
    0,  0, 0, 0, 0, 0,    0x20, 0x40, /* beta 8 */
    7,  0, 0, 0, 0, 0,    0,    0,    /* count */
};

/* The name of each kind, and its fields in order: f is a float, n a number. */
static const struct {
    const char *name;
    const char *fields;
} kinds[] = {
    {"", ""},
    {"low-pass", "ffnfn"},
    {"specification", "ffffn"},
    {"half-band", "fn"},
    {"Gaussian", "fnn"},
    {"root-raised cosine", "fnn"},
    {"channelizer", "nnfff"},
};

static void list(pel_ticket t)
{
    printf("%s", kinds[t.kind].name);
    for (size_t i = 0; kinds[t.kind].fields[i] != '\0'; i++) {
        double x;
        memcpy(&x, &t.fields[i], sizeof x);
        if (kinds[t.kind].fields[i] == 'f')
            printf(" %g", x);
        else
            printf(" %" PRIu64, t.fields[i]);
    }
}

/* Reading doesn't look at the numbers: whether a filter comes of them is for this to say. */
static void judge(pel_ticket t)
{
    pel_report r = pel_judge_ticket(t);
    if (r.number == PEL_ACCEPTED)
        printf(": %" PRIu64 " taps\n", r.count);
    else if (r.carries == PEL_RANGE)
        printf(": refused with %" PRIu32 ": %g isn't between %g and %g\n", r.number, r.offered, r.smallest, r.largest);
    else
        printf(": refused with %" PRIu32 "\n", r.number);
}

static void check(const char *name, const uint8_t *bytes, size_t length)
{
    pel_card c = pel_check_card(bytes, length);
    if (c.report.number == PEL_ACCEPTED)
        printf("%s: whole, tickets: %" PRIu64 "\n", name, c.tickets);
    else
        printf("%s: refused with %" PRIu32 " at byte %" PRIu64 ", tickets before it: %" PRIu64 "\n", name,
               c.report.number, c.place, c.tickets);
}

/* The card with one byte of it changed. */
static void check_changed(const char *name, size_t at, uint8_t to)
{
    uint8_t changed[sizeof card];
    memcpy(changed, card, sizeof card);
    changed[at] = to;
    check(name, changed, sizeof changed);
}

int main(void)
{
    uint8_t bytes[8 * TAPS];

    check("the card", card, sizeof card);
    for (size_t at = 0; at < sizeof card;) {
        pel_reading r = pel_read_ticket(card + at, sizeof card - at);
        if (r.report.number != PEL_ACCEPTED)
            return (int)r.report.number;
        printf("byte %zu: ", at);
        list(r.ticket);
        judge(r.ticket);
        at += (size_t)r.report.count; /* what is unread begins there */
    }

    /* A low-pass and a half-band say how many taps they have, and the buffer must be for as many. */
    pel_ticket first = pel_read_ticket(card, sizeof card).ticket;
    pel_report r = pel_design_ticket(first, bytes, sizeof bytes);
    if (r.number != PEL_ACCEPTED)
        return (int)r.number;
    for (size_t i = 0; i < TAPS; i++)
        printf("%7.4f\n", f64_at(bytes, i));
    r = pel_design_ticket(first, bytes, sizeof bytes - 8);
    if (r.number == PEL_BAD_LENGTH && r.carries == PEL_LENGTH)
        printf("refused with 8: a buffer for %" PRIu64 " taps, not %" PRIu64 "\n", r.expected, r.given);

    /* The slip is corrected, and the ticket written in its place: the record of a kind is always as long. */
    uint8_t corrected[sizeof card];
    memcpy(corrected, card, sizeof card);
    pel_reading last = pel_read_ticket(corrected + LAST, sizeof corrected - LAST);
    double cutoff = 500.0;
    memcpy(&last.ticket.fields[0], &cutoff, sizeof cutoff);
    r = pel_write_ticket(last.ticket, corrected + LAST, (size_t)last.report.count);
    if (r.number != PEL_ACCEPTED)
        return (int)r.number;
    check("the corrected card", corrected, sizeof corrected);
    pel_ticket again = pel_read_ticket(corrected + LAST, sizeof corrected - LAST).ticket;
    printf("byte %d: ", LAST);
    list(again);
    judge(again);
    r = pel_write_ticket(last.ticket, corrected, sizeof corrected);
    if (r.number == PEL_BAD_LENGTH && r.carries == PEL_LENGTH)
        printf("refused with 8: a buffer of %" PRIu64 " bytes, not %" PRIu64 "\n", r.expected, r.given);

    /* The tickets before the place are whole; what stands there can't be read, nor anything behind it. */
    check("a byte too few", card, sizeof card - 1);
    check_changed("kind 7", SECOND + 4, 7);
    check_changed("a length that counts itself", SECOND, 22);
    check_changed("window 4", 22, 4);
    return 0;
}
