/* What the C tests of designers share: lent buffers in which every stray byte shows, and reports held
 * to every field. Included first, because it asks the system for mmap.
 *
 * Each program has worked examples: their answers are known from outside, and each says from where, the scope
 * document, the Rust's own examples, a paper or a computation by hand. What the port has beside its exports is held
 * to its examples by the export with the same definition:
 *   firwin_lowpass, the taps of Lowpass      pel_lowpass
 *   new_cutoff, new_beta                     pel_design_new_cutoff, pel_design_new_beta
 *   DesignSpec's design                      pel_spec_design
 *   halfband_taps, HalfbandDesign's taps     pel_halfband
 *   gaussian, rrc, channelizer_prototype     the export of that name
 *   q15_tap, q14_from_f64 at an index        pel_to_q15, pel_to_q14
 *   an f64 as an f32, and its pattern        pel_to_f32, pel_to_f32_sos
 *   fill_f32, fill_q15                       pel_hann_f32, pel_hann_q15 and those of the other two windows
 *   window_gain of a slice                   pel_window_gain
 * The zeros that a refused section has beside its verdict are in no buffer: there it stays as it came. */
#ifndef TICKET_H
#define TICKET_H

#define _DEFAULT_SOURCE
#include <stdlib.h>
#include <sys/mman.h>
#include <unistd.h>

#include "expect.h"

#include "peldozkar.h"

/* ---- Lent buffers ------------------------------------------------------------------------------ */

#define GUARD 64
#define MARK 0xA5
#define ROOM ((size_t)1 << 19)

/* The library isn't compiled with the sanitizers, so they alone would miss its strays. A buffer therefore
 * either ends exactly where a page begins that nobody may touch, or lies at an odd address with marks on
 * both sides; every test runs both ways. */
static int at_odd_address;

struct lent {
    uint8_t *region, *at;
    size_t bytes, after; /* how many marks follow */
};

static inline uint8_t *forbidden(size_t bytes)
{
    void *p = mmap(NULL, bytes, PROT_NONE, MAP_PRIVATE | MAP_ANONYMOUS | MAP_NORESERVE, -1, 0);
    if (p == MAP_FAILED)
        abort();
    return p;
}

/* The buffer with its marks, and marked itself. */
static inline uint8_t *lend_in(struct lent *b, size_t bytes)
{
    if (b->region == NULL) {
        b->region = forbidden(ROOM + (size_t)sysconf(_SC_PAGESIZE));
        if (mprotect(b->region, ROOM, PROT_READ | PROT_WRITE) != 0)
            abort();
    }
    if (bytes > ROOM - 3 * GUARD)
        abort();
    b->bytes = bytes;
    b->after = at_odd_address ? GUARD + (bytes % 2 == 0) : 0;
    b->at = b->region + ROOM - b->after - bytes;
    memset(b->at - GUARD, MARK, GUARD + bytes + b->after);
    return b->at;
}

static inline void untouched(const char *what, const uint8_t *from, const uint8_t *to)
{
    for (; from < to; from++)
        if (*from != MARK) {
            expect_count(what, *from, MARK);
            return;
        }
    checked++;
}

static struct lent out;

static inline uint8_t *lend(size_t bytes)
{
    return lend_in(&out, bytes);
}

/* A refusal leaves every byte; an acceptance those around the buffer. */
static inline void as_it_came(const char *what)
{
    untouched(what, out.at - GUARD, out.at + out.bytes + out.after);
}

static inline void around(const char *what)
{
    untouched(what, out.at - GUARD, out.at);
    untouched(what, out.at + out.bytes, out.at + out.bytes + out.after);
}

static inline double read_f64(const uint8_t *bytes)
{
    uint64_t b = 0;
    for (int k = 7; k >= 0; k--)
        b = b << 8 | bytes[k];
    return of_bits(b);
}

static inline double tap(uint64_t i)
{
    return read_f64(out.at + 8 * i);
}

/* ---- Reports ----------------------------------------------------------------------------------- */

/* Every field, those that don't apply too. */
static inline void report(const char *what, pel_report got, pel_report want)
{
    char name[240];
#define FIELD(how, field) (snprintf(name, sizeof name, "%s: " #field, what), how(name, got.field, want.field))
    FIELD(expect_count, number);
    FIELD(expect_count, carries);
    FIELD(expect, smallest);
    FIELD(expect, largest);
    FIELD(expect, offered);
    FIELD(expect_count, expected);
    FIELD(expect_count, given);
    FIELD(expect_count, index);
    FIELD(expect_count, count);
    FIELD(expect, value);
#undef FIELD
}

static inline pel_report plain(uint32_t number)
{
    return (pel_report){.number = number};
}

static inline pel_report range(uint32_t number, double smallest, double largest, double offered)
{
    return (pel_report){
        .number = number, .carries = PEL_RANGE, .smallest = smallest, .largest = largest, .offered = offered};
}

static inline pel_report length(uint64_t expected, uint64_t given)
{
    return (pel_report){.number = 8, .carries = PEL_LENGTH, .expected = expected, .given = given};
}

static inline pel_report cap(uint64_t needed, uint64_t allowed)
{
    return (pel_report){.number = 9,
                        .carries = PEL_CAP,
                        .smallest = (double)needed,
                        .largest = 16777216.0,
                        .offered = (double)allowed,
                        .expected = needed,
                        .given = allowed};
}

static inline pel_report counted(uint64_t count)
{
    return (pel_report){.count = count};
}

#define REPORT(call, want) report(#call, call, want)
/* A refusal, and the lent buffer as it came. */
#define REFUSED(call, want) (report(#call, call, want), as_it_came(#call))
#define PLAIN(call, number) REPORT(call, plain(number))
#define RANGE(call, number, lo, hi, got) REPORT(call, range(number, lo, hi, got))

/* Within a distance, which a NaN never is. */
static inline void near(const char *what, double got, double want, double most)
{
    checked++;
    if (fabs(got - want) <= most)
        return;
    wrong++;
    printf("%s gives %.17g, which is not within %g of %.17g\n", what, got, most, want);
}

/* The sum by rising index, from +0. */
static inline double sum_of_taps(uint64_t n)
{
    double sum = 0.0;
    for (uint64_t i = 0; i < n; i++)
        sum += tap(i);
    return sum;
}

/* Every tap but the one at `peak` is below it. */
static inline void peak_at(const char *what, uint64_t n, uint64_t peak)
{
    uint64_t below = 0;
    for (uint64_t i = 0; i < n; i++)
        below += tap(i) < tap(peak);
    expect_count(what, below, n - 1);
}

/* The taps' total against the bound that is proved of it, n (1 + A)/2^52, A the sum of their sizes. The
 * test's own sum is over long doubles, whose rounding is far below that. */
static inline void total_is_one(const char *what, uint64_t n)
{
    long double sum = 0.0L, sizes = 0.0L;
    for (uint64_t i = 0; i < n; i++) {
        sum += tap(i);
        sizes += fabs(tap(i));
    }
    near(what, (double)(sum - 1.0L), 0.0, (double)((long double)n * (1.0L + sizes) / 4503599627370496.0L));
    near(what, (double)sum, 1.0, 1e-12);
}

static inline int both_ways(void (*tests)(void), const char *name)
{
    for (at_odd_address = 0; at_odd_address < 2; at_odd_address++)
        tests();
    return tally(name);
}

#endif
