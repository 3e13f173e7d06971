/* Tickets on a card from C. The reader: records of each kind cut at every byte and with every byte changed to every
 * other value, held to a parser of this file, which is the request's text in C; records with two faults each for the
 * order of the refusals; cards broken at every byte. Then tickets judged and designed: held to the export of their
 * kind, report and buffer. And the writer: records by hand, buffers of every length and place, tickets with two faults
 * each, and records and tickets there and back. */
#include "ticket.h"

#include "straight.h"

static uint64_t state;

static uint64_t any_bits(void)
{
    state = state * 6364136223846793005u + 1442695040888963407u;
    return state ^ state >> 31;
}

/* ---- The request's text ---------------------------------------------------------------------------- */

enum { MOST = 46 }; /* bytes of a record */

/* The fields by kinds, eight bytes each: f a float, c a count, w the window's code, b the beta beside it. */
static const char *const kinds[] = {NULL, "ffwbc", "ffffc", "fc", "fcc", "fcc", "ccfff"};

static uint64_t little(const uint8_t *at, size_t bytes)
{
    uint64_t sum = 0, unit = 1;
    for (size_t i = 0; i < bytes; i++, unit *= 256)
        sum += unit * at[i];
    return sum;
}

/* What a reader hands back: the ticket and how many bytes it took, or zeros and the error. */
static pel_reading parsed(const uint8_t *at, size_t bytes)
{
    pel_reading answer = {.report = plain(12)};
    if (bytes < 6)
        return answer;
    uint64_t kind = little(at + 4, 2);
    if (kind == 0 || kind >= COUNT(kinds)) {
        answer.report = plain(13);
        return answer;
    }
    size_t fields = strlen(kinds[kind]);
    if (little(at, 4) != 2 + 8 * fields) {
        answer.report = plain(14);
        return answer;
    }
    if (bytes - 6 < 8 * fields)
        return answer;
    pel_ticket ticket = {.kind = kind};
    uint64_t window = PEL_KAISER;
    for (size_t i = 0; i < fields; i++) {
        uint64_t field = little(at + 6 + 8 * i, 8);
        if (kinds[kind][i] == 'w')
            window = field;
        ticket.fields[i] = kinds[kind][i] == 'b' && window != PEL_KAISER ? 0 : field;
    }
    if (window > PEL_KAISER) {
        answer.report = plain(7);
        return answer;
    }
    return (pel_reading){ticket, counted(6 + 8 * fields)};
}

/* A record with the length and the kind as they are said, and as many fields as are given; how many bytes. */
static size_t put(uint8_t *at, uint64_t length, uint64_t kind, const uint64_t *fields, size_t count)
{
    for (size_t i = 0; i < 4; i++)
        at[i] = (uint8_t)(length >> 8 * i);
    for (size_t i = 0; i < 2; i++)
        at[4 + i] = (uint8_t)(kind >> 8 * i);
    for (size_t i = 0; i < 8 * count; i++)
        at[6 + i] = (uint8_t)(fields[i / 8] >> 8 * (i % 8));
    return 6 + 8 * count;
}

/* The record of a ticket. */
static size_t record(uint8_t *at, pel_ticket t)
{
    size_t count = strlen(kinds[t.kind]);
    return put(at, 2 + 8 * count, t.kind, t.fields, count);
}

/* ---- The reader ------------------------------------------------------------------------------------ */

static struct lent source;

static void lend_source(const uint8_t *from, size_t bytes)
{
    memcpy(lend_in(&source, bytes), from, bytes);
}

/* The source and the marks about it as they were. */
static void source_stays(const char *what, const uint8_t *from)
{
    expect_count(what, (uint64_t)memcmp(source.at, from, source.bytes), 0);
    untouched(what, source.at - GUARD, source.at);
    untouched(what, source.at + source.bytes, source.at + source.bytes + source.after);
}

static void same_ticket(const char *what, pel_ticket got, pel_ticket want)
{
    expect_count(what, got.kind, want.kind);
    for (size_t i = 0; i < COUNT(got.fields); i++)
        expect_count(what, got.fields[i], want.fields[i]);
}

static void same_reading(const char *what, pel_reading got, pel_reading want)
{
    /* Nothing in it is a NaN, so all of it is told by its bytes; field by field where they differ. */
    checked++;
    if (memcmp(&got, &want, sizeof got) == 0)
        return;
    same_ticket(what, got.ticket, want.ticket);
    report(what, got.report, want.report);
}

static void reads(const char *what, const uint8_t *from, size_t bytes, pel_reading want)
{
    lend_source(from, bytes);
    same_reading(what, pel_read_ticket(source.at, bytes), want);
    source_stays(what, from);
}

/* Reads as the request's text does; the number. */
static uint32_t as_parsed(const char *what, const uint8_t *from, size_t bytes)
{
    pel_reading want = parsed(from, bytes);
    reads(what, from, bytes, want);
    return want.report.number;
}

static void refuses(const char *what, const uint8_t *from, size_t bytes, uint32_t number)
{
    /* The parser of this file agrees with the hand. */
    expect_count(what, parsed(from, bytes).report.number, number);
    reads(what, from, bytes, (pel_reading){.report = plain(number)});
}

/* Every byte of every field another one, and no number a good one: reading judges none. */
#define ODD(i) (0x0102030405060708 * (i) + 0xF0E0D0C0B0A09080)

static const pel_ticket odd[] = {
    {PEL_TICKET_LOWPASS, {ODD(1), ODD(2), PEL_HANN, ODD(4), ODD(5)}},
    {PEL_TICKET_LOWPASS, {ODD(1), ODD(2), PEL_HAMMING, ODD(4), ODD(5)}},
    {PEL_TICKET_LOWPASS, {ODD(1), ODD(2), PEL_BLACKMAN, ODD(4), ODD(5)}},
    {PEL_TICKET_LOWPASS, {ODD(1), ODD(2), PEL_KAISER, ODD(4), ODD(5)}},
    {PEL_TICKET_SPEC, {ODD(1), ODD(2), ODD(3), ODD(4), ODD(5)}},
    {PEL_TICKET_HALFBAND, {ODD(1), ODD(2)}},
    {PEL_TICKET_GAUSSIAN, {ODD(1), ODD(2), ODD(3)}},
    {PEL_TICKET_RRC, {ODD(1), ODD(2), ODD(3)}},
    {PEL_TICKET_CHANNELIZER, {ODD(1), ODD(2), ODD(3), ODD(4), ODD(5)}},
};

static const uint64_t nans[] = {0x7FF0000000000001, 0xFFF0000000000001, 0x7FF8000000000000, 0xFFF8DEADBEEF0001,
                                0x7FFFFFFFFFFFFFFF, 0xFFFFFFFFFFFFFFFF, 0x7FF7FFFFFFFFFFFF};

/* By hand, from the request's words. */
static void examples(void)
{
    static const uint8_t halfband[] = {18, 0, 0, 0, 3, 0, 0, 0, 0, 0, 0, 0, 0x20, 0x40, 31, 0, 0, 0, 0, 0, 0, 0};
    reads("the header's example", halfband, sizeof halfband,
          (pel_reading){{PEL_TICKET_HALFBAND, {bits(8.0), 31}}, counted(22)});
    static const uint64_t lengths[] = {0, 42, 42, 18, 26, 26, 42};
    for (size_t i = 0; i < COUNT(odd); i++) {
        uint8_t bytes[MOST];
        size_t n = record(bytes, odd[i]);
        pel_ticket want = odd[i];
        /* A beta that no Kaiser window has is dropped; all else is kept, bit by bit. */
        if (want.kind == PEL_TICKET_LOWPASS && want.fields[2] != PEL_KAISER)
            want.fields[3] = 0;
        expect_count("the length of a record", little(bytes, 4), lengths[want.kind]);
        reads("odd fields", bytes, n, (pel_reading){want, counted(lengths[want.kind] + 4)});
    }
    /* NaNs of all sorts keep sign and payload, in every field that a float has. */
    for (size_t k = 1; k < COUNT(kinds); k++)
        for (size_t i = 0; i < COUNT(nans); i++) {
            uint8_t bytes[MOST];
            pel_ticket nan = {.kind = k};
            for (size_t f = 0; kinds[k][f] != 0; f++)
                nan.fields[f] = kinds[k][f] == 'w' ? PEL_KAISER : kinds[k][f] == 'c' ? f : nans[i];
            size_t n = record(bytes, nan);
            reads("NaNs", bytes, n, (pel_reading){nan, counted(n)});
        }
}

static void every_prefix(void)
{
    for (size_t i = 0; i < COUNT(odd); i++) {
        uint8_t bytes[MOST];
        size_t n = record(bytes, odd[i]);
        for (size_t cut = 0; cut < n; cut++)
            refuses("a prefix", bytes, cut, 12);
    }
}

static void every_byte(void)
{
    uint64_t met[20] = {0};
    for (size_t i = 0; i < COUNT(odd); i++) {
        uint8_t bytes[MOST];
        size_t n = record(bytes, odd[i]);
        for (size_t at = 0; at < n; at++) {
            uint8_t was = bytes[at];
            for (unsigned other = 1; other < 256; other++) {
                bytes[at] = (uint8_t)(was + other);
                met[as_parsed("a byte changed", bytes, n)]++;
                /* And with the body cut off, where the kind and the length are all that there is. */
                if (at < 6)
                    met[as_parsed("a byte of the head changed", bytes, 6)]++;
            }
            bytes[at] = was;
        }
    }
    expect_count("changed bytes are accepted, 7, 12, 13 and 14", met[0] && met[7] && met[12] && met[13] && met[14], 1);
}

/* What comes behind a record is never looked at, be it another one, rubbish or bytes that nobody may read. */
static void what_follows(void)
{
    uint8_t bytes[3 * MOST];
    for (size_t i = 0; i < COUNT(odd); i++) {
        size_t n = record(bytes, odd[i]);
        pel_reading want = parsed(bytes, n);
        for (size_t more = 0; more <= 2 * MOST; more++)
            for (int fill = 0; fill < 3; fill++) {
                for (size_t k = 0; k < more; k++)
                    bytes[n + k] = fill == 0 ? 0 : fill == 1 ? 0xFF : (uint8_t)any_bits();
                reads("what follows", bytes, n + more, want);
            }
    }
    if (at_odd_address)
        return;
    const size_t page = (size_t)sysconf(_SC_PAGESIZE), most = (size_t)1 << 30;
    uint8_t *locked = forbidden(page + most);
    if (mprotect(locked, page, PROT_READ | PROT_WRITE) != 0)
        abort();
    for (size_t i = 0; i < COUNT(odd); i++) {
        size_t n = record(bytes, odd[i]);
        uint8_t *at = locked + page - n;
        memcpy(at, bytes, n);
        same_reading("before a locked page", pel_read_ticket(at, n + most), parsed(bytes, n));
        /* A bad kind and a bad length are seen before anything behind them. */
        at = locked + page - 6;
        memcpy(at, bytes, 6);
        at[5] = 1;
        report("13 before a locked page", pel_read_ticket(at, 6 + most).report, plain(13));
        memcpy(at, bytes, 6);
        at[3] = 1;
        report("14 before a locked page", pel_read_ticket(at, 6 + most).report, plain(14));
    }
    munmap(locked, page + most);
}

/* ---- The order of the refusals ------------------------------------------------------------------------ */

static void two_faults(void)
{
    static const uint64_t fields[5] = {1, 2, 4, 3, 5}; /* a window of 4 where there is one */
    static const uint64_t good[5] = {1, 2, 3, 4, 5};
    static const uint64_t unknown[] = {0, 7, 8, 255, 256, 257, 0x0300, 0x0600, 0x8001, 0xFFFF};
    uint8_t bytes[2 * MOST] = {0};
    for (size_t i = 0; i < COUNT(unknown); i++) {
        /* Unknown kinds with lengths of other kinds, with such as no kind has, and cut. */
        static const uint64_t lengths[] = {0, 1, 2, 17, 18, 26, 42, 43, 0xFFFFFFFF};
        for (size_t k = 0; k < COUNT(lengths); k++) {
            put(bytes, lengths[k], unknown[i], fields, 5);
            refuses("13 before 14 and 7", bytes, MOST, 13);
            refuses("13 before a short body", bytes, 6, 13);
            refuses("13 before a short body", bytes, 13, 13);
            refuses("12 before 13", bytes, 5, 12);
            refuses("12 before 13", bytes, 0, 12);
        }
    }
    for (size_t kind = 1; kind < COUNT(kinds); kind++) {
        const uint64_t right = 2 + 8 * strlen(kinds[kind]);
        /* Off by one or by a field, those of other kinds, with an upper bit, and the largest that there is. */
        const uint64_t wrong[] = {right - 1,
                                  right + 1,
                                  right - 8,
                                  right + 8,
                                  right - 2,
                                  right + 4,
                                  0,
                                  2,
                                  right == 42 ? 18 : 42,
                                  right + 256,
                                  right + 65536,
                                  right + (1 << 24),
                                  right | 0x80000000u,
                                  0xFFFFFFFFu,
                                  0xFFFFFFFEu,
                                  right << 8,
                                  right << 24,
                                  right == 26 ? 42 : 26};
        for (size_t k = 0; k < COUNT(wrong); k++) {
            put(bytes, wrong[k], kind, fields, 5);
            refuses("14 before 7", bytes, MOST, 14);
            refuses("14 before a short body", bytes, 6, 14);
            refuses("14 before a short body", bytes, (size_t)right + 3, 14);
            refuses("14 alone", bytes, 2 * MOST, 14);
            refuses("12 before 14", bytes, 5, 12);
            refuses("12 before 14", bytes, 4, 12);
        }
        put(bytes, right, kind, good, 5);
        refuses("a body short by one", bytes, (size_t)right + 3, 12);
        refuses("a body that isn't there", bytes, 6, 12);
        expect_count("whole", as_parsed("whole", bytes, (size_t)right + 4), 0);
    }
    /* 7 comes last: behind a short body, and before nothing. Every bit of the field counts. */
    for (unsigned bit = 2; bit < 64; bit++)
        for (uint64_t low = 0; low < 4; low++) {
            const uint64_t windowed[] = {0x7FF0000000000001, 0, (uint64_t)1 << bit | low, UINT64_MAX, UINT64_MAX};
            put(bytes, 42, 1, windowed, 5);
            refuses("a window above 3", bytes, MOST, 7);
            refuses("a window above 3, and more", bytes, MOST + 1, 7);
            refuses("12 before 7", bytes, MOST - 1, 12);
            refuses("12 before 7", bytes, 30, 12);
            put(bytes, 41, 1, windowed, 5);
            refuses("14 before 7", bytes, MOST, 14);
            put(bytes, 42, 7, windowed, 5);
            refuses("13 before 7", bytes, MOST, 13);
            /* Where there is no window the same bits are a float or a count. */
            for (uint64_t kind = 2; kind < COUNT(kinds); kind++) {
                put(bytes, 2 + 8 * strlen(kinds[kind]), kind, windowed, 5);
                expect_count("no window", as_parsed("no window", bytes, MOST), 0);
            }
        }
}

/* A record as it may come: mostly whole, at times with another kind, another length, another window or cut. */
static size_t any_record(uint8_t *at)
{
    uint64_t kind = any_bits() % 8 == 0 ? any_bits() % 9 : 1 + any_bits() % 6, fields[5];
    size_t count = kind >= 1 && kind < COUNT(kinds) ? strlen(kinds[kind]) : 5;
    for (size_t i = 0; i < 5; i++)
        fields[i] = any_bits();
    if (any_bits() % 8 != 0)
        fields[2] %= any_bits() % 4 == 0 ? 6 : 4;
    uint64_t length = any_bits() % 12 == 0 ? any_bits() % 50 : 2 + 8 * count;
    if (any_bits() % 24 == 0)
        kind += 256 * (any_bits() % 256);
    if (any_bits() % 24 == 0)
        length += any_bits() << 8;
    return put(at, length, kind, fields, count);
}

static void random_records(void)
{
    uint64_t met[20] = {0};
    state = 43;
    for (int i = 0; i < 60000; i++) {
        uint8_t bytes[2 * MOST];
        size_t n = any_record(bytes);
        for (; n < sizeof bytes && any_bits() % 3 == 0; n++)
            bytes[n] = (uint8_t)any_bits();
        if (any_bits() % 8 == 0)
            n = any_bits() % (n + 1);
        met[as_parsed("a random record", bytes, n)]++;
    }
    expect_count("random records are accepted, 7, 12, 13 and 14",
                 met[0] > 9000 && met[7] > 500 && met[12] > 500 && met[13] > 500 && met[14] > 500, 1);
}

/* ---- Cards -------------------------------------------------------------------------------------------- */

/* Record by record with this file's parser. */
static pel_card checked_card(const uint8_t *at, size_t bytes)
{
    pel_card card = {0};
    while (card.place < bytes) {
        pel_reading next = parsed(at + card.place, bytes - card.place);
        if (next.report.number != 0) {
            card.report = next.report;
            return card;
        }
        card.tickets++;
        card.place += next.report.count;
    }
    card.report = counted(card.tickets);
    return card;
}

static void checks(const char *what, const uint8_t *from, size_t bytes, pel_card want)
{
    lend_source(from, bytes);
    pel_card got = pel_check_card(source.at, bytes);
    checked++;
    if (memcmp(&got, &want, sizeof got) != 0) {
        expect_count(what, got.tickets, want.tickets);
        expect_count(what, got.place, want.place);
        report(what, got.report, want.report);
    }
    source_stays(what, from);
}

static void as_checked(const char *what, const uint8_t *from, size_t bytes)
{
    checks(what, from, bytes, checked_card(from, bytes));
}

static void cards(void)
{
    uint8_t bytes[16 * MOST] = {0};
    size_t ends[COUNT(odd) + 1] = {0}, n = 0;
    checks("an empty card", bytes, 0, (pel_card){0});
    for (size_t i = 0; i < COUNT(odd); i++) {
        n += record(bytes + n, odd[i]);
        ends[i + 1] = n;
        checks("a card", bytes, n, (pel_card){.tickets = i + 1, .place = n, .report = counted(i + 1)});
    }
    /* By hand: cut at each byte, that is 12 where the record begins that isn't whole. */
    for (size_t cut = 0, whole = 0; cut < n; cut++) {
        if (cut == ends[whole + 1])
            whole++;
        pel_card want = {.tickets = whole, .place = ends[whole], .report = plain(12)};
        if (cut == ends[whole])
            want.report = counted(whole);
        checks("a card that is cut", bytes, cut, want);
    }
    /* A byte changed at each place; the records behind it are good ones, and nobody comes to them. */
    for (size_t at = 0; at < n; at++) {
        uint8_t was = bytes[at];
        static const uint8_t turned[] = {0x01, 0x02, 0x04, 0x08, 0x10, 0x20, 0x40, 0x80, 0xFF, 0x07};
        for (size_t k = 0; k < COUNT(turned); k++) {
            bytes[at] = was ^ turned[k];
            as_checked("a card with a byte changed", bytes, n);
        }
        bytes[at] = was;
    }
    /* Rubbish at each border: kind 0, and the records behind it aren't reached. */
    for (size_t i = 0; i < COUNT(odd); i++) {
        uint8_t broken[17 * MOST];
        memcpy(broken, bytes, ends[i]);
        memset(broken + ends[i], 0, 6);
        memcpy(broken + ends[i] + 6, bytes + ends[i], n - ends[i]);
        checks("a border with six zeros", broken, n + 6,
               (pel_card){.tickets = i, .place = ends[i], .report = plain(13)});
    }
    state = 47;
    uint64_t longest = 0, whole = 0;
    for (int i = 0; i < 20000; i++) {
        n = 0;
        for (uint64_t k = any_bits() % 12; k > 0; k--)
            n += any_record(bytes + n);
        if (any_bits() % 4 == 0)
            n = any_bits() % (n + 1);
        pel_card want = checked_card(bytes, n);
        checks("a random card", bytes, n, want);
        longest = want.tickets > longest ? want.tickets : longest;
        whole += want.report.number == 0 && want.tickets > 1;
    }
    expect_count("random cards are long, and many whole", longest > 8 && whole > 500, 1);
    /* A long card: 10,000 tickets, of which the last is broken at the end. */
    if (at_odd_address)
        return;
    size_t tickets = 10000;
    uint8_t *card = malloc(tickets * MOST);
    if (card == NULL)
        abort();
    n = 0;
    for (size_t i = 0; i < tickets; i++)
        n += record(card + n, odd[i % COUNT(odd)]);
    checks("a long card", card, n, (pel_card){.tickets = tickets, .place = n, .report = counted(tickets)});
    size_t last = n - 46; /* of kind 1 with Hann's window, since 9,999 is 0 mod 9 */
    card[last + 22] = 4;
    checks("a long card", card, n, (pel_card){.tickets = tickets - 1, .place = last, .report = plain(7)});
    free(card);
}

/* ---- Tickets judged and designed ---------------------------------------------------------------------- */

static struct lent other;

/* The export of a ticket's kind, and the one that judges without a buffer. */
static pel_report by_kind(pel_ticket t, uint8_t *at, size_t bytes)
{
    const uint64_t *f = t.fields;
    double a = of_bits(f[0]), b = of_bits(f[1]), c = of_bits(f[2]), d = of_bits(f[3]), e = of_bits(f[4]);
    switch (t.kind) {
    case PEL_TICKET_LOWPASS:
        return pel_lowpass(a, b, f[2], d, at, bytes);
    case PEL_TICKET_SPEC:
        return pel_spec_design(a, b, c, d, f[4], at, bytes);
    case PEL_TICKET_HALFBAND:
        return pel_halfband(a, at, bytes);
    case PEL_TICKET_GAUSSIAN:
        return pel_gaussian(a, f[1], f[2], at, bytes);
    case PEL_TICKET_RRC:
        return pel_rrc(a, f[1], f[2], at, bytes);
    case PEL_TICKET_CHANNELIZER:
        return pel_channelizer_prototype(f[0], f[1], c, d, e, at, bytes);
    }
    return plain(13);
}

static pel_report judged_by_kind(pel_ticket t)
{
    const uint64_t *f = t.fields;
    double a = of_bits(f[0]), b = of_bits(f[1]), c = of_bits(f[2]), d = of_bits(f[3]), e = of_bits(f[4]);
    switch (t.kind) {
    case PEL_TICKET_LOWPASS:
        return pel_lowpass_new(a, b, f[2], d, f[4]);
    case PEL_TICKET_SPEC:
        return pel_spec_lowpass(a, b, c, d, f[4]);
    case PEL_TICKET_HALFBAND:
        return pel_halfband_new(a, f[1]);
    case PEL_TICKET_GAUSSIAN:
        return pel_gaussian_new(a, f[1], f[2]);
    case PEL_TICKET_RRC:
        return pel_rrc_new(a, f[1], f[2]);
    case PEL_TICKET_CHANNELIZER:
        return pel_channelizer_lowpass(f[0], f[1], c, d, e);
    }
    return plain(13);
}

/* What is tested before the export of the kind: the kind, the window, the bytes, and a count that the buffer hasn't. */
static pel_report before(pel_ticket t, size_t bytes)
{
    if (t.kind < 1 || t.kind > 6)
        return plain(13);
    if (t.kind == PEL_TICKET_LOWPASS && t.fields[2] > 3)
        return plain(7);
    if (bytes % 8 != 0)
        return length(bytes / 8 * 8, bytes);
    if (t.kind == PEL_TICKET_LOWPASS && t.fields[4] != bytes / 8)
        return length(t.fields[4], bytes / 8);
    if (t.kind == PEL_TICKET_HALFBAND && t.fields[1] != bytes / 8)
        return length(t.fields[1], bytes / 8);
    return plain(0);
}

static void designs_as(const char *what, pel_ticket t, size_t bytes, pel_report want)
{
    report(what, pel_design_ticket(t, lend(bytes), bytes), want);
    if (want.number != 0) {
        as_it_came(what);
        return;
    }
    around(what);
    checked++;
    if (memcmp(out.at, other.at, bytes) != 0)
        for (size_t i = 0; i < bytes / 8; i++)
            expect(what, tap(i), read_f64(other.at + 8 * i));
}

/* Rubbish in what the kind doesn't use: the fields behind its own, and the beta of another window than Kaiser's. */
static pel_ticket littered(pel_ticket t)
{
    if (t.kind < 1 || t.kind > 6)
        return t;
    for (size_t i = strlen(kinds[t.kind]); i < 5; i++)
        t.fields[i] = any_bits();
    if (t.kind == PEL_TICKET_LOWPASS && t.fields[2] != PEL_KAISER)
        t.fields[3] = any_bits() % 2 == 0 ? any_bits() : 0xFFF0000000000001;
    return t;
}

/* Designed and judged as by the export of its kind; the report of the design. */
static pel_report as_its_kind(const char *what, pel_ticket t, size_t bytes)
{
    lend_in(&other, bytes);
    pel_report want = before(t, bytes);
    if (want.number == 0)
        want = by_kind(t, other.at, bytes);
    designs_as(what, t, bytes, want);
    designs_as(what, littered(t), bytes, want);
    pel_report judged = judged_by_kind(t);
    report(what, pel_judge_ticket(t), judged);
    report(what, pel_judge_ticket(littered(t)), judged);
    return want;
}

/* By hand. */
static void designed_by_hand(void)
{
    double straight[31];
    pel_ticket halfband = {PEL_TICKET_HALFBAND, {bits(8.0), 31}};
    straight_halfband(8.0, 31, straight);
    pel_report r = pel_design_ticket(halfband, lend(248), 248);
    expect_count("the header's example", r.number, 0);
    expect_count("the header's example", r.count, 31);
    around("the header's example");
    for (size_t i = 0; i < 31; i++)
        near("the header's example", tap(i), straight[i], 1e-12);
    expect_count("the header's example", as_its_kind("the header's example", halfband, 248).number, 0);

    /* How many taps each has, by the header's examples of its kind. */
    static const struct {
        uint64_t kind, fields[5], taps;
    } known[] = {
        {PEL_TICKET_GAUSSIAN, {0x3FE0000000000000, 8, 4}, 33},
        {PEL_TICKET_RRC, {0x3FE0000000000000, 8, 8}, 65},
        {PEL_TICKET_CHANNELIZER, {16, 8, 0x3FE0000000000000, 0x3FF0000000000000, 0x404E000000000000}, 128},
    };
    for (size_t i = 0; i < COUNT(known); i++) {
        pel_ticket t = {.kind = known[i].kind};
        memcpy(t.fields, known[i].fields, sizeof t.fields);
        expect_count("a known number of taps", pel_judge_ticket(t).count, known[i].taps);
        expect_count("a known number of taps", as_its_kind("known", t, 8 * known[i].taps).count, known[i].taps);
        REFUSED(pel_design_ticket(t, lend(8 * known[i].taps - 8), 8 * known[i].taps - 8),
                length(known[i].taps, known[i].taps - 1));
    }
    pel_ticket spec = {PEL_TICKET_SPEC, {bits(1000.0), bits(100.0), bits(60.0), bits(8000.0), 293}};
    expect_count("a spec", as_its_kind("a spec", spec, 8 * 293).count, 293);
    spec.fields[4] = 292;
    REFUSED(pel_design_ticket(spec, lend(8 * 293), 8 * 293), cap(293, 292));
    spec.fields[3] = bits(-8000.0);
    REFUSED(pel_design_ticket(spec, lend(8 * 293), 8 * 293), plain(1));
    PLAIN(pel_judge_ticket(spec), 1);
}

static void orders_by_hand(void)
{
    /* Every number of it is a bad one: the rate 1, the cutoff 2, the beta 4. */
    pel_ticket t = {PEL_TICKET_LOWPASS, {bits(-1.0), bits(-1.0), PEL_KAISER, bits(-1.0), 31}};
    REFUSED(pel_design_ticket(t, lend(8 * 30), 8 * 30), length(31, 30)); /* 8 before 1 */
    REFUSED(pel_design_ticket(t, lend(8 * 32), 8 * 32), length(31, 32));
    REFUSED(pel_design_ticket(t, lend(0), 0), length(31, 0));
    REFUSED(pel_design_ticket(t, lend(8 * 31), 8 * 31), plain(1));
    REFUSED(pel_design_ticket(t, lend(8 * 31 + 1), 8 * 31 + 1),
            length(8 * 31, 8 * 31 + 1)); /* 8 in bytes before taps */
    REFUSED(pel_design_ticket(t, lend(13), 13), length(8, 13));
    PLAIN(pel_judge_ticket(t), 1);
    t.fields[4] = 0;
    REFUSED(pel_design_ticket(t, lend(8), 8), length(0, 1)); /* 8 before 6 */
    REFUSED(pel_design_ticket(t, lend(0), 0), plain(1));
    t.fields[4] = UINT64_MAX;
    REFUSED(pel_design_ticket(t, lend(8), 8), length(UINT64_MAX, 1));
    /* 2^61 + 1 taps have the bytes of one where a product wraps. */
    t.fields[4] = ((uint64_t)1 << 61) + 1;
    REFUSED(pel_design_ticket(t, lend(8), 8), length(((uint64_t)1 << 61) + 1, 1));
    t.fields[4] = ((uint64_t)1 << 32) + 1;
    REFUSED(pel_design_ticket(t, lend(8), 8), length(((uint64_t)1 << 32) + 1, 1));
    t.fields[2] = 4;
    REFUSED(pel_design_ticket(t, lend(13), 13), plain(7)); /* 7 before 8 */
    REFUSED(pel_design_ticket(t, lend(8), 8), plain(7));
    PLAIN(pel_judge_ticket(t), 7);
    t.fields[2] = ((uint64_t)1 << 32) + 3;
    REFUSED(pel_design_ticket(t, lend(8), 8), plain(7));
    PLAIN(pel_judge_ticket(t), 7);

    pel_ticket h = {PEL_TICKET_HALFBAND, {bits(-1.0), 5}};
    REFUSED(pel_design_ticket(h, lend(8 * 4), 8 * 4), length(5, 4)); /* 8 before 6 and 4 */
    REFUSED(pel_design_ticket(h, lend(8 * 5), 8 * 5), plain(6));
    REFUSED(pel_design_ticket(h, lend(8 * 5 + 7), 8 * 5 + 7), length(40, 47));
    h.fields[1] = 7;
    REFUSED(pel_design_ticket(h, lend(8 * 3), 8 * 3), length(7, 3));
    REFUSED(pel_design_ticket(h, lend(8 * 7), 8 * 7), plain(4));
    PLAIN(pel_judge_ticket(h), 4);
    h.fields[1] = ((uint64_t)1 << 32) + 7;
    REFUSED(pel_design_ticket(h, lend(8 * 7), 8 * 7), length(((uint64_t)1 << 32) + 7, 7));

    /* A length of the other kinds comes after their numbers. */
    pel_ticket g = {PEL_TICKET_GAUSSIAN, {bits(2.0), 8, 4}};
    REFUSED(pel_design_ticket(g, lend(8), 8), range(5, 0.2, 1.0, 2.0));
    REFUSED(pel_design_ticket(g, lend(9), 9), length(8, 9));
    pel_ticket c = {PEL_TICKET_CHANNELIZER, {16, 8, bits(-1.0), bits(1.0), bits(60.0)}};
    REFUSED(pel_design_ticket(c, lend(8), 8), plain(2));

    /* Unknown kinds, before everything else. */
    static const uint64_t unknown[] = {0, 7, 8, 256 + 1, 65536 + 3, ((uint64_t)1 << 32) + 1, UINT64_MAX};
    for (size_t i = 0; i < COUNT(unknown); i++) {
        pel_ticket u = {unknown[i], {bits(8.0), 31, 9, 0, 0}};
        REFUSED(pel_design_ticket(u, lend(8 * 31), 8 * 31), plain(13));
        REFUSED(pel_design_ticket(u, lend(13), 13), plain(13));
        REFUSED(pel_design_ticket(u, lend(0), 0), plain(13));
        PLAIN(pel_judge_ticket(u), 13);
    }
}

/* Good and bad numbers in every combination, for buffers that fit and such that don't. */
static void combined(void)
{
    static const size_t bytes[] = {8 * 31, 8 * 30, 8, 16, 0, 8 * 31 + 1, 8 * 30 + 7, 8 * 33, 8 * 128};
    static const struct {
        uint64_t kind;
        uint64_t values[5][5]; /* of each field, the first a good one */
        size_t counts[5];
    } rows[] = {
        {PEL_TICKET_LOWPASS,
         {{0x408F400000000000, 0x40AF400000000000, 0x7FF8000000000000},
          {0x40BF400000000000, 0, 0x7FF0000000000000},
          {0, 1, 2, 3, 4},
          {0x4020000000000000, 0xBFF0000000000000, 0x408F400000000000, 0xFFF8000000000001},
          {31, 1, 2, 0, 16777217}},
         {3, 3, 5, 4, 5}},
        {PEL_TICKET_SPEC,
         {{0x408F400000000000, 0x40AF400000000000, 0x7FF8000000000000},
          {0x4090000000000000, 0x408F400000000000, 0, 0xC08F400000000000},
          {0x404E000000000000, 0x4010000000000000, 0x40C3880000000000},
          {0x40BF400000000000, 0, 0x7FF0000000000000},
          {1000, 31, 1, 0, UINT64_MAX}},
         {3, 4, 3, 3, 5}},
        {PEL_TICKET_HALFBAND,
         {{0x4020000000000000, 0xBFF0000000000000, 0x408F400000000000, 0x7FF8000000000000}, {31, 1, 33, 0, 16777219}},
         {4, 5}},
        {PEL_TICKET_GAUSSIAN,
         {{0x3FE0000000000000, 0x4000000000000000, 0x7FF8000000000000}, {8, 1, 10, 16, UINT64_MAX}, {4, 1, 3, 9, 2}},
         {3, 5, 5}},
        {PEL_TICKET_RRC,
         {{0x3FE0000000000000, 0x4000000000000000, 0x7FF8000000000000}, {8, 1, 5, 1025, UINT64_MAX}, {4, 1, 6, 33, 3}},
         {3, 5, 5}},
        {PEL_TICKET_CHANNELIZER,
         {{16, 8, 12, 0, UINT64_MAX},
          {8, 4, 16, 33, 0},
          {0x3FE0000000000000, 0xBFF0000000000000, 0x7FF8000000000000},
          {0x3FF0000000000000, 0x3FE0000000000000, 0x4000000000000000},
          {0x404E000000000000, 0x4010000000000000, 0x7FF8000000000000}},
         {5, 5, 3, 3, 3}},
    };
    for (size_t k = 0; k < COUNT(rows); k++) {
        uint64_t taken = 0, refused = 0, all = 1;
        for (size_t f = 0; f < 5; f++)
            all *= rows[k].counts[f] == 0 ? 1 : rows[k].counts[f];
        for (uint64_t i = 0; i < all; i++) {
            pel_ticket t = {.kind = rows[k].kind};
            uint64_t rest = i;
            for (size_t f = 0; f < 5 && rows[k].counts[f] != 0; f++) {
                t.fields[f] = rows[k].values[f][rest % rows[k].counts[f]];
                rest /= rows[k].counts[f];
            }
            for (size_t b = 0; b < COUNT(bytes); b++) {
                pel_report r = as_its_kind("in every combination", t, bytes[b]);
                taken += r.number == 0;
                refused += r.number != 0 && r.number != 8;
            }
        }
        expect_count("some are taken", taken > 0, 1);
        expect_count("and some refused", refused > 0, 1);
    }
    /* Two Hann taps add up to 0, and one tap takes no series. */
    pel_ticket t = {PEL_TICKET_LOWPASS, {bits(0.25), bits(1.0), PEL_HANN, 0, 2}};
    expect_count("two Hann taps", as_its_kind("two Hann taps", t, 16).number, 10);
    t = (pel_ticket){PEL_TICKET_LOWPASS, {bits(0.25), bits(1.0), PEL_KAISER, bits(1000.0), 1}};
    expect_count("one tap", as_its_kind("one tap", t, 8).number, 0);
    t.fields[4] = 2;
    expect_count("a series that doesn't settle", as_its_kind("16", t, 16).number, 16);
    /* Too many taps, in a buffer that may not even be read. */
    size_t most = ((size_t)1 << 27) + 8;
    uint8_t *locked = forbidden(most);
    t.fields[4] = most / 8;
    report("too many taps", pel_design_ticket(t, locked, most), plain(6));
    report("8 before 6", pel_design_ticket(t, locked, most - 8), length(most / 8, most / 8 - 1));
    munmap(locked, most);
}

/* Read and then designed: any fields, as they come from a card. */
static void from_a_card(void)
{
    state = 59;
    uint64_t taken = 0, met[20] = {0};
    static const double odd_floats[] = {NAN, INFINITY, -0.0, 0.0, 5e-324, 1e308, -1.0, 0.5, 0.25, 1.0, 60.0, 8.0};
    for (int i = 0; i < 6000; i++) {
        pel_ticket t = {.kind = 1 + any_bits() % 6};
        for (size_t f = 0; kinds[t.kind][f] != 0; f++) {
            uint64_t any = any_bits();
            switch (kinds[t.kind][f]) {
            case 'w':
                t.fields[f] = any % 4;
                break;
            case 'c':
                t.fields[f] = any % 16 == 0 ? any_bits() : t.kind == 6 ? (uint64_t)4 << any % 3 : 1 + any % 24;
                break;
            default:
                t.fields[f] = any % 8 == 0 ? any_bits() : bits(odd_floats[any / 8 % COUNT(odd_floats)]);
            }
        }
        uint8_t card[MOST];
        size_t n = record(card, t);
        lend_source(card, n);
        pel_ticket read = pel_read_ticket(source.at, n).ticket;
        pel_report judged = pel_judge_ticket(read);
        size_t own = judged.number == 0 && judged.count < 4000 ? 8 * judged.count : 8 * (any_bits() % 40);
        pel_report r = as_its_kind("from a card", read, own);
        met[r.number]++;
        if (r.number == 0 && judged.number == 0) {
            taken++;
            /* Into a buffer of its own length: what the judgement told. */
            report("judged as designed", r, judged);
        }
    }
    expect_count("hundreds are designed", taken > 300, 1);
    expect_count("and others refused", met[1] && met[2] && met[3] && met[4] && met[5] && met[6] && met[8], 1);
}

/* ---- The writer --------------------------------------------------------------------------------------- */

/* The ticket as it is read again: without what its kind hasn't, and without a beta that its window hasn't. */
static pel_ticket as_read(pel_ticket t)
{
    for (size_t i = strlen(kinds[t.kind]); i < COUNT(t.fields); i++)
        t.fields[i] = 0;
    if (t.kind == PEL_TICKET_LOWPASS && t.fields[2] != PEL_KAISER)
        t.fields[3] = 0;
    return t;
}

/* What the request says of a ticket and a buffer of so many bytes, and the record at `at` where it is accepted. */
static pel_report recorded(uint8_t *at, pel_ticket t, size_t bytes)
{
    if (t.kind == 0 || t.kind >= COUNT(kinds))
        return plain(13);
    if (t.kind == PEL_TICKET_LOWPASS && t.fields[2] > PEL_KAISER)
        return plain(7);
    size_t own = 6 + 8 * strlen(kinds[t.kind]);
    if (bytes != own)
        return length(own, bytes);
    return counted(record(at, as_read(t)));
}

static void same_report(const char *what, pel_report got, pel_report want)
{
    /* Nothing in it is a NaN. */
    checked++;
    if (memcmp(&got, &want, sizeof got) != 0)
        report(what, got, want);
}

/* Writes as the request says: the report, every byte of the record, and no other byte; the number. */
static uint32_t writes(const char *what, pel_ticket t, size_t bytes)
{
    uint8_t want[MOST];
    pel_report told = recorded(want, t, bytes);
    same_report(what, pel_write_ticket(t, lend(bytes), bytes), told);
    if (told.number != 0) {
        as_it_came(what);
    } else {
        around(what);
        expect_count(what, (uint64_t)memcmp(out.at, want, bytes), 0);
    }
    return told.number;
}

static void written_by_hand(void)
{
    static const struct {
        const char *what;
        pel_ticket ticket;
        size_t bytes;
        uint8_t record[MOST];
    } rows[] = {
        {"a low-pass",
         {PEL_TICKET_LOWPASS, {0x408F400000000000, 0x40BF400000000000, PEL_KAISER, 0x4020000000000000, 31}},
         46,
         {42, 0, 0, 0, 1, 0,                /* length and kind */
          0,  0, 0, 0, 0, 0x40, 0x8F, 0x40, /* cutoff 1000 */
          0,  0, 0, 0, 0, 0x40, 0xBF, 0x40, /* rate 8000 */
          3,  0, 0, 0, 0, 0,    0,    0,    /* window */
          0,  0, 0, 0, 0, 0,    0x20, 0x40, /* beta 8 */
          31, 0, 0, 0, 0, 0,    0,    0}},
        {"a beta that Hamming's window hasn't",
         {PEL_TICKET_LOWPASS, {0x408F400000000000, 0x40BF400000000000, PEL_HAMMING, 0x4020000000000000, 258}},
         46,
         {42, 0, 0, 0, 1, 0,                /* length and kind */
          0,  0, 0, 0, 0, 0x40, 0x8F, 0x40, /* cutoff 1000 */
          0,  0, 0, 0, 0, 0x40, 0xBF, 0x40, /* rate 8000 */
          1,  0, 0, 0, 0, 0,    0,    0,    /* window */
          0,  0, 0, 0, 0, 0,    0,    0,    /* no beta */
          2,  1, 0, 0, 0, 0,    0,    0}},
        {"a specification",
         {PEL_TICKET_SPEC, {0x408F400000000000, 0x4059000000000000, 0x404E000000000000, 0x40BF400000000000, 293}},
         46,
         {42,   0, 0, 0, 2, 0,                /* length and kind */
          0,    0, 0, 0, 0, 0x40, 0x8F, 0x40, /* cutoff 1000 */
          0,    0, 0, 0, 0, 0,    0x59, 0x40, /* transition 100 */
          0,    0, 0, 0, 0, 0,    0x4E, 0x40, /* attenuation 60 */
          0,    0, 0, 0, 0, 0x40, 0xBF, 0x40, /* rate 8000 */
          0x25, 1, 0, 0, 0, 0,    0,    0}},
        {"the header's example",
         {PEL_TICKET_HALFBAND, {0x4020000000000000, 31, 1, 2, 3}},
         22,
         {18, 0, 0, 0, 3, 0,             /* length and kind */
          0,  0, 0, 0, 0, 0, 0x20, 0x40, /* beta 8 */
          31, 0, 0, 0, 0, 0, 0,    0}},
        {"a Gaussian pulse",
         {PEL_TICKET_GAUSSIAN, {0x3FE0000000000000, 8, 4, 1, 2}},
         30,
         {26, 0, 0, 0, 4, 0,             /* length and kind */
          0,  0, 0, 0, 0, 0, 0xE0, 0x3F, /* bt 0.5 */
          8,  0, 0, 0, 0, 0, 0,    0,    /* samples */
          4,  0, 0, 0, 0, 0, 0,    0}},
        {"a root-raised cosine",
         {PEL_TICKET_RRC, {0x3FD0000000000000, 8, 6, 1, 2}},
         30,
         {26, 0, 0, 0, 5, 0,             /* length and kind */
          0,  0, 0, 0, 0, 0, 0xD0, 0x3F, /* roll-off 0.25 */
          8,  0, 0, 0, 0, 0, 0,    0,    /* samples */
          6,  0, 0, 0, 0, 0, 0,    0}},
        {"a channelizer",
         {PEL_TICKET_CHANNELIZER, {16, 8, 0x3FE0000000000000, 0x3FF0000000000000, 0x404E000000000000}},
         46,
         {42, 0, 0, 0, 6, 0,               /* length and kind */
          16, 0, 0, 0, 0, 0, 0,    0,      /* channels */
          8,  0, 0, 0, 0, 0, 0,    0,      /* branch */
          0,  0, 0, 0, 0, 0, 0xE0, 0x3F,   /* passband 0.5 */
          0,  0, 0, 0, 0, 0, 0xF0, 0x3F,   /* stopband 1 */
          0,  0, 0, 0, 0, 0, 0x4E, 0x40}}, /* attenuation 60 */
    };
    for (size_t i = 0; i < COUNT(rows); i++) {
        const char *what = rows[i].what;
        size_t n = rows[i].bytes;
        report(what, pel_write_ticket(rows[i].ticket, lend(n), n), counted(n));
        around(what);
        for (size_t k = 0; k < n; k++)
            expect_count(what, out.at[k], rows[i].record[k]);
        /* The writer of this file agrees with the hand. */
        uint8_t same[MOST];
        report(what, recorded(same, rows[i].ticket, n), counted(n));
        expect_count(what, (uint64_t)memcmp(same, rows[i].record, n), 0);
    }
    expect_count("room for a record", PEL_LONGEST_RECORD, MOST);
}

/* A buffer is as long as the record or refused, shorter or longer, with both lengths. */
static void every_length(void)
{
    for (size_t i = 0; i < COUNT(odd); i++) {
        size_t own = 0;
        for (size_t bytes = 0; bytes <= 60; bytes++)
            if (writes("a buffer of every length", odd[i], bytes) == 0)
                own += bytes;
        /* One of them is accepted: the lengths by the header's table. */
        static const size_t lengths[] = {0, 46, 46, 22, 30, 30, 46};
        expect_count("the length of a record", own, lengths[odd[i].kind]);
        REFUSED(pel_write_ticket(odd[i], lend(own - 1), own - 1), length(own, own - 1));
        REFUSED(pel_write_ticket(odd[i], lend(own + 1), own + 1), length(own, own + 1));
        /* By more than fewer bytes of a length tell, at last where nobody may touch a byte. */
        expect_count("longer", writes("longer by 2^8", odd[i], own + 256), 8);
        expect_count("longer", writes("longer by 2^16", odd[i], own + 65536), 8);
        const size_t most = ((size_t)1 << 32) + own;
        uint8_t *locked = forbidden(most);
        report("longer by 2^32", pel_write_ticket(odd[i], locked, most), length(own, most));
        report("a locked page", pel_write_ticket(odd[i], locked, own - 1), length(own, own - 1));
        munmap(locked, most);
    }
}

/* At every alignment, and nothing before or behind is touched. */
static void every_alignment(void)
{
    static _Alignas(16) uint8_t room[16 + 16 + MOST + 16];
    for (size_t i = 0; i < COUNT(odd); i++)
        for (size_t shift = 0; shift < 16; shift++) {
            uint8_t want[MOST], *at = room + 16 + shift;
            size_t n = record(want, as_read(odd[i]));
            memset(room, MARK, sizeof room);
            same_report("at every alignment", pel_write_ticket(odd[i], at, n), counted(n));
            expect_count("at every alignment", (uint64_t)memcmp(at, want, n), 0);
            untouched("at every alignment", room, at);
            untouched("at every alignment", at + n, room + sizeof room);
        }
}

/* 13, then 7, then 8: the first that applies is told, and the buffer is as it came. */
static void two_faults_written(void)
{
    static const struct {
        uint64_t kind, window;
        size_t bytes;
        uint32_t number;
    } rows[] = {
        {0, 4, 46, 13}, {0, 0, 45, 13}, {7, 4, 46, 13}, {7, 3, 0, 13}, {7, 4, 47, 13}, {257, 4, 46, 13},
        {1, 4, 46, 7},  {1, 4, 45, 7},  {1, 4, 47, 7},  {1, 4, 0, 7},  {1, 4, 22, 7},  {1, UINT64_MAX, 45, 7},
        {1, 3, 45, 8},  {1, 0, 0, 8},   {2, 4, 45, 8},  {3, 4, 46, 8}, {4, 4, 46, 8},  {5, 4, 22, 8},
        {6, 4, 30, 8},  {2, 4, 46, 0},  {3, 4, 22, 0},  {4, 4, 30, 0}, {5, 4, 30, 0},  {6, 4, 46, 0},
    };
    for (size_t i = 0; i < COUNT(rows); i++) {
        pel_ticket t = {rows[i].kind, {ODD(1), ODD(2), rows[i].window, ODD(4), ODD(5)}};
        pel_report r = pel_write_ticket(t, lend(rows[i].bytes), rows[i].bytes);
        expect_count("two faults, by hand", r.number, rows[i].number);
        expect_count("two faults, by hand", r.carries, rows[i].number == 8 ? PEL_LENGTH : PEL_NOTHING);
        if (rows[i].number != 0)
            as_it_came("two faults, by hand");
        expect_count("two faults", writes("two faults", t, rows[i].bytes), rows[i].number);
    }
    static const uint64_t unknown[] = {0, 7, 8, 255, 256 + 1, 65536 + 3, ((uint64_t)1 << 32) + 1, UINT64_MAX};
    for (size_t bytes = 0; bytes <= 60; bytes++)
        for (uint64_t window = 0; window < 6; window++)
            for (size_t i = 0; i < COUNT(unknown); i++) {
                pel_ticket t = {unknown[i], {ODD(1), ODD(2), window, ODD(4), ODD(5)}};
                expect_count("13 first", writes("13 first", t, bytes), 13);
            }
    /* Every bit of the window counts, for kind 1 alone. */
    static const size_t lengths[] = {0, 22, 30, 45, 46, 47, 60};
    for (unsigned bit = 2; bit < 64; bit++)
        for (uint64_t low = 0; low < 4; low++)
            for (size_t k = 0; k < COUNT(lengths); k++) {
                pel_ticket t = {PEL_TICKET_LOWPASS, {ODD(1), ODD(2), (uint64_t)1 << bit | low, ODD(4), ODD(5)}};
                expect_count("7 before 8", writes("7 before 8", t, lengths[k]), 7);
                for (t.kind = 2; t.kind < COUNT(kinds); t.kind++) {
                    size_t own = 6 + 8 * strlen(kinds[t.kind]);
                    expect_count("no window", writes("no window", t, lengths[k]), lengths[k] == own ? 0 : 8);
                }
            }
}

/* The bits of each field: NaNs, infinities, zeros, the largest count, each bit alone. */
static void every_field(void)
{
    static const uint64_t others[] = {0, 0x8000000000000000, 0x7FF0000000000000, 0xFFF0000000000000, 1, UINT64_MAX};
    for (uint64_t kind = 1; kind < COUNT(kinds); kind++) {
        const size_t count = strlen(kinds[kind]), own = 6 + 8 * count;
        for (size_t f = 0; f < count; f++) {
            pel_ticket t = {kind, {ODD(1), ODD(2), PEL_KAISER, ODD(4), ODD(5)}};
            for (uint64_t window = 0; kinds[kind][f] == 'w' && window <= 3; window++) {
                t.fields[f] = window;
                expect_count("a window", writes("a window", t, own), 0);
                /* The beta of it, of whatever bits. */
                for (size_t i = 0; i < COUNT(nans); i++) {
                    t.fields[f + 1] = nans[i];
                    expect_count("a beta", writes("a beta", t, own), 0);
                    uint64_t beta = window == PEL_KAISER ? nans[i] : 0;
                    expect_count("a beta", little(out.at + 6 + 8 * (f + 1), 8), beta);
                }
            }
            if (kinds[kind][f] == 'w')
                continue;
            for (size_t i = 0; i < COUNT(nans) + COUNT(others) + 64; i++) {
                size_t k = i - COUNT(nans), bit = k - COUNT(others);
                t.fields[f] = i < COUNT(nans) ? nans[i] : k < COUNT(others) ? others[k] : (uint64_t)1 << bit;
                expect_count("the bits of a field", writes("the bits of a field", t, own), 0);
                expect_count("the bits of a field", little(out.at + 6 + 8 * f, 8), t.fields[f]);
            }
        }
    }
}

/* What is written reads back to that ticket, whatever follows it, and a record is written as it was read. */
static void there_and_back(void)
{
    state = 61;
    uint64_t whole = 0, dropped = 0;
    for (int i = 0; i < 20000; i++) {
        pel_ticket t = {.kind = 1 + any_bits() % 6};
        for (size_t f = 0; f < COUNT(t.fields); f++)
            t.fields[f] = any_bits() % 8 == 0 ? nans[any_bits() % COUNT(nans)] : any_bits();
        if (t.kind == PEL_TICKET_LOWPASS)
            t.fields[2] %= 4;
        const size_t n = 6 + 8 * strlen(kinds[t.kind]), more = any_bits() % (2 * MOST);
        uint8_t behind[2 * MOST], *at = lend_in(&source, n + more);
        for (size_t k = 0; k < more; k++)
            behind[k] = (uint8_t)any_bits();
        memcpy(at + n, behind, more);
        same_report("a ticket there", pel_write_ticket(t, at, n), counted(n));
        expect_count("what follows it", (uint64_t)memcmp(at + n, behind, more), 0);
        untouched("a ticket there", at - GUARD, at);
        untouched("a ticket there", at + n + more, at + n + more + source.after);
        same_reading("a ticket and back", pel_read_ticket(at, n + more), (pel_reading){as_read(t), counted(n)});

        uint8_t bytes[MOST];
        size_t taken = any_record(bytes);
        if (bytes[4] == PEL_TICKET_LOWPASS && any_bits() % 2 == 0)
            memset(bytes + 30, 0, 8);
        lend_source(bytes, taken);
        pel_reading r = pel_read_ticket(source.at, taken);
        if (r.report.number != 0)
            continue;
        same_report("a record there and back", pel_write_ticket(r.ticket, lend(taken), taken), counted(taken));
        around("a record there and back");
        /* Byte for byte, but for a beta that its window hasn't. */
        if (r.ticket.kind == PEL_TICKET_LOWPASS && r.ticket.fields[2] != PEL_KAISER && little(bytes + 30, 8) != 0) {
            dropped++;
            memset(bytes + 30, 0, 8);
        } else {
            whole++;
        }
        expect_count("a record there and back", (uint64_t)memcmp(out.at, bytes, taken), 0);
    }
    expect_count("thousands are written as they were, hundreds without their beta", whole > 5000 && dropped > 500, 1);
}

static void tests(void)
{
    examples();
    every_prefix();
    every_byte();
    what_follows();
    two_faults();
    random_records();
    cards();
    designed_by_hand();
    orders_by_hand();
    combined();
    from_a_card();
    written_by_hand();
    every_length();
    every_alignment();
    two_faults_written();
    every_field();
    there_and_back();
}

int main(void)
{
    return both_ways(tests, "tickets on a card");
}
