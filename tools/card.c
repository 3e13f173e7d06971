/* The tickets on a card: a list of them with a verdict each, or one of them to design or to write over. A ticket is
 * told and drawn by the words of its kind; it is the card's own functions that judge it, fill it in and write it. */
#include "card.h"

#include <inttypes.h>
#include <stdlib.h>
#include <string.h>

#include "fields.h"
#include "files.h"
#include "forms.h"

enum { MOST_BYTES = 1 << 24, HEAD = 6, WORD = 8 };

/* Room for the numbers of a ticket in words, five of 40 letters at most. */
struct numbers {
    char text[240];
};

/* ---- One ticket -------------------------------------------------------------------------------- */

/* The first row of the name: of a half-band that of its taps, which a card has. */
static const struct kind *row_of(const struct ticket *t)
{
    const struct kind *k = kinds;
    while (strcmp(k->name, writtens[t->written.kind].name) != 0)
        k++;
    return k;
}

static struct numbers numbers_of(const struct ticket *t)
{
    struct numbers n;
    const struct kind *k = row_of(t);
    write_options(n.text, sizeof n.text, t, k->needs | k->may);
    return n;
}

static pel_report judge_written(struct ticket *t)
{
    return pel_judge_ticket(t->written);
}

static pel_report fill_written(const struct ticket *t, uint8_t *out, size_t bytes)
{
    return pel_design_ticket(t->written, out, bytes);
}

/* Begins with the ticket, since nobody said its numbers here. */
static const char *mean_written(const struct ticket *t, const pel_report *r)
{
    static char text[700];
    const struct kind *k = row_of(t);
    snprintf(text, sizeof text, "in ticket %" PRIu64 " (%s, %s) %s", t->record, k->name, numbers_of(t).text,
             meaning_of(k, t, r));
    return text;
}

/* The byte that a ticket begins at, and what is read there. */
struct found {
    size_t place;
    pel_reading reading;
};

static struct found find_ticket(const struct card *c, uint64_t number)
{
    struct found f = {0, pel_read_ticket(c->bytes, c->n)};
    for (uint64_t i = 1; i < number; i++) {
        f.place += (size_t)f.reading.report.count;
        f.reading = pel_read_ticket(c->bytes + f.place, c->n - f.place);
    }
    return f;
}

struct kind take_ticket(const struct card *c, uint64_t number, struct ticket *t)
{
    put_ticket(t, find_ticket(c, number).reading.ticket);
    t->record = number;
    t->given &= ~(CARD | RECORD);
    struct kind k = *row_of(t);
    k.judge = judge_written;
    k.fill = fill_written;
    k.meaning = mean_written;
    return k;
}

uint64_t unused_beta(const struct card *c, uint64_t number)
{
    enum { WINDOW_FIELD = 2, BETA_FIELD = 3 };
    struct found f = find_ticket(c, number);
    const pel_ticket *written = &f.reading.ticket;
    bool used = written->kind != PEL_TICKET_LOWPASS || written->fields[WINDOW_FIELD] == PEL_KAISER;
    return used ? 0 : bits_at(c->bytes + f.place + HEAD + BETA_FIELD * WORD, WORD);
}

pel_report write_over(struct card *c, uint64_t number, pel_ticket written)
{
    struct found f = find_ticket(c, number);
    return pel_write_ticket(written, c->bytes + f.place, (size_t)f.reading.report.count);
}

/* ---- The card ---------------------------------------------------------------------------------- */

bool read_card(struct card *c, const char *path)
{
    c->source = path == NULL ? "standard input" : path;
    c->bytes = read_file(path, MOST_BYTES, &c->n);
    if (c->bytes == NULL)
        return false;
    c->found = pel_check_card(c->bytes, c->n);
    return true;
}

void free_card(struct card *c)
{
    free(c->bytes);
    c->bytes = NULL;
}

/* What is wrong with the record that reading ended at, and what stands there. */
static void say_wrong_record(FILE *to, const struct card *c)
{
    const uint8_t *at = c->bytes + c->found.place;
    size_t left = c->n - (size_t)c->found.place;
    uint32_t number = c->found.report.number;
    fputs(common_meaning(number), to);
    if (left < HEAD) {
        fprintf(to, " (expected %d bytes or more, given %zu)", HEAD, left);
        return;
    }
    uint64_t length = bits_at(at, 4), kind = bits_at(at + 4, 2);
    if (number == PEL_UNKNOWN_KIND) {
        fprintf(to, " (offered %" PRIu64 ")", kind);
        return;
    }
    const struct written *w = &writtens[kind];
    if (number == PEL_BAD_RECORD_LENGTH)
        fprintf(to, " (%s: expected %zu, given %" PRIu64 ")", w->name, 2 + WORD * w->fields, length);
    if (number == PEL_CUT_SHORT)
        fprintf(to, " (%s: expected %zu bytes, given %zu)", w->name, HEAD + WORD * w->fields, left);
    if (number == PEL_BAD_CODE)
        fprintf(to, " (smallest 0, largest %d, offered %" PRIu64 ")", PEL_KAISER, bits_at(at + HEAD + 2 * WORD, WORD));
}

void say_broken(FILE *to, const struct card *c, uint64_t number)
{
    uint64_t broken = c->found.tickets + 1, place = c->found.place;
    fprintf(to, "refused with %" PRIu32 ": ", c->found.report.number);
    if (place == 0)
        fprintf(to, "%s doesn't begin with a ticket: ", c->source);
    else if (number == broken)
        fprintf(to, "record %" PRIu64 " of %s, at byte %" PRIu64 ": ", number, c->source, place);
    else
        fprintf(to, "record %" PRIu64 " of %s stands behind record %" PRIu64 ", which is broken, at byte %" PRIu64 ": ",
                number, c->source, broken, place);
    say_wrong_record(to, c);
}

/* ---- The list ---------------------------------------------------------------------------------- */

/* How wide the columns are. */
struct columns {
    int number, place, numbers;
};

static int digits(uint64_t n)
{
    int d = 1;
    for (; n > 9; n /= 10)
        d++;
    return d;
}

static int wider(int a, int b)
{
    return a > b ? a : b;
}

/* As wide as what stands there; but numbers of very many digits stick out, and don't push the others' verdicts away. */
static struct columns columns_for(const struct card *c)
{
    enum { WIDEST = 72 };
    struct columns w = {wider(6, digits(c->found.tickets + 1)), wider(4, digits(c->n)), 7};
    size_t place = 0;
    for (uint64_t i = 0; i < c->found.tickets; i++) {
        pel_reading r = pel_read_ticket(c->bytes + place, c->n - place);
        struct ticket t = {0};
        put_ticket(&t, r.ticket);
        int letters = (int)strlen(numbers_of(&t).text);
        w.numbers = wider(w.numbers, letters <= WIDEST ? letters : 0);
        place += (size_t)r.report.count;
    }
    return w;
}

/* Whether it is accepted. */
static bool list_ticket(FILE *to, struct ticket *t)
{
    const struct kind *k = row_of(t);
    pel_report r = judge_written(t);
    if (r.number == PEL_ACCEPTED)
        fprintf(to, "accepted: %" PRIu64 " tap%s, delay %s\n", r.count, r.count == 1 ? "" : "s",
                samples_of(pel_delay(r.count).count).text);
    else {
        say_refusal(to, k, t, &r);
        fputc('\n', to);
    }
    return r.number == PEL_ACCEPTED;
}

static void list_all(FILE *to, const struct card *c, uint64_t refused)
{
    uint64_t tickets = c->found.tickets;
    fprintf(to, "%" PRIu64 " ticket%s: %" PRIu64 " accepted, %" PRIu64 " refused; ", tickets, tickets == 1 ? "" : "s",
            tickets - refused, refused);
    if (c->found.report.number != PEL_ACCEPTED)
        fprintf(to, "the card is broken at byte %" PRIu64 " of %zu\n", c->found.place, c->n);
    else if (c->n == 0)
        fputs("the card is empty\n", to);
    else
        fprintf(to, "the card is whole, %zu bytes\n", c->n);
}

uint64_t list_card(FILE *to, const struct card *c)
{
    struct columns w = columns_for(c);
    uint64_t refused = 0, first = 0;
    size_t place = 0;
    if (c->n != 0)
        fprintf(to, "%*s  %*s  %-11s  %-*s  %s\n", w.number, "ticket", w.place, "byte", "kind", w.numbers, "numbers",
                "verdict");
    for (uint64_t i = 1; i <= c->found.tickets; i++) {
        pel_reading r = pel_read_ticket(c->bytes + place, c->n - place);
        struct ticket t = {0};
        put_ticket(&t, r.ticket);
        fprintf(to, "%*" PRIu64 "  %*zu  %-11s  %-*s  ", w.number, i, w.place, place, writtens[r.ticket.kind].name,
                w.numbers, numbers_of(&t).text);
        if (!list_ticket(to, &t)) {
            refused++;
            first = first == 0 ? i : first;
        }
        place += (size_t)r.report.count;
    }
    if (c->found.report.number != PEL_ACCEPTED) {
        first = c->found.tickets + 1;
        fprintf(to, "%*" PRIu64 "  %*zu  broken with %" PRIu32 ": ", w.number, first, w.place, place,
                c->found.report.number);
        say_wrong_record(to, c);
        fputc('\n', to);
    }
    list_all(to, c, refused);
    return first;
}
