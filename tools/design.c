/* Designs a filter, a section or a window from numbers on the command line or on a card, through the C header, writes
 * its coefficients in the form that is asked for and where, and draws them, or its ticket as a record of a card; a
 * refusal is said in words on standard error, with its number as the exit status, and leaves no file. */
#include <inttypes.h>
#include <stdarg.h>
#include <stdbool.h>
#include <stdio.h>
#include <stdlib.h>
#include <string.h>

#include "card.h"
#include "correct.h"
#include "fields.h"
#include "files.h"
#include "help.h"
#include "kinds.h"
#include "lists.h"
#include "name.h"

/* Exit statuses beside the refusals' numbers: the words were wrong, the machine failed. */
enum { USAGE = 64, FAILED = 74 };

/* ---- What is said ----------------------------------------------------------------------------- */

/* The forms that exclude each other, as in [--q15 | --f32]. */
static void say_forms(FILE *to, option_set set)
{
    const char *name, *lead = " [";
    for (int i = 0; (name = option_of(set, i)) != NULL; i++) {
        fprintf(to, "%s%s", lead, name);
        lead = " | ";
    }
    fputs(set == 0 ? "\n" : "]\n", to);
}

/* The kinds, one a line. */
static void list_kinds(FILE *to)
{
    const char *name = program_name();
    fprintf(to, "usage: %s KIND OPTIONS\n       %s KIND --help\n       %s --version\n\n", name, name, name);
    for (size_t k = 0; k < KINDS; k++)
        if (k == 0 || strcmp(kinds[k].name, kinds[k - 1].name) != 0)
            fprintf(to, "  %-17s %s\n", kinds[k].name, help_for(kinds[k].name)->summary);
}

/* Whether tickets of a kind can stand on a card; those of a card do. */
static bool has_record(const char *name)
{
    return kind_on_card(name) != 0 || strcmp(name, "card") == 0;
}

/* The lines of one kind, or the list of all where the name is null. */
static void usage(FILE *to, const char *name)
{
    const char *lead = "usage:";
    if (name == NULL) {
        list_kinds(to);
        return;
    }
    for (size_t k = 0; k < KINDS; k++)
        if (strcmp(name, kinds[k].name) == 0) {
            fprintf(to, "%-6s %s %s %s", lead, program_name(), kinds[k].name, kinds[k].usage);
            say_forms(to, form_options(kinds[k].forms));
            lead = "";
        }
    fprintf(to, "       and with [--form text|c|raw%s] [--name NAME] [--out FILE] [--plot FILE]\n",
            has_record(name) ? "|card" : "");
}

static void help(FILE *to, const char *name)
{
    const struct help *h = help_for(name);
    usage(to, name);
    fprintf(to, "\n%s: %s\n\n%s%s\nexample:\n", name, h->summary, h->options, every_help);
    fprintf(to, "  %s %s\n", program_name(), h->example);
}

/* What is wrong with the words, as printf has it, and the usage of the kind. */
static int complain(const char *kind, const char *format, ...)
{
    va_list words;
    va_start(words, format);
    fprintf(stderr, "%s: ", program_name());
    vfprintf(stderr, format, words);
    fputc('\n', stderr);
    va_end(words);
    usage(stderr, kind);
    return USAGE;
}

/* A refusal in one line. */
static int explain(const struct kind *k, const struct ticket *t, pel_report r)
{
    fprintf(stderr, "%s: ", program_name());
    say_refusal(stderr, k, t, &r);
    fputc('\n', stderr);
    return (int)r.number;
}

/* ---- Judge, allocate, design, print ----------------------------------------------------------- */

/* What the numbers were made from, as the words that make them again. */
static void say_origin(FILE *to, const struct kind *k, const struct ticket *t)
{
    fprintf(to, "/* %s %s", program_name(), k->name);
    say_options(to, t, ~(option_set)EVERY, " ", 0);
    fputs(" */\n", to);
}

static void print(FILE *to, const struct kind *k, const struct ticket *t, const struct form *f, const uint8_t *bytes,
                  size_t n)
{
    switch (t->form) {
    case AS_C:
        say_origin(to, k, t);
        print_c(to, f, bytes, n, t->array);
        break;
    case AS_RAW:
        fwrite(bytes, f->number->bytes, n, to);
        break;
    case AS_CARD:
        fwrite(bytes, 1, n, to);
        break;
    default:
        print_text(to, f, bytes, n);
    }
}

/* The picture as a file that has yet to be kept; 0, or the exit status. */
static int plot(struct file *to, const struct kind *k, const struct ticket *t, const struct form *f,
                const uint8_t *bytes, size_t n)
{
    double *numbers = malloc(n * sizeof *numbers + 1);
    if (numbers == NULL) {
        fprintf(stderr, "%s: no memory for the picture of %zu %s\n", program_name(), n, k->numbers);
        return FAILED;
    }
    worth(f, bytes, n, numbers);
    struct subject s = {t, k->show, k->parts, k->needs | k->may, f->number->title, numbers, n};
    if (!open_file(to, t->plot)) {
        free(numbers);
        return FAILED;
    }
    const char *wrong = draw_subject(to->to, &s);
    free(numbers);
    if (wrong != NULL) {
        fprintf(stderr, "%s: can't draw %s: %s\n", program_name(), t->plot, wrong);
        drop_file(to);
        return USAGE;
    }
    return finish_file(to) ? 0 : FAILED;
}

/* Both files are written before one is kept, so that a failure leaves neither. */
static int put_out(const struct kind *k, const struct ticket *t, const struct form *f, const uint8_t *bytes, size_t n)
{
    struct file picture = {0}, numbers;
    if ((t->given & PLOT) != 0) {
        int status = plot(&picture, k, t, f, bytes, n);
        if (status != 0)
            return status;
    }
    bool good = open_file(&numbers, t->out);
    if (good) {
        print(numbers.to, k, t, f, bytes, n);
        good = finish_file(&numbers) && keep_file(&numbers);
    }
    if (!good) {
        drop_file(&picture);
        return FAILED;
    }
    return keep_file(&picture) ? 0 : FAILED;
}

/* The ticket's record, in room for the longest; how many bytes as the count. */
static pel_report write_record(const struct kind *k, const struct ticket *t, uint8_t *record)
{
    pel_ticket written = ticket_of(kind_on_card(k->name), t);
    /* A buffer of no bytes is refused with how many it should have. */
    pel_report r = pel_write_ticket(written, record, 0);
    return r.number == PEL_BAD_LENGTH ? pel_write_ticket(written, record, (size_t)r.expected) : r;
}

/* Fills `room`, and what is converted behind it; nothing is written before all of it is there. A record has none of it,
 * but stands for numbers that were filled in. */
static int fill_and_print(const struct kind *k, const struct ticket *t, const struct form *f, size_t n, uint8_t *room)
{
    uint8_t record[PEL_LONGEST_RECORD], *printed = room;
    pel_report r = k->fill(t, room, n * f->filled);
    if (r.number == PEL_ACCEPTED && t->form == AS_CARD) {
        printed = record;
        r = write_record(k, t, record);
        n = (size_t)r.count;
    }
    if (r.number == PEL_ACCEPTED && f->convert != NULL) {
        printed = room + n * f->filled;
        r = f->convert(room, n * f->filled, printed, n * f->converted);
    }
    if (r.number != PEL_ACCEPTED)
        return explain(k, t, r);
    return put_out(k, t, f, printed, n);
}

/* Room for so many numbers in a form, and never null for none of them; null where there isn't so much. */
static uint8_t *room_for(uint64_t n, const struct form *f)
{
    size_t each = f->filled + f->converted;
    return n > (SIZE_MAX - 1) / each ? NULL : malloc((size_t)n * each + 1);
}

static int design(const struct kind *k, struct ticket *t)
{
    /* What can't be written whatever its numbers are, a window of one's own, is told before anything else. */
    uint8_t record[PEL_LONGEST_RECORD];
    pel_report r = {.number = PEL_ACCEPTED};
    if (t->form == AS_CARD)
        r = write_record(k, t, record);
    /* Judged first, so that an impossible count is a refusal and not a want of memory. */
    if (r.number == PEL_ACCEPTED)
        r = k->judge(t);
    if (r.number != PEL_ACCEPTED)
        return explain(k, t, r);
    if (r.count == 0 && t->form == AS_C) {
        fprintf(stderr, "%s: a C array needs one element or more, and there are no %s\n", program_name(), k->numbers);
        return USAGE;
    }
    const struct form *f = form_for(k->forms, t->given);
    uint8_t *room = room_for(r.count, f);
    if (room == NULL) {
        fprintf(stderr, "%s: no memory for %" PRIu64 " %s\n", program_name(), r.count, k->numbers);
        return FAILED;
    }
    int status = fill_and_print(k, t, f, (size_t)r.count, room);
    free(room);
    return status;
}

/* ---- From a card ------------------------------------------------------------------------------ */

/* Why a record of the card can't be had; that it hasn't so many is the fault of the words. */
static int explain_record(const struct card *c, uint64_t number)
{
    if (number > c->found.tickets && c->found.report.number != PEL_ACCEPTED) {
        fprintf(stderr, "%s: ", program_name());
        say_broken(stderr, c, number);
        fputc('\n', stderr);
        return (int)c->found.report.number;
    }
    fprintf(stderr, "%s: no record %" PRIu64 " on %s: it ", program_name(), number, c->source);
    if (c->n == 0)
        fputs("is empty\n", stderr);
    else
        fprintf(stderr, "has %" PRIu64 ", counted from 1\n", c->found.tickets);
    return USAGE;
}

/* The list, and then in one line what its status is for: as where that record is asked for. */
static int list(const struct card *c, struct ticket *t)
{
    struct file to;
    if (!open_file(&to, t->out))
        return FAILED;
    uint64_t number = list_card(to.to, c);
    if (!finish_file(&to) || !keep_file(&to))
        return FAILED;
    if (number == 0)
        return 0;
    if (number > c->found.tickets)
        return explain_record(c, number);
    struct kind k = take_ticket(c, number, t);
    return explain(&k, t, k.judge(t));
}

/* The card's path; null for standard input. */
static const char *card_path(const struct ticket *t)
{
    return strcmp(t->card, "-") == 0 ? NULL : t->card;
}

/* The whole card with one ticket corrected, which is judged: inside the vault nobody can correct it any more. */
static int correct(struct card *c, const struct kind *k, struct ticket *t)
{
    const char *wrong = correct_ticket(t);
    if (wrong != NULL)
        return complain("card", "%s", wrong);
    pel_report r = k->judge(t);
    if (r.number == PEL_ACCEPTED)
        r = write_over(c, t->record, t->written);
    if (r.number != PEL_ACCEPTED)
        return explain(k, t, r);
    struct file to;
    if (!open_file(&to, t->out))
        return FAILED;
    fwrite(c->bytes, 1, c->n, to.to);
    return finish_file(&to) && keep_file(&to) ? 0 : FAILED;
}

/* A beta that the window doesn't take is written as zeros: other bits of it that stood on the card are told. */
static void say_dropped(const struct ticket *t, uint64_t beta)
{
    fprintf(stderr, "%s: ticket %" PRIu64 ": ", program_name(), t->record);
    say_options(stderr, t, WINDOW, "its ", 2);
    fprintf(stderr, " takes no beta; the %016" PRIX64 " that stood there is written as 0\n", beta);
}

/* Designs a ticket of the card, or corrects it. */
static int use_ticket(struct card *c, struct ticket *t)
{
    uint64_t unused = unused_beta(c, t->record);
    struct kind k = take_ticket(c, t->record, t);
    bool corrects = (t->given & SET) != 0;
    int status = corrects ? correct(c, &k, t) : design(&k, t);
    if (status == 0 && (corrects || t->form == AS_CARD) && unused != 0 && t->window != PEL_KAISER)
        say_dropped(t, unused);
    return status;
}

static int use_card(struct ticket *t)
{
    struct card c;
    int status;
    if (!read_card(&c, card_path(t)))
        return FAILED;
    if ((t->given & RECORD) == 0) {
        status = list(&c, t);
    } else if (t->record == 0 || t->record > c.found.tickets) {
        status = explain_record(&c, t->record);
    } else {
        status = use_ticket(&c, t);
    }
    free_card(&c);
    return status;
}

/* ---- From words to a kind --------------------------------------------------------------------- */

static option_set options_in(const struct kind *k)
{
    return k->needs | k->may | form_options(k->forms) | EVERY;
}

/* The options of every row of a name; 0 for an unknown one. */
static option_set options_of(const char *name)
{
    option_set set = 0;
    for (size_t k = 0; k < KINDS; k++)
        if (strcmp(name, kinds[k].name) == 0)
            set |= options_in(&kinds[k]);
    return set;
}

/* The first row of a name that has every option given. */
static const struct kind *row_for(const char *name, option_set given)
{
    for (size_t k = 0; k < KINDS; k++)
        if (strcmp(name, kinds[k].name) == 0 && (given & ~options_in(&kinds[k])) == 0)
            return &kinds[k];
    return NULL;
}

/* What could not be said is no success. */
static int said(void)
{
    if (fflush(stdout) == 0)
        return 0;
    perror(program_name());
    return FAILED;
}

static bool asks_for_help(int n, char **word)
{
    for (int i = 0; i < n; i++)
        if (strcmp(word[i], "--help") == 0)
            return true;
    return false;
}

/* What is wrong with --set or --form card beside the others: 0, or the status after saying it. A card and a record are
 * bytes of their own, with no numbers to convert and nothing to draw. */
static int judge_records(const char *name, const struct ticket *t)
{
    option_set others = t->given & (Q15 | F32 | DELAY | PLOT);
    const char *beside = option_of(others | (t->given & (FORM | ARRAY)), 0);
    if ((t->given & SET) != 0 && beside != NULL)
        return complain(name, "%s and --set exclude each other: what comes out is the whole card", beside);
    const char *wrong = (t->given & SET) != 0 ? wrong_corrections(t->corrections) : NULL;
    if (wrong != NULL)
        return complain(name, "%s", wrong);
    if (t->form != AS_CARD)
        return 0;
    if (!has_record(name))
        return complain(name, "a card has no tickets of the kind %s: leave --form card out", name);
    if (others != 0)
        return complain(name, "%s and --form card exclude each other: a record has no numbers to convert or draw",
                        option_of(others, 0));
    return 0;
}

/* What is wrong with options that are each good: 0, or the status after saying it. */
static int judge_together(const struct kind *k, const struct ticket *t)
{
    option_set forms = t->given & form_options(k->forms);
    /* A list comes in no form but its own, and there is nothing to draw. */
    const char *other = option_of(t->given & EVERY & ~(option_set)OUT, 0);
    if (k->forms == list_forms && other != NULL)
        return complain(k->name, "%s goes with --record only", other);
    if (option_of(forms, 1) != NULL)
        return complain(k->name, "%s and %s exclude each other", option_of(forms, 0), option_of(forms, 1));
    if (form_for(k->forms, t->given)->instead != NULL && t->form != AS_TEXT)
        return complain(k->name, "%s is text, and goes with no other --form", option_of(forms, 0));
    if ((t->given & ARRAY) != 0 && t->form != AS_C)
        return complain(k->name, "--name goes with --form c only");
    if ((t->given & OUT) != 0 && (t->given & PLOT) != 0 && strcmp(t->out, t->plot) == 0)
        return complain(k->name, "--out and --plot name the same file");
    /* A card is not to be written over. */
    if ((t->given & CARD) != 0 && (t->given & OUT) != 0 && is_same_file(card_path(t), t->out))
        return complain(k->name, "--out names the card itself");
    if ((t->given & CARD) != 0 && (t->given & PLOT) != 0 && is_same_file(card_path(t), t->plot))
        return complain(k->name, "--plot names the card itself");
    if ((t->given & COEFFICIENTS) != 0 && t->window != OWN_WINDOW)
        return complain(k->name, "--coefficients goes with --window cosines only");
    /* Kaiser's window is the only one with a shape to give, and a customer's own is its coefficients. */
    option_set needs = k->needs | (t->window == PEL_KAISER ? BETA : t->window == OWN_WINDOW ? COEFFICIENTS : 0);
    const char *missing = option_of(needs & ~t->given, 0);
    return missing != NULL ? complain(k->name, "missing: %s", missing) : 0;
}

int main(int argc, char **argv)
{
    take_name(argv[0]);
    if (argc < 2) {
        list_kinds(stderr);
        return USAGE;
    }
    if (strcmp(argv[1], "--help") == 0) {
        list_kinds(stdout);
        return said();
    }
    if (strcmp(argv[1], "--version") == 0) {
        puts("peldozkar " PEL_VERSION);
        return said();
    }
    const char *name = argv[1];
    option_set allowed = options_of(name);
    if (allowed == 0)
        return complain(NULL, "unknown kind %s", name);
    if (asks_for_help(argc - 2, argv + 2)) {
        help(stdout, name);
        return said();
    }

    struct ticket t = {.window = PEL_HAMMING, .max_taps = 1 << 24, .symmetry = PEL_PERIODIC, .array = "taps"};
    struct complaint wrong = take_words(argc - 2, argv + 2, allowed, &t);
    if (wrong.what != NULL)
        return complain(name, "%s %s", wrong.what, wrong.word);
    int status = judge_records(name, &t);
    if (status != 0)
        return status;
    const struct kind *k = row_for(name, t.given);
    if (k == NULL)
        return complain(name, "the options belong to two ways of asking for a %s", name);
    status = judge_together(k, &t);
    if (status != 0)
        return status;
    uint8_t *numbers = bytes_of_list(t.coefficients != NULL ? t.coefficients : "", &t.numbers_bytes);
    if (numbers == NULL) {
        fprintf(stderr, "%s: no memory for %zu coefficients\n", program_name(), t.numbers_bytes / 8);
        return FAILED;
    }
    t.numbers = numbers;
    status = (k->needs & CARD) != 0 ? use_card(&t) : design(k, &t);
    free(numbers);
    return status;
}
