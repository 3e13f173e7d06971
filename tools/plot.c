/* Draws a picture of a filter as SVG, by hand: two panels, one below the other. Whatever the filter's length, a
 * panel is drawn by columns of a pixel, so that the file stays small and shows what all points together would. */
#include "plot.h"

#include <math.h>
#include <stdbool.h>
#include <string.h>

enum { WIDTH = 920, HEIGHT = 740, LEFT = 84, RIGHT = 888, COLUMNS = RIGHT - LEFT };

/* So many stems can be told apart, so many more have a column each. */
enum { DOTTED = 200 };

/* A panel and what its edges stand for. */
struct panel {
    double top, bottom;
    double x0, x1, y0, y1;
};

static const char *const colours[] = {"#c0392b", "#b9770e", "#1e8449", "#7d3c98", "#2e4053", "#a04000"};

/* ---- Small things ------------------------------------------------------------------------------ */

static double across(const struct panel *p, double x)
{
    return LEFT + COLUMNS * (x - p->x0) / (p->x1 - p->x0);
}

static double down(const struct panel *p, double y)
{
    return p->bottom - (p->bottom - p->top) * (y - p->y0) / (p->y1 - p->y0);
}

static double held(double x, double least, double most)
{
    return x < least ? least : x > most ? most : x;
}

/* Text as XML has it, with a true minus sign. */
static void say(FILE *to, const char *text)
{
    for (; *text != '\0'; text++)
        switch (*text) {
        case '&':
            fputs("&amp;", to);
            break;
        case '<':
            fputs("&lt;", to);
            break;
        case '>':
            fputs("&gt;", to);
            break;
        case '-':
            /* A hyphen stands behind a letter. */
            fputs(text[1] >= '0' && text[1] <= '9' ? "\xE2\x88\x92" : "-", to);
            break;
        default:
            fputc(*text, to);
        }
}

static void put_text(FILE *to, double x, double y, const char *form, const char *text)
{
    fprintf(to, "<text x=\"%.1f\" y=\"%.1f\" %s>", x, y, form);
    say(to, text);
    fputs("</text>\n", to);
}

/* 1, 2 or 5 times a power of ten, so that about so many steps make the range. */
static double step_for(double range, int about)
{
    double raw = range / about, power = pow(10.0, floor(log10(raw))), times = raw / power;
    return power * (times < 1.5 ? 1.0 : times < 3.5 ? 2.0 : times < 7.5 ? 5.0 : 10.0);
}

/* ---- Axes -------------------------------------------------------------------------------------- */

static void put_tick(FILE *to, double x, double y, const char *anchor, double value)
{
    char text[40], form[60];
    snprintf(text, sizeof text, "%.6g", value);
    snprintf(form, sizeof form, "class=\"tick\" text-anchor=\"%s\"", anchor);
    put_text(to, x, y, form, text);
}

/* The multiple of a step: 0 for what rounding left of it. */
static double tick_at(double k, double step)
{
    return k == 0.0 ? 0.0 : k * step;
}

static void put_grid_x(FILE *to, const struct panel *p, double step)
{
    for (double k = ceil(p->x0 / step - 1e-9); k * step <= p->x1 + 1e-9 * step; k++) {
        double x = across(p, k * step);
        fprintf(to, "<path class=\"grid\" d=\"M%.1f,%.1fV%.1f\"/>\n", x, p->top, p->bottom);
        put_tick(to, x, p->bottom + 17, "middle", tick_at(k, step));
    }
}

static void put_grid_y(FILE *to, const struct panel *p, double step)
{
    for (double k = ceil(p->y0 / step - 1e-9); k * step <= p->y1 + 1e-9 * step; k++) {
        double y = down(p, k * step);
        fprintf(to, "<path class=\"grid\" d=\"M%d,%.1fH%d\"/>\n", LEFT, y, RIGHT);
        put_tick(to, LEFT - 8, y + 4, "end", tick_at(k, step));
    }
}

static void put_axes(FILE *to, const struct panel *p, double step_x, double step_y, const char *name_x,
                     const char *name_y)
{
    char form[120];
    double middle = (p->top + p->bottom) / 2;
    put_grid_x(to, p, step_x);
    put_grid_y(to, p, step_y);
    put_text(to, (LEFT + RIGHT) / 2.0, p->bottom + 38, "class=\"name\" text-anchor=\"middle\"", name_x);
    snprintf(form, sizeof form, "class=\"name\" text-anchor=\"middle\" transform=\"rotate(-90 22 %.1f)\"", middle);
    put_text(to, 22, middle, form, name_y);
}

static void put_frame(FILE *to, const struct panel *p)
{
    fprintf(to, "<rect class=\"frame\" x=\"%d\" y=\"%.1f\" width=\"%d\" height=\"%.1f\"/>\n", LEFT, p->top, COLUMNS,
            p->bottom - p->top);
}

/* ---- Marks ------------------------------------------------------------------------------------- */

static void put_mark(FILE *to, const struct panel *at, const struct mark *m, const char *colour)
{
    double x = held(across(at, m->from), LEFT, RIGHT);
    if (m->from > at->x1)
        return;
    switch (m->shape) {
    case AT:
        fprintf(to, "<path class=\"mark\" stroke=\"%s\" d=\"M%.1f,%.1fV%.1f\"/>\n", colour, x, at->top, at->bottom);
        break;
    case BETWEEN:
        fprintf(to, "<rect class=\"band\" fill=\"%s\" x=\"%.1f\" y=\"%.1f\" width=\"%.1f\" height=\"%.1f\"/>\n", colour,
                x, at->top, held(across(at, m->to), LEFT, RIGHT) - x, at->bottom - at->top);
        break;
    case LEVEL:
        fprintf(to, "<path class=\"mark\" stroke=\"%s\" clip-path=\"url(#inside)\" d=\"M%.1f,%.1fH%d\"/>\n", colour, x,
                down(at, m->to), RIGHT);
        break;
    }
}

/* A small piece of the mark, and what it is. */
static void put_key(FILE *to, double x, double y, const struct mark *m, const char *colour)
{
    if (m->shape == BETWEEN)
        fprintf(to, "<rect class=\"band\" fill=\"%s\" x=\"%.1f\" y=\"%.1f\" width=\"20\" height=\"11\"/>\n", colour, x,
                y - 9.5);
    else if (m->shape == AT)
        fprintf(to, "<path class=\"mark\" stroke=\"%s\" d=\"M%.1f,%.1fV%.1f\"/>\n", colour, x + 14, y - 11, y + 3);
    else
        fprintf(to, "<path class=\"mark\" stroke=\"%s\" d=\"M%.1f,%.1fH%.1f\"/>\n", colour, x, y - 4, x + 20);
    put_text(to, x + 26, y, "class=\"key\"", m->label);
}

/* No font tells its widths here: the widest of the usual ones, about. */
static double width_of(const char *text)
{
    return 6.7 * (double)strlen(text) + 4.0;
}

/* In the line above the panel, as far right as they go. */
static void put_keys(FILE *to, const struct panel *at, const struct mark *marks, size_t n, const char *const *colour)
{
    double x = RIGHT;
    for (size_t k = 0; k < n; k++)
        x -= 26 + width_of(marks[k].label) + (k == 0 ? 0 : 14);
    for (size_t k = 0; k < n; k++) {
        put_key(to, x, at->top - 10, &marks[k], colour[k]);
        x += 26 + width_of(marks[k].label) + 14;
    }
}

/* ---- Stems ------------------------------------------------------------------------------------- */

/* The range of the samples and 0, with some air. */
static void fit_samples(const struct picture *p, struct panel *to)
{
    double least = 0.0, most = 0.0;
    for (size_t i = 0; i < p->n; i++) {
        least = fmin(least, p->samples[i]);
        most = fmax(most, p->samples[i]);
    }
    double air = most > least ? 0.06 * (most - least) : 1.0;
    to->y0 = least < 0.0 || most == 0.0 ? least - air : 0.0;
    to->y1 = most > 0.0 || least == 0.0 ? most + air : 0.0;
}

/* A stem for each sample, or where they are more than columns one for each column, over all its samples. */
static void put_stems(FILE *to, const struct panel *at, const struct picture *p)
{
    size_t stems = p->n <= COLUMNS ? p->n : COLUMNS;
    fprintf(to, "<path class=\"stems%s\" d=\"", p->n <= DOTTED ? "" : p->n <= COLUMNS ? " thin" : " full");
    for (size_t k = 0; k < stems; k++) {
        size_t first = (size_t)((double)k * (double)p->n / (double)stems);
        size_t after = (size_t)((double)(k + 1) * (double)p->n / (double)stems);
        double least = 0.0, most = 0.0;
        for (size_t i = first; i < after || i == first; i++) {
            least = fmin(least, p->samples[i]);
            most = fmax(most, p->samples[i]);
        }
        fprintf(to, "M%.1f,%.1fV%.1f", across(at, (double)first), down(at, least), down(at, most));
    }
    fputs("\"/>\n", to);
    if (p->n <= DOTTED)
        for (size_t i = 0; i < p->n; i++)
            fprintf(to, "<circle class=\"dot\" cx=\"%.1f\" cy=\"%.1f\" r=\"%s\"/>\n", across(at, (double)i),
                    down(at, p->samples[i]), p->n <= 100 ? "2.6" : "1.8");
}

static void draw_samples(FILE *to, const struct picture *p)
{
    struct panel at = {.top = 104, .bottom = 328, .x0 = -0.7, .x1 = (double)p->n - 0.3};
    fit_samples(p, &at);
    put_text(to, LEFT, at.top - 10, "class=\"panel\"", p->stems);
    put_axes(to, &at, fmax(1.0, step_for((double)p->n, 10)), step_for(at.y1 - at.y0, 5), p->index, "amplitude");
    fprintf(to, "<path class=\"zero\" d=\"M%d,%.1fH%d\"/>\n", LEFT, down(&at, 0.0), RIGHT);
    if (p->delay.label[0] != '\0') {
        const char *const *last = &colours[MARKS - 1];
        put_mark(to, &at, &p->delay, *last);
        put_keys(to, &at, &p->delay, 1, last);
    }
    put_stems(to, &at, p);
    put_frame(to, &at);
}

/* ---- Magnitudes -------------------------------------------------------------------------------- */

/* The lowest magnitude but for the notches between lobes, which have no foot: only the top of each stretch of
 * the axis counts. */
static double lowest_lobe(const struct picture *p)
{
    enum { STRETCHES = 24 };
    double lowest = INFINITY, most[STRETCHES];
    for (size_t k = 0; k < STRETCHES; k++)
        most[k] = FLOOR_DB;
    for (size_t i = 0; i < p->response->n; i++) {
        double x = p->response->frequency[i] * p->scale / p->last * STRETCHES;
        if (x < STRETCHES)
            most[(size_t)x] = fmax(most[(size_t)x], p->response->db[i]);
    }
    for (size_t k = 0; k < STRETCHES; k++)
        lowest = fmin(lowest, most[k]);
    return lowest;
}

static double highest(const struct picture *p)
{
    double most = FLOOR_DB;
    for (size_t i = 0; i < p->response->n; i++)
        if (p->response->frequency[i] * p->scale <= p->last)
            most = fmax(most, p->response->db[i]);
    return most;
}

/* From a step below what is worth showing, the levels asked for with it, to some air above the top. */
static double fit_magnitudes(const struct picture *p, struct panel *to)
{
    double most = highest(p), least = fmin(lowest_lobe(p), p->deepest);
    for (size_t k = 0; k < p->marked; k++)
        if (p->marks[k].shape == LEVEL) {
            least = fmin(least, p->marks[k].to);
            most = fmax(most, p->marks[k].to);
        }
    least = fmax(fmin(least, most - 6.0), FLOOR_DB);
    double step = step_for(fmax(most - least, 6.0) * 1.15, 7);
    to->y0 = fmax(FLOOR_DB, step * floor(least / step - 0.5));
    to->y1 = most + 0.35 * step;
    /* Nothing at all: a picture of the floor. */
    if (to->y1 <= to->y0 + step)
        to->y1 = to->y0 + 8.0 * step;
    return step;
}

/* Where the points of a column begin, rise, fall and end: what a line through all of them would show. */
struct column {
    double x[4], y[4];
};

static void begin_column(struct column *c, double x, double y)
{
    for (int k = 0; k < 4; k++) {
        c->x[k] = x;
        c->y[k] = y;
    }
}

static void add_to_column(struct column *c, double x, double y)
{
    for (int k = 1; k < 4; k++)
        if (k == 3 || (k == 1 ? y < c->y[1] : y > c->y[2])) {
            c->x[k] = x;
            c->y[k] = y;
        }
}

static void put_point(FILE *to, double x, double y, const char **lead)
{
    fprintf(to, "%s%.1f,%.1f", *lead, x, y);
    *lead = " ";
}

static void put_column(FILE *to, const struct column *c, const char **lead)
{
    int first = c->x[1] <= c->x[2] ? 1 : 2, second = 3 - first;
    put_point(to, c->x[0], c->y[0], lead);
    if (c->x[first] > c->x[0])
        put_point(to, c->x[first], c->y[first], lead);
    if (c->x[second] > c->x[first])
        put_point(to, c->x[second], c->y[second], lead);
    if (c->x[3] > c->x[second])
        put_point(to, c->x[3], c->y[3], lead);
}

static void put_curve(FILE *to, const struct panel *at, const struct picture *p)
{
    struct column c;
    const char *lead = "";
    bool begun = false;
    double limit = 0.0;
    fputs("<polyline class=\"curve\" clip-path=\"url(#inside)\" points=\"", to);
    for (size_t i = 0; i < p->response->n; i++) {
        double x = across(at, p->response->frequency[i] * p->scale);
        /* Far outside counts as just outside: what is cut off anyway needs no digits. */
        double y = held(down(at, p->response->db[i]), at->top - 50, at->bottom + 50);
        if (x > RIGHT + COLUMNS / 50.0)
            break;
        if (begun && x < limit) {
            add_to_column(&c, x, y);
            continue;
        }
        if (begun)
            put_column(to, &c, &lead);
        begin_column(&c, x, y);
        begun = true;
        limit = floor(x) + 1.0;
    }
    if (begun)
        put_column(to, &c, &lead);
    fputs("\"/>\n", to);
}

static void draw_magnitudes(FILE *to, const struct picture *p)
{
    struct panel at = {.top = 424, .bottom = 684, .x0 = 0.0, .x1 = p->last};
    double step = fit_magnitudes(p, &at);
    fprintf(to, "<clipPath id=\"inside\"><rect x=\"%d\" y=\"%.1f\" width=\"%d\" height=\"%.1f\"/></clipPath>\n", LEFT,
            at.top, COLUMNS, at.bottom - at.top);
    put_text(to, LEFT, at.top - 10, "class=\"panel\"", "Magnitude");
    put_axes(to, &at, step_for(p->last, 9), step, p->axis,
             p->relative ? "magnitude (dB, 0 at frequency 0)" : "magnitude (dB)");
    /* Bands below all lines, and all of them below the curve. */
    for (int lines = 0; lines < 2; lines++)
        for (size_t k = 0; k < p->marked; k++)
            if ((p->marks[k].shape != BETWEEN) == lines)
                put_mark(to, &at, &p->marks[k], colours[k]);
    put_curve(to, &at, p);
    put_frame(to, &at);
    put_keys(to, &at, p->marks, p->marked, colours);
}

/* ---- The whole --------------------------------------------------------------------------------- */

static const char style[] = "text{font-family:Helvetica,Arial,'DejaVu Sans',sans-serif;fill:#333}\n"
                            ".title{font-size:20px;font-weight:bold;fill:#111}\n"
                            ".numbers{font-size:13px;fill:#555}\n"
                            ".panel{font-size:14px;font-weight:bold}\n"
                            ".name{font-size:13px}\n"
                            ".tick,.key{font-size:12px}\n"
                            ".grid{stroke:#e2e2e2;stroke-width:1;fill:none}\n"
                            ".zero{stroke:#999;stroke-width:1;fill:none}\n"
                            ".frame{stroke:#888;stroke-width:1;fill:none}\n"
                            ".stems{stroke:#1f618d;stroke-width:1.4;fill:none}\n"
                            ".thin{stroke-width:1}\n"
                            ".full{stroke-width:1.3}\n"
                            ".dot{fill:#1f618d}\n"
                            ".curve{stroke:#1f618d;stroke-width:1.4;fill:none;stroke-linejoin:round}\n"
                            ".mark{stroke-width:1.3;stroke-dasharray:5 3;fill:none}\n"
                            ".band{fill-opacity:0.16}\n";

/* A letter's width in a line of the head, by the widest of the usual fonts again: digits are wide there, points and
 * commas narrow. */
static double width_in_head(char letter)
{
    return strchr(" ,.", letter) != NULL ? 4.2 : letter >= '0' && letter <= '9' ? 8.3 : 7.7;
}

/* How wide all letters are; and how many of the first fit. */
static double head_width(const char *text)
{
    double width = 0.0;
    for (; *text != '\0'; text++)
        width += width_in_head(*text);
    return width;
}

static size_t fitting(const char *text)
{
    double width = 0.0;
    size_t k = 0;
    while (text[k] != '\0' && (width += width_in_head(text[k])) <= COLUMNS)
        k++;
    return k;
}

/* A line that is still too long has smaller letters. */
static void put_line(FILE *to, double y, const char *text)
{
    char form[60] = "class=\"numbers\"";
    double width = head_width(text);
    if (width > COLUMNS)
        snprintf(form, sizeof form, "class=\"numbers\" style=\"font-size:%.1fpx\"", 13.0 * COLUMNS / width);
    put_text(to, LEFT, y, form, text);
}

/* Where a line that is too long is broken: behind the last comma with a blank, if the rest fits then, else behind the
 * last comma, also in a list; 0 where there is none. */
static size_t break_in(const char *text)
{
    size_t option = 0, entry = 0, most = fitting(text);
    for (size_t k = 0; k < most; k++)
        if (text[k] == ',') {
            entry = k + 1;
            option = text[k + 1] == ' ' ? k + 1 : option;
        }
    return head_width(text + option) <= COLUMNS ? option : entry;
}

/* In two lines where one is too short for them, such as for a window's coefficients. */
static void put_numbers(FILE *to, const struct picture *p)
{
    size_t at = head_width(p->numbers) <= COLUMNS ? 0 : break_in(p->numbers);
    if (at == 0) {
        put_line(to, 60, p->numbers);
        return;
    }
    char first[sizeof p->numbers];
    memcpy(first, p->numbers, at);
    first[at] = '\0';
    put_line(to, 55, first);
    put_line(to, 72, p->numbers + at + strspn(p->numbers + at, " "));
}

void draw(FILE *to, const struct picture *p)
{
    fputs("<?xml version=\"1.0\" encoding=\"UTF-8\"?>\n", to);
    fprintf(to, "<svg xmlns=\"http://www.w3.org/2000/svg\" width=\"%d\" height=\"%d\" viewBox=\"0 0 %d %d\">\n", WIDTH,
            HEIGHT, WIDTH, HEIGHT);
    fputs("<title>", to);
    say(to, p->title);
    fprintf(to, "</title>\n<style>\n%s</style>\n", style);
    fprintf(to, "<rect width=\"%d\" height=\"%d\" fill=\"#fff\"/>\n", WIDTH, HEIGHT);
    put_text(to, LEFT, 36, "class=\"title\"", p->title);
    put_numbers(to, p);
    draw_samples(to, p);
    draw_magnitudes(to, p);
    fputs("</svg>\n", to);
}
