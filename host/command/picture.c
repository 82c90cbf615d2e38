/* The picture of a position: a step a day, the zero line, the days below zero hatched and marked at the axis. All text
 * in it is letters, digits and a few signs, none of which means anything to XML. */
#include "picture.h"

#include <stdbool.h>
#include <string.h>

#include "contents.h"
#include "forms.h"

const char picture_mark[] = "<?xml version=\"1.0\" encoding=\"UTF-8\"?>\n<!-- a position, drawn by crownhazel -->\n";

/* Lengths in units of the picture: it has no others. */
enum {
    WIDTH = 800,
    HEIGHT = 456,
    MARGIN = 20,
    TITLE_LINE = 34, /* where the three lines above the plot stand */
    SPAN_LINE = 60,
    LOWEST_LINE = 84,
    LEGEND = 520, /* what stands to the right in the third */
    TOP = 108,    /* the plot */
    BOTTOM = 396,
    RIGHT = 736,
    DATES_LINE = 434,
    TITLE_SIZE = 21, /* of the letters */
    TEXT_SIZE = 16,
    LETTER = 10,     /* width of a wide digit of the text */
    DATE_ROOM = 118, /* from one date to the next */
    GAP = 6,         /* between things that belong together */
    BAND = 8,        /* height of the mark at the axis under days below zero */
    LEAST_BAND = 6,  /* its least width, so that a single day of many is seen */
    TICK = 12,       /* length of a mark of a day or month, which stands out of the band */
    DATED_TICK = 18, /* of one that has a date */
    SWATCH = 22,     /* width of the hatched piece beside its words */
    MOST_STEPS = 6,  /* on the axis of amounts */
    SHORT_SPAN = 62  /* days; a longer span has its marks at months */
};

/* What the picture is reckoned with. */
struct plot {
    const struct position *position;
    unsigned decimals;
    size_t below;      /* days below zero */
    size_t lowest;     /* the first day of the lowest amount */
    uint64_t step;     /* from one mark to the next on the axis of amounts */
    unsigned up, down; /* steps above and below zero */
    double left;       /* of the plot */
    size_t stride;     /* a date stands at each so many days, or months */
};

static double x_of(const struct plot *plot, size_t day) {
    return plot->left + (RIGHT - plot->left) * (double)day / (double)plot->position->days;
}

/* The middle of a day. */
static double middle_of(const struct plot *plot, size_t day) {
    return (x_of(plot, day) + x_of(plot, day + 1)) / 2;
}

static double y_of(const struct plot *plot, double amount) {
    double steps = (double)(plot->up + plot->down);
    return TOP + (BOTTOM - TOP) * (plot->up - amount / (double)plot->step) / steps;
}

static double y_on(const struct plot *plot, size_t day) {
    return y_of(plot, (double)plot->position->amounts[day]);
}

static uint64_t date_on(const struct plot *plot, size_t day) {
    return crownhazel_day(plot->position->first, day);
}

static bool is_below(const struct plot *plot, size_t day) {
    return plot->position->amounts[day] < 0;
}

static uint64_t steps_to(uint64_t size, uint64_t step) {
    return size / step + (size % step != 0);
}

/* The least of 1, 2, 5, 10, 20, .. by which few steps reach from the lowest amount over zero to the highest. Sizes have
 * no sign, so that nothing overflows. Where all is zero there is one step, of the currency's unit. */
static void choose_steps(struct plot *plot, uint64_t highest, uint64_t lowest) {
    static const uint64_t factors[] = {1, 2, 5};
    uint64_t power = 1;
    size_t factor = 0;
    if (highest == 0 && lowest == 0) {
        for (unsigned i = 0; i < plot->decimals; i++) {
            power *= 10;
        }
        highest = power;
    }
    while (steps_to(highest, factors[factor] * power) + steps_to(lowest, factors[factor] * power) > MOST_STEPS) {
        factor = (factor + 1) % 3;
        power *= factor == 0 ? 10 : 1;
    }
    plot->step = factors[factor] * power;
    plot->up = (unsigned)steps_to(highest, plot->step);
    plot->down = (unsigned)steps_to(lowest, plot->step);
}

/* The number at a mark of the axis of amounts, with the decimals that the marks need. */
static void spell_mark(const struct plot *plot, int steps, char text[NUMBER_FORM]) {
    uint64_t step = plot->step;
    unsigned decimals = plot->decimals;
    while (decimals > 0 && step % 10 == 0) {
        step /= 10;
        decimals--;
    }
    uint64_t size = step * (uint64_t)(steps < 0 ? -steps : steps);
    spell_number((struct number){.negative = steps < 0, .size = size, .decimals = decimals}, " ", text);
}

/* The plot begins where the widest number ends. */
static void choose_left(struct plot *plot) {
    size_t longest = 0;
    char text[NUMBER_FORM];
    for (int i = -(int)plot->down; i <= (int)plot->up; i++) {
        spell_mark(plot, i, text);
        longest = strlen(text) > longest ? strlen(text) : longest;
    }
    double left = (double)(MARGIN + LETTER * longest + 2 * GAP);
    plot->left = left > DATE_ROOM / 2 ? left : DATE_ROOM / 2;
}

static bool is_short(const struct plot *plot) {
    return plot->position->days <= SHORT_SPAN;
}

/* How many days, or months, are between two dates, so that there is room for each. */
static void choose_stride(struct plot *plot) {
    static const size_t days[] = {1, 2, 5, 7, 10, 14, 0};
    static const size_t months[] = {1, 2, 3, 4, 6, 0};
    const size_t *strides = is_short(plot) ? days : months;
    double wide = (RIGHT - plot->left) / (double)plot->position->days * (is_short(plot) ? 1 : 30);
    while (strides[1] != 0 && (double)strides[0] * wide < DATE_ROOM) {
        strides++;
    }
    plot->stride = strides[0];
}

static struct plot plot_of(const struct position *position) {
    struct plot plot = {.position = position, .decimals = decimals_of(position->key)};
    uint64_t highest = 0;
    for (size_t i = 0; i < position->days; i++) {
        uint64_t size = number_of(position->amounts[i], 0).size;
        bool below = is_below(&plot, i);
        plot.below += below;
        plot.lowest = position->amounts[i] < position->amounts[plot.lowest] ? i : plot.lowest;
        highest = !below && size > highest ? size : highest;
    }
    choose_steps(&plot, highest, is_below(&plot, plot.lowest) ? number_of(position->amounts[plot.lowest], 0).size : 0);
    choose_left(&plot);
    choose_stride(&plot);
    return plot;
}

/* For whoever cannot see it, and for the bar above it. */
static void write_title(FILE *out, const struct plot *plot) {
    const char *key = (const char *)plot->position->key;
    char first[DAY_FORM + 1], last[DAY_FORM + 1];
    spell_day(plot->position->first, first);
    spell_day(plot->position->last, last);
    fprintf(out, "<title>Account %.11s, %.3s: balance in value, %s to %s</title>\n", key + ROW_ACCOUNT,
            key + ROW_CURRENCY, first, last);
}

static void write_head(FILE *out, const struct plot *plot) {
    const char *key = (const char *)plot->position->key;
    char first[DAY_FORM + 1], last[DAY_FORM + 1], lowest_day[DAY_FORM + 1], lowest[NUMBER_FORM];
    spell_day(plot->position->first, first);
    spell_day(plot->position->last, last);
    spell_day(date_on(plot, plot->lowest), lowest_day);
    spell_number(number_of(plot->position->amounts[plot->lowest], plot->decimals), " ", lowest);
    fprintf(out, "<text x=\"%d\" y=\"%d\" font-size=\"%d\">Account %.11s, %.3s (bank %.5s, branch %.5s)</text>\n",
            MARGIN, TITLE_LINE, TITLE_SIZE, key + ROW_ACCOUNT, key + ROW_CURRENCY, key + ROW_BANK, key + ROW_BRANCH);
    fprintf(out, "<text x=\"%d\" y=\"%d\">Balance in value at the end of each day, %s to %s</text>\n", MARGIN,
            SPAN_LINE, first, last);
    fprintf(out, "<text x=\"%d\" y=\"%d\">Lowest: %s on %s</text>\n", MARGIN, LOWEST_LINE, lowest, lowest_day);
}

/* How many days are below zero, with a piece of their hatching where there are some. */
static void write_legend(FILE *out, const struct plot *plot) {
    fprintf(out, "<text x=\"%d\" y=\"%d\">Days below zero: %zu of %zu</text>\n", LEGEND + SWATCH + GAP, LOWEST_LINE,
            plot->below, plot->position->days);
    if (plot->below > 0) {
        fprintf(out, "<rect x=\"%d\" y=\"%d\" width=\"%d\" height=\"%d\" fill=\"url(#below)\" stroke=\"#b00020\"/>\n",
                LEGEND, LOWEST_LINE - TEXT_SIZE + 3, SWATCH, TEXT_SIZE);
    }
}

/* Lines that are seen through whatever lies under them, and their numbers. */
static void write_amounts_axis(FILE *out, const struct plot *plot) {
    char text[NUMBER_FORM];
    for (int i = -(int)plot->down; i <= (int)plot->up; i++) {
        double y = y_of(plot, (double)i * (double)plot->step);
        spell_mark(plot, i, text);
        fprintf(out, "<path d=\"M%.2f %.2fH%d\" stroke=\"#000\" stroke-opacity=\"0.2\"/>\n", plot->left - GAP, y,
                RIGHT);
        fprintf(out, "<text x=\"%.2f\" y=\"%.2f\" text-anchor=\"end\">%s</text>\n", plot->left - 2 * GAP,
                y + TEXT_SIZE / 3.0, text);
    }
}

/* Whether a day has a mark, and whether it has a date: days of a short span, first days of months of a long one. */
static bool has_mark(const struct plot *plot, size_t day) {
    return is_short(plot) || date_on(plot, day) % 100 == 1;
}

static bool has_date(const struct plot *plot, size_t day) {
    size_t month = (size_t)(date_on(plot, day) / 100 % 100) - 1;
    return has_mark(plot, day) && (is_short(plot) ? day : month) % plot->stride == 0;
}

static void write_dates_axis(FILE *out, const struct plot *plot) {
    char date[DAY_FORM + 1];
    fprintf(out, "<path d=\"M%.2f %dH%d\" stroke=\"#404040\"/>\n", plot->left, BOTTOM, RIGHT);
    for (size_t i = 0; i < plot->position->days; i++) {
        bool dated = has_date(plot, i);
        if (has_mark(plot, i)) {
            fprintf(out, "<path d=\"M%.2f %dv%d\" stroke=\"#404040\"/>\n", middle_of(plot, i), BOTTOM,
                    dated ? DATED_TICK : TICK);
        }
        if (dated) {
            spell_day(date_on(plot, i), date);
            fprintf(out, "<text x=\"%.2f\" y=\"%d\" text-anchor=\"middle\">%s</text>\n", middle_of(plot, i), DATES_LINE,
                    date);
        }
    }
}

/* The steps of some days, from the left edge of the first on. */
static void write_steps(FILE *out, const struct plot *plot, size_t first, size_t end) {
    for (size_t i = first; i < end; i++) {
        fprintf(out, "V%.2fH%.2f", y_on(plot, i), x_of(plot, i + 1));
    }
}

/* What lies between zero and the steps. */
static void write_area(FILE *out, const struct plot *plot, size_t first, size_t end, const char *look) {
    fprintf(out, "<path d=\"M%.2f %.2f", x_of(plot, first), y_of(plot, 0));
    write_steps(out, plot, first, end);
    fprintf(out, "V%.2fZ\" %s/>\n", y_of(plot, 0), look);
}

/* Days below zero one after another: hatched, with a band at the axis, and in words for whoever points there. */
static void write_run_below(FILE *out, const struct plot *plot, size_t first, size_t end) {
    char from[DAY_FORM + 1], to[DAY_FORM + 1];
    double wide = x_of(plot, end) - x_of(plot, first);
    double band = wide > LEAST_BAND ? wide : LEAST_BAND;
    spell_day(date_on(plot, first), from);
    spell_day(date_on(plot, end - 1), to);
    fprintf(out, "<g><title>Days below zero: %zu, %s to %s</title>\n", end - first, from, to);
    write_area(out, plot, first, end, "fill=\"url(#below)\" stroke=\"#b00020\"");
    fprintf(out, "<rect x=\"%.2f\" y=\"%d\" width=\"%.2f\" height=\"%d\" fill=\"#b00020\"/></g>\n",
            x_of(plot, first) + (wide - band) / 2, BOTTOM, band, BAND);
}

static void write_days_below(FILE *out, const struct plot *plot) {
    size_t days = plot->position->days;
    for (size_t i = 0; i < days; i++) {
        size_t first = i;
        while (i < days && is_below(plot, i)) {
            i++;
        }
        if (i > first) {
            write_run_below(out, plot, first, i);
        }
    }
}

static void write_line(FILE *out, const struct plot *plot) {
    fprintf(out, "<path d=\"M%.2f %.2f", plot->left, y_on(plot, 0));
    write_steps(out, plot, 0, plot->position->days);
    fprintf(out, "\" fill=\"none\" stroke=\"#1f4e79\" stroke-width=\"2.5\"/>\n");
}

static void write_zero_line(FILE *out, const struct plot *plot) {
    fprintf(out, "<path d=\"M%.2f %.2fH%d\" stroke=\"#000\" stroke-width=\"1.5\"/>\n", plot->left - GAP, y_of(plot, 0),
            RIGHT);
}

/* Hatching, which is seen without its colour too. */
static void write_hatching(FILE *out) {
    fprintf(out, "<defs><pattern id=\"below\" width=\"8\" height=\"8\" patternUnits=\"userSpaceOnUse\" "
                 "patternTransform=\"rotate(45)\"><rect width=\"8\" height=\"8\" fill=\"#fbe3e6\"/>"
                 "<rect width=\"2\" height=\"8\" fill=\"#b00020\"/></pattern></defs>\n");
}

/* What is drawn later covers what was drawn before. */
void draw_position(FILE *out, const void *position) {
    struct plot plot = plot_of(position);
    fprintf(out, "%s<svg xmlns=\"http://www.w3.org/2000/svg\" viewBox=\"0 0 %d %d\" role=\"img\" font-size=\"%d\">\n",
            picture_mark, WIDTH, HEIGHT, TEXT_SIZE);
    write_title(out, &plot);
    write_hatching(out);
    fprintf(out, "<rect width=\"%d\" height=\"%d\" fill=\"#fff\"/>\n", WIDTH, HEIGHT);
    write_head(out, &plot);
    write_legend(out, &plot);
    write_area(out, &plot, 0, plot.position->days, "fill=\"#dbe7f3\"");
    write_days_below(out, &plot);
    write_amounts_axis(out, &plot);
    write_dates_axis(out, &plot);
    write_zero_line(out, &plot);
    write_line(out, &plot);
    fprintf(out, "</svg>\n");
}
