/*
 * The night as one picture (SVG, no script): a map of the links, then who held which data slot, who was next on the way
 * to each bench, and the orders; over the whole night, around the moment when the relay fell silent, around the power
 * cut, and from when the office was gone.
 */
#include <string.h>

#include "drawing.h"

enum {
    PICTURE_WIDTH = 1240,
    MAP_TOP = 68,
    FIRST_TOP = 392,
    PANEL_STEP = PANEL_HEIGHT + 148,
    PANELS = 4,
    PICTURE_HEIGHT = FIRST_TOP + PANELS * PANEL_STEP - 96,
    TITLE_UP = 76, /* of a panel, above its top */
    MINUTE = 60000
};

double drawing_across(const struct panel *panel, uint64_t time)
{
    time = time < panel->from ? panel->from : time > panel->to ? panel->to : time;
    return LEFT + PLOT_WIDTH * (double)(time - panel->from) / (double)(panel->to - panel->from);
}

double drawing_width(const char *words, int size)
{
    static const double OF_SIZE = 0.58; /* the letters of a wide font, on average */
    return OF_SIZE * size * (double)strlen(words);
}

static void draw_axis(const struct panel *panel)
{
    int bottom = panel->top + PANEL_HEIGHT;
    uint64_t first = (panel->from + panel->tick_ms - 1) / panel->tick_ms * panel->tick_ms;
    for (uint64_t time = first; time <= panel->to; time += panel->tick_ms) {
        char words[9];
        clock_words(time, words);
        double at = drawing_across(panel, time);
        fprintf(panel->file, "<path d=\"M%.1f %dV%d\" stroke=\"#bbb\" stroke-width=\"0.5\"/>\n", at, panel->top,
                bottom + 3);
        fprintf(panel->file, "<text x=\"%.1f\" y=\"%d\" text-anchor=\"middle\">%.5s</text>\n", at, bottom + 15, words);
    }
    fprintf(panel->file, "<text x=\"%d\" y=\"%d\" text-anchor=\"middle\">time of the clock</text>\n",
            LEFT + PLOT_WIDTH / 2, bottom + 31);
}

static void draw_panel(const struct panel *panel)
{
    fprintf(panel->file, "<text x=\"%d\" y=\"%d\" class=\"head\">%s</text>\n", LEFT, panel->top - TITLE_UP,
            panel->title);
    drawing_relay_gone(panel);
    draw_axis(panel);
    drawing_bars(panel);
    drawing_no_power(panel);
    drawing_nobody_manages(panel);
    drawing_moments(panel);
    drawing_ages(panel);
    drawing_bar_words(panel);
    drawing_orders(panel);
    drawing_legend(panel);
}

/* Ticks that leave room for their words: at most 14 of them. */
static uint64_t tick_for(uint64_t stretch)
{
    static const uint64_t STEPS[] = {1, 2, 5, 10, 15, 30, 60};
    for (size_t index = 0; index < sizeof STEPS / sizeof STEPS[0]; index++) {
        if (stretch / (STEPS[index] * MINUTE) <= 14) {
            return STEPS[index] * MINUTE;
        }
    }
    return 120 * MINUTE;
}

/* The same for a short stretch, where seconds do not matter. */
static uint64_t close_tick_for(uint64_t stretch)
{
    uint64_t tick = tick_for(stretch);
    return tick < 2 * MINUTE ? 2 * MINUTE : tick;
}

/* Words over lines have a rim, white or in the colour of their bar. */
static void draw_head(const struct site *site, FILE *file)
{
    fprintf(file,
            "<svg xmlns=\"http://www.w3.org/2000/svg\" viewBox=\"0 0 %d %d\" width=\"%d\" height=\"%d\" "
            "font-family=\"sans-serif\" font-size=\"11\">\n"
            "<style>.title{font-size:18px;font-weight:bold}.head{font-size:14px;font-weight:bold}"
            ".on,.over{paint-order:stroke;stroke-width:3px;stroke-linejoin:round}.over{stroke:#fff;stroke-width:5px}</"
            "style>\n"
            "<rect width=\"100%%\" height=\"100%%\" fill=\"#fff\"/>\n"
            "<text x=\"%d\" y=\"36\" class=\"title\">A night in the greenhouse: slots, ways and orders</text>\n",
            PICTURE_WIDTH, PICTURE_HEIGHT, PICTURE_WIDTH, PICTURE_HEIGHT, LEFT);
    drawing_map(site, file, MAP_TOP);
}

void drawing_write(const struct site *site, FILE *file)
{
    uint64_t unbolted = site->script.unbolted, end = site->script.end;
    uint64_t cut_from = site->script.power_fails - 3 * MINUTE, cut_to = site->script.settled;
    uint64_t dead_from = site->script.office_dies - 3 * MINUTE;
    const char *cut_title =
        site->cut.book_lost ? "The power cut in the office: routes and book are lost, every member joins anew"
                            : "The power cut in the office: the routes are lost and learned again, every slot is kept";
    char relay_title[96], dead_title[96];
    snprintf(relay_title, sizeof relay_title,
             "The relay is unbolted: its orders go round it, and bench 9 gets the row of %s",
             site->units[site->inheritance.from].name);
    snprintf(dead_title, sizeof dead_title, "The office is gone for good: %s is elected and begins with a fresh book",
             site->units[site->takeover.winner].name);
    const struct panel panels[PANELS] = {
        {site, file, FIRST_TOP, "The whole night", 0, end, tick_for(end), false},
        {site, file, FIRST_TOP + PANEL_STEP, relay_title, unbolted - 4 * MINUTE, unbolted + 11 * MINUTE, 2 * MINUTE,
         true},
        {site, file, FIRST_TOP + 2 * PANEL_STEP, cut_title, cut_from, cut_to, close_tick_for(cut_to - cut_from), true},
        {site, file, FIRST_TOP + 3 * PANEL_STEP, dead_title, dead_from, end, close_tick_for(end - dead_from), true},
    };
    draw_head(site, file);
    for (int index = 0; index < PANELS; index++) {
        draw_panel(&panels[index]);
    }
    fprintf(file, "</svg>\n");
}
