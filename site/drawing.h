/*
 * What the files of the picture share: where things stand, a panel with its stretch of the night, and the units' looks.
 */
#ifndef DRAWING_H
#define DRAWING_H

#include "greenhouse.h"

enum {
    LEFT = 130,
    PLOT_WIDTH = 860,
    RIGHT = LEFT + PLOT_WIDTH,
    BENCHES = UNITS - BENCH_1,
    /* Below the top of a panel: a row for each data slot, then one for each bench. */
    SLOT_HEIGHT = 13,
    SLOTS_HEIGHT = DATA_SLOTS * SLOT_HEIGHT,
    WAYS_TOP = SLOTS_HEIGHT + 28,
    WAY_HEIGHT = 29,
    PANEL_HEIGHT = WAYS_TOP + BENCHES * WAY_HEIGHT
};

/* One panel: what stretch of the night it shows, and where. */
struct panel {
    const struct site *site;
    FILE *file;
    int top;
    const char *title;
    uint64_t from;
    uint64_t to;
    uint64_t tick_ms;
    bool close; /* a short stretch, with room for every moment of the story and every try of an order */
};

/* drawing.c: where a time stands, and how wide words are at most */
double drawing_across(const struct panel *panel, uint64_t time);
double drawing_width(const char *words, int size);

/* drawing_units.c: the colours of the units, and their names in few words */
const char *drawing_colour(int unit);
const char *drawing_ink(int unit);
const char *drawing_name(const struct site *site, int unit);

/* drawing_map.c: the units and their links */
void drawing_map(const struct site *site, FILE *file, int top);

/* drawing_bars.c: who holds each slot, and who is next on the way to each bench */
void drawing_bars(const struct panel *panel);
void drawing_bar_words(const struct panel *panel);

/* What became of an order, or of one try of it. */
enum order_mark { GIVEN, LOST, REPLACED, ARRIVED };

/* drawing_orders.c: the orders, from when they were given until they arrived */
void drawing_orders(const struct panel *panel);
void drawing_order_mark(FILE *file, double across, double down, enum order_mark mark);
void drawing_order_line(FILE *file, double left, double right, double down, bool way_known);

/* drawing_moments.c: stretches in which something is amiss, moments of the story, and ages that run out */
extern const char DRAWING_RELAY_GONE[], DRAWING_NO_POWER[], DRAWING_NOBODY[];
void drawing_relay_gone(const struct panel *panel);
void drawing_no_power(const struct panel *panel);
void drawing_nobody_manages(const struct panel *panel);
void drawing_moments(const struct panel *panel);
void drawing_ages(const struct panel *panel);

/* drawing_legend.c: what the colours and marks of a panel mean */
void drawing_legend(const struct panel *panel);

#endif
