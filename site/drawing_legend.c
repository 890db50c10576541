/*
 * What the colours and marks of a panel mean, right of it.
 */
#include "drawing.h"

enum { LEGEND_LEFT = RIGHT + 24, WORDS_LEFT = LEGEND_LEFT + 24, STEP = 16, GROUP_STEP = 12 };

static void draw_words(const struct panel *panel, int top, const char *words)
{
    fprintf(panel->file, "<text x=\"%d\" y=\"%d\">%s</text>\n", WORDS_LEFT, top + 10, words);
}

/* Each entry answers where the next one goes. */
static int draw_box(const struct panel *panel, int top, const char *look, const char *words)
{
    fprintf(panel->file, "<rect x=\"%d\" y=\"%d\" width=\"16\" height=\"12\" %s/>\n", LEGEND_LEFT, top, look);
    draw_words(panel, top, words);
    return top + STEP;
}

static int draw_mark(const struct panel *panel, int top, enum order_mark mark, const char *words)
{
    drawing_order_mark(panel->file, LEGEND_LEFT + 8, top + 6, mark);
    draw_words(panel, top, words);
    return top + STEP;
}

static int draw_line(const struct panel *panel, int top, bool way_known, const char *words)
{
    drawing_order_line(panel->file, LEGEND_LEFT, LEGEND_LEFT + 16, top + 6, way_known);
    draw_words(panel, top, words);
    return top + STEP;
}

static int draw_colours(const struct panel *panel, int top)
{
    fprintf(panel->file, "<text x=\"%d\" y=\"%d\">Holds the slot,</text>\n", LEGEND_LEFT, top + 9);
    fprintf(panel->file, "<text x=\"%d\" y=\"%d\">or is next on the way:</text>\n", LEGEND_LEFT, top + 22);
    top += 30;
    for (int unit = 0; unit < UNITS; unit++) {
        char look[32];
        snprintf(look, sizeof look, "fill=\"%s\"", drawing_colour(unit));
        top = draw_box(panel, top, look, drawing_name(panel->site, unit));
    }
    return top + GROUP_STEP;
}

/* Where tries have no room for marks of their own, they are counted. */
static void draw_order_marks(const struct panel *panel, int top)
{
    top = draw_mark(panel, top, GIVEN, panel->close ? "an order, by number, is given" : "an order is given");
    top = draw_line(panel, top, true, "a way to its bench is known");
    top = draw_line(panel, top, false, "it waits: there is no way");
    if (panel->close) {
        top = draw_mark(panel, top, LOST, "a try is lost at the relay");
    }
    top = draw_mark(panel, top, ARRIVED, panel->close ? "it arrives, after so many s" : "it arrives, after so many");
    if (!panel->close) {
        draw_words(panel, top - 3, "lost tries (\xC3\x97) and so many s");
        top += STEP - 3;
    }
    draw_mark(panel, top, REPLACED, "a later order replaces it");
}

void drawing_legend(const struct panel *panel)
{
    int top = draw_colours(panel, panel->top);
    top = draw_box(panel, top, DRAWING_RELAY_GONE, "the middle relay is gone");
    top = draw_box(panel, top, DRAWING_NO_POWER, "the office has no power");
    top = draw_box(panel, top, DRAWING_NOBODY, "it is gone: nobody manages");
    draw_order_marks(panel, top + GROUP_STEP);
}
