/*
 * What is drawn over or under the rows of a panel: stretches in which something is amiss, moments of the story, and how
 * long the book and the routes go on without a word.
 */
#include "drawing.h"

enum { MOMENT_WORDS = 11, MOMENT_ROWS = 3, MOMENT_ROW_HEIGHT = 13, MOMENTS_UP = 28, AGE_WORDS = 10, AGE_UP = 7 };

const char DRAWING_RELAY_GONE[] = "fill=\"#f4ecdc\" stroke=\"#d5c29a\"";
const char DRAWING_NO_POWER[] = "fill=\"#000\" fill-opacity=\"0.22\"";
const char DRAWING_NOBODY[] = "fill=\"#fff\" fill-opacity=\"0.6\" stroke=\"#111\" stroke-dasharray=\"2 2\"";

struct moment {
    uint64_t time;
    const char *words;
    bool needs_room; /* is drawn in close panels only */
};

static void draw_band(const struct panel *panel, uint64_t from, uint64_t to, const char *look)
{
    double left = drawing_across(panel, from), right = drawing_across(panel, to);
    if (right > left) {
        fprintf(panel->file, "<rect x=\"%.1f\" y=\"%d\" width=\"%.1f\" height=\"%d\" %s/>\n", left, panel->top,
                right - left, PANEL_HEIGHT, look);
    }
}

/* Under the rows. */
void drawing_relay_gone(const struct panel *panel)
{
    draw_band(panel, panel->site->script.unbolted, panel->site->script.returned, DRAWING_RELAY_GONE);
}

/* Over them. */
void drawing_no_power(const struct panel *panel)
{
    draw_band(panel, panel->site->script.power_fails, panel->site->script.power_returns, DRAWING_NO_POWER);
}

/* Over them too, and so lightly that what was before the office died is still seen. */
void drawing_nobody_manages(const struct panel *panel)
{
    draw_band(panel, panel->site->script.office_dies, panel->site->takeover.begun, DRAWING_NOBODY);
}

/* A line down through the rows, with a light rim that shows it on dark bars. */
static void draw_upright(const struct panel *panel, double at, int top, int bottom, const char *dashes)
{
    fprintf(panel->file, "<path d=\"M%.1f %dV%d\" stroke=\"#fff\" stroke-opacity=\"0.6\" stroke-width=\"3\"/>\n", at,
            top, bottom);
    fprintf(panel->file, "<path d=\"M%.1f %dV%d\" stroke=\"#111\" stroke-dasharray=\"%s\"/>\n", at, top, bottom,
            dashes);
}

/* Draws a moment in the lowest row in which its words end before those of the moments after it begin. */
static void draw_moment(const struct panel *panel, const struct moment *moment, double free_until[MOMENT_ROWS])
{
    double at = drawing_across(panel, moment->time), end = at + drawing_width(moment->words, MOMENT_WORDS) + 8;
    int row = 0;
    while (row < MOMENT_ROWS - 1 && end > free_until[row]) {
        row++;
    }
    int down = panel->top - MOMENTS_UP - row * MOMENT_ROW_HEIGHT;
    draw_upright(panel, at, down - 9, panel->top + PANEL_HEIGHT, "4 3");
    fprintf(panel->file, "<text x=\"%.1f\" y=\"%d\" font-size=\"%d\">%s</text>\n", at + 3, down, MOMENT_WORDS,
            moment->words);
    for (int below = 0; below <= row; below++) {
        free_until[below] = at;
    }
}

/* The moments from the last to the first: so no line runs through the words of another. The relay's last word may have
 * been on its way still when the relay was unbolted. */
void drawing_moments(const struct panel *panel)
{
    const struct script *script = &panel->site->script;
    const struct cut *cut = &panel->site->cut;
    const struct takeover *takeover = &panel->site->takeover;
    const struct moment last_word = {panel->site->silence.last_word, "the relay's last word", true};
    const struct moment unbolted = {script->unbolted, "relay unbolted", false};
    bool late = last_word.time > unbolted.time;
    const struct moment moments[] = {
        late ? unbolted : last_word,
        late ? last_word : unbolted,
        {script->clock_top, "clocks begin again at 0", true},
        {script->power_fails, "power fails", false},
        {script->power_returns, "power back", true},
        {cut->restored, cut->book_lost ? "a fresh book" : "book restored", true},
        {cut->recovered, cut->book_lost ? "all have joined anew" : "all have spoken again", true},
        {script->returned, "relay back", false},
        {script->taken_out, "bench 8 taken out", false},
        {script->office_dies, "office gone", false},
        {takeover->elected, "elected", true},
        {takeover->begun, "a fresh book", true},
        {takeover->recovered, "all have joined anew", true},
    };
    double free_until[MOMENT_ROWS];
    for (int row = 0; row < MOMENT_ROWS; row++) {
        free_until[row] = 2 * RIGHT;
    }
    for (size_t index = sizeof moments / sizeof moments[0]; index-- > 0;) {
        const struct moment *moment = &moments[index];
        bool is_shown = moment->time >= panel->from && moment->time <= panel->to;
        if (is_shown && (panel->close || !moment->needs_room)) {
            draw_moment(panel, moment, free_until);
        }
    }
}

/* A measure from a moment on, above the rows that it is about. */
static void draw_age(const struct panel *panel, uint64_t from, int length_ms, int top, int bottom, const char *words)
{
    uint64_t to = from + (uint64_t)length_ms;
    if (!panel->close || from < panel->from || to > panel->to) {
        return;
    }
    double left = drawing_across(panel, from), right = drawing_across(panel, to);
    int down = panel->top + top - AGE_UP;
    draw_upright(panel, left, down - 4, panel->top + bottom, "none");
    draw_upright(panel, right, down - 4, panel->top + bottom, "none");
    fprintf(panel->file, "<path d=\"M%.1f %dH%.1f\" stroke=\"#111\"/>\n", left, down, right);
    fprintf(panel->file,
            "<text x=\"%.1f\" y=\"%d\" class=\"over\" font-size=\"%d\" text-anchor=\"middle\">%d s: %s</text>\n",
            (left + right) / 2, down - 5, AGE_WORDS, length_ms / 1000, words);
}

void drawing_ages(const struct panel *panel)
{
    const struct site *site = panel->site;
    draw_age(panel, site->silence.last_word, BRAIDLARK_LIVE_MS, 0, SLOTS_HEIGHT,
             "row and slots are kept for the relay");
    draw_age(panel, site->silence.last_update, BRAIDLARK_USABLE_MS, WAYS_TOP, PANEL_HEIGHT,
             "routes by the relay are used");
    if (site->cut.book_lost) {
        draw_age(panel, site->script.power_returns, BRAIDLARK_LIVE_MS, 0, SLOTS_HEIGHT,
                 "the office waits until nobody counts on the lost book");
    } else {
        draw_age(panel, site->cut.restored, BRAIDLARK_LIVE_MS, 0, SLOTS_HEIGHT, "every member has to speak again");
    }
    draw_age(panel, site->takeover.elected, BRAIDLARK_LIVE_MS, 0, SLOTS_HEIGHT,
             "the winner waits until nobody counts on the lost book");
}
