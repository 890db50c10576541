/*
 * The bars of a panel: for each data slot who holds it, and for each bench who is next on the manager's way to it. The
 * words on them come last, so that no line runs through them.
 */
#include "drawing.h"

enum { BAR_WORDS = 9, SLOT_BAR = SLOT_HEIGHT - 1, WAY_BAR = 11 };

/* The bars of one row: their record, where they stand, and the bench if they are its ways. */
struct row {
    const struct record *record;
    int top;
    int height;
    int bench;
};

static struct row slot_row(const struct panel *panel, int slot)
{
    return (struct row){&panel->site->slot_holders[slot], panel->top + slot * SLOT_HEIGHT, SLOT_BAR, NOBODY};
}

static struct row way_row(const struct panel *panel, int bench)
{
    int top = panel->top + WAYS_TOP + (bench - BENCH_1) * WAY_HEIGHT;
    return (struct row){&panel->site->next_hops[bench], top, WAY_BAR, bench};
}

/* When what a change brought ends. */
static uint64_t end_of(const struct panel *panel, const struct record *record, int index)
{
    return index + 1 < record->count ? record->changes[index + 1].time : panel->site->script.end;
}

static void draw_bars(const struct panel *panel, struct row row)
{
    for (int index = 0; index < row.record->count; index++) {
        const struct change *change = &row.record->changes[index];
        uint64_t end = end_of(panel, row.record, index);
        double left = drawing_across(panel, change->time), right = drawing_across(panel, end);
        char from[9], to[9];
        if (change->unit == NOBODY || right <= left) {
            continue;
        }
        clock_words(change->time, from);
        clock_words(end, to);
        fprintf(panel->file,
                "<rect x=\"%.1f\" y=\"%d\" width=\"%.1f\" height=\"%d\" fill=\"%s\">"
                "<title>%s, %s to %s</title></rect>\n",
                left, row.top, right - left, row.height, drawing_colour(change->unit),
                panel->site->units[change->unit].name, from, to);
    }
}

/* The words on each bar that is long enough for them. */
static void draw_words(const struct panel *panel, struct row row)
{
    for (int index = 0; index < row.record->count; index++) {
        const struct change *change = &row.record->changes[index];
        double left = drawing_across(panel, change->time);
        double right = drawing_across(panel, end_of(panel, row.record, index));
        if (change->unit == NOBODY) {
            continue;
        }
        const char *words = change->unit == row.bench ? "straight" : drawing_name(panel->site, change->unit);
        if (right - left > drawing_width(words, BAR_WORDS) + 8) {
            fprintf(
                panel->file,
                "<text x=\"%.1f\" y=\"%d\" class=\"on\" style=\"stroke:%s\" font-size=\"%d\" fill=\"%s\">%s</text>\n",
                left + 4, row.top + 9, drawing_colour(change->unit), BAR_WORDS, drawing_ink(change->unit), words);
        }
    }
}

/* What a block of rows shows, along its side. */
static void draw_side(const struct panel *panel, int middle, const char *words)
{
    fprintf(panel->file, "<text transform=\"translate(%d %d) rotate(-90)\" text-anchor=\"middle\">%s</text>\n",
            LEFT - 72, panel->top + middle, words);
}

void drawing_bars(const struct panel *panel)
{
    for (int slot = 0; slot < DATA_SLOTS; slot++) {
        struct row row = slot_row(panel, slot);
        draw_bars(panel, row);
        fprintf(panel->file, "<text x=\"%d\" y=\"%d\" text-anchor=\"end\">%d</text>\n", LEFT - 8, row.top + 10, slot);
    }
    for (int bench = BENCH_1; bench < UNITS; bench++) {
        struct row row = way_row(panel, bench);
        draw_bars(panel, row);
        fprintf(panel->file, "<text x=\"%d\" y=\"%d\" text-anchor=\"end\">%s</text>\n", LEFT - 8, row.top + 13,
                panel->site->units[bench].name);
    }
    draw_side(panel, SLOTS_HEIGHT / 2, "who holds which data slot");
    draw_side(panel, WAYS_TOP + BENCHES * WAY_HEIGHT / 2, "next on the way, and orders");
}

void drawing_bar_words(const struct panel *panel)
{
    for (int slot = 0; slot < DATA_SLOTS; slot++) {
        draw_words(panel, slot_row(panel, slot));
    }
    for (int bench = BENCH_1; bench < UNITS; bench++) {
        draw_words(panel, way_row(panel, bench));
    }
}
