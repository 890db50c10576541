/*
 * The orders of a panel, on the row of their bench: a line from when an order was given until it arrived or was
 * replaced, dotted while the manager knew no way, with each try that was lost and how long it took.
 */
#include "drawing.h"

enum {
    LINE_DOWN = 18, /* of an order, below the top of its bench's row */
    MARK_ROOM = 6,  /* half of what a mark takes */
    NUMBER_ROOM = 18,
    NUMBER_WORDS = 9,
    BELOW_LINE = 9, /* where words stand that have no room beside it */
    BELOW_WORDS = 8
};

void drawing_order_mark(FILE *file, double across, double down, enum order_mark mark)
{
    switch (mark) {
    case GIVEN:
        fprintf(file, "<path d=\"M%.1f %.1fv9\" stroke=\"#111\" stroke-width=\"1.5\"/>\n", across, down - 4.5);
        break;
    case LOST:
        fprintf(file, "<path d=\"M%.1f %.1fl7 7m0 -7l-7 7\" stroke=\"%s\" stroke-width=\"2\"/>\n", across - 3.5,
                down - 3.5, drawing_colour(MIDDLE_RELAY));
        break;
    case REPLACED:
        fprintf(file,
                "<rect x=\"%.1f\" y=\"%.1f\" width=\"6\" height=\"6\" fill=\"#fff\" stroke=\"#111\" "
                "stroke-width=\"1.2\"/>\n",
                across - 3, down - 3);
        break;
    case ARRIVED: /* two that lie on each other are still two */
        fprintf(file,
                "<circle cx=\"%.1f\" cy=\"%.1f\" r=\"3.2\" fill=\"#111\" fill-opacity=\"0.4\" stroke=\"#111\" "
                "stroke-width=\"1.2\"/>\n",
                across, down);
        break;
    }
}

void drawing_order_line(FILE *file, double left, double right, double down, bool way_known)
{
    fprintf(file, "<path d=\"M%.1f %.1fH%.1f\" stroke=\"#111\" stroke-width=\"1.5\"%s/>\n", left, down, right,
            way_known ? "" : " stroke-dasharray=\"1.5 3\"");
}

static double down_of(const struct panel *panel, const struct order *order)
{
    return panel->top + WAYS_TOP + (order->head - BENCH_1) * WAY_HEIGHT + LINE_DOWN;
}

/* When the next order for the same bench was given, or the end of the night. */
static uint64_t next_given(const struct site *site, int number)
{
    const struct order *orders = site->manager.orders;
    for (int later = number + 1; later < site->manager.order_count; later++) {
        if (orders[later].head == orders[number].head) {
            return orders[later].given;
        }
    }
    return site->script.end;
}

/* Until when an order was on its way. */
static uint64_t end_of(const struct site *site, int number)
{
    const struct order *order = &site->manager.orders[number];
    return order->arrived     ? order->arrival
           : order->replaced  ? next_given(site, number)
           : order->withdrawn ? site->script.taken_out
                              : site->script.end;
}

/* The part of an order's line within a stretch in which the way was known, or not. */
static void draw_part(const struct panel *panel, int number, uint64_t from, uint64_t to, bool way_known)
{
    const struct order *order = &panel->site->manager.orders[number];
    uint64_t end = end_of(panel->site, number);
    double left = drawing_across(panel, from > order->given ? from : order->given);
    double right = drawing_across(panel, to < end ? to : end);
    if (right > left) {
        drawing_order_line(panel->file, left, right, down_of(panel, order), way_known);
    }
}

static void draw_line(const struct panel *panel, int number)
{
    const struct record *ways = &panel->site->next_hops[panel->site->manager.orders[number].head];
    uint64_t from = 0;
    bool way_known = false;
    for (int index = 0; index < ways->count; index++) {
        draw_part(panel, number, from, ways->changes[index].time, way_known);
        from = ways->changes[index].time;
        way_known = ways->changes[index].unit != NOBODY;
    }
    draw_part(panel, number, from, panel->site->script.end, way_known);
}

static bool is_within(const struct panel *panel, uint64_t time)
{
    return time >= panel->from && time <= panel->to;
}

/* Whether the line of an order can be seen beside the mark at its end. */
static bool takes_room(const struct panel *panel, int number)
{
    uint64_t given = panel->site->manager.orders[number].given;
    return drawing_across(panel, end_of(panel->site, number)) - drawing_across(panel, given) >= MARK_ROOM;
}

static void draw_marks(const struct panel *panel, int number)
{
    const struct site *site = panel->site;
    const struct order *order = &site->manager.orders[number];
    double down = down_of(panel, order);
    uint64_t end = end_of(site, number);
    if (is_within(panel, order->given) && takes_room(panel, number)) {
        drawing_order_mark(panel->file, drawing_across(panel, order->given), down, GIVEN);
    }
    for (int index = 0; index < site->loss_count && panel->close; index++) {
        if (site->losses[index].order == number && is_within(panel, site->losses[index].time)) {
            drawing_order_mark(panel->file, drawing_across(panel, site->losses[index].time), down, LOST);
        }
    }
    if (is_within(panel, end) && (order->arrived || order->replaced)) {
        drawing_order_mark(panel->file, drawing_across(panel, end), down, order->arrived ? ARRIVED : REPLACED);
    }
}

/* The number of an order, before its line; or below it, with when it was given, if that was before the panel. */
static void draw_number(const struct panel *panel, int number)
{
    const struct order *order = &panel->site->manager.orders[number];
    double down = down_of(panel, order);
    char given[9];
    clock_words(order->given, given);
    if (is_within(panel, order->given)) {
        fprintf(panel->file, "<text x=\"%.1f\" y=\"%.1f\" text-anchor=\"end\" font-size=\"%d\">%d</text>\n",
                drawing_across(panel, order->given) - 4, down + 3, NUMBER_WORDS, number + 1);
    } else if (order->given < panel->from && end_of(panel->site, number) > panel->from) {
        fprintf(panel->file, "<text x=\"%d\" y=\"%.1f\" font-size=\"%d\">%d, given %.5s</text>\n", LEFT + 4,
                down + BELOW_LINE, BELOW_WORDS, number + 1, given);
    }
}

/* At the mark of an order that arrived late: how many tries were lost, where those have no marks of their own, and how
 * long it took; right of the mark or, if there is no room for it before the next order, below the line. */
static void draw_words(const struct panel *panel, int number)
{
    const struct order *order = &panel->site->manager.orders[number];
    uint64_t took_ms = order->arrival - order->given;
    if (!order->arrived || took_ms < SOON_MS || !is_within(panel, order->arrival)) {
        return;
    }
    char tries[16] = "", words[48];
    if (order->lost_at_silent > 0 && !panel->close) {
        snprintf(tries, sizeof tries, "%d\xC3\x97 ", order->lost_at_silent);
    }
    snprintf(words, sizeof words, "%s%u s", tries, (unsigned)(took_ms / 1000));
    double at = drawing_across(panel, order->arrival), left = at + MARK_ROOM;
    double next = drawing_across(panel, next_given(panel->site, number));
    bool fits = left + drawing_width(words, NUMBER_WORDS) <= next - NUMBER_ROOM;
    fprintf(panel->file, "<text x=\"%.1f\" y=\"%.1f\" class=\"over\" text-anchor=\"%s\" font-size=\"%d\">%s</text>\n",
            fits ? left : at, down_of(panel, order) + (fits ? 3 : BELOW_LINE), fits ? "start" : "end",
            fits ? NUMBER_WORDS : BELOW_WORDS, words);
}

void drawing_orders(const struct panel *panel)
{
    for (int number = 0; number < panel->site->manager.order_count; number++) {
        if (takes_room(panel, number)) {
            draw_line(panel, number);
        }
    }
    for (int number = 0; number < panel->site->manager.order_count; number++) {
        draw_marks(panel, number);
        draw_words(panel, number);
        if (panel->close) {
            draw_number(panel, number);
        }
    }
}
