/*
 * The marks of the drawing, which are the program's own: whether a unit sends in a slot alone, with units that are far
 * enough away, or with one that is near. What they come to is compared with the call's verdict, and is no verdict.
 */
#include "sheetview.h"

bool marks_sends(const struct graph *graph, int unit, int slot)
{
    return (graph->units[unit]->slots >> slot & 1) != 0;
}

/* Two units that are near send in one slot. */
static bool is_crossed(const struct graph *graph, int one, int other, int slot)
{
    return marks_sends(graph, one, slot) && marks_sends(graph, other, slot) && graph_is_near(graph, one, other);
}

char marks_at(const struct graph *graph, int unit, int slot)
{
    bool is_shared = false;
    for (int other = 0; other < graph->unit_count; other++) {
        if (other != unit && is_crossed(graph, unit, other, slot)) {
            return 'X';
        }
        is_shared = is_shared || (other != unit && marks_sends(graph, other, slot));
    }
    if (!marks_sends(graph, unit, slot)) {
        return '.';
    }
    return is_shared ? 'S' : 'T';
}

int marks_count(uint64_t slots)
{
    int count = 0;
    for (int slot = 0; slot < MASK_SLOTS; slot++) {
        count += (slots >> slot & 1) != 0;
    }
    return count;
}

/* The slots of a unit that the plan does not have. */
uint64_t marks_past(const struct graph *graph, int unit)
{
    uint64_t within = graph->data_slots < MASK_SLOTS ? ((uint64_t)1 << graph->data_slots) - 1 : UINT64_MAX;
    return graph->units[unit]->slots & ~within;
}

static bool offends(const struct graph *graph, int unit)
{
    int held = marks_count(graph->units[unit]->slots);
    return held == 0 || held > BRAIDLARK_MOST_HELD || marks_past(graph, unit) != 0;
}

static bool is_pair(const struct graph *graph, int one, int other)
{
    bool is = false;
    for (int slot = 0; slot < MASK_SLOTS; slot++) {
        is = is || is_crossed(graph, one, other, slot);
    }
    return is;
}

struct verdict marks_verdict(const struct graph *graph)
{
    for (int unit = 0; unit < graph->unit_count; unit++) {
        if (offends(graph, unit)) {
            return (struct verdict){.named = BRAIDLARK_SHEET_UNIT, .lower = graph->units[unit]->address};
        }
    }
    for (int one = 0; one < graph->unit_count; one++) {
        for (int other = one + 1; other < graph->unit_count; other++) {
            if (is_pair(graph, one, other)) {
                return (struct verdict){.named = BRAIDLARK_SHEET_PAIR,
                                        .lower = graph->units[one]->address,
                                        .higher = graph->units[other]->address};
            }
        }
    }
    return (struct verdict){.named = BRAIDLARK_SHEET_FINE};
}
