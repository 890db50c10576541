/*
 * Who hears whom on a sheet, and who is near whom: linked, or with a unit between them that hears both.
 */
#include <string.h>

#include "sheetview.h"

/* An address that is on the sheet. */
int graph_find(const struct graph *graph, uint16_t address)
{
    int place = 0;
    while (graph->units[place]->address != address) {
        place++;
    }
    return place;
}

static void put_unit(struct graph *graph, const struct unit *unit)
{
    int place = graph->unit_count++;
    while (place > 0 && graph->units[place - 1]->address > unit->address) {
        graph->units[place] = graph->units[place - 1];
        place--;
    }
    graph->units[place] = unit;
}

/* Every link names two units of the sheet. The one that is lost, counted from 1, is left out; 0 is none. */
void graph_make(struct graph *graph, const struct sheet *sheet, uint32_t lost_link)
{
    memset(graph, 0, sizeof *graph);
    graph->data_slots = sheet->plan.data_slots;
    for (int unit = 0; unit < sheet->unit_count; unit++) {
        put_unit(graph, &sheet->units[unit]);
    }
    for (int link = 0; link < sheet->link_count; link++) {
        int one = graph_find(graph, sheet->links[link].ends[0]), other = graph_find(graph, sheet->links[link].ends[1]);
        bool is_kept = (uint32_t)link + 1 != lost_link;
        graph->linked[one][other] |= is_kept;
        graph->linked[other][one] |= is_kept;
    }
}

bool graph_has_common(const struct graph *graph, int one, int other, int between)
{
    return graph->linked[one][between] && graph->linked[between][other];
}

bool graph_is_near(const struct graph *graph, int one, int other)
{
    bool is_near = graph->linked[one][other];
    for (int between = 0; between < graph->unit_count; between++) {
        is_near = is_near || graph_has_common(graph, one, other, between);
    }
    return is_near;
}
