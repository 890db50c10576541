/*
 * The graph of a site: two-way links drawn at random that join all units, and the distances that breadth first search
 * finds on them. The tables are held to these distances, which no call of the library has part in.
 */
#include <string.h>

#include "converge.h"

static void put_link(struct graph *graph, int one, int other)
{
    graph->linked[one][other] = true;
    graph->linked[other][one] = true;
    graph->links++;
}

/* Each unit gets a link to one of the few before it. How few is drawn too, so that sites differ in shape: with one to
 * choose from the units stand in a line, with many they make a bush. */
static void draw_tree(struct graph *graph, uint64_t *random)
{
    int reach = 1 + (int)random_below(random, (uint32_t)(graph->units - 1));
    for (int unit = 1; unit < graph->units; unit++) {
        int choices = unit < reach ? unit : reach;
        put_link(graph, unit, unit - 1 - (int)random_below(random, (uint32_t)choices));
    }
}

/* Links between any two units that have none, until there are so many in all. */
static void draw_further(struct graph *graph, int links, uint64_t *random)
{
    struct {
        int one;
        int other;
    } unlinked[MOST_LINKS];
    int left = 0;
    for (int one = 0; one < graph->units; one++) {
        for (int other = 0; other < one; other++) {
            if (!graph->linked[one][other]) {
                unlinked[left].one = one;
                unlinked[left].other = other;
                left++;
            }
        }
    }
    while (graph->links < links) {
        int index = (int)random_below(random, (uint32_t)left);
        put_link(graph, unlinked[index].one, unlinked[index].other);
        unlinked[index] = unlinked[--left];
    }
}

/* Breadth first: whoever is reached waits in the queue for its turn to reach others. */
static void measure_from(struct graph *graph, int from)
{
    enum { UNREACHED = -1 };
    int *distance = graph->distance[from];
    int queue[MOST_UNITS], reached = 0;
    for (int unit = 0; unit < graph->units; unit++) {
        distance[unit] = UNREACHED;
    }
    distance[from] = 0;
    queue[reached++] = from;
    for (int turn = 0; turn < reached; turn++) {
        for (int unit = 0; unit < graph->units; unit++) {
            if (graph->linked[queue[turn]][unit] && distance[unit] == UNREACHED) {
                distance[unit] = distance[queue[turn]] + 1;
                queue[reached++] = unit;
            }
        }
    }
    /* The last one reached is as far away as any. */
    int farthest = distance[queue[reached - 1]];
    graph->diameter = farthest > graph->diameter ? farthest : graph->diameter;
}

/* Draws until the diameter is one that the theorem is about; false if that did not come about. */
bool graph_draw(struct graph *graph, int units, int links, uint64_t *random)
{
    enum { MOST_TRIES = 1000 };
    for (int tries = 0; tries < MOST_TRIES; tries++) {
        memset(graph, 0, sizeof *graph);
        graph->units = units;
        draw_tree(graph, random);
        draw_further(graph, links, random);
        for (int unit = 0; unit < units; unit++) {
            measure_from(graph, unit);
        }
        if (graph->diameter <= MOST_DIAMETER) {
            return true;
        }
    }
    return false;
}

/* How many other units are at most so many links away. */
int graph_within(const struct graph *graph, int unit, int links)
{
    int count = 0;
    for (int other = 0; other < graph->units; other++) {
        count += other != unit && graph->distance[unit][other] <= links;
    }
    return count;
}

/* And how many ordered pairs of units there are of which that holds. */
int graph_pairs_within(const struct graph *graph, int links)
{
    int count = 0;
    for (int unit = 0; unit < graph->units; unit++) {
        count += graph_within(graph, unit, links);
    }
    return count;
}
