/*
 * What every table has to answer after a round: exactly the other units within as many links as rounds were played are
 * known, each with the fewest hops, and next hops lead there.
 */
#include "converge.h"

/* What braidlark_lookup said. */
struct answer {
    uint8_t status;
    uint16_t next_hop;
    uint8_t hops;
    uint32_t left;
};

/* A unit heard of each of its routes within its window, in its last call at the latest. */
static void check_left(const struct site *site, int unit, uint32_t time, uint32_t left)
{
    const struct unit *self = &site->units[unit];
    uint32_t least = BRAIDLARK_USABLE_MS - (time - self->start), most = BRAIDLARK_USABLE_MS - (time - self->now);
    if (left < least || left > most) {
        differ(site, "a way of unit %04X: expected %u to %u ms left, answered %u", self->address, (unsigned)least,
               (unsigned)most, (unsigned)left);
    }
}

/* Asks a unit for its way to an address. Where it knows none, all numbers have to stay as they were. The hops and the
 * ms left that stand there are more than any way has, so that it shows whether others were written. */
static struct answer ask(struct site *site, int unit, uint16_t destination)
{
    const struct unit *self = &site->units[unit];
    uint16_t next_hop = (uint16_t)random_below(&site->random, UINT16_MAX + 1);
    uint8_t hops = (uint8_t)(UINT8_MAX - random_below(&site->random, UINT8_MAX - BRAIDLARK_MOST_ROUTE_HOPS));
    uint32_t time = unit_any_time(site, unit);
    struct answer answer = {.next_hop = next_hop, .hops = hops, .left = UINT32_MAX};
    answer.status = braidlark_lookup(self->table, sizeof self->table, destination, time, &answer.next_hop, &answer.hops,
                                     &answer.left);
    site->tally.calls++;
    if (answer.status != BRAIDLARK_ACCEPTED && answer.status != BRAIDLARK_NO_ROUTE) {
        differ(site, "unit %04X is asked for its way to %04X: expected 0 or 11, answered %d", self->address,
               destination, answer.status);
    }
    if (answer.status == BRAIDLARK_NO_ROUTE &&
        (answer.next_hop != next_hop || answer.hops != hops || answer.left != UINT32_MAX)) {
        differ(site, "unit %04X knows no way to %04X: expected %04X, %d and %u as they were, found %04X, %d and %u",
               self->address, destination, next_hop, hops, (unsigned)UINT32_MAX, answer.next_hop, answer.hops,
               (unsigned)answer.left);
    }
    if (answer.status == BRAIDLARK_ACCEPTED) {
        check_left(site, unit, time, answer.left);
    }
    return answer;
}

/* The next hop to a unit is a neighbour that is one link nearer to it. */
static void check_next_hop(struct site *site, int unit, int other, uint16_t next_hop)
{
    const struct graph *graph = &site->graph;
    int next = units_find(site, next_hop), left = graph->distance[unit][other] - 1;
    if (next == NOBODY || !graph->linked[unit][next] || graph->distance[next][other] != left) {
        differ(site, "unit %04X to unit %04X: expected as next hop a neighbour with %d left to go, answered %04X",
               site->units[unit].address, site->units[other].address, left, next_hop);
    }
}

/* Whether a unit knows another, which it has to exactly if that is near enough. */
static bool check_pair(struct site *site, int unit, int other)
{
    int distance = site->graph.distance[unit][other];
    unsigned own = site->units[unit].address, destination = site->units[other].address;
    struct answer answer = ask(site, unit, site->units[other].address);
    bool known = answer.status == BRAIDLARK_ACCEPTED;
    if (!known && distance <= site->round) {
        differ(site, "unit %04X to unit %04X: expected 0 with hops %d, answered 11", own, destination, distance);
    }
    if (known && distance > site->round) {
        differ(site, "unit %04X to unit %04X, %d links away: expected 11, answered 0 with hops %d by %04X", own,
               destination, distance, answer.hops, answer.next_hop);
    }
    if (known && answer.hops != distance) {
        differ(site, "unit %04X to unit %04X: expected 0 with hops %d, answered 0 with hops %d by %04X", own,
               destination, distance, answer.hops, answer.next_hop);
    }
    if (known) {
        check_next_hop(site, unit, other, answer.next_hop);
    }
    return known;
}

/* A table names neither its own unit nor one that the site has not. */
static void check_unnamed(struct site *site, int unit, uint16_t destination)
{
    struct answer answer = ask(site, unit, destination);
    if (answer.status != BRAIDLARK_NO_ROUTE) {
        differ(site, "unit %04X to %04X, which is no other unit: expected 11, answered 0 with hops %d by %04X",
               site->units[unit].address, destination, answer.hops, answer.next_hop);
    }
}

/* How many of the others a unit knows. */
static int check_table(struct site *site, int unit)
{
    int known = 0;
    for (int other = 0; other < site->graph.units; other++) {
        known += other != unit && check_pair(site, unit, other);
    }
    check_unnamed(site, unit, site->units[unit].address);
    check_unnamed(site, unit, units_strange_address(site));
    return known;
}

/* From unit to unit, each time by the next hop that the unit's own table names, until the destination is reached. */
static void follow(struct site *site, int from, int to)
{
    bool visited[MOST_UNITS] = {false};
    unsigned start = site->units[from].address, destination = site->units[to].address;
    int steps = 0;
    for (int at = from; at != to; steps++) {
        if (visited[at]) {
            differ(site, "the way from unit %04X to unit %04X: expected each unit once, unit %04X comes again", start,
                   destination, site->units[at].address);
        }
        visited[at] = true;
        struct answer answer = ask(site, at, site->units[to].address);
        int next = answer.status == BRAIDLARK_ACCEPTED ? units_find(site, answer.next_hop) : NOBODY;
        if (next == NOBODY) {
            differ(site, "the way from unit %04X to unit %04X: expected a next hop, unit %04X names none", start,
                   destination, site->units[at].address);
        }
        at = next;
    }
    if (steps != site->graph.distance[from][to]) {
        differ(site, "the way from unit %04X to unit %04X: expected %d steps, followed were %d", start, destination,
               site->graph.distance[from][to], steps);
    }
    site->tally.paths++;
}

int check_round(struct site *site)
{
    int known = 0;
    for (int unit = 0; unit < site->graph.units; unit++) {
        known += check_table(site, unit);
    }
    for (int from = 0; from < site->graph.units && site->round >= site->graph.diameter; from++) {
        for (int to = 0; to < site->graph.units; to++) {
            if (to != from) {
                follow(site, from, to);
            }
        }
    }
    return known;
}
