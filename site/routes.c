/*
 * The ways that units know, and the manager's over the night: kept for the picture, and told when they change for a
 * bench.
 */
#include "greenhouse.h"

/* Whether a table has a way to an address at a time, and then which. */
bool routes_find_at(struct site *site, const uint8_t table[BRAIDLARK_TABLE_SIZE], uint16_t destination, uint32_t time,
                    struct route *route)
{
    uint8_t status = braidlark_lookup(table, BRAIDLARK_TABLE_SIZE, destination, time, &route->next_hop, &route->hops,
                                      &route->left);
    check_status(site, "braidlark_lookup", status, REFUSAL(BRAIDLARK_NO_ROUTE));
    return status == BRAIDLARK_ACCEPTED;
}

/* Whether a unit knows a way to an address now. */
bool routes_find(struct site *site, int unit, uint16_t destination, struct route *route)
{
    return routes_find_at(site, site->units[unit].table, destination, unit_time(site, unit), route);
}

/* The manager's next hop to a unit, or NOBODY. */
static int next_hop_to(struct site *site, int unit)
{
    int manager = site->manager.unit;
    struct route route;
    bool known = site->units[manager].powered && routes_find(site, manager, site->units[unit].address, &route);
    return known ? layout_find(site, route.next_hop) : NOBODY;
}

/* Tells the grower to which benches orders go another way from now on: straight, by a unit, or not at all. */
static void say_way(struct site *site, int next, uint32_t benches)
{
    char words[80];
    number_words(benches, words);
    const char *plural = (benches & (benches - 1)) != 0 ? "benches" : "bench";
    if (benches == 0) {
        return;
    }
    if (next == NOBODY) {
        say(site, "%s knows no way to %s %s any more", site->units[site->manager.unit].name, plural, words);
    } else if (next == site->manager.unit) {
        say(site, "orders for %s %s now go straight", plural, words);
    } else {
        say(site, "orders for %s %s now go by %s", plural, words, site->units[next].name);
    }
}

/* Keeps the manager's next hop to each unit, and tells of changes for a bench that is there. */
void routes_watch(struct site *site)
{
    uint32_t changed[UNITS + 1] = {0};
    int manager = site->manager.unit;
    for (int unit = 0; unit < UNITS; unit++) {
        int next = next_hop_to(site, unit);
        int changes = site->next_hops[unit].count;
        record_note(&site->next_hops[unit], site->now, next);
        if (site->next_hops[unit].count > changes && unit >= BENCH_1 && site->units[unit].powered) {
            int by = next == unit ? manager : next;
            changed[by + 1] |= 1u << (unit - BENCH_1 + 1);
        }
    }
    bool told = site->units[manager].powered && site->now >= site->script.orders_begin;
    for (int by = NOBODY; by < UNITS && told; by++) {
        say_way(site, by, changed[by + 1]);
    }
}
