/*
 * How long the routes of orders last. An order has several hops to go, and nobody would notice that it was lost for a
 * route that ended meanwhile: so the manager lets none set out on a route that is about to end, but holds it back
 * until there is a better one.
 */
#include <string.h>

#include "greenhouse.h"

/* What the manager's lookup answers for the head of an order. */
static bool find_route(struct site *site, const struct order *order, struct route *route)
{
    return routes_find(site, site->manager.unit, site->units[order->head].address, route);
}

/* Notes how an order sets out, for what may become of it. */
static void note_departure(struct site *site, struct order *order, const struct route *route)
{
    struct departure *departure = &order->departure;
    departure->time = unit_wide_time(site, site->manager.unit);
    departure->route = *route;
    memcpy(departure->table, site->units[site->manager.unit].table, sizeof departure->table);
}

static void say_released(struct site *site, int number, const struct order *order)
{
    say(site, "order %d for %s, held back for %u s, sets out by %s: that route has %u s left", number,
        site->units[order->head].name, (unsigned)(order->held_ms / 1000),
        site->units[layout_find(site, order->departure.route.next_hop)].name,
        (unsigned)(order->departure.route.left / 1000));
}

/* The manager relays an order: on the route that a lookup answers, with as much time left, and that is enough. */
void lasting_set_out(struct site *site, const struct packet *packet, uint32_t left)
{
    int number;
    struct order *order = orders_find(site, packet, &number);
    struct route route = {0};
    if (order == NULL) {
        return;
    }
    if (!find_route(site, order, &route) || route.next_hop != packet->to || route.left != left ||
        left < LEAST_LEFT_MS) {
        fail(site, "order %d goes to %04X with %u ms left; a lookup answers %04X and %u ms", number, packet->to,
             (unsigned)left, route.next_hop, (unsigned)route.left);
    }
    note_departure(site, order, &route);
    if (order->held_since > 0 && order->held_ms == 0) {
        order->held_ms = site->now - order->held_since;
        say_released(site, number, order);
    }
}

/* A route is known, but is about to end. */
static void hold_back(struct site *site, int number, struct order *order, const struct route *route)
{
    if (route->left >= LEAST_LEFT_MS) {
        fail(site, "order %d is held back, and its route has %u ms left", number, (unsigned)route->left);
    }
    if (!order->arrived && order->held_since == 0) {
        order->held_since = site->now;
        say(site, "order %d for %s is held back: the route by %s has %u s left, and an order needs %d", number,
            site->units[order->head].name, site->units[layout_find(site, route->next_hop)].name,
            (unsigned)(route->left / 1000), LEAST_LEFT_MS / 1000);
    }
}

/* A unit does not relay an order, for want of a route or of time left on it. The manager tries again in the next
 * superframe. */
void lasting_refused(struct site *site, int unit, const struct packet *packet)
{
    int number;
    struct order *order = orders_find(site, packet, &number);
    struct route route;
    if (order == NULL) {
        return;
    }
    if (unit == site->manager.unit) {
        order->next_try = site->now;
    }
    if (unit == site->manager.unit && find_route(site, order, &route)) {
        hold_back(site, number, order, &route);
    } else {
        check_lasts(site, number, order);
    }
}
