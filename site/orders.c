/*
 * The orders for the valves. The manager repeats an order until the head's report names it, as no frame is
 * acknowledged on its way.
 */
#include "greenhouse.h"

enum { TRY_EVERY_MS = 100000 };

void orders_give(struct site *site, int head, uint8_t setting)
{
    struct manager *manager = &site->manager;
    if (manager->order_count == MOST_ORDERS) {
        fail(site, "more than %d orders in one night", MOST_ORDERS);
    }
    for (int number = 0; number < manager->order_count; number++) {
        struct order *order = &manager->orders[number];
        order->replaced = order->replaced || (order->head == head && !order->confirmed);
    }
    manager->orders[manager->order_count++] =
        (struct order){.head = head, .setting = setting, .given = site->now, .next_try = site->now};
}

/* Where a head is taken out, nobody is there to follow what was still on its way. */
void orders_withdraw(struct site *site, int head)
{
    for (int number = 0; number < site->manager.order_count; number++) {
        struct order *order = &site->manager.orders[number];
        if (order->head == head && !order->arrived && !order->replaced) {
            order->withdrawn = true;
            say(site, "order %d is withdrawn: %s has no head any more", number + 1, site->units[head].name);
        }
    }
}

static void try_order(struct site *site, int number)
{
    struct order *order = &site->manager.orders[number];
    const struct unit *head = &site->units[order->head];
    struct route route;
    order->next_try = site->now + TRY_EVERY_MS;
    order->fair_tries += ways_settled(site, order->head);
    if (!routes_find(site, site->manager.unit, head->address, &route)) {
        check_lasts(site, number + 1, order);
        if (!order->waits_for_route && !order->arrived) {
            say(site, "order %d waits: there is no way to %s", number + 1, head->name);
        }
        order->waits_for_route = true;
        return;
    }
    uint8_t words[] = {(uint8_t)(number + 1), (uint8_t)((number + 1) >> 8), order->setting};
    traffic_send(site, site->manager.unit, head->address, ORDER, words, sizeof words);
}

void orders_repeat(struct site *site)
{
    for (int number = 0; number < site->manager.order_count; number++) {
        struct order *order = &site->manager.orders[number];
        if (!order->confirmed && !order->replaced && !order->withdrawn && site->now >= order->next_try) {
            try_order(site, number);
        }
    }
}

/* The order that the bytes of a payload name, if there is such. */
static struct order *named_order(struct site *site, const uint8_t *words, int *number)
{
    *number = words[0] + 256 * words[1];
    if (*number < 1 || *number > site->manager.order_count) {
        return NULL;
    }
    return &site->manager.orders[*number - 1];
}

/* The order in a packet, if there is one. */
struct order *orders_find(struct site *site, const struct packet *packet, int *number)
{
    struct frame frame;
    frame_read(site, packet->bytes, packet->frame_length, &frame);
    bool is_order = frame.fields[BRAIDLARK_FIELD_TYPE] == BRAIDLARK_TYPE_DATA && packet->bytes[frame.place] == ORDER;
    return is_order ? named_order(site, packet->bytes + frame.place + 1, number) : NULL;
}

static void say_arrival(struct site *site, int number, const struct order *order)
{
    char way[160] = " straight";
    size_t used = 0;
    for (int index = 1; index < order->carrier_count && used < sizeof way; index++) {
        used += (size_t)snprintf(way + used, sizeof way - used, "%s%s", index == 1 ? " by " : " and ",
                                 site->units[order->carriers[index]].name);
    }
    say(site, "order %d: %s opens its valve to %d %%, %u s after the order,%s", number, site->units[order->head].name,
        order->setting, (unsigned)((order->arrival - order->given) / 1000), way);
}

/* An order reached its valve. */
void orders_arrive(struct site *site, int unit, const uint8_t *words)
{
    struct unit *self = &site->units[unit];
    int number;
    struct order *order = named_order(site, words, &number);
    if (order == NULL) {
        return;
    }
    if (number > self->last_order) {
        self->last_order = (uint16_t)number;
        self->setting = words[2];
    }
    self->next_report = site->now;
    if (order->arrived) {
        return;
    }
    check_lasts(site, number, order);
    order->arrived = true;
    order->arrival = site->now;
    if (story_is_quiet(site) && site->now - order->given < SOON_MS) {
        timeline_quiet(site, site->now - order->given);
    } else {
        say_arrival(site, number, order);
    }
}

/* A report says which order was followed last: that one and those before it for this head are done. */
void orders_confirm(struct site *site, int unit, const uint8_t *words)
{
    int last = words[0] + 256 * words[1];
    for (int number = 1; number <= last && number <= site->manager.order_count; number++) {
        struct order *order = &site->manager.orders[number - 1];
        if (order->head == unit) {
            order->confirmed = true;
        }
    }
}

/* Tells the grower, and the picture, of an order that goes to a unit that is not there. */
static void note_loss(struct site *site, int number, struct order *order, int carrier, int next)
{
    uint64_t age = unit_wide_time(site, carrier) - site->units[carrier].update_taken[next];
    order->lost_at_silent++;
    record_loss(site, number - 1);
    say(site, "order %d for %s is lost: %s hands it to %s, last heard of %u s ago", number,
        site->units[order->head].name, site->units[carrier].name, site->units[next].name, (unsigned)(age / 1000));
}

/* Follows an order through the air: who carries it, and whether to a unit that is there. */
void orders_carried(struct site *site, int carrier, const struct packet *packet)
{
    int number;
    struct order *order = orders_find(site, packet, &number);
    if (order == NULL || order->arrived) {
        return;
    }
    order->carrier_count = carrier == site->manager.unit ? 0 : order->carrier_count;
    if (order->carrier_count < MOST_CARRIERS) {
        order->carriers[order->carrier_count++] = carrier;
    }
    int next = layout_find(site, packet->to);
    if (!site->units[next].powered) {
        note_loss(site, number, order, carrier, next);
    }
}
