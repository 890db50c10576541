/*
 * What the program holds the library, and itself, to. Each check looks at what was really answered or sent; the first
 * that does not hold ends the run.
 */
#include "greenhouse.h"

/* A call was accepted, or refused for one of the reasons that can come up where it was made. */
void check_status(struct site *site, const char *call, uint8_t status, uint32_t refusals)
{
    if (status != BRAIDLARK_ACCEPTED && (refusals & REFUSAL(status)) == 0) {
        fail(site, "%s answered %d", call, status);
    }
}

/* No candidate of an update was compared with more rows than there are other units. */
void check_merge(struct site *site, int unit, const struct packet *packet, uint16_t compared)
{
    int candidates = 1 + (packet->length - BRAIDLARK_LENGTH_UPDATE) / BRAIDLARK_ENTRY_SIZE;
    if (compared > candidates * (UNITS - 1)) {
        fail(site, "%s compared %d rows to merge %d candidates", site->units[unit].name, compared, candidates);
    }
    if (compared > site->tally.most_compared) {
        site->tally.most_compared = compared;
    }
}

/* A next hop is named only for as long as the last update that was accepted from it is usable. Answers which unit it
 * is. */
static int check_fresh(struct site *site, int unit, uint16_t next_hop)
{
    const struct unit *self = &site->units[unit];
    int next = layout_find(site, next_hop);
    if (next == NOBODY || !self->was_told[next]) {
        fail(site, "%s names %04X as next hop, of which it never heard", self->name, next_hop);
    }
    uint64_t age = unit_wide_time(site, unit) - self->update_taken[next];
    if (age > BRAIDLARK_USABLE_MS) {
        fail(site, "%s names %s as next hop, last heard of %u ms ago", self->name, site->units[next].name,
             (unsigned)age);
    }
    return next;
}

/* Nobody can know at once that a unit is gone, but nobody hands it a frame once that is longer ago than a route is
 * usable. */
static void check_loss(struct site *site, int unit, int next)
{
    uint64_t gone_for = site->now - site->units[next].switched;
    if (gone_for > BRAIDLARK_USABLE_MS) {
        fail(site, "%s hands a frame to %s, which is gone for %u ms", site->units[unit].name, site->units[next].name,
             (unsigned)gone_for);
    }
    if (gone_for > site->tally.latest_loss_ms) {
        site->tally.latest_loss_ms = gone_for;
    }
}

/* A frame is handed to a next hop. */
void check_next_hop(struct site *site, int unit, uint16_t next_hop)
{
    int next = check_fresh(site, unit, next_hop);
    uint64_t age = unit_wide_time(site, unit) - site->units[unit].update_taken[next];
    site->tally.handed_over++;
    if (age > site->tally.oldest_word_ms) {
        site->tally.oldest_word_ms = age;
    }
    if (!site->units[next].powered) {
        check_loss(site, unit, next);
    }
}

/* The way that a unit knows to another, if any: it ends just when the time that it has left is over, and no later than
 * the last update of its next hop is too old. */
static void check_route(struct site *site, int unit, int other)
{
    const struct unit *self = &site->units[unit];
    uint16_t destination = site->units[other].address;
    struct route route, last, none;
    if (!routes_find(site, unit, destination, &route)) {
        return;
    }
    uint64_t age = unit_wide_time(site, unit) - self->update_taken[check_fresh(site, unit, route.next_hop)];
    uint32_t end = unit_time(site, unit) + route.left;
    bool lasts = routes_find_at(site, self->table, destination, end, &last) && last.next_hop == route.next_hop &&
                 last.hops == route.hops && last.left == 0;
    if (age + route.left > BRAIDLARK_USABLE_MS || !lasts ||
        routes_find_at(site, self->table, destination, end + 1, &none)) {
        fail(site, "%s has %u ms left on its way to %s by %04X, last heard of %u ms ago, and it does not end so",
             self->name, (unsigned)route.left, site->units[other].name, route.next_hop, (unsigned)age);
    }
    site->tally.routes++;
}

void check_routes(struct site *site)
{
    for (int unit = 0; unit < UNITS; unit++) {
        for (int other = 0; other < UNITS && site->units[unit].powered; other++) {
            check_route(site, unit, other);
        }
    }
}

/* In a control or data slot at most one unit really sends. */
void check_air(struct site *site, int slot)
{
    const struct regions *regions = &site->manager.regions;
    for (int index = 1; slot >= regions->control && slot < regions->discovery && index < site->air_count; index++) {
        if (site->air[index].sender != site->air[0].sender) {
            fail(site, "%s and %s both send in slot %d", site->units[site->air[0].sender].name,
                 site->units[site->air[index].sender].name, slot);
        }
    }
}

/* The clocks of those who send agree with the network's time as closely as the slots need. */
void check_clocks(struct site *site)
{
    uint32_t tolerance = plan_clock_tolerance_ms(&site->plan);
    for (int unit = 0; unit < UNITS; unit++) {
        if (!site->units[unit].powered || !unit_sends(site, unit)) {
            continue;
        }
        uint32_t ahead = unit_network_time(site, unit) - manager_time(site), behind = 0 - ahead;
        uint32_t error = ahead < behind ? ahead : behind;
        if (error > tolerance) {
            fail(site, "the clock of %s is %u ms off", site->units[unit].name, (unsigned)error);
        }
        if (error > site->tally.worst_clock_ms) {
            site->tally.worst_clock_ms = error;
        }
    }
}

/* A tick in a state: a member takes the network for lost exactly if more than three superframes went by without a
 * beacon. */
void check_silence(struct site *site, int unit, uint8_t before)
{
    const struct unit *self = &site->units[unit];
    uint64_t silence = unit_wide_time(site, unit) - self->beacon_taken;
    uint8_t expected = silence > 3 * site->plan.superframe_ms ? BRAIDLARK_RECOVERY : BRAIDLARK_NORMAL;
    if (before == BRAIDLARK_NORMAL && self->state[0] != expected) {
        fail(site, "%s heard a beacon %u ms ago and goes to state %d", self->name, (unsigned)silence, self->state[0]);
    }
}

/* A unit's clock has begun again: in its last ms and in its first one it knows the same ways, with 1 ms less left. */
void check_turn(struct site *site, int unit)
{
    const struct unit *self = &site->units[unit];
    for (int other = 0; other < UNITS; other++) {
        uint16_t destination = site->units[other].address;
        struct route routes[] = {{.left = 1}, {.left = 0}}; /* as they stay where no way is known */
        for (uint32_t time = UINT32_MAX, turn = 0; turn < 2; time++, turn++) {
            routes_find_at(site, self->table, destination, time, &routes[turn]);
        }
        if (routes[0].next_hop != routes[1].next_hop || routes[0].hops != routes[1].hops ||
            routes[0].left != routes[1].left + 1) {
            fail(site, "%s knows another way to %s since its clock has begun again", self->name,
                 site->units[other].name);
        }
    }
}

/* A unit counts as gone: its last word is longer ago than a member is live. If it is the unbolted relay, the network's
 * time has to have begun again at 0 since. */
void check_gone(struct site *site, int unit)
{
    uint64_t silence = unit_wide_time(site, site->manager.unit) - site->manager.word_taken[unit];
    if (silence <= BRAIDLARK_LIVE_MS) {
        fail(site, "%s counts as gone, %u ms after its last word", site->units[unit].name, (unsigned)silence);
    }
    if (unit != MIDDLE_RELAY || site->units[unit].powered) {
        return;
    }
    if (site->script.clock_top <= site->script.unbolted || site->script.clock_top >= site->now) {
        fail(site, "the office's clock did not begin again between the unbolting of the relay and its being noticed");
    }
}

/* An order reached its head, or a unit has no way for it. If that is within the time that the manager's route had left
 * when the order set out, that route has not grown too old: by the table of then it is still usable, and its next hop
 * was heard of lately enough. It may have been withdrawn; and the next hop's own route has an age of its own. */
void check_lasts(struct site *site, int number, const struct order *order)
{
    const struct departure *departure = &order->departure;
    int manager = site->manager.unit;
    uint64_t passed = unit_wide_time(site, manager) - departure->time;
    if (departure->time == 0 || passed > departure->route.left) {
        return;
    }
    struct route route;
    bool lasts = routes_find_at(site, departure->table, site->units[order->head].address, manager_time(site), &route) &&
                 route.next_hop == departure->route.next_hop && route.left == departure->route.left - passed;
    int next = layout_find(site, departure->route.next_hop);
    uint64_t age = unit_wide_time(site, manager) - site->units[manager].update_taken[next];
    if (!lasts || age > BRAIDLARK_USABLE_MS) {
        fail(site, "order %d set out %u ms ago on a route with %u ms left, which has ended since", number,
             (unsigned)passed, (unsigned)departure->route.left);
    }
}

/* Orders for benches 1 to 4, which either relay can reach, that arrived within a stretch of the night by this one. */
static int orders_by(const struct site *site, int carrier, uint64_t from, uint64_t to)
{
    int count = 0;
    for (int number = 0; number < site->manager.order_count; number++) {
        const struct order *order = &site->manager.orders[number];
        bool counts = order->head <= BENCH_4 && order->arrived && order->arrival >= from && order->arrival < to;
        for (int index = 0; index < order->carrier_count; index++) {
            count += counts && order->carriers[index] == carrier;
        }
    }
    return count;
}

/* Orders went by the middle relay before it was unbolted, and round it while it was gone. */
static void check_ways(struct site *site)
{
    const struct script *script = &site->script;
    int before = orders_by(site, MIDDLE_RELAY, 0, script->unbolted);
    int round = orders_by(site, NORTH_RELAY, script->unbolted, script->returned);
    if (before == 0 || round == 0) {
        fail(site, "%d orders went by the middle relay before it was unbolted, and %d round it after", before, round);
    }
}

/* The back relay did have two beacons to choose from. */
static void check_choices(struct site *site)
{
    if (site->tally.choices == 0) {
        fail(site, "%s never had two beacons to choose from", site->units[BACK_RELAY].name);
    }
}

/* The book was full at times, and yet the new head got in; so did, after the power cut, the units that were gone when
 * it came. */
static void check_joining(struct site *site)
{
    static const int GONE[] = {MIDDLE_RELAY, BENCH_5};
    if (site->tally.refused_joins == 0 || site->inheritance.from == NOBODY) {
        fail(site, "nobody was ever refused for want of a row, or bench 9 never got the row of another");
    }
    if (site->cut.recovered == 0) {
        fail(site, "the site did not get over the power cut");
    }
    for (size_t index = 0; index < sizeof GONE / sizeof GONE[0]; index++) {
        if (site->cut.before.live[GONE[index]] || site->joined[GONE[index]] <= site->script.power_returns) {
            fail(site, "%s did not join after the power cut", site->units[GONE[index]].name);
        }
    }
}

/* An order arrives if a few of its tries were fair: links do not lose them all. */
static void check_orders(struct site *site)
{
    enum { FEW = 3 };
    for (int number = 0; number < site->manager.order_count; number++) {
        const struct order *order = &site->manager.orders[number];
        if (!order->arrived && order->fair_tries >= FEW) {
            fail(site, "order %d for %s never arrived, and in %d of its tries there was a way", number + 1,
                 site->units[order->head].name, order->fair_tries);
        }
    }
}

/* The manager did hold an order back, which set out later. */
static void check_held(struct site *site)
{
    for (int number = 0; number < site->manager.order_count; number++) {
        if (site->manager.orders[number].held_ms > 0) {
            return;
        }
    }
    fail(site, "no order was held back, or none of those ever set out");
}

/* What shows only when the night is over. */
void check_end(struct site *site)
{
    check_ways(site);
    check_joining(site);
    check_choices(site);
    check_orders(site);
    check_held(site);
    check_takeover(site);
}
