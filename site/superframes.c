/*
 * The night: superframe by superframe, and slot by slot in each.
 */
#include "greenhouse.h"

/* The manager's part: the book is stored and looked at, and orders go out. */
static void begin_managing(struct site *site)
{
    power_store(site);
    check_schedules(site);
    power_watch(site);
    takeover_watch(site);
    story_orders(site);
    orders_repeat(site);
}

/* First every unit looks at what is due; then all that can be seen of the site is checked. */
static void begin_superframe(struct site *site)
{
    for (int unit = 0; unit < UNITS; unit++) {
        if (site->units[unit].powered) {
            unit_begin(site, unit);
        }
    }
    ways_watch(site);
    routes_watch(site);
    if (site->manager.running) {
        begin_managing(site);
    }
    check_holdings(site);
    check_routes(site);
    check_clocks(site);
}

/* Whether an age has passed its limit since the slot before. */
static bool runs_out(const struct site *site, uint64_t age, uint64_t limit)
{
    return age > limit && age - limit <= site->plan.slot_ms;
}

/* Within a superframe too the manager looks at its book or its routes when one of them has just grown too old: so the
 * record of the night has the moment. */
static void look_at_ages(struct site *site)
{
    const struct unit *manager = &site->units[site->manager.unit];
    uint64_t time = unit_wide_time(site, site->manager.unit);
    bool book = false, routes = false;
    for (int unit = 0; unit < UNITS && site->manager.running; unit++) {
        uint64_t update_age = time - manager->update_taken[unit];
        book = book || runs_out(site, site->now - site->manager.last_word[unit], BRAIDLARK_LIVE_MS);
        routes = routes || (manager->was_told[unit] && runs_out(site, update_age, BRAIDLARK_USABLE_MS));
    }
    if (routes) {
        routes_watch(site);
    }
    if (book) {
        check_schedules(site);
    }
}

static void tick_units(struct site *site)
{
    for (int unit = 0; unit < UNITS; unit++) {
        if (site->units[unit].powered) {
            unit_tick(site, unit);
        }
    }
    check_managers(site);
    check_polls(site);
}

/* Each unit fills the slot as far as it may send in it; then all others have heard it. */
static void run_slot(struct site *site, int slot)
{
    for (int unit = 0; unit < UNITS; unit++) {
        size_t room = BRAIDLARK_MOST_FRAME;
        struct packet packet;
        while (site->units[unit].powered && unit_turn(site, unit, slot, room, &packet)) {
            medium_send(site, unit, &packet);
            room -= packet.length;
        }
    }
    check_air(site, slot);
    medium_deliver(site);
}

/* The whole night. */
void superframes_run(struct site *site)
{
    for (uint64_t start = 0; start < site->script.end; start += site->plan.superframe_ms) {
        for (int slot = 0; slot < BRAIDLARK_MOST_SLOTS; slot++) {
            site->now = start + (uint64_t)slot * site->plan.slot_ms;
            clocks_watch(site);
            story_slot(site);
            if (slot == 0) {
                begin_superframe(site);
            } else {
                look_at_ages(site);
            }
            if (slot < site->manager.regions.end) {
                run_slot(site, slot);
            }
            if (slot == BRAIDLARK_MOST_SLOTS / 2) {
                tick_units(site);
            }
        }
    }
}
