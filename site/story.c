/*
 * What happens when: the units are switched on, the night's orders begin, a head too many comes, the middle relay is
 * unbolted, the power fails in the office, the relay is back, and in the morning the office dies.
 */
#include "greenhouse.h"

enum { SECOND = 1000, MINUTE = 60 * SECOND };

/* Whether a moment falls into the slot that begins now. */
static bool due(const struct site *site, uint64_t moment)
{
    return moment <= site->now && site->now - moment < site->plan.slot_ms;
}

static void switch_on(struct site *site)
{
    if (due(site, 0)) {
        unit_power_on(site, OFFICE);
        scene(site, "The site comes up");
        say(site, "night falls; the office is switched on, then the relays and the valve heads of eight benches");
    }
    for (int unit = MIDDLE_RELAY; unit <= BENCH_8; unit++) {
        uint64_t moment = unit < BENCH_1 ? RELAYS_FROM_MS + RELAYS_EVERY_MS * (uint64_t)(unit - MIDDLE_RELAY)
                                         : HEADS_FROM_MS + HEADS_EVERY_MS * (uint64_t)(unit - BENCH_1);
        if (due(site, moment)) {
            unit_power_on(site, unit);
        }
    }
    if (due(site, site->script.new_head)) {
        say(site, "a new head is put up at bench 9; the plan of the site has no row for it");
        unit_power_on(site, BENCH_9);
    }
}

/* The relay falls silent at once and with it bench 5, which only it can hear. That happens right after a word of bench
 * 5 came through, so that the relay's is the first time to run out; unless the relay, for want of the office's beacon,
 * has just asked the back relay to carry a request, which still arrives. */
static void unbolt(struct site *site)
{
    const uint64_t *last_word = site->manager.last_word;
    if (site->silence.begun || site->now < site->script.unbolted || last_word[BENCH_5] < last_word[MIDDLE_RELAY]) {
        return;
    }
    char slots[80];
    number_words(site->held[MIDDLE_RELAY], slots);
    site->script.unbolted = site->now;
    uint64_t update_age = unit_wide_time(site, OFFICE) - site->units[OFFICE].update_taken[MIDDLE_RELAY];
    site->silence = (struct silence){.begun = true, .last_update = site->now - update_age};
    unit_power_off(site, MIDDLE_RELAY);
    scene(site, "A relay is gone");
    say(site, "SOMEBODY UNBOLTS THE MIDDLE RELAY, which holds row %d and data slots %s", site->row[MIDDLE_RELAY],
        slots);
    say(site, "nobody knows yet: orders by it are lost until its routes are %d s old, but not longer",
        BRAIDLARK_USABLE_MS / 1000);
    say(site, "benches 1 to 4 can also be reached by the north relay; bench 5 is cut off");
}

/* The grower gives an order just when the routes by the relay are about to end. */
static void order_late(struct site *site)
{
    struct route route;
    bool awaited = site->silence.begun && !site->silence.late_order && site->manager.running;
    if (awaited && routes_find(site, site->manager.unit, site->units[BENCH_4].address, &route) &&
        route.next_hop == site->units[MIDDLE_RELAY].address && route.left < LEAST_LEFT_MS) {
        site->silence.late_order = true;
        orders_give(site, BENCH_4, 35);
        orders_repeat(site);
    }
}

static void bring_back(struct site *site)
{
    if (due(site, site->script.returned)) {
        scene(site, "The relay is back");
        say(site, "the middle relay is bolted on again");
        unit_power_on(site, MIDDLE_RELAY);
    }
    if (due(site, site->script.taken_out)) {
        say(site, "the grower takes out the head of bench 8 and tells the office so: its row is free at once");
        manager_takes_out(site, BENCH_8);
        orders_withdraw(site, BENCH_8);
    }
}

static void cut_power(struct site *site)
{
    if (due(site, site->script.power_fails)) {
        scene(site, "A power cut in the office");
        power_fails(site);
    }
    if (due(site, site->script.power_returns)) {
        power_returns(site);
    }
}

static void end_office(struct site *site)
{
    if (due(site, site->script.office_dies)) {
        takeover_office_dies(site);
    }
}

/* What happens to units in the slot that begins now. */
void story_slot(struct site *site)
{
    switch_on(site);
    unbolt(site);
    order_late(site);
    cut_power(site);
    bring_back(site);
    end_office(site);
}

/* Whether the relay's going, the power cut and the relay's coming, behind which much follows, are some time away. */
bool story_is_quiet(const struct site *site)
{
    const struct script *script = &site->script;
    bool power_cut = site->now + 4 * MINUTE >= script->power_fails && site->now < script->settled;
    return !power_cut && site->now >= script->unbolted + 11 * MINUTE && site->now + 5 * MINUTE <= script->returned;
}

/* Orders come every 20 minutes, and more often while there is something to see. A head that is new, or that has to join
 * anew since the book was lost, gets none before it is in the book; the desk of a manager that is gone gives none. */
void story_orders(struct site *site)
{
    static const int HEADS[] = {BENCH_1, BENCH_4, BENCH_6, BENCH_5, BENCH_2, BENCH_3, BENCH_7, BENCH_9, BENCH_8};
    const struct script *script = &site->script;
    if (site->now < script->orders_begin || site->now < site->next_order || site->now + 6 * MINUTE > script->end) {
        return;
    }
    site->next_order = site->now + (story_is_quiet(site) ? 20 * MINUTE : 100 * SECOND);
    int count = (int)(sizeof HEADS / sizeof HEADS[0]);
    int head = HEADS[site->orders_given % count];
    int setting = 20 + 10 * (site->orders_given % 7);
    site->orders_given++;
    bool has_to_join = head == BENCH_9 || site->cut.book_lost || site->takeover.begun > 0;
    if (site->units[head].powered && (!has_to_join || site->live[head])) {
        orders_give(site, head, (uint8_t)setting);
    }
}
