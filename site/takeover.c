/*
 * The office dies for good, and with it the book. The relay that all name takes over: it waits until nobody counts on
 * slots of the lost book any more and begins with a fresh one, in which every unit that there are links to joins anew.
 * The desk is wired to it, and orders go on.
 */
#include "greenhouse.h"

enum { SUPERFRAMES_TO_JOIN = 24 };

/* Whether the relays miss the same beacons if the office dies now, and none of them loses its slots before it could be
 * heard in two superframes: a place that is renewed late would run out before. */
static bool is_moment(const struct site *site)
{
    uint64_t superframe_ms = site->plan.superframe_ms;
    uint32_t needed_ms = (uint32_t)(2 * superframe_ms - site->now % superframe_ms);
    for (int relay = 0; relay < UNITS; relay++) {
        const struct unit *self = &site->units[relay];
        bool ready = self->state[0] == BRAIDLARK_NORMAL && self->beacon_heard;
        if (self->priority > 0 && !(ready && membership_lasts(site, relay, needed_ms))) {
            return false;
        }
    }
    return true;
}

/* The office dies in this superframe, or in one of the next. */
void takeover_office_dies(struct site *site)
{
    int members = 0;
    if (!is_moment(site)) {
        site->script.office_dies += site->plan.superframe_ms;
        return;
    }
    scene(site, "The office is gone for good");
    for (int unit = OFFICE + 1; unit < UNITS; unit++) {
        members += site->live[unit];
    }
    unit_power_off(site, OFFICE);
    manager_end(site);
    say(site, "THE OFFICE BURNS OUT and stays dark: its book of %d members is lost for ever", members);
    say(site, "relays that hear no beacon send election messages with their priorities, and pass on what they hear");
}

/* Tells the grower whom a relay heard, each with its priority and in the order in which it did, and whom it names. */
static void say_naming(struct site *site, int relay)
{
    const struct unit *self = &site->units[relay];
    int winner = election_winner(site, relay);
    char words[160] = "nobody";
    size_t used = 0;
    for (int index = 0; index < self->election.heard_count && used < sizeof words; index++) {
        const struct message *message = &self->election.heard[index];
        used += (size_t)snprintf(words + used, sizeof words - used, "%s%s (%d)", index == 0 ? "" : ", then ",
                                 site->units[message->unit].name, message->priority);
    }
    say(site, "%s (%d) heard %s: its poll names %s", self->name, self->priority, words,
        winner == relay ? "itself" : site->units[winner].name);
}

static void note_elected(struct site *site, int unit)
{
    site->takeover.winner = unit;
    site->takeover.elected = site->now;
    for (int relay = 0; relay < UNITS; relay++) {
        if (site->units[relay].powered && site->units[relay].priority > 0) {
            say_naming(site, relay);
        }
    }
    say(site, "%s is elected; it waits for %d s: so long may units count on slots of the lost book",
        site->units[unit].name, BRAIDLARK_LIVE_MS / 1000);
}

/* A unit has found another manager than it had. Nobody takes over while the office is there or will be again, and when
 * it is gone all find the same one; before, a bench that was cut off may err. */
void takeover_note(struct site *site, int unit, int winner)
{
    const struct takeover *takeover = &site->takeover;
    bool early = site->now < site->script.office_dies;
    bool other = takeover->winner != NOBODY && takeover->winner != winner;
    if ((unit == winner && early) || (!early && other)) {
        fail(site, "%s takes %s for the manager, which it is not", site->units[unit].name, site->units[winner].name);
    }
    if (unit == winner) {
        note_elected(site, unit);
    }
}

static bool has_power(const struct site *site, int unit)
{
    return site->units[unit].powered;
}

static bool is_heir(const struct site *site, int unit)
{
    return (site->takeover.heirs >> unit & 1) == 1;
}

/* Tells the grower which benches nobody hears any more, and counts the heirs. */
static int sort_heirs(struct site *site)
{
    uint32_t cut_off = 0;
    int heirs = 0;
    for (int unit = 0; unit < UNITS; unit++) {
        bool alone = site->units[unit].powered && unit != site->takeover.winner && !is_heir(site, unit);
        heirs += is_heir(site, unit);
        cut_off |= alone && unit >= BENCH_1 ? 1u << (unit - BENCH_1 + 1) : 0;
        if (is_heir(site, unit) && site->units[unit].manager != site->units[site->takeover.winner].address) {
            fail(site, "%s does not know that %s manages", site->units[unit].name,
                 site->units[site->takeover.winner].name);
        }
    }
    char words[80];
    number_words(cut_off, words);
    if (cut_off != 0) {
        say(site, "benches %s, which heard only the office, are cut off", words);
    }
    return heirs;
}

/* The winner begins with its fresh book. What is known of how orders set out was the office's. */
void takeover_begin(struct site *site)
{
    struct takeover *takeover = &site->takeover;
    schedules_forget(site);
    takeover->begun = site->now;
    takeover->heirs = ways_find(site, takeover->winner, has_power) & ~(1u << takeover->winner);
    for (int number = 0; number < site->manager.order_count; number++) {
        site->manager.orders[number].departure.time = 0;
    }
    const char *name = site->units[takeover->winner].name;
    say(site, "%s begins with a fresh book, and its clock is the network's time; the desk is wired to it", name);
    takeover->members = sort_heirs(site);
    say(site, "all %d units that there is a way to have to join anew", takeover->members);
}

static int count_bits(uint32_t bits)
{
    int count = 0;
    for (; bits != 0; bits &= bits - 1) {
        count++;
    }
    return count;
}

/* An heir that is no member yet, has not been told its slots, or holds others than it asked for; NOBODY if there is
 * none. */
static int still_missing(const struct site *site)
{
    for (int unit = 0; unit < UNITS; unit++) {
        bool joined = site->live[unit] && membership_counts(site, unit);
        if (is_heir(site, unit) && !(joined && count_bits(site->held[unit]) == site->units[unit].wanted_slots)) {
            return unit;
        }
    }
    return NOBODY;
}

/* After the takeover every heir joins anew in good time. */
void takeover_watch(struct site *site)
{
    struct takeover *takeover = &site->takeover;
    if (takeover->begun == 0 || takeover->recovered > 0) {
        return;
    }
    int missing = still_missing(site);
    if (missing == NOBODY) {
        takeover->recovered = site->now;
        say(site, "all %d members have joined anew and hold as many slots as they asked for", takeover->members);
    } else if (site->now - takeover->begun > (uint64_t)SUPERFRAMES_TO_JOIN * site->plan.superframe_ms) {
        fail(site, "%s has not joined the book of %s", site->units[missing].name, site->units[takeover->winner].name);
    }
}

/* Never do two units manage at once, or one while another is about to. */
void check_managers(struct site *site)
{
    int manager = NOBODY;
    for (int unit = 0; unit < UNITS; unit++) {
        const struct unit *self = &site->units[unit];
        if (!self->powered || !(unit_manages(self) || self->state[0] == BRAIDLARK_MANAGER)) {
            continue;
        }
        if (manager != NOBODY) {
            fail(site, "%s and %s both manage", site->units[manager].name, site->units[unit].name);
        }
        manager = unit;
    }
}

/* Orders that were given since the takeover, arrived, and were reported to the new manager. */
int takeover_orders(const struct site *site)
{
    int count = 0;
    for (int number = 0; number < site->manager.order_count; number++) {
        const struct order *order = &site->manager.orders[number];
        count += order->given >= site->takeover.begun && order->arrived && order->confirmed;
    }
    return count;
}

/* The office was followed by another manager, all joined it, and orders went on. */
void check_takeover(struct site *site)
{
    const struct takeover *takeover = &site->takeover;
    if (takeover->begun == 0 || takeover->recovered == 0) {
        fail(site, "nobody took over from the office, or not all joined");
    }
    if (takeover_orders(site) == 0) {
        fail(site, "no order arrived and was reported after the takeover");
    }
}
