/*
 * The schedules that the manager's book gives: who is a live member, who holds which slots, and that no two of them
 * send in one.
 */
#include "greenhouse.h"

/* The hop that the manager takes a unit to be at. */
static uint8_t hop_of(struct site *site, int unit)
{
    struct route route;
    if (unit == site->manager.unit) {
        return 0;
    }
    bool known = routes_find(site, site->manager.unit, site->units[unit].address, &route);
    return known && route.hops <= MOST_HOPS ? route.hops : MOST_HOPS;
}

/* Draws up the schedule of a unit at a hop; answers whether it is a live member, as only those have one. */
bool schedule_of(struct site *site, int unit, uint8_t hop, uint8_t kinds[BRAIDLARK_MOST_SLOTS])
{
    const struct manager *manager = &site->manager;
    uint32_t slots = 0;
    uint8_t status = braidlark_schedule(manager->book, sizeof manager->book, site->units[unit].address, hop,
                                        manager_time(site), kinds, BRAIDLARK_MOST_SLOTS, &slots);
    check_status(site, "braidlark_schedule", status, unit == site->manager.unit ? 0 : REFUSAL(BRAIDLARK_NO_MEMBER));
    if (status == BRAIDLARK_ACCEPTED && slots * site->plan.slot_ms != site->plan.superframe_ms) {
        fail(site, "a schedule has %u slots, and the site counts on %d", (unsigned)slots, BRAIDLARK_MOST_SLOTS);
    }
    return status == BRAIDLARK_ACCEPTED;
}

void schedules_copy(struct site *site, struct schedules *copy)
{
    for (int unit = 0; unit < UNITS; unit++) {
        copy->hops[unit] = hop_of(site, unit);
        copy->live[unit] = schedule_of(site, unit, copy->hops[unit], copy->kinds[unit]);
    }
}

/* Reads a schedule: who sends in each slot, and the row and data slots of its unit. */
static void read_schedule(struct site *site, int unit, const uint8_t *kinds, int *senders)
{
    const struct regions *regions = &site->manager.regions;
    site->held[unit] = 0;
    for (int slot = regions->control; slot < regions->discovery; slot++) {
        if (kinds[slot] != BRAIDLARK_SLOT_TX && kinds[slot] != BRAIDLARK_SLOT_CONTROL_TX) {
            continue;
        }
        if (senders[slot] != NOBODY) {
            fail(site, "the schedules of %s and %s both send in slot %d", site->units[senders[slot]].name,
                 site->units[unit].name, slot);
        }
        senders[slot] = unit;
        if (slot < regions->data) {
            site->row[unit] = slot - regions->control;
        } else {
            site->held[unit] |= 1u << (slot - regions->data);
        }
    }
}

/* Whether the numbers of a set are the lowest that others leave free. */
static bool are_lowest(uint32_t numbers, uint32_t others)
{
    uint32_t all = numbers | others, first_free = ~all & (all + 1);
    return (numbers & others) == 0 && numbers < first_free;
}

/* The head that the plan has no row for joins. Whoever fell silent first, the relay or a bench, held its row before; no
 * live member does, and none of the lower rows and data slots is free. */
static void check_new_head(struct site *site, int from)
{
    int row = site->row[BENCH_9];
    uint32_t held = site->held[BENCH_9], rows = 0, slots = 0;
    for (int unit = 0; unit < BENCH_9; unit++) {
        rows |= site->live[unit] ? 1u << site->row[unit] : 0;
        slots |= site->live[unit] ? site->held[unit] : 0;
    }
    if (from == NOBODY) {
        fail(site, "bench 9 joined a book that should have been full");
    }
    if (!are_lowest(1u << row, rows) || !are_lowest(held, slots)) {
        fail(site, "bench 9 got row %d and slots %05X, not the lowest free ones: rows %03X and slots %05X are taken",
             row, (unsigned)held, (unsigned)rows, (unsigned)slots);
    }
    bool after_refusal = site->units[BENCH_9].was_refused;
    site->inheritance = (struct inheritance){.from = from, .row = row, .held = held, .after_refusal = after_refusal};
}

/* Keeps who joined when, and in which row. In a book that began anew any row is as good for bench 9. */
static void note_joining(struct site *site, int unit)
{
    int *holder = &site->holders[site->row[unit]];
    if (unit == BENCH_9 && site->inheritance.from == NOBODY && !site->cut.book_lost) {
        check_new_head(site, *holder);
    }
    *holder = unit;
    site->joined[unit] = site->now;
}

/* A unit counts as gone. If it is the unbolted relay, the picture shows from when its time ran. */
static void note_gone(struct site *site, int unit)
{
    say(site, "%s counts as gone: %d s without a word; its row and slots are free", site->units[unit].name,
        BRAIDLARK_LIVE_MS / 1000);
    check_gone(site, unit);
    if (unit == MIDDLE_RELAY && !site->units[unit].powered) {
        site->silence.last_word = site->manager.last_word[unit];
    }
}

/* Tells the grower who has joined, who holds other slots, and who is gone. */
static void note_live(struct site *site, int unit, bool live, uint32_t held_before)
{
    char slots[80];
    number_words(site->held[unit], slots);
    bool joined = live && !site->live[unit], is_manager = unit == site->manager.unit;
    const char *plural = (site->held[unit] & (site->held[unit] - 1)) != 0 ? "s" : "";
    if (joined && !is_manager) {
        say(site, "%s joins: row %d of the book, data slot%s %s", site->units[unit].name, site->row[unit], plural,
            slots);
    } else if (live && !is_manager && site->held[unit] != held_before) {
        say(site, "%s now holds data slot%s %s", site->units[unit].name, plural, slots);
    } else if (!live && site->live[unit]) {
        note_gone(site, unit);
    }
    site->live[unit] = live;
    if (joined) {
        note_joining(site, unit);
    }
}

/* Draws up the schedule of every live member: no control or data slot has two senders. */
void check_schedules(struct site *site)
{
    int senders[BRAIDLARK_MOST_SLOTS];
    for (int slot = 0; slot < BRAIDLARK_MOST_SLOTS; slot++) {
        senders[slot] = NOBODY;
    }
    for (int unit = 0; unit < UNITS; unit++) {
        uint8_t kinds[BRAIDLARK_MOST_SLOTS];
        uint32_t held_before = site->held[unit];
        bool live = schedule_of(site, unit, hop_of(site, unit), kinds);
        if (live) {
            read_schedule(site, unit, kinds, senders);
            site->tally.schedules++;
        }
        note_live(site, unit, live, held_before);
    }
    for (int slot = 0; slot < DATA_SLOTS; slot++) {
        record_note(&site->slot_holders[slot], site->now, senders[site->manager.regions.data + slot]);
    }
}

/* A book is lost, and a fresh one begins: all members of the lost one, on whose slots nobody may count any more, have
 * to join anew. */
void schedules_forget(struct site *site)
{
    for (int unit = 0; unit < UNITS; unit++) {
        if (site->units[unit].powered && membership_counts(site, unit)) {
            fail(site, "%s still counts on slots of the lost book", site->units[unit].name);
        }
        site->live[unit] = false;
    }
}

/* A unit was refused for want of a row: every row is then a live member's. */
void check_full(struct site *site)
{
    int live = 0;
    for (int unit = 0; unit < UNITS; unit++) {
        uint8_t kinds[BRAIDLARK_MOST_SLOTS];
        live += schedule_of(site, unit, hop_of(site, unit), kinds);
    }
    if (live != MEMBER_ROWS) {
        fail(site, "a unit was refused for want of a row, and only %d of %d are live", live, MEMBER_ROWS);
    }
}

/* Whether the slots that a unit was told are its own by the last schedules. */
static bool holds_what_it_was_told(const struct site *site, int unit)
{
    const struct regions *regions = &site->manager.regions;
    const struct holding *holding = &site->units[unit].holding;
    bool own = site->live[unit] && holding->control_slot == regions->control + site->row[unit];
    for (int index = 0; index < holding->data_count; index++) {
        int slot = holding->data_slots[index] - regions->data;
        own = own && slot >= 0 && slot < DATA_SLOTS && (site->held[unit] >> slot & 1) == 1;
    }
    return own;
}

/* Every slot that a unit counts on is its own in the book. */
void check_holdings(struct site *site)
{
    for (int unit = 0; unit < UNITS; unit++) {
        if (site->units[unit].powered && membership_counts(site, unit) && !holds_what_it_was_told(site, unit)) {
            fail(site, "%s counts on slots that are not its own in the book", site->units[unit].name);
        }
    }
}
