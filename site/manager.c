/*
 * The manager's side: the plan, the book, and the answers to requests. Of the book it knows only what the calls answer.
 */
#include <string.h>

#include "greenhouse.h"

/* What the manager's clock shows, which is the network's time. */
uint32_t manager_time(const struct site *site)
{
    return unit_time(site, site->manager.unit);
}

static uint8_t plan_with(const struct site *site, uint32_t beacon, uint8_t plan[BRAIDLARK_PLAN_SIZE])
{
    return braidlark_plan(plan, BRAIDLARK_PLAN_SIZE, NETWORK, site->units[site->manager.unit].address, MOST_HOPS,
                          MEMBER_ROWS, DATA_SLOTS, site->plan.slot_ms, beacon);
}

/* The plan is made of the numbers that the site was built with, whoever manages. With long beacons it is one
 * exactly if they can say how long its superframe is. */
static void make_plan(struct site *site, uint8_t plan[BRAIDLARK_PLAN_SIZE])
{
    bool can_be_said = site->plan.superframe_ms <= BRAIDLARK_LONGEST_PLAN_MS;
    uint8_t status = plan_with(site, BRAIDLARK_TYPE_BEACON, plan);
    if (status != (can_be_said ? BRAIDLARK_ACCEPTED : BRAIDLARK_OUT_OF_RULE)) {
        fail(site, "braidlark_plan answered %d for long beacons and a superframe of %u ms", status,
             (unsigned)site->plan.superframe_ms);
    }
    status = plan_with(site, site->plan.beacon, plan);
    check_status(site, "braidlark_plan", status, 0);
}

static void find_regions(struct site *site, const uint8_t plan[BRAIDLARK_PLAN_SIZE])
{
    uint32_t numbers[BRAIDLARK_FIELDS_PLAN] = {0};
    uint8_t status = braidlark_plan_numbers(plan, BRAIDLARK_PLAN_SIZE, numbers, BRAIDLARK_FIELDS_PLAN);
    check_status(site, "braidlark_plan_numbers", status, 0);
    if (numbers[BRAIDLARK_FIELD_PLAN_SUPERFRAME_MS] != site->plan.superframe_ms) {
        fail(site, "a superframe has %u ms, and the site counts on %u",
             (unsigned)numbers[BRAIDLARK_FIELD_PLAN_SUPERFRAME_MS], (unsigned)site->plan.superframe_ms);
    }
    site->manager.regions = (struct regions){.control = (int)numbers[BRAIDLARK_FIELD_PLAN_CONTROL_AT],
                                             .data = (int)numbers[BRAIDLARK_FIELD_PLAN_DATA_AT],
                                             .discovery = (int)numbers[BRAIDLARK_FIELD_PLAN_DISCOVERY_AT],
                                             .end = (int)numbers[BRAIDLARK_FIELD_PLAN_SLEEP_AT]};
}

/* The book has that plan: the manager's own schedule shows the same regions. */
static void check_regions(struct site *site, const uint8_t *kinds)
{
    const struct regions *regions = &site->manager.regions;
    if (kinds[regions->control] != BRAIDLARK_SLOT_CONTROL_TX || kinds[regions->data - 1] != BRAIDLARK_SLOT_CONTROL_RX ||
        kinds[regions->discovery - 1] > BRAIDLARK_SLOT_RX || kinds[regions->discovery] != BRAIDLARK_SLOT_DISCOVERY_TX ||
        kinds[regions->end - 1] != BRAIDLARK_SLOT_DISCOVERY_TX || kinds[regions->end] != BRAIDLARK_SLOT_SLEEP) {
        fail(site, "the manager's schedule has other regions than the plan");
    }
}

/* The manager's schedule shows its own slots. */
static void take_own_slots(const uint8_t *kinds, struct holding *holding)
{
    *holding = (struct holding){.held = true};
    for (int slot = 0; slot < BRAIDLARK_MOST_SLOTS; slot++) {
        if (kinds[slot] == BRAIDLARK_SLOT_CONTROL_TX) {
            holding->control_slot = (uint16_t)slot;
        } else if (kinds[slot] == BRAIDLARK_SLOT_TX && holding->data_count < BRAIDLARK_MOST_HELD) {
            holding->data_slots[holding->data_count++] = (uint16_t)slot;
        }
    }
}

static void say_first_book(struct site *site)
{
    say(site, "the office heard no other manager for %u s and manages: %d slots of %u ms, room for %d members",
        (unsigned)(plan_listening_ms(&site->plan) / 1000), BRAIDLARK_MOST_SLOTS, (unsigned)site->plan.slot_ms,
        MEMBER_ROWS);
    if (site->plan.beacon == BRAIDLARK_TYPE_SHORT_BEACON) {
        say(site, "no long beacon can say that a superframe has %u s: it sends short ones, of %d bytes instead of %d",
            (unsigned)(site->plan.superframe_ms / 1000), BRAIDLARK_LENGTH_SHORT_BEACON, BRAIDLARK_LENGTH_BEACON);
    }
}

static void make_book(struct site *site, const uint8_t plan[BRAIDLARK_PLAN_SIZE])
{
    struct manager *manager = &site->manager;
    uint8_t status =
        braidlark_book_fresh(manager->book, sizeof manager->book, plan, BRAIDLARK_PLAN_SIZE, manager_time(site));
    check_status(site, "braidlark_book_fresh", status, 0);
    if (manager->unit == site->takeover.winner) {
        takeover_begin(site);
    } else if (site->cut.book_lost) {
        power_begin_anew(site);
    } else {
        say_first_book(site);
    }
}

/* A unit becomes the manager: with the book of its stored image, or with a fresh one if nothing is stored. Its clock is
 * the network's time from now on. */
static void start(struct site *site, int unit)
{
    struct unit *self = &site->units[unit];
    uint8_t plan[BRAIDLARK_PLAN_SIZE], kinds[BRAIDLARK_MOST_SLOTS];
    site->manager.unit = unit;
    self->offset = 0;
    make_plan(site, plan);
    find_regions(site, plan);
    if (self->flash.length > 0) {
        power_restore(site);
    } else {
        make_book(site, plan);
    }
    schedule_of(site, unit, 0, kinds);
    check_regions(site, kinds);
    take_own_slots(kinds, &self->holding);
    site->manager.running = true;
}

/* The start of a superframe: the first time a book, every time a beacon in slot 0. Before there is a book the unit that
 * is to manage listens for its time. */
void manager_begin(struct site *site, int unit)
{
    struct unit *self = &site->units[unit];
    if (!site->manager.running) {
        if (site->now < self->listens_until) {
            return;
        }
        start(site, unit);
    }
    beacons_write(site, &self->beacon);
    self->beacon_slot = 0;
}

/* The manager has no power any more: its memory is lost. */
void manager_end(struct site *site)
{
    struct manager *manager = &site->manager;
    manager->running = false;
    memset(manager->book, 0, sizeof manager->book);
    memset(manager->last_word, 0, sizeof manager->last_word);
    routes_watch(site);
}

/* The response that says no. */
static size_t write_denial(struct site *site, uint32_t node, uint8_t *out, size_t room)
{
    uint32_t fields[BRAIDLARK_FIELDS_JOIN_RESPONSE] = {
        [BRAIDLARK_FIELD_TYPE] = BRAIDLARK_TYPE_JOIN_RESPONSE,
        [BRAIDLARK_FIELD_JOIN_RESPONSE_NODE] = node,
        [BRAIDLARK_FIELD_JOIN_RESPONSE_STATUS] = BRAIDLARK_STATUS_REFUSED,
        [BRAIDLARK_FIELD_JOIN_RESPONSE_SLOT] = BRAIDLARK_NO_SLOT,
        [BRAIDLARK_FIELD_JOIN_RESPONSE_SUPERFRAME_TIME] = manager_time(site),
        [BRAIDLARK_FIELD_JOIN_RESPONSE_NETWORK] = NETWORK,
    };
    uint32_t written = 0;
    uint8_t status = braidlark_write(fields, BRAIDLARK_FIELDS_JOIN_RESPONSE, NULL, 0, out, room, &written);
    check_status(site, "braidlark_write", status, 0);
    return written;
}

/* Each refusal for want of a row counts; the first that a unit meets is told. */
static void note_refusal(struct site *site, int unit, uint8_t status)
{
    struct unit *asker = &site->units[unit];
    if (status != BRAIDLARK_FULL) {
        return;
    }
    check_full(site);
    site->tally.refused_joins++;
    if (!asker->was_refused) {
        say(site, "%s asks to join and is refused, with number %d: all %d rows of the book are taken", asker->name,
            BRAIDLARK_FULL, MEMBER_ROWS);
    }
    asker->was_refused = true;
}

static void note_word(struct site *site, int unit)
{
    site->manager.last_word[unit] = site->now;
    site->manager.word_taken[unit] = unit_wide_time(site, site->manager.unit);
}

/* Answers a join or slot request: the bytes of the responses, and how many. The book is stored before they go out. */
size_t manager_answer(struct site *site, const uint8_t *request, size_t length, uint8_t *out, size_t room)
{
    struct manager *manager = &site->manager;
    struct frame frame;
    frame_read(site, request, length, &frame);
    bool joins = frame.fields[BRAIDLARK_FIELD_TYPE] == BRAIDLARK_TYPE_JOIN_REQUEST;
    uint32_t node = frame.fields[joins ? BRAIDLARK_FIELD_JOIN_REQUEST_NODE : BRAIDLARK_FIELD_SLOT_REQUEST_NODE];
    uint32_t time = manager_time(site), written = 0;
    int unit = layout_find(site, (uint16_t)node);
    uint8_t status;
    if (joins) {
        status = braidlark_join(manager->book, sizeof manager->book, request, length, time, out, room, &written);
        check_status(site, "braidlark_join", status, REFUSAL(BRAIDLARK_FULL));
    } else {
        status =
            braidlark_slot_request(manager->book, sizeof manager->book, request, length, time, out, room, &written);
        check_status(site, "braidlark_slot_request", status, REFUSAL(BRAIDLARK_NO_MEMBER));
    }
    if (status != BRAIDLARK_ACCEPTED) {
        note_refusal(site, unit, status);
        return write_denial(site, node, out, room);
    }
    note_word(site, unit);
    power_store(site);
    check_schedules(site);
    return written;
}

/* A frame of this unit reached the manager. */
void manager_hears(struct site *site, uint16_t address)
{
    struct manager *manager = &site->manager;
    uint8_t status = braidlark_heard(manager->book, sizeof manager->book, address, manager_time(site));
    check_status(site, "braidlark_heard", status, REFUSAL(BRAIDLARK_NO_MEMBER));
    note_word(site, layout_find(site, address));
}

/* A unit is taken out with a word to the manager: its row and slots are free at once, and so are the routes. */
void manager_takes_out(struct site *site, int unit)
{
    struct manager *manager = &site->manager;
    struct unit *self = &site->units[manager->unit];
    uint16_t address = site->units[unit].address;
    uint8_t status = braidlark_leave(manager->book, sizeof manager->book, address, manager_time(site));
    check_status(site, "braidlark_leave", status, 0);
    site->live[unit] = false;
    status = braidlark_forget(self->table, sizeof self->table, address, manager_time(site));
    check_status(site, "braidlark_forget", status, 0);
    unit_power_off(site, unit);
    power_store(site);
    check_schedules(site);
}
