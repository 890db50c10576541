/*
 * What the firmware of one unit does with its power, its state, its clock, the slots that it sends in, and what it
 * hears.
 */
#include <string.h>

#include "greenhouse.h"

enum { UPDATE_EVERY_MS = 60000, REPORT_EVERY_MS = 120000 };

/* An event that the state does not allow changes nothing. */
void unit_tell(struct site *site, int unit, uint8_t event)
{
    struct unit *self = &site->units[unit];
    uint8_t status = braidlark_state_event(self->state, sizeof self->state, event, unit_time(site, unit));
    check_status(site, "braidlark_state_event", status, REFUSAL(BRAIDLARK_NOT_ALLOWED));
    if (status == BRAIDLARK_ACCEPTED &&
        (event == BRAIDLARK_EVENT_BEACON_HEARD || event == BRAIDLARK_EVENT_JOIN_ACCEPTED)) {
        self->beacon_taken = unit_wide_time(site, unit);
    }
}

static void start_over(struct site *site, int unit)
{
    struct unit *self = &site->units[unit];
    uint8_t status = braidlark_state_fresh(self->state, sizeof self->state, unit_time(site, unit));
    check_status(site, "braidlark_state_fresh", status, 0);
    unit_tell(site, unit, BRAIDLARK_EVENT_READY);
    membership_drop(self);
}

/* A unit knows nothing but its settings, which name the office as the manager. */
void unit_power_on(struct site *site, int unit)
{
    struct unit *self = &site->units[unit];
    self->powered = true;
    self->switched = site->now;
    self->listens_until = site->now + plan_listening_ms(&site->plan);
    self->manager = site->units[OFFICE].address;
    self->offset = 0;
    self->sponsor = 0;
    self->was_refused = false;
    self->control.count = 0;
    self->data.count = 0;
    memset(self->was_told, 0, sizeof self->was_told);
    uint8_t status = braidlark_table_fresh(self->table, sizeof self->table, self->address, unit_time(site, unit));
    check_status(site, "braidlark_table_fresh", status, 0);
    election_fresh(site, unit);
    start_over(site, unit);
}

void unit_power_off(struct site *site, int unit)
{
    site->units[unit].powered = false;
    site->units[unit].switched = site->now;
    membership_drop(&site->units[unit]);
}

/* Whether a unit is the manager, or is to be when it has listened for its time. */
bool unit_manages(const struct unit *unit)
{
    return unit->manager == unit->address;
}

/* Whether a unit uses its slots: it may count on them, and the beacons it hears keep its clock. */
bool unit_sends(const struct site *site, int unit)
{
    uint8_t state = site->units[unit].state[0];
    return membership_counts(site, unit) &&
           (state == BRAIDLARK_MANAGER || state == BRAIDLARK_NORMAL || state == BRAIDLARK_JOINING);
}

/* Every page of the unit's own update waits for its control slot. */
static void queue_update(struct site *site, int unit)
{
    struct unit *self = &site->units[unit];
    struct packet packet = {.to = BRAIDLARK_EVERY_UNIT};
    for (uint32_t page = 0;; page++) {
        uint32_t written = 0;
        uint8_t status = braidlark_page(self->table, sizeof self->table, page, unit_time(site, unit), packet.bytes,
                                        sizeof packet.bytes, &written);
        check_status(site, "braidlark_page", status, page == 0 ? 0 : REFUSAL(BRAIDLARK_OUT_OF_RULE));
        if (status != BRAIDLARK_ACCEPTED) {
            return;
        }
        packet.length = packet.frame_length = (uint8_t)written;
        queue_put(&self->control, &packet);
    }
}

static void do_chores(struct site *site, int unit)
{
    struct unit *self = &site->units[unit];
    if (site->now >= self->next_update) {
        self->next_update = site->now + UPDATE_EVERY_MS;
        queue_update(site, unit);
    }
    if (!unit_manages(self) && site->now >= self->next_report) {
        self->next_report = site->now + REPORT_EVERY_MS;
        traffic_report(site, unit);
    }
}

/* A unit that recovers looks for the network again; what it holds it keeps, until its time is over. One that the table
 * of states calls a manager because it was alone for 30 s declines: on this site only the office manages, or who was
 * elected. */
static void look_again(struct site *site, int unit)
{
    struct unit *self = &site->units[unit];
    if (self->state[0] == BRAIDLARK_MANAGER && !unit_manages(self)) {
        unit_tell(site, unit, BRAIDLARK_EVENT_FAULT);
    }
    if (self->state[0] == BRAIDLARK_RECOVERY) {
        unit_tell(site, unit, BRAIDLARK_EVENT_RECOVERED);
        self->next_request = 0;
    }
}

/* The start of a superframe: what is due. A unit whose place in the book nobody confirmed in time no longer counts on
 * its slots: it starts over, and is silent until it is answered. */
void unit_begin(struct site *site, int unit)
{
    struct unit *self = &site->units[unit];
    self->beacon_heard = false;
    self->beacon_slot = NOBODY;
    self->asks_in_slot = NOBODY;
    if (unit_manages(self) && self->state[0] == BRAIDLARK_MANAGER) {
        manager_begin(site, unit);
    }
    if (self->holding.held && !membership_counts(site, unit)) {
        site->tally.started_over++;
        start_over(site, unit);
    }
    if (unit_sends(site, unit)) {
        do_chores(site, unit);
    }
    if (self->holding.held) {
        membership_begin(site, unit);
    }
}

/* The tick, in the middle of the superframe: a fast clock then does not count a beacon as missing that is only due. Who
 * is elected has to be so before it, as it may end Normal. */
void unit_tick(struct site *site, int unit)
{
    struct unit *self = &site->units[unit];
    election_tick(site, unit);
    uint8_t before = self->state[0];
    uint8_t status =
        braidlark_state_tick(self->state, sizeof self->state, site->plan.superframe_ms, unit_time(site, unit));
    check_status(site, "braidlark_state_tick", status, 0);
    check_silence(site, unit, before);
    look_again(site, unit);
}

/* Whether a data slot is the unit's own. */
static bool holds_slot(const struct unit *unit, int slot)
{
    for (int index = 0; index < unit->holding.data_count; index++) {
        if (slot == unit->holding.data_slots[index]) {
            return true;
        }
    }
    return false;
}

/* The next packet that a unit sends in a slot of its own, if any: what controls in a control slot, data in a data slot,
 * and where superframes are long either in both; then election messages. Of the discovery slots, which are the
 * manager's to send in, it uses the first as one for control; in the others units ask. */
static bool own_turn(struct site *site, int unit, int slot, size_t room, struct packet *packet)
{
    struct unit *self = &site->units[unit];
    bool controls =
        slot == self->holding.control_slot || (unit_manages(self) && slot == site->manager.regions.discovery);
    bool carries = holds_slot(self, slot);
    bool either = plan_is_slow(&site->plan) && (controls || carries);
    return ((controls || either) && queue_take(&self->control, room, packet)) ||
           ((carries || either) && traffic_turn(site, unit, room, packet)) ||
           ((controls || carries) && election_turn(site, unit, room, packet));
}

/* The next packet that a unit sends in a slot with room for so many more bytes, if any. */
bool unit_turn(struct site *site, int unit, int slot, size_t room, struct packet *packet)
{
    struct unit *self = &site->units[unit];
    if (slot == self->beacon_slot) {
        self->beacon_slot = NOBODY;
        *packet = self->beacon;
        return true;
    }
    if (slot == self->asks_in_slot) {
        self->asks_in_slot = NOBODY;
        membership_ask(site, unit, packet);
        return true;
    }
    return unit_sends(site, unit) && own_turn(site, unit, slot, room, packet);
}

static void hear_beacon(struct site *site, int unit, int sender, const struct packet *packet)
{
    struct unit *self = &site->units[unit];
    if (unit_manages(self)) {
        return;
    }
    uint8_t status = braidlark_clock_step(&self->offset, unit_time(site, unit), NETWORK, packet->bytes, packet->length);
    check_status(site, "braidlark_clock_step", status, 0);
    self->manager = beacon_manager(site, unit, packet);
    if (!self->beacon_heard) {
        self->beacon_heard = true;
        election_fresh(site, unit);
        self->sponsor = site->units[sender].address;
    }
    unit_tell(site, unit, BRAIDLARK_EVENT_BEACON_HEARD);
    if (self->holding.held) {
        beacons_forward(site, unit, packet);
    } else if (self->state[0] == BRAIDLARK_JOINING && site->now >= self->next_request) {
        /* No frame says where the discovery slots are: a unit has that from its settings. */
        const struct regions *regions = &site->manager.regions;
        uint32_t choices = (uint32_t)(regions->end - regions->discovery - 1);
        self->asks_in_slot = regions->discovery + 1 + (int)medium_random(site, choices);
    }
}

static void hear_update(struct site *site, int unit, int sender, uint8_t quality, const struct packet *packet)
{
    struct unit *self = &site->units[unit];
    uint8_t skipped = 0;
    uint16_t compared = 0;
    uint8_t status = braidlark_merge(self->table, sizeof self->table, packet->bytes, packet->length, quality,
                                     unit_time(site, unit), &skipped, &compared);
    check_status(site, "braidlark_merge", status, 0);
    check_merge(site, unit, packet, compared);
    self->was_told[sender] = true;
    self->update_taken[sender] = unit_wide_time(site, unit);
    if (unit == site->manager.unit) {
        manager_hears(site, site->units[sender].address);
    }
}

/* A manager listens from when it has its book: before, there is none that it could answer from. */
void unit_hear(struct site *site, int unit, int sender, uint8_t quality, const struct packet *packet)
{
    if (unit_manages(&site->units[unit]) && !site->manager.running) {
        return;
    }
    struct frame frame;
    frame_read(site, packet->bytes, packet->frame_length, &frame);
    switch (frame.fields[BRAIDLARK_FIELD_TYPE]) {
    case BRAIDLARK_TYPE_BEACON:
    case BRAIDLARK_TYPE_SHORT_BEACON:
        hear_beacon(site, unit, sender, packet);
        break;
    case BRAIDLARK_TYPE_UPDATE:
        hear_update(site, unit, sender, quality, packet);
        break;
    case BRAIDLARK_TYPE_DATA:
        traffic_hear(site, unit, packet, &frame);
        break;
    case BRAIDLARK_TYPE_JOIN_REQUEST:
        membership_sponsor(site, unit, packet, (uint16_t)frame.fields[BRAIDLARK_FIELD_JOIN_REQUEST_NODE]);
        break;
    case BRAIDLARK_TYPE_SLOT_REQUEST:
        membership_sponsor(site, unit, packet, (uint16_t)frame.fields[BRAIDLARK_FIELD_SLOT_REQUEST_NODE]);
        break;
    case BRAIDLARK_TYPE_JOIN_RESPONSE:
        membership_answer(site, unit, packet->bytes, packet->length);
        break;
    case BRAIDLARK_TYPE_ELECTION:
        election_hear(site, unit, packet, &frame);
        break;
    }
}
