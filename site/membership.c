/*
 * A unit's place in the manager's book: asking for it, asking again before it runs out, and what was granted. A unit
 * asks the neighbour whose beacon it heard, its sponsor. If that is not the manager, it carries request and answer as
 * the payload of data frames.
 */
#include <string.h>

#include "greenhouse.h"

enum {
    RENEW_EVERY_MS = 50000,
    ASK_AGAIN_MS = 40000,
    GUARD_MS = 800 /* a unit lets go of its slots this long, and a slot, before the manager may give them away */
};

void membership_drop(struct unit *unit)
{
    memset(&unit->holding, 0, sizeof unit->holding);
    unit->asks_in_slot = NOBODY;
    unit->beacon_slot = NOBODY;
    unit->next_request = 0;
    unit->next_update = 0;
    unit->next_report = 0;
    unit->control.count = 0;
}

/* Whether a unit may count on what it was told for so many ms more, if it is told nothing else. The manager keeps its
 * own place for ever. */
bool membership_lasts(const struct site *site, int unit, uint32_t for_ms)
{
    const struct holding *holding = &site->units[unit].holding;
    uint32_t end = holding->told + BRAIDLARK_LIVE_MS - GUARD_MS - site->plan.slot_ms;
    bool in_time = !holding->denied && time_before(unit_network_time(site, unit) + for_ms, end);
    return holding->held && (unit_manages(&site->units[unit]) || in_time);
}

/* Whether it may now. */
bool membership_counts(const struct site *site, int unit)
{
    return membership_lasts(site, unit, 0);
}

static void write_join_request(struct site *site, const struct unit *unit, struct packet *packet)
{
    uint32_t fields[BRAIDLARK_FIELDS_JOIN_REQUEST] = {[BRAIDLARK_FIELD_TYPE] = BRAIDLARK_TYPE_JOIN_REQUEST,
                                                      [BRAIDLARK_FIELD_JOIN_REQUEST_NODE] = unit->address,
                                                      [BRAIDLARK_FIELD_JOIN_REQUEST_NETWORK] = NETWORK,
                                                      [BRAIDLARK_FIELD_JOIN_REQUEST_SLOTS] = unit->wanted_slots};
    packet_write(site, packet, unit->sponsor, fields, BRAIDLARK_FIELDS_JOIN_REQUEST, NULL, 0);
}

static void write_slot_request(struct site *site, const struct unit *unit, struct packet *packet)
{
    uint32_t fields[BRAIDLARK_FIELDS_SLOT_REQUEST] = {[BRAIDLARK_FIELD_TYPE] = BRAIDLARK_TYPE_SLOT_REQUEST,
                                                      [BRAIDLARK_FIELD_SLOT_REQUEST_NODE] = unit->address,
                                                      [BRAIDLARK_FIELD_SLOT_REQUEST_SLOTS] = unit->wanted_slots};
    packet_write(site, packet, unit->sponsor, fields, BRAIDLARK_FIELDS_SLOT_REQUEST, NULL, 0);
}

/* A member asks for its slots again well before its time is over; one that lost the beacons meanwhile asks to join, in
 * the slot that it holds. */
void membership_begin(struct site *site, int unit)
{
    struct unit *self = &site->units[unit];
    if (unit_manages(self) || site->now < self->next_request) {
        return;
    }
    struct packet packet;
    if (self->state[0] == BRAIDLARK_NORMAL) {
        write_slot_request(site, self, &packet);
    } else {
        write_join_request(site, self, &packet);
    }
    queue_put(&self->control, &packet);
    self->next_request = site->now + ASK_AGAIN_MS;
}

/* One that is no member asks to join, in a discovery slot. */
void membership_ask(struct site *site, int unit, struct packet *packet)
{
    struct unit *self = &site->units[unit];
    write_join_request(site, self, packet);
    self->next_request = site->now + ASK_AGAIN_MS;
}

/* A request that was heard: the manager answers it, a member carries it on. */
void membership_sponsor(struct site *site, int unit, const struct packet *packet, uint16_t node)
{
    struct unit *self = &site->units[unit];
    if (unit_manages(self)) {
        uint8_t answer[BRAIDLARK_RESPONSES_SIZE];
        size_t written = manager_answer(site, packet->bytes, packet->length, answer, sizeof answer);
        struct packet responses;
        packet_set(&responses, node, answer, written, BRAIDLARK_LENGTH_JOIN_RESPONSE);
        queue_put(&self->control, &responses);
    } else if (unit_sends(site, unit)) {
        traffic_send(site, unit, self->manager, REQUEST, packet->bytes, packet->length);
    }
}

/* Takes the responses to one request: the control slot first, then the data slots. */
static void take_slots(struct site *site, int unit, const uint8_t *bytes, size_t length)
{
    struct unit *self = &site->units[unit];
    struct holding holding = {.held = true};
    for (size_t at = 0; at < length; at += BRAIDLARK_LENGTH_JOIN_RESPONSE) {
        struct frame frame;
        frame_read(site, bytes + at, BRAIDLARK_LENGTH_JOIN_RESPONSE, &frame);
        uint16_t slot = (uint16_t)frame.fields[BRAIDLARK_FIELD_JOIN_RESPONSE_SLOT];
        if (at == 0) {
            holding.control_slot = slot;
            holding.told = frame.fields[BRAIDLARK_FIELD_JOIN_RESPONSE_SUPERFRAME_TIME];
        } else if (holding.data_count < BRAIDLARK_MOST_HELD) {
            holding.data_slots[holding.data_count++] = slot;
        }
    }
    if (self->holding.held && time_before(holding.told, self->holding.told)) {
        return;
    }
    self->holding = holding;
    self->next_request = site->now + RENEW_EVERY_MS;
}

/* An answer for this unit is taken; one for a unit that it sponsors is passed on in its control slot. */
void membership_answer(struct site *site, int unit, const uint8_t *bytes, size_t length)
{
    struct unit *self = &site->units[unit];
    struct frame frame;
    frame_read(site, bytes, BRAIDLARK_LENGTH_JOIN_RESPONSE, &frame);
    uint16_t node = (uint16_t)frame.fields[BRAIDLARK_FIELD_JOIN_RESPONSE_NODE];
    if (node != self->address) {
        struct packet packet;
        packet_set(&packet, node, bytes, length, BRAIDLARK_LENGTH_JOIN_RESPONSE);
        queue_put(&self->control, &packet);
        return;
    }
    bool accepted = frame.fields[BRAIDLARK_FIELD_JOIN_RESPONSE_STATUS] == BRAIDLARK_STATUS_ACCEPTED;
    unit_tell(site, unit, accepted ? BRAIDLARK_EVENT_JOIN_ACCEPTED : BRAIDLARK_EVENT_JOIN_DENIED);
    if (accepted && self->state[0] == BRAIDLARK_NORMAL) {
        take_slots(site, unit, bytes, length);
    } else if (!accepted && self->holding.held) {
        self->holding.denied = true;
    }
}
