/*
 * Data frames, hop by hop. A frame waits as it came and its way is chosen when the unit's slot comes, so that no frame
 * goes to a next hop that was good only when it was queued.
 */
#include <string.h>

#include "greenhouse.h"

enum { TIME_TO_LIVE = 8 };

/* Puts a frame in the queue: what its payload is, and the rest of it. It is the unit's own, but for an order: that
 * comes from the desk, and the manager has it to relay as if it had heard it. */
void traffic_send(struct site *site, int unit, uint16_t destination, uint8_t kind, const uint8_t *rest, size_t length)
{
    struct unit *self = &site->units[unit];
    bool is_own = kind != ORDER;
    uint16_t source = is_own ? self->address : DESK_ADDRESS;
    uint8_t payload[MOST_PAYLOAD] = {kind};
    memcpy(payload + 1, rest, length);
    uint32_t fields[BRAIDLARK_FIELDS_DATA] = {
        [BRAIDLARK_FIELD_TYPE] = BRAIDLARK_TYPE_DATA,     [BRAIDLARK_FIELD_DATA_SOURCE] = source,
        [BRAIDLARK_FIELD_DATA_DESTINATION] = destination, [BRAIDLARK_FIELD_DATA_TTL] = TIME_TO_LIVE,
        [BRAIDLARK_FIELD_DATA_SEQUENCE] = self->sequence, [BRAIDLARK_FIELD_DATA_COUNT] = (uint32_t)length + 1};
    struct packet packet;
    packet_write(site, &packet, is_own ? 0 : self->address, fields, BRAIDLARK_FIELDS_DATA, payload, length + 1);
    self->sequence++;
    queue_put(&self->data, &packet);
}

/* What a head or a relay reports: that it is there, and the last order it followed. */
void traffic_report(struct site *site, int unit)
{
    const struct unit *self = &site->units[unit];
    uint8_t report[] = {(uint8_t)self->last_order, (uint8_t)(self->last_order >> 8), self->setting};
    traffic_send(site, unit, self->manager, REPORT, report, sizeof report);
}

/* Chooses the way of a frame of the unit's own, if there is one. */
static bool route_own(struct site *site, int unit, const struct packet *waiting, struct packet *packet)
{
    struct frame frame;
    frame_read(site, waiting->bytes, waiting->length, &frame);
    struct route route = {0};
    bool known = routes_find(site, unit, (uint16_t)frame.fields[BRAIDLARK_FIELD_DATA_DESTINATION], &route);
    *packet = *waiting;
    packet->to = route.next_hop;
    return known;
}

/* Chooses the way of a frame from elsewhere, with its time to live one less, if there is one. The manager, which has
 * only orders to relay, names the time that a route must last; relays name none, as what is under way is better carried
 * on than dropped. */
static bool route_other(struct site *site, int unit, const struct packet *waiting, struct packet *packet)
{
    const struct unit *self = &site->units[unit];
    uint16_t next_hop = 0;
    uint32_t place = 0, length = 0, left = 0;
    uint8_t status = braidlark_relay(self->table, sizeof self->table, waiting->bytes, waiting->length,
                                     unit_time(site, unit), unit == site->manager.unit ? LEAST_LEFT_MS : 0,
                                     packet->bytes, sizeof packet->bytes, &next_hop, &place, &length, &left);
    check_status(site, "braidlark_relay", status,
                 REFUSAL(BRAIDLARK_OWN_UNIT) | REFUSAL(BRAIDLARK_TTL_OVER) | REFUSAL(BRAIDLARK_NO_ROUTE));
    if (status == BRAIDLARK_ACCEPTED) {
        packet->to = next_hop;
        packet->length = packet->frame_length = (uint8_t)length;
    }
    if (status == BRAIDLARK_NO_ROUTE) {
        lasting_refused(site, unit, waiting);
    } else if (status == BRAIDLARK_ACCEPTED && unit == site->manager.unit) {
        lasting_set_out(site, packet, left);
    }
    return status == BRAIDLARK_ACCEPTED;
}

/* In the unit's slot the first waiting frame that has a way goes out; those before it that have none are lost. */
bool traffic_turn(struct site *site, int unit, size_t room, struct packet *packet)
{
    struct unit *self = &site->units[unit];
    struct packet waiting;
    while (queue_take(&self->data, room, &waiting)) {
        if (waiting.to == 0 ? route_own(site, unit, &waiting, packet) : route_other(site, unit, &waiting, packet)) {
            check_next_hop(site, unit, packet->to);
            return true;
        }
        site->tally.without_route++;
    }
    return false;
}

/* What came for this unit itself. */
static void take_payload(struct site *site, int unit, uint16_t source, const uint8_t *payload, size_t length)
{
    uint8_t answer[BRAIDLARK_RESPONSES_SIZE];
    const uint8_t *rest = payload + 1;
    switch (payload[0]) {
    case ORDER:
        orders_arrive(site, unit, rest);
        break;
    case REPORT:
        orders_confirm(site, layout_find(site, source), rest);
        break;
    case REQUEST:
        traffic_send(site, unit, source, ANSWER, answer, manager_answer(site, rest, length - 1, answer, sizeof answer));
        break;
    case ANSWER:
        membership_answer(site, unit, rest, length - 1);
        break;
    }
}

/* A frame that was heard is for this unit, or waits for its slot. Only a member has one. */
void traffic_hear(struct site *site, int unit, const struct packet *packet, const struct frame *frame)
{
    struct unit *self = &site->units[unit];
    if (frame->fields[BRAIDLARK_FIELD_DATA_DESTINATION] != self->address) {
        if (unit_sends(site, unit)) {
            queue_put(&self->data, packet);
        }
        return;
    }
    uint16_t next_hop = 1;
    uint32_t place = 0, length = 0, left = 0;
    uint8_t status = braidlark_relay(self->table, sizeof self->table, packet->bytes, packet->length,
                                     unit_time(site, unit), 0, NULL, 0, &next_hop, &place, &length, &left);
    check_status(site, "braidlark_relay", status, 0);
    uint16_t source = (uint16_t)frame->fields[BRAIDLARK_FIELD_DATA_SOURCE];
    if (unit == site->manager.unit) {
        manager_hears(site, source);
    }
    take_payload(site, unit, source, packet->bytes + place, length);
}
