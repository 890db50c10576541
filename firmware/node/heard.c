/*
 * What a node does with what its radio received.
 */
#include "node.h"

#include <string.h>

/* What was read of a frame: its numbers, and where the bytes behind them are. */
struct frame {
    uint32_t fields[BRAIDLARK_MOST_FIELDS], place, part_length;
};

static bool read_frame(const uint8_t *bytes, size_t length, struct frame *frame)
{
    return braidlark_read(bytes, length, frame->fields, BRAIDLARK_MOST_FIELDS, &frame->place, &frame->part_length) ==
           BRAIDLARK_ACCEPTED;
}

/* The manager keeps members whose frames reach it; the sender of any other is no member, which is refused (13). */
static void note_sender(struct node *self, uint32_t unit)
{
    if (self->manages)
        braidlark_heard(self->book, sizeof self->book, (uint16_t)unit, clock_ms(self->address));
}

/* What a node follows a beacon by, where its kind has it. */
static void take_beacon(struct node *self, const uint32_t *fields)
{
    bool is_short = fields[BRAIDLARK_FIELD_TYPE] == BRAIDLARK_TYPE_SHORT_BEACON;
    self->beacon_slot = fields[is_short ? BRAIDLARK_FIELD_SHORT_BEACON_HOP : BRAIDLARK_FIELD_BEACON_HOP] + 1;
    self->superframe_start =
        fields[is_short ? BRAIDLARK_FIELD_SHORT_BEACON_ORIGINAL_TIME : BRAIDLARK_FIELD_BEACON_ORIGINAL_TIME];
    self->sponsor = (uint16_t)fields[is_short ? BRAIDLARK_FIELD_SHORT_BEACON_SOURCE : BRAIDLARK_FIELD_BEACON_SOURCE];
}

/* The first beacon of a superframe came by the fewest hops: it is the one to follow, whichever kind it is. */
static void hear_beacon(struct node *self, const uint8_t *bytes, size_t length)
{
    uint32_t now = clock_ms(self->address);
    struct frame frame;
    if (self->manages || self->beacon.length > 0 || !read_frame(bytes, length, &frame) ||
        braidlark_clock_step(&self->offset, now, NETWORK, bytes, length) != BRAIDLARK_ACCEPTED)
        return;
    memcpy(self->beacon.bytes, bytes, length);
    self->beacon.length = (uint32_t)length;
    self->beacon_came = now;
    take_beacon(self, frame.fields);
    node_tell_state(self, BRAIDLARK_EVENT_BEACON_HEARD);
    if (self->state[0] == BRAIDLARK_JOINING) {
        uint32_t first = self->regions[BRAIDLARK_FIELD_PLAN_DISCOVERY_AT];
        self->asking_slot = first + random_below(self->address, self->regions[BRAIDLARK_FIELD_PLAN_SLEEP_AT] - first);
    }
}

static void hear_update(struct node *self, const uint8_t *bytes, size_t length, uint8_t quality)
{
    struct frame frame;
    uint8_t skipped;
    uint16_t compared;
    if (read_frame(bytes, length, &frame) &&
        braidlark_merge(self->table, sizeof self->table, bytes, length, quality, clock_ms(self->address), &skipped,
                        &compared) == BRAIDLARK_ACCEPTED)
        note_sender(self, frame.fields[BRAIDLARK_FIELD_UPDATE_ORIGIN]);
}

/* The manager answers a request; a member carries that of a neighbour to it, as the payload of a data frame. In both
 * kinds of requests the node is the first field. */
static void hear_request(struct node *self, const uint8_t *request, size_t length, uint16_t carrier)
{
    struct frame frame;
    if (!read_frame(request, length, &frame))
        return;
    if (self->manages)
        manager_answer(self, request, length, (uint16_t)frame.fields[BRAIDLARK_FIELD_JOIN_REQUEST_NODE], carrier);
    else if (node_may_send(self) && carrier == 0)
        node_send(self, MANAGER, request, (uint32_t)length);
}

/* Takes the responses to this node's request: one for the control slot and one for each data slot, or one that says no.
 * An answer that is older than the last one comes too late. A slot that was read is below BRAIDLARK_MOST_SLOTS. */
static void take_responses(struct node *self, const uint8_t *bytes, size_t length, uint32_t time)
{
    struct frame frame;
    if (self->member && time - self->granted > UINT32_MAX / 2)
        return;
    memset(self->own_slots, 0, sizeof self->own_slots);
    self->member = false;
    for (size_t at = 0; at < length; at += BRAIDLARK_LENGTH_JOIN_RESPONSE) {
        if (!read_frame(bytes + at, BRAIDLARK_LENGTH_JOIN_RESPONSE, &frame) ||
            frame.fields[BRAIDLARK_FIELD_JOIN_RESPONSE_STATUS] != BRAIDLARK_STATUS_ACCEPTED)
            break;
        self->own_slots[frame.fields[BRAIDLARK_FIELD_JOIN_RESPONSE_SLOT]] = true;
        self->member = true;
    }
    self->granted = time;
    node_tell_state(self, self->member ? BRAIDLARK_EVENT_JOIN_ACCEPTED : BRAIDLARK_EVENT_JOIN_DENIED);
}

/* Responses for a neighbour, whose request this node carried, are passed on to it. */
static void hear_responses(struct node *self, const uint8_t *bytes, size_t length)
{
    struct packet packet = {.length = (uint32_t)length};
    struct frame first;
    if (length > BRAIDLARK_RESPONSES_SIZE || length % BRAIDLARK_LENGTH_JOIN_RESPONSE != 0 ||
        !read_frame(bytes, BRAIDLARK_LENGTH_JOIN_RESPONSE, &first))
        return;
    packet.to = (uint16_t)first.fields[BRAIDLARK_FIELD_JOIN_RESPONSE_NODE];
    memcpy(packet.bytes, bytes, length);
    if (packet.to == self->address)
        take_responses(self, bytes, length, first.fields[BRAIDLARK_FIELD_JOIN_RESPONSE_SUPERFRAME_TIME]);
    else
        node_put(self, &packet);
}

/* What a payload is, its first byte tells: requests and responses go as they are. */
static void take_payload(struct node *self, uint32_t source, const uint8_t *payload, size_t length)
{
    if (length == 0)
        return;
    switch (payload[0]) {
    case ORDER:
        if (length == 2)
            valve_turn(self->address, payload[1]);
        break;
    case BRAIDLARK_TYPE_JOIN_REQUEST:
    case BRAIDLARK_TYPE_SLOT_REQUEST:
        hear_request(self, payload, length, (uint16_t)source);
        break;
    case BRAIDLARK_TYPE_JOIN_RESPONSE:
        hear_responses(self, payload, length);
        break;
    }
}

/* A frame for this node is taken, any other waits for a slot, with its next hop. */
static void hear_data(struct node *self, const uint8_t *bytes, size_t length)
{
    uint32_t place, left, now = clock_ms(self->address);
    struct packet copy;
    struct frame frame;
    if (!read_frame(bytes, length, &frame) ||
        braidlark_relay(self->table, sizeof self->table, bytes, length, now, LEAST_LEFT_MS, copy.bytes,
                        sizeof copy.bytes, &copy.to, &place, &copy.length, &left) != BRAIDLARK_ACCEPTED)
        return; /* no way on, or its time to live is over: nothing was written, and nothing is sent */
    note_sender(self, frame.fields[BRAIDLARK_FIELD_DATA_SOURCE]);
    if (copy.to == 0)
        take_payload(self, frame.fields[BRAIDLARK_FIELD_DATA_SOURCE], bytes + place, copy.length);
    else
        node_put(self, &copy); /* until a slot of this node's own comes */
}

/* What the radio received, by its type. The calls refuse whatever is not whole, or not for this network. */
void node_hear(struct node *self, const uint8_t *bytes, size_t length, uint8_t quality)
{
    switch (length > 0 ? bytes[0] : 0) {
    case BRAIDLARK_TYPE_BEACON:
    case BRAIDLARK_TYPE_SHORT_BEACON:
        hear_beacon(self, bytes, length);
        break;
    case BRAIDLARK_TYPE_UPDATE:
        hear_update(self, bytes, length, quality);
        break;
    case BRAIDLARK_TYPE_DATA:
        hear_data(self, bytes, length);
        break;
    case BRAIDLARK_TYPE_JOIN_REQUEST:
    case BRAIDLARK_TYPE_SLOT_REQUEST:
        hear_request(self, bytes, length, 0);
        break;
    case BRAIDLARK_TYPE_JOIN_RESPONSE:
        hear_responses(self, bytes, length);
        break;
    }
}
