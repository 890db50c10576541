/*
 * The main loop's side of a node: what is due in each slot, the state, and packets that wait for a slot.
 */
#include "node.h"

#include <string.h>

uint32_t node_network_time(const struct node *self)
{
    return clock_ms(self->address) + self->offset;
}

/* An event that the state does not take is refused (7) and changes nothing: the answer need not be looked at. */
void node_tell_state(struct node *self, uint8_t event)
{
    braidlark_state_event(self->state, sizeof self->state, event, clock_ms(self->address));
}

/* Whether the slots may be used: they are granted, and beacons keep the clock. */
bool node_may_send(const struct node *self)
{
    uint8_t state = self->state[0];
    return self->member && (state == BRAIDLARK_MANAGER || state == BRAIDLARK_NORMAL || state == BRAIDLARK_JOINING);
}

/* ---- packets, and those that wait for a slot */

bool packet_write(struct packet *packet, const uint32_t *fields, size_t count, const uint8_t *part, size_t part_length)
{
    return braidlark_write(fields, count, part, part_length, packet->bytes, sizeof packet->bytes, &packet->length) ==
           BRAIDLARK_ACCEPTED;
}

void packet_send(const struct node *self, const struct packet *packet)
{
    radio_send(self->address, packet->to, packet->bytes, packet->length);
}

/* A full queue loses the newest; whoever needs an answer asks again. */
void node_put(struct node *self, const struct packet *packet)
{
    if (self->waiting_count < MOST_WAITING)
        self->waiting[self->waiting_count++] = *packet;
}

static void send_next(struct node *self)
{
    if (self->waiting_count == 0)
        return;
    packet_send(self, &self->waiting[0]);
    self->waiting_count--;
    memmove(&self->waiting[0], &self->waiting[1], (size_t)self->waiting_count * sizeof self->waiting[0]);
}

/* A data frame of the node's own goes by lookup and write: relaying it would be refused (6). */
bool node_send(struct node *self, uint16_t destination, const uint8_t *payload, uint32_t length)
{
    const uint32_t fields[BRAIDLARK_FIELDS_DATA] = {
        [BRAIDLARK_FIELD_TYPE] = BRAIDLARK_TYPE_DATA,     [BRAIDLARK_FIELD_DATA_SOURCE] = self->address,
        [BRAIDLARK_FIELD_DATA_DESTINATION] = destination, [BRAIDLARK_FIELD_DATA_TTL] = TIME_TO_LIVE,
        [BRAIDLARK_FIELD_DATA_SEQUENCE] = self->sequence, [BRAIDLARK_FIELD_DATA_COUNT] = length};
    struct packet packet;
    uint8_t hops;
    uint32_t left;
    if (braidlark_lookup(self->table, sizeof self->table, destination, clock_ms(self->address), &packet.to, &hops,
                         &left) != BRAIDLARK_ACCEPTED ||
        !packet_write(&packet, fields, BRAIDLARK_FIELDS_DATA, payload, length))
        return false;
    self->sequence++;
    node_put(self, &packet);
    return true;
}

/* ---- what is due */

/* Every page of the table waits for a slot. */
static void put_update(struct node *self)
{
    struct packet packet = {.to = BRAIDLARK_EVERY_UNIT};
    for (uint32_t page = 0; braidlark_page(self->table, sizeof self->table, page, clock_ms(self->address), packet.bytes,
                                           sizeof packet.bytes, &packet.length) == BRAIDLARK_ACCEPTED;
         page++)
        node_put(self, &packet);
}

/* Asking for its slots again keeps a member, however many hops away the manager is. */
static void renew(struct node *self)
{
    const uint32_t fields[BRAIDLARK_FIELDS_SLOT_REQUEST] = {[BRAIDLARK_FIELD_TYPE] = BRAIDLARK_TYPE_SLOT_REQUEST,
                                                            [BRAIDLARK_FIELD_SLOT_REQUEST_NODE] = self->address,
                                                            [BRAIDLARK_FIELD_SLOT_REQUEST_SLOTS] = 1};
    struct packet packet;
    if (packet_write(&packet, fields, BRAIDLARK_FIELDS_SLOT_REQUEST, NULL, 0))
        node_send(self, MANAGER, packet.bytes, packet.length);
}

static void ask_to_join(struct node *self)
{
    const uint32_t fields[BRAIDLARK_FIELDS_JOIN_REQUEST] = {[BRAIDLARK_FIELD_TYPE] = BRAIDLARK_TYPE_JOIN_REQUEST,
                                                            [BRAIDLARK_FIELD_JOIN_REQUEST_NODE] = self->address,
                                                            [BRAIDLARK_FIELD_JOIN_REQUEST_NETWORK] = NETWORK,
                                                            [BRAIDLARK_FIELD_JOIN_REQUEST_SLOTS] = 1};
    struct packet packet = {.to = self->sponsor};
    if (packet_write(&packet, fields, BRAIDLARK_FIELDS_JOIN_REQUEST, NULL, 0))
        packet_send(self, &packet);
}

/* A member forwards the beacon in the slot of its own hop. The delay is all that has passed since it came in; whether
 * it is this node's to forward is the library's to say. */
static void forward_beacon(struct node *self)
{
    struct packet copy = {.to = BRAIDLARK_EVERY_UNIT};
    uint32_t now = clock_ms(self->address);
    if (braidlark_forward(self->table, sizeof self->table, NETWORK, MANAGER, self->beacon.bytes, self->beacon.length,
                          now - self->beacon_came, now, copy.bytes, sizeof copy.bytes,
                          &copy.length) == BRAIDLARK_ACCEPTED)
        packet_send(self, &copy);
}

void node_power_on(struct node *self, uint16_t address)
{
    uint32_t now = clock_ms(address);
    memset(self, 0, sizeof *self);
    self->address = address;
    self->superframe_start = now;
    self->last_update = now - UPDATE_EVERY_MS; /* so that the first is due at once */
    self->last_renewal = now;
    braidlark_table_fresh(self->table, sizeof self->table, address, now);
    braidlark_plan(self->plan, sizeof self->plan, NETWORK, MANAGER, MAX_HOPS, ROWS, DATA_SLOTS, SLOT_MS,
                   BRAIDLARK_TYPE_BEACON); /* of long beacons, so that there is an image of the book */
    braidlark_plan_numbers(self->plan, sizeof self->plan, self->regions, BRAIDLARK_FIELDS_PLAN);
    braidlark_state_fresh(self->state, sizeof self->state, now);
    node_tell_state(self, BRAIDLARK_EVENT_READY);
}

/* A unit whose slots were denied, or that nobody confirmed in time, lets go of them and looks for the network anew. */
static void let_go(struct node *self)
{
    self->member = false;
    memset(self->own_slots, 0, sizeof self->own_slots);
    braidlark_state_fresh(self->state, sizeof self->state, clock_ms(self->address));
    node_tell_state(self, BRAIDLARK_EVENT_READY);
}

/* What is due once a superframe, updates and renewals among it. */
static void begin_superframe(struct node *self)
{
    uint32_t now = clock_ms(self->address), length = self->regions[BRAIDLARK_FIELD_PLAN_SUPERFRAME_MS];
    self->superframe_start += (node_network_time(self) - self->superframe_start) / length * length;
    if (self->manages)
        manager_store(self); /* silent members go with time, not with an answer */
    if (!self->manages &&
        (self->member ? node_network_time(self) - self->granted > LET_GO_MS : self->state[0] == BRAIDLARK_NORMAL))
        let_go(self);
    if (node_may_send(self) && now - self->last_update >= UPDATE_EVERY_MS) {
        self->last_update = now;
        put_update(self);
    }
    if (node_may_send(self) && !self->manages && now - self->last_renewal >= RENEW_EVERY_MS) {
        self->last_renewal = now;
        renew(self);
    }
}

/* The tick comes in the middle of the superframe: then no beacon counts as missing that is only due. A unit that is not
 * the manager's declines to manage, although it heard no beacon for long, and looks again. */
static void tick(struct node *self)
{
    self->beacon.length = 0;
    self->asking_slot = 0;
    braidlark_state_tick(self->state, sizeof self->state, self->regions[BRAIDLARK_FIELD_PLAN_SUPERFRAME_MS],
                         clock_ms(self->address));
    if (self->state[0] == BRAIDLARK_MANAGER && self->address != MANAGER)
        node_tell_state(self, BRAIDLARK_EVENT_FAULT);
    if (self->state[0] == BRAIDLARK_RECOVERY)
        node_tell_state(self, BRAIDLARK_EVENT_RECOVERED);
    if (self->state[0] == BRAIDLARK_MANAGER && !self->manages)
        manager_begin(self);
}

/* Beacons have their slots and requests to join the discovery slots; all else goes in slots that were granted. */
static void begin_slot(struct node *self)
{
    uint32_t slot = self->slot;
    if (slot == 0)
        begin_superframe(self);
    if (slot == self->regions[BRAIDLARK_FIELD_PLAN_SLOTS] / 2)
        tick(self);
    if (slot == 0 && self->manages)
        manager_send_beacon(self);
    else if (slot == self->beacon_slot && self->beacon.length > 0 && node_may_send(self))
        forward_beacon(self);
    else if (slot > 0 && slot == self->asking_slot)
        ask_to_join(self);
    else if (self->own_slots[slot] && node_may_send(self))
        send_next(self);
}

/* When a slot has begun and the guard time is over, what is due in it is done. */
void node_poll(struct node *self)
{
    uint32_t since = node_network_time(self) - self->superframe_start;
    uint32_t slot = since / SLOT_MS % self->regions[BRAIDLARK_FIELD_PLAN_SLOTS];
    if (slot != self->slot && since % SLOT_MS >= GUARD_MS) {
        self->slot = slot;
        begin_slot(self);
    }
}
