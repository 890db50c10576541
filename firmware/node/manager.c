/*
 * The manager's side of a node: the book and its image, the answers to requests, and the beacon.
 */
#include "node.h"

#include <string.h>

/* Flash wears out, so only another image is written. */
void manager_store(const struct node *self)
{
    uint8_t image[BRAIDLARK_MOST_IMAGE];
    uint32_t length, stored_length;
    const uint8_t *stored = flash_read(self->address, &stored_length);
    if (braidlark_image(self->book, sizeof self->book, clock_ms(self->address), image, sizeof image, &length) !=
        BRAIDLARK_ACCEPTED)
        return;
    if (length != stored_length || memcmp(image, stored, length) != 0)
        flash_write(self->address, image, length);
}

/* The book is that of the stored image; where none is stored, restoring is refused (14) and the book is a fresh one. */
void manager_begin(struct node *self)
{
    uint32_t now = clock_ms(self->address), length, count;
    const uint8_t *image = flash_read(self->address, &length);
    uint8_t kinds[BRAIDLARK_MOST_SLOTS];
    if (braidlark_restore(self->book, sizeof self->book, image, length, now) != BRAIDLARK_ACCEPTED)
        braidlark_book_fresh(self->book, sizeof self->book, self->plan, sizeof self->plan, now);
    if (braidlark_schedule(self->book, sizeof self->book, self->address, 0, now, kinds, sizeof kinds, &count) !=
        BRAIDLARK_ACCEPTED)
        return;
    for (uint32_t slot = 0; slot < count; slot++)
        self->own_slots[slot] = kinds[slot] == BRAIDLARK_SLOT_CONTROL_TX || kinds[slot] == BRAIDLARK_SLOT_TX;
    self->offset = 0;
    self->superframe_start = now;
    self->member = true;
    self->manages = true;
}

/* The sequence comes from the clock, which outlives a power cut: no beacon is taken for one that was forwarded. */
void manager_send_beacon(const struct node *self)
{
    uint32_t number = self->superframe_start / self->regions[BRAIDLARK_FIELD_PLAN_SUPERFRAME_MS];
    const uint32_t fields[BRAIDLARK_FIELDS_BEACON] = {
        [BRAIDLARK_FIELD_TYPE] = BRAIDLARK_TYPE_BEACON,
        [BRAIDLARK_FIELD_BEACON_DESTINATION] = BRAIDLARK_EVERY_UNIT,
        [BRAIDLARK_FIELD_BEACON_SOURCE] = self->address,
        [BRAIDLARK_FIELD_BEACON_SIZE] = BRAIDLARK_BEACON_BODY_SIZE,
        [BRAIDLARK_FIELD_BEACON_NETWORK] = NETWORK,
        [BRAIDLARK_FIELD_BEACON_SUPERFRAME_NUMBER] = number,
        [BRAIDLARK_FIELD_BEACON_SUPERFRAME_MS] = self->regions[BRAIDLARK_FIELD_PLAN_SUPERFRAME_MS],
        [BRAIDLARK_FIELD_BEACON_TOTAL_SLOTS] = self->regions[BRAIDLARK_FIELD_PLAN_SLOTS],
        [BRAIDLARK_FIELD_BEACON_SLOT_MS] = SLOT_MS,
        [BRAIDLARK_FIELD_BEACON_ORIGINAL_SOURCE] = self->address,
        [BRAIDLARK_FIELD_BEACON_ORIGINAL_TIME] = self->superframe_start,
        [BRAIDLARK_FIELD_BEACON_DELAY] = node_network_time(self) - self->superframe_start,
        [BRAIDLARK_FIELD_BEACON_MAX_HOPS] = MAX_HOPS,
        [BRAIDLARK_FIELD_BEACON_SEQUENCE] = number & 0xFFFF};
    struct packet packet = {.to = BRAIDLARK_EVERY_UNIT};
    if (packet_write(&packet, fields, BRAIDLARK_FIELDS_BEACON, NULL, 0))
        packet_send(self, &packet);
}

/* The library writes no response that says no. */
static bool write_denial(const struct node *self, struct packet *packet)
{
    const uint32_t fields[BRAIDLARK_FIELDS_JOIN_RESPONSE] = {
        [BRAIDLARK_FIELD_TYPE] = BRAIDLARK_TYPE_JOIN_RESPONSE,
        [BRAIDLARK_FIELD_JOIN_RESPONSE_NODE] = packet->to,
        [BRAIDLARK_FIELD_JOIN_RESPONSE_STATUS] = BRAIDLARK_STATUS_REFUSED,
        [BRAIDLARK_FIELD_JOIN_RESPONSE_SLOT] = BRAIDLARK_NO_SLOT,
        [BRAIDLARK_FIELD_JOIN_RESPONSE_SUPERFRAME_TIME] = clock_ms(self->address),
        [BRAIDLARK_FIELD_JOIN_RESPONSE_NETWORK] = NETWORK};
    return packet_write(packet, fields, BRAIDLARK_FIELDS_JOIN_RESPONSE, NULL, 0);
}

/* Answers a request of a unit, straight or by the member that carried it. The image is stored before anything goes out:
 * no unit shall count on slots that the manager would forget in a power cut. */
void manager_answer(struct node *self, const uint8_t *request, size_t length, uint16_t unit, uint16_t carrier)
{
    struct packet packet = {.to = unit};
    uint8_t status = (request[0] == BRAIDLARK_TYPE_JOIN_REQUEST ? braidlark_join : braidlark_slot_request)(
        self->book, sizeof self->book, request, length, clock_ms(self->address), packet.bytes, sizeof packet.bytes,
        &packet.length);
    if (status == BRAIDLARK_ACCEPTED)
        manager_store(self);
    else if ((status != BRAIDLARK_FULL && status != BRAIDLARK_NO_MEMBER) || !write_denial(self, &packet))
        return;
    if (carrier == 0)
        node_put(self, &packet);
    else
        node_send(self, carrier, packet.bytes, packet.length);
}
