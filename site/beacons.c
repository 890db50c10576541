/*
 * Beacons of either kind: as the manager writes them, as units forward them, and what of them is in the air.
 */
#include "greenhouse.h"

bool packet_is_beacon(const struct packet *packet)
{
    return packet->bytes[0] == BRAIDLARK_TYPE_BEACON || packet->bytes[0] == BRAIDLARK_TYPE_SHORT_BEACON;
}

/* How many hops from the manager a beacon comes from, which is also the slot that it is sent in. */
int beacon_hop(struct site *site, const struct packet *packet)
{
    struct frame frame;
    frame_read(site, packet->bytes, packet->length, &frame);
    bool is_short = frame.fields[BRAIDLARK_FIELD_TYPE] == BRAIDLARK_TYPE_SHORT_BEACON;
    return (int)frame.fields[is_short ? BRAIDLARK_FIELD_SHORT_BEACON_HOP : BRAIDLARK_FIELD_BEACON_HOP];
}

static void write_long(struct site *site, struct packet *packet, uint32_t time, uint32_t number)
{
    uint32_t fields[BRAIDLARK_FIELDS_BEACON] = {
        [BRAIDLARK_FIELD_TYPE] = BRAIDLARK_TYPE_BEACON,
        [BRAIDLARK_FIELD_BEACON_DESTINATION] = BRAIDLARK_EVERY_UNIT,
        [BRAIDLARK_FIELD_BEACON_SOURCE] = site->units[site->manager.unit].address,
        [BRAIDLARK_FIELD_BEACON_SIZE] = BRAIDLARK_BEACON_BODY_SIZE,
        [BRAIDLARK_FIELD_BEACON_NETWORK] = NETWORK,
        [BRAIDLARK_FIELD_BEACON_SUPERFRAME_NUMBER] = number,
        [BRAIDLARK_FIELD_BEACON_SUPERFRAME_MS] = site->plan.superframe_ms,
        [BRAIDLARK_FIELD_BEACON_TOTAL_SLOTS] = BRAIDLARK_MOST_SLOTS,
        [BRAIDLARK_FIELD_BEACON_SLOT_MS] = site->plan.slot_ms,
        [BRAIDLARK_FIELD_BEACON_ORIGINAL_SOURCE] = site->units[site->manager.unit].address,
        [BRAIDLARK_FIELD_BEACON_ORIGINAL_TIME] = time,
        [BRAIDLARK_FIELD_BEACON_MAX_HOPS] = MOST_HOPS,
        [BRAIDLARK_FIELD_BEACON_SEQUENCE] = number & UINT16_MAX,
    };
    packet_write(site, packet, BRAIDLARK_EVERY_UNIT, fields, BRAIDLARK_FIELDS_BEACON, NULL, 0);
}

static void write_short(struct site *site, struct packet *packet, uint32_t time, uint32_t number)
{
    uint32_t fields[BRAIDLARK_FIELDS_SHORT_BEACON] = {
        [BRAIDLARK_FIELD_TYPE] = BRAIDLARK_TYPE_SHORT_BEACON,
        [BRAIDLARK_FIELD_SHORT_BEACON_SOURCE] = site->units[site->manager.unit].address,
        [BRAIDLARK_FIELD_SHORT_BEACON_NETWORK] = NETWORK,
        [BRAIDLARK_FIELD_SHORT_BEACON_TOTAL_SLOTS] = BRAIDLARK_MOST_SLOTS,
        [BRAIDLARK_FIELD_SHORT_BEACON_SLOT_MS] = site->plan.slot_ms,
        [BRAIDLARK_FIELD_SHORT_BEACON_ORIGINAL_TIME] = time,
        [BRAIDLARK_FIELD_SHORT_BEACON_MAX_HOPS] = MOST_HOPS,
        [BRAIDLARK_FIELD_SHORT_BEACON_SEQUENCE] = number & UINT16_MAX,
    };
    packet_write(site, packet, BRAIDLARK_EVERY_UNIT, fields, BRAIDLARK_FIELDS_SHORT_BEACON, NULL, 0);
}

/* The beacon of the superframe that begins now, of the kind that the plan says. Its number is that of the clock, so
 * that a power cut repeats none; it begins again with the clock. */
void beacons_write(struct site *site, struct packet *packet)
{
    uint32_t time = manager_time(site), number = time / site->plan.superframe_ms;
    if (site->plan.beacon == BRAIDLARK_TYPE_SHORT_BEACON) {
        write_short(site, packet, time, number);
    } else {
        write_long(site, packet, time, number);
    }
}

/* Whose beacon it is that a unit hears. A long one says so; of a short one the unit knows it from its settings, or from
 * its poll. */
uint16_t beacon_manager(struct site *site, int unit, const struct packet *packet)
{
    struct frame frame;
    frame_read(site, packet->bytes, packet->length, &frame);
    bool is_long = frame.fields[BRAIDLARK_FIELD_TYPE] == BRAIDLARK_TYPE_BEACON;
    return is_long ? (uint16_t)frame.fields[BRAIDLARK_FIELD_BEACON_ORIGINAL_SOURCE] : site->units[unit].manager;
}

/* A member passes the beacon on, as the kind that it is, in the slot of its own hop, which is the next slot. */
void beacons_forward(struct site *site, int unit, const struct packet *packet)
{
    struct unit *self = &site->units[unit];
    struct packet copy = {.to = BRAIDLARK_EVERY_UNIT};
    uint32_t written = 0;
    uint8_t status =
        braidlark_forward(self->table, sizeof self->table, NETWORK, self->manager, packet->bytes, packet->length,
                          site->plan.slot_ms, unit_time(site, unit), copy.bytes, sizeof copy.bytes, &written);
    check_status(site, "braidlark_forward", status, REFUSAL(BRAIDLARK_NO_ROUTE) | REFUSAL(BRAIDLARK_NOT_OURS));
    if (status != BRAIDLARK_ACCEPTED) {
        return;
    }
    copy.length = copy.frame_length = (uint8_t)written;
    self->beacon = copy;
    self->beacon_slot = beacon_hop(site, &copy);
}

/* What goes into the air, if it is a beacon: whoever sends it, it has the kind that the plan says, and only the manager
 * begins one. */
void beacons_note(struct site *site, int sender, const struct packet *packet)
{
    uint8_t type = packet->bytes[0];
    if (!packet_is_beacon(packet)) {
        return;
    }
    if (type != site->plan.beacon) {
        fail(site, "%s sends a beacon of type %02X, and the plan says %02X", site->units[sender].name, (unsigned)type,
             (unsigned)site->plan.beacon);
    }
    if (beacon_hop(site, packet) == 0 && sender != site->manager.unit) {
        fail(site, "%s begins a beacon, and %s manages", site->units[sender].name,
             site->units[site->manager.unit].name);
    }
    site->tally.beacons++;
    site->tally.beacon_bytes += packet->length;
}
