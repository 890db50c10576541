/*
 * The air: what is sent in a slot, and what of it reaches whom. A packet is lost on a link the more often the poorer
 * the link is.
 */
#include "greenhouse.h"

/* A number below a bound, the same ones for the same seed: steps of an odd number, whose bits are then well stirred. */
uint32_t medium_random(struct site *site, uint32_t below)
{
    site->random += 0x9E3779B9u;
    uint32_t word = site->random;
    for (int turn = 0; turn < 3; turn++) {
        word = (word ^ word >> 16) * 0x45D9F3BDu;
    }
    return (uint32_t)((uint64_t)(word ^ word >> 16) * below >> 32);
}

void medium_send(struct site *site, int sender, const struct packet *packet)
{
    if (site->air_count == MOST_IN_AIR) {
        fail(site, "more than %d packets in one slot", MOST_IN_AIR);
    }
    site->air[site->air_count].sender = sender;
    site->air[site->air_count].packet = *packet;
    site->air_count++;
    site->tally.packets++;
    beacons_note(site, sender, packet);
    orders_carried(site, sender, packet);
}

/* At quality 100 nothing is lost; at 60 one packet in twenty with slots of 200 ms. The longer slots are, the slower a
 * radio sends what goes into one, and the less is lost. */
static bool comes_through(struct site *site, uint8_t quality)
{
    if (medium_random(site, 4 * site->plan.slot_ms) >= (uint32_t)(100 - quality)) {
        return true;
    }
    site->tally.lost_on_links++;
    return false;
}

/* Whom an antenna of a unit hears in this slot: the sender with the best link to it, but for the one that its other
 * antenna hears, or NOBODY; a unit that sends hears nobody. */
int medium_strongest(const struct site *site, int unit, int other)
{
    int best = NOBODY;
    uint8_t best_quality = 0;
    for (int index = 0; index < site->air_count; index++) {
        int sender = site->air[index].sender;
        if (sender == unit) {
            return NOBODY;
        }
        if (sender != other && site->quality[sender][unit] > best_quality) {
            best = sender;
            best_quality = site->quality[sender][unit];
        }
    }
    return best;
}

/* Whether what is in the air is for a unit, and is not lost on the way. */
bool medium_reaches(struct site *site, int unit, const struct on_air *air)
{
    bool for_unit = air->packet.to == BRAIDLARK_EVERY_UNIT || air->packet.to == site->units[unit].address;
    return for_unit && comes_through(site, site->quality[air->sender][unit]);
}

/* The slot is over: whoever has power and does not send itself hears what reaches it. */
void medium_deliver(struct site *site)
{
    for (int unit = 0; unit < UNITS && site->air_count > 0; unit++) {
        if (site->units[unit].powered) {
            antennas_listen(site, unit);
        }
    }
    site->air_count = 0;
}
