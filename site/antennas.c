/*
 * What a unit hears of a slot. One antenna hears the strongest sender; a second one, which the back relay has, hears
 * the next strongest, of which only a beacon is taken. Of two beacons the unit follows the one that the library names,
 * as if it had heard that alone.
 */
#include "greenhouse.h"

/* A beacon is sent in the slot of its hop. So two in one slot come from equally far, and the better link decides. */
static void check_followed(struct site *site, int unit, const struct on_air *followed, const struct on_air *other)
{
    int hop = beacon_hop(site, &followed->packet), other_hop = beacon_hop(site, &other->packet);
    if (hop != other_hop) {
        fail(site, "%s hears beacons of hops %d and %d in one slot", site->units[unit].name, hop, other_hop);
    }
    if (site->quality[followed->sender][unit] < site->quality[other->sender][unit]) {
        fail(site, "%s follows %s, and its link to %s is better", site->units[unit].name,
             site->units[followed->sender].name, site->units[other->sender].name);
    }
}

/* The first beacons of a superframe are a choice between two ways from the manager; the first such choice is told.
 * Round the middle relay there is one way alone, so that while it is gone nothing is left to choose. */
static void note_choice(struct site *site, int unit, const struct on_air *followed, const struct on_air *other)
{
    const char *name = site->units[unit].name, *followed_name = site->units[followed->sender].name;
    const char *other_name = site->units[other->sender].name;
    if (!site->units[MIDDLE_RELAY].powered) {
        fail(site, "%s hears both %s and %s, and the middle relay is gone", name, followed_name, other_name);
    }
    if (site->tally.choices == 0) {
        int hop = beacon_hop(site, &followed->packet);
        say(site, "%s, which has two antennas, hears beacons of %s and %s in one slot", name, other_name,
            followed_name);
        say(site, "both are %d hop%s from the office: it follows %s, whose link is the better one, %d to %d", hop,
            hop == 1 ? "" : "s", followed_name, site->quality[followed->sender][unit],
            site->quality[other->sender][unit]);
    }
    site->tally.choices++;
}

/* The one of two beacons to follow. Later in a superframe a unit hears its own beacon again, from those that passed it
 * on: there too it takes one, but that is no choice of a way. Nor is it for the manager, whose beacon it is. */
static const struct on_air *follow(struct site *site, int unit, const struct on_air *first, const struct on_air *second)
{
    uint8_t which = 0;
    uint8_t status = braidlark_follow(first->packet.bytes, first->packet.length, site->quality[first->sender][unit],
                                      second->packet.bytes, second->packet.length, site->quality[second->sender][unit],
                                      NETWORK, &which);
    check_status(site, "braidlark_follow", status, 0);
    const struct on_air *followed = which == 0 ? first : second, *other = which == 0 ? second : first;
    check_followed(site, unit, followed, other);
    if (!site->units[unit].beacon_heard && !unit_manages(&site->units[unit])) {
        note_choice(site, unit, followed, other);
    }
    return followed;
}

static void hear(struct site *site, int unit, const struct on_air *air)
{
    unit_hear(site, unit, air->sender, site->quality[air->sender][unit], &air->packet);
}

/* A unit hears what reached it in the slot that is over, a beacon last, as there may be two. */
void antennas_listen(struct site *site, int unit)
{
    int strongest = medium_strongest(site, unit, NOBODY);
    int next_strongest = site->units[unit].two_antennas ? medium_strongest(site, unit, strongest) : NOBODY;
    const struct on_air *beacon = NULL;
    for (int index = 0; index < site->air_count; index++) {
        const struct on_air *air = &site->air[index];
        bool is_beacon = packet_is_beacon(&air->packet);
        bool listens = air->sender == strongest || (air->sender == next_strongest && is_beacon);
        if (!listens || !medium_reaches(site, unit, air)) {
            continue;
        }
        if (is_beacon) {
            beacon = beacon == NULL ? air : follow(site, unit, beacon, air);
        } else {
            hear(site, unit, air);
        }
    }
    if (beacon != NULL) {
        hear(site, unit, beacon);
    }
}
