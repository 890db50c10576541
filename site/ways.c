/*
 * The ways that there are from the manager, whether any unit knows them or not: over links, from one unit that sends to
 * the next. An order can be expected to arrive where there has been one for some time.
 */
#include "greenhouse.h"

/* Whether a unit has a link to one of a set. */
static bool is_linked(const struct site *site, int unit, uint32_t others)
{
    for (int other = 0; other < UNITS; other++) {
        if ((others >> other & 1) == 1 && site->quality[unit][other] > 0) {
            return true;
        }
    }
    return false;
}

/* Whom there is a way to from a unit over units that carry on, one bit each, itself included. */
uint32_t ways_find(const struct site *site, int from, bool (*carries)(const struct site *site, int unit))
{
    uint32_t found = carries(site, from) ? 1u << from : 0, before = 0;
    while (found != before) {
        before = found;
        for (int unit = 0; unit < UNITS; unit++) {
            if (carries(site, unit) && is_linked(site, unit, before)) {
                found |= 1u << unit;
            }
        }
    }
    return found;
}

/* Keeps whom there is a way to, and since when. Where one is lost, any other may have gone by the same units. */
void ways_watch(struct site *site)
{
    struct ways *ways = &site->ways;
    uint32_t found = ways_find(site, site->manager.unit, unit_sends), lost = ways->to & ~found;
    for (int unit = 0; unit < UNITS; unit++) {
        if (lost != 0 || (ways->to >> unit & 1) == 0) {
            ways->since[unit] = site->now;
        }
    }
    ways->to = found;
}

/* Whether there has been a way to a unit for so long that it must be known, and that no route by a lost one is usable
 * any more. */
bool ways_settled(const struct site *site, int unit)
{
    return (site->ways.to >> unit & 1) == 1 && site->now - site->ways.since[unit] > BRAIDLARK_USABLE_MS;
}
