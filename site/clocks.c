/*
 * What the clocks of the units show: 32 bits of ms, which begin again at 0 in the course of the night, each clock's at
 * its own moment; and the order of such times.
 */
#include "greenhouse.h"

static const uint64_t TURN_MS = (uint64_t)1 << 32;

/* The unit's own milliseconds, with those of the turn before its clock began again: off from the start, and running
 * off. */
uint64_t unit_wide_time(const struct site *site, int unit)
{
    const struct unit *self = &site->units[unit];
    int64_t off = self->skew_ms + (int64_t)site->now * self->drift_ppm / 1000000;
    return TURN_MS - site->script.clock_top + site->now + (uint64_t)off;
}

/* What its clock shows of them. */
uint32_t unit_time(const struct site *site, int unit)
{
    return (uint32_t)unit_wide_time(site, unit);
}

/* What the unit takes the network's time to be. */
uint32_t unit_network_time(const struct site *site, int unit)
{
    return unit_time(site, unit) + site->units[unit].offset;
}

/* Whether one time of a clock is before another, of which it is less than half a turn away. */
bool time_before(uint32_t one, uint32_t other)
{
    return one != other && other - one < TURN_MS / 2;
}

/* Whether a clock that runs has still to begin again. */
static bool is_one_left(const struct site *site)
{
    for (int unit = 0; unit < UNITS; unit++) {
        if (site->units[unit].powered && !site->units[unit].began_again) {
            return true;
        }
    }
    return false;
}

static void note_turn(struct site *site, int unit)
{
    struct turns *turns = &site->turns;
    turns->count++;
    turns->last = site->now;
    if (turns->count == 1) {
        turns->first = site->now;
        say(site, "the clocks pass 2^32 ms, as they do every 49.7 days, and begin again at 0: that of %s is the first",
            site->units[unit].name);
    } else if (!is_one_left(site)) {
        say(site, "all %d clocks have begun again at 0, that of %s as the last: nothing has come of it", turns->count,
            site->units[unit].name);
    }
}

/* Before anything happens in the slot that begins now. */
void clocks_watch(struct site *site)
{
    for (int unit = 0; unit < UNITS; unit++) {
        struct unit *self = &site->units[unit];
        bool begins_again = !self->began_again && unit_wide_time(site, unit) >= TURN_MS;
        self->began_again = self->began_again || begins_again;
        if (begins_again && self->powered) {
            check_turn(site, unit);
            note_turn(site, unit);
        }
    }
}
