/*
 * The plan in numbers, and what follows from them: which beacons the manager sends, how long slots and superframes are,
 * and what that leaves time for.
 */
#include "greenhouse.h"

/* Slots of 200 ms leave room for the 50 ms by which the clock step lets a unit's clock be off, on either side of 100 ms
 * of air. With short beacons slots may have a second: a superframe is then longer than a long beacon could say. */
void plan_set(struct plan *plan, bool short_beacons)
{
    plan->beacon = short_beacons ? BRAIDLARK_TYPE_SHORT_BEACON : BRAIDLARK_TYPE_BEACON;
    plan->slot_ms = short_beacons ? 1000 : 200;
    plan->superframe_ms = BRAIDLARK_MOST_SLOTS * plan->slot_ms;
}

/* Whether the book can be stored. */
bool plan_has_image(const struct plan *plan)
{
    return plan->beacon == BRAIDLARK_TYPE_BEACON;
}

/* Whether a member is live for so few superframes that nothing may wait for the next one. */
bool plan_is_slow(const struct plan *plan)
{
    return 5 * plan->superframe_ms > BRAIDLARK_LIVE_MS;
}

/* How many superframes without a beacon a unit bears before it is elected: as many as leave it in its Normal state or,
 * where superframes are long, in its place. */
int plan_patience(const struct plan *plan)
{
    return plan_is_slow(plan) ? 2 : 3;
}

/* How long the office listens before it manages: for another manager or, where no image tells it who holds what, until
 * nobody counts any more on slots that it may have granted. */
uint32_t plan_listening_ms(const struct plan *plan)
{
    return plan_has_image(plan) ? BRAIDLARK_DISCOVERY_MS : BRAIDLARK_LIVE_MS;
}

/* How far a clock may be off: what the clock step leaves, and what a crystal runs off in some superframes without a
 * beacon. */
uint32_t plan_clock_tolerance_ms(const struct plan *plan)
{
    enum { STEP_LEAVES_MS = 50, SUPERFRAMES = 10, RUNS_OFF_PPM = 50 };
    return STEP_LEAVES_MS + SUPERFRAMES * plan->superframe_ms / (1000000 / RUNS_OFF_PPM);
}
