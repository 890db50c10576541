/*
 * A unit's state: how it comes to manage, by itself and elected.
 */
#include "every_call.h"

static void live(void)
{
    uint8_t state[BRAIDLARK_STATE_SIZE];
    EXPECT(braidlark_state_fresh(state, sizeof state, NOW) == BRAIDLARK_ACCEPTED);
    EXPECT(state[0] == BRAIDLARK_INITIALIZING);
    EXPECT(braidlark_state_event(state, sizeof state, BRAIDLARK_EVENT_READY, NOW) == BRAIDLARK_ACCEPTED);
    EXPECT(state[0] == BRAIDLARK_DISCOVERY);
    EXPECT(braidlark_state_event(state, sizeof state, BRAIDLARK_EVENT_ELECTED, NOW) == BRAIDLARK_NOT_ALLOWED);
    EXPECT(braidlark_state_event(state, sizeof state, BRAIDLARK_EVENT_RECOVERED + 1, NOW) == BRAIDLARK_NOT_ALLOWED);
    EXPECT(braidlark_state_tick(state, sizeof state, SLOTS * SLOT_MS, NOW + BRAIDLARK_DISCOVERY_MS) ==
           BRAIDLARK_ACCEPTED);
    EXPECT(state[0] == BRAIDLARK_MANAGER);
}

/* Elected is an event of Normal alone. */
static void be_elected(void)
{
    static const uint8_t way[] = {BRAIDLARK_EVENT_READY, BRAIDLARK_EVENT_BEACON_HEARD, BRAIDLARK_EVENT_JOIN_ACCEPTED};
    uint8_t state[BRAIDLARK_STATE_SIZE];
    size_t each;
    EXPECT(braidlark_state_fresh(state, sizeof state, NOW) == BRAIDLARK_ACCEPTED);
    for (each = 0; each < sizeof way; each++) {
        EXPECT(braidlark_state_event(state, sizeof state, BRAIDLARK_EVENT_ELECTED, NOW) == BRAIDLARK_NOT_ALLOWED);
        EXPECT(braidlark_state_event(state, sizeof state, way[each], NOW) == BRAIDLARK_ACCEPTED);
    }
    EXPECT(state[0] == BRAIDLARK_NORMAL);
    EXPECT(braidlark_state_event(state, sizeof state, BRAIDLARK_EVENT_ELECTED, NOW) == BRAIDLARK_ACCEPTED);
    EXPECT(state[0] == BRAIDLARK_MANAGER);
    EXPECT(braidlark_state_event(state, sizeof state, BRAIDLARK_EVENT_ELECTED, NOW) == BRAIDLARK_NOT_ALLOWED);
}

void try_state(void)
{
    live();
    be_elected();
}
