/*
 * The clock passes 2^32 - 1 ms and begins again at 0: calls on both sides of that moment.
 */
#include "every_call.h"

static void age_across(void)
{
    static const uint32_t update[BRAIDLARK_FIELDS_UPDATE] = {BRAIDLARK_TYPE_UPDATE, MANAGER, 0, LAST_MS};
    uint8_t table[BRAIDLARK_TABLE_SIZE], frame[BRAIDLARK_MOST_FRAME], skipped = 1;
    uint16_t compared = 1;
    uint32_t length = write_whole(update, BRAIDLARK_FIELDS_UPDATE, NULL, 0, frame);
    EXPECT(braidlark_table_fresh(table, sizeof table, UNIT, LAST_MS) == BRAIDLARK_ACCEPTED);
    EXPECT(braidlark_merge(table, sizeof table, frame, length, QUALITY, LAST_MS, &skipped, &compared) ==
           BRAIDLARK_ACCEPTED);
    look_up(table, MANAGER, 1, LAST_MS);
    relay_in_time(table, LAST_MS);
    take_in_time(table, LAST_MS);
}

/* Less than half a turn is forward. */
static void step_across(void)
{
    static const uint32_t half_a_turn = 0x80000000u;
    uint8_t table[BRAIDLARK_TABLE_SIZE];
    uint32_t last = LAST_MS;
    EXPECT(braidlark_table_fresh(table, sizeof table, UNIT, last) == BRAIDLARK_ACCEPTED);
    EXPECT(braidlark_forget(table, sizeof table, MANAGER, last - 1) == BRAIDLARK_TOO_EARLY);
    EXPECT(braidlark_forget(table, sizeof table, MANAGER, last + half_a_turn) == BRAIDLARK_TOO_EARLY);
    EXPECT(braidlark_forget(table, sizeof table, MANAGER, last + half_a_turn - 1) == BRAIDLARK_ACCEPTED);
}

static void live_across(void)
{
    uint8_t state[BRAIDLARK_STATE_SIZE];
    uint32_t time = LAST_MS;
    EXPECT(braidlark_state_fresh(state, sizeof state, time) == BRAIDLARK_ACCEPTED);
    EXPECT(braidlark_state_event(state, sizeof state, BRAIDLARK_EVENT_READY, time) == BRAIDLARK_ACCEPTED);
    time += BRAIDLARK_DISCOVERY_MS - 1;
    EXPECT(braidlark_state_tick(state, sizeof state, SLOTS * SLOT_MS, time) == BRAIDLARK_ACCEPTED);
    EXPECT(state[0] == BRAIDLARK_DISCOVERY);
    EXPECT(braidlark_state_tick(state, sizeof state, SLOTS * SLOT_MS, time + 1) == BRAIDLARK_ACCEPTED);
    EXPECT(state[0] == BRAIDLARK_MANAGER);
}

/* The network is at 69 ms. A unit at 179 ms is ahead, so that its offset goes below 0; with that offset one that has 30
 * ms left to its last one is behind. */
static void clock_across(void)
{
    uint8_t frame[BRAIDLARK_MOST_FRAME];
    uint32_t length = write_beacon(frame, LAST_MS), offset = 0;
    EXPECT(braidlark_clock_step(&offset, 179, NETWORK, frame, length) == BRAIDLARK_ACCEPTED);
    EXPECT(offset == 0xFFFFFF92u);
    EXPECT(braidlark_clock_step(&offset, 179, NETWORK, frame, length) == BRAIDLARK_ACCEPTED);
    EXPECT(offset == 0xFFFFFF92u);
    EXPECT(braidlark_clock_step(&offset, LAST_MS - 30, NETWORK, frame, length) == BRAIDLARK_ACCEPTED);
    EXPECT(offset == 100);
}

void try_clock(void)
{
    age_across();
    step_across();
    live_across();
    clock_across();
}
