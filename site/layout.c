/*
 * The site itself: who stands where, who hears whom how well, and when what happens in the night.
 *
 *     benches 6, 7, 8 --- office
 *                        /      \
 *        bench 5 --- middle    north --- bench 9
 *                    /   \      /        /
 *               bench 4 --- back -------+
 *                            |
 *                     benches 1, 2, 3
 *
 * The middle relay is the way of orders to the back, the shorter way to bench 4, and the only one to bench 5. The way
 * round it goes by the north relay. The back relay, which hears both, has two antennas. It is the one to take over if
 * the office is gone: only benches 6, 7 and 8 are then cut off.
 */
#include <string.h>

#include "greenhouse.h"

/* One with a priority may manage where the office is gone. */
struct place {
    const char *name;
    uint16_t address;
    uint8_t wanted_slots;
    uint8_t priority;
};

static const struct place PLACES[UNITS] = {
    [OFFICE] = {"the office", 0x0100, 1, 0},
    [MIDDLE_RELAY] = {"the middle relay", 0x0201, 3, 50},
    [NORTH_RELAY] = {"the north relay", 0x0202, 3, 50},
    [BACK_RELAY] = {"the back relay", 0x0203, 3, 70},
    [BENCH_1] = {"bench 1", 0x0301, 1, 0},
    [BENCH_2] = {"bench 2", 0x0302, 1, 0},
    [BENCH_3] = {"bench 3", 0x0303, 1, 0},
    [BENCH_4] = {"bench 4", 0x0304, 1, 0},
    [BENCH_5] = {"bench 5", 0x0305, 1, 0},
    [BENCH_6] = {"bench 6", 0x0306, 1, 0},
    [BENCH_7] = {"bench 7", 0x0307, 1, 0},
    [BENCH_8] = {"bench 8", 0x0308, 1, 0},
    [BENCH_9] = {"bench 9", 0x0309, 2, 0},
};

struct link {
    int one;
    int other;
    uint8_t quality;
};

/* A route's quality halves towards its near end, so that orders to the back prefer the middle relay, whose link to the
 * office is the better one, and reports from the back the north relay, whose link to the back is. */
static const struct link LINKS[] = {
    {OFFICE, MIDDLE_RELAY, 90},    {OFFICE, NORTH_RELAY, 70},  {MIDDLE_RELAY, BACK_RELAY, 60},
    {NORTH_RELAY, BACK_RELAY, 85}, {BACK_RELAY, BENCH_1, 88},  {BACK_RELAY, BENCH_2, 86},
    {BACK_RELAY, BENCH_3, 84},     {BACK_RELAY, BENCH_4, 80},  {MIDDLE_RELAY, BENCH_4, 85},
    {MIDDLE_RELAY, BENCH_5, 82},   {OFFICE, BENCH_6, 86},      {OFFICE, BENCH_7, 84},
    {OFFICE, BENCH_8, 88},         {NORTH_RELAY, BENCH_9, 78}, {BACK_RELAY, BENCH_9, 74},
};

enum { MINUTE = 60000, SKEW_STEP_MS = MINUTE / (UNITS - 1) };

/* The site is up ten superframes after its last head was switched on, and orders begin. How long it then is to the
 * unbolting, and from when the relay is back to the end, is the same in every run of the plan. The power fails half way
 * between, and earlier where members need time to join anew; that is in the middle of the data slots.
 *
 * The office's clock passes its top half way between the unbolting and its being noticed, and the other clocks within a
 * minute of it. So what grows old meanwhile has a time before the top and runs out after it: the relay's row in the
 * book, the routes by it, and the slots that bench 5 counts on. */
static void set_script(struct script *script, const struct plan *plan, uint32_t length_ms)
{
    enum { LAST_HEAD_MS = HEADS_FROM_MS + (BENCH_8 - BENCH_1) * HEADS_EVERY_MS, CUT_SLOT = 25, SLEEP_SLOT = 45 };
    uint64_t superframe_ms = plan->superframe_ms;
    uint64_t joining_ms = plan_has_image(plan) ? 0 : BRAIDLARK_LIVE_MS + 12 * superframe_ms;
    script->orders_begin = LAST_HEAD_MS + 10 * superframe_ms;
    script->new_head = script->orders_begin + MINUTE;
    script->unbolted = script->orders_begin + 6 * MINUTE;
    script->clock_top = script->unbolted + BRAIDLARK_LIVE_MS / 2;
    script->taken_out = length_ms - 8 * MINUTE - 12 * superframe_ms;
    script->returned = script->taken_out - 8 * MINUTE;
    uint64_t half_way = (script->unbolted + script->returned - joining_ms) / 2;
    script->power_fails = half_way / superframe_ms * superframe_ms + CUT_SLOT * plan->slot_ms;
    script->power_returns = script->power_fails + MINUTE;
    script->settled = script->power_fails + 9 * MINUTE + joining_ms;
    script->office_dies = length_ms / superframe_ms * superframe_ms + SLEEP_SLOT * plan->slot_ms;
    script->end = script->office_dies + 9 * MINUTE + BRAIDLARK_LIVE_MS + 30 * superframe_ms;
}

void layout_set(struct site *site, uint32_t seed, uint32_t length_ms, bool short_beacons)
{
    memset(site, 0, sizeof *site);
    site->random = seed;
    site->inheritance.from = NOBODY;
    site->manager.unit = OFFICE;
    site->takeover.winner = NOBODY;
    for (int row = 0; row < MEMBER_ROWS; row++) {
        site->holders[row] = NOBODY;
    }
    plan_set(&site->plan, short_beacons);
    set_script(&site->script, &site->plan, length_ms);
    for (int index = 0; index < UNITS; index++) {
        struct unit *unit = &site->units[index];
        unit->name = PLACES[index].name;
        unit->address = PLACES[index].address;
        unit->wanted_slots = PLACES[index].wanted_slots;
        unit->priority = PLACES[index].priority;
        unit->two_antennas = index == BACK_RELAY;
        /* Every crystal but the manager's, which is the network's time, is off and runs off, some fast, some slow. */
        int sign = index % 2 ? 1 : -1;
        unit->skew_ms = sign * index * SKEW_STEP_MS;
        unit->drift_ppm = index == OFFICE ? 0 : sign * (10 + 3 * index);
    }
    for (size_t index = 0; index < sizeof LINKS / sizeof LINKS[0]; index++) {
        site->quality[LINKS[index].one][LINKS[index].other] = LINKS[index].quality;
        site->quality[LINKS[index].other][LINKS[index].one] = LINKS[index].quality;
    }
}

/* The unit with an address, or NOBODY. */
int layout_find(const struct site *site, uint16_t address)
{
    for (int index = 0; index < UNITS; index++) {
        if (site->units[index].address == address) {
            return index;
        }
    }
    return NOBODY;
}
