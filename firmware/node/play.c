/*
 * Stands in for the hardware of three nodes, the office, a relay and a valve in a line, and plays them for twenty
 * minutes: they find each other, orders go from the office to the valve, and the office loses its power and its memory.
 * The play ends by itself, with status 0 if all went as it should.
 */
#include "node.h"

#include <stdio.h>
#include <string.h>

enum { OFFICE, RELAY, VALVE, UNITS };
enum { STEP_MS = 10, AIR_MS = 100, LINK_QUALITY = 200, MOST_RECEIVED = 4 };
enum { CLOCKS_DIFFER = GUARD_MS + STEP_MS }; /* a frame is heard up to a step after it was sent */
enum { ORDERS_BEGIN = 180000, ORDER_EVERY = 30000, ORDERS_END = 1140000, END = 1200000 };
enum { POWER_FAILS = 500000, POWER_RETURNS = 520000 };

/* What one unit is made of beside its node: a clock and flash, which outlive a power cut, a radio and a valve. */
static struct unit {
    const char *name;
    uint16_t address;
    uint32_t clock_start; /* what its clock shows when the play begins */
    int32_t clock_ppm;    /* how much too fast the clock is */
    bool powered;
    struct node node;
    struct packet received[MOST_RECEIVED];
    int received_count;
    uint8_t image[BRAIDLARK_MOST_IMAGE];
    uint32_t image_length, image_writes;
    uint8_t setting;
    uint32_t orders;
    bool slots_before[BRAIDLARK_MOST_SLOTS]; /* the power cut */
    bool told;
} units[UNITS] = {
    {.name = "office", .address = MANAGER, .clock_start = UINT32_MAX - 300000}, /* begins again at 0 in the play */
    {.name = "relay", .address = 0x0201, .clock_start = 5000000, .clock_ppm = 40},
    {.name = "valve", .address = 0x0202, .clock_start = 77, .clock_ppm = -40},
};

static uint32_t play_ms; /* since the play began */
static uint32_t air_free_ms;
static uint32_t checks, failures;
static uint32_t orders_given, beacons_forwarded, frames_relayed;
static uint32_t writes_before; /* of the office's flash, before the power cut */

static void expect(bool holds, const char *words)
{
    checks++;
    if (!holds) {
        failures++;
        printf("node: at %u s it does not hold that %s\n", (unsigned)(play_ms / 1000), words);
    }
}

static struct unit *unit_of(uint16_t address)
{
    int unit = OFFICE;
    while (units[unit].address != address)
        unit++;
    return &units[unit];
}

uint32_t clock_ms(uint16_t own)
{
    const struct unit *unit = unit_of(own);
    return unit->clock_start + play_ms + (uint32_t)((int64_t)play_ms * unit->clock_ppm / 1000000);
}

uint32_t random_below(uint16_t own, uint32_t bound)
{
    static uint32_t random = 1;
    random = random * 1664525 + 1013904223 + own;
    return (random >> 16) % bound;
}

/* The three stand in a line, so that the office and the valve do not hear each other. */
static bool linked(const struct unit *one, const struct unit *other)
{
    return one - other == 1 || other - one == 1;
}

/* Only units that ask to join may meet in a slot: then the later one is lost. */
void radio_send(uint16_t own, uint16_t to, const uint8_t *bytes, uint32_t length)
{
    const struct unit *sender = unit_of(own);
    if (play_ms < air_free_ms) {
        expect(bytes[0] == BRAIDLARK_TYPE_JOIN_REQUEST, "a slot has one sender");
        return;
    }
    air_free_ms = play_ms + AIR_MS;
    beacons_forwarded += bytes[0] == BRAIDLARK_TYPE_BEACON && own != MANAGER;
    frames_relayed += bytes[0] == BRAIDLARK_TYPE_DATA && (bytes[1] | bytes[2] << 8) != own;
    for (struct unit *unit = units; unit < units + UNITS; unit++) {
        if (!unit->powered || !linked(sender, unit) || (to != BRAIDLARK_EVERY_UNIT && to != unit->address))
            continue;
        expect(unit->received_count < MOST_RECEIVED, "a unit takes what it received before more comes");
        struct packet *packet = &unit->received[unit->received_count++ % MOST_RECEIVED];
        packet->length = length;
        memcpy(packet->bytes, bytes, length);
    }
}

const uint8_t *flash_read(uint16_t own, uint32_t *length)
{
    *length = unit_of(own)->image_length;
    return unit_of(own)->image;
}

void flash_write(uint16_t own, const uint8_t *image, uint32_t length)
{
    struct unit *unit = unit_of(own);
    memcpy(unit->image, image, length);
    unit->image_length = length;
    unit->image_writes++;
}

void valve_turn(uint16_t own, uint8_t setting)
{
    unit_of(own)->setting = setting;
    unit_of(own)->orders++;
}

/* One turn of a unit's main loop. */
static void run(struct unit *unit)
{
    for (int each = 0; each < unit->received_count; each++)
        node_hear(&unit->node, unit->received[each].bytes, unit->received[each].length, LINK_QUALITY);
    unit->received_count = 0;
    node_poll(&unit->node);
}

/* The grower's order, if the office has a way to the valve. */
static void give_order(void)
{
    const uint8_t payload[] = {ORDER, (uint8_t)(orders_given + 1)};
    struct unit *office = &units[OFFICE];
    if (office->powered && office->node.manages &&
        node_send(&office->node, units[VALVE].address, payload, sizeof payload))
        orders_given++;
}

static void turn_power(struct unit *unit, bool on)
{
    unit->powered = on;
    unit->told = false;
    unit->received_count = 0;
    if (on)
        node_power_on(&unit->node, unit->address);
}

/* Says when a unit has begun to manage or has joined, and in which slots it sends. */
static void watch(struct unit *unit)
{
    if (unit->told || !unit->powered || !node_may_send(&unit->node))
        return;
    unit->told = true;
    printf("node: after %3u s the %s %s, with slots", (unsigned)(play_ms / 1000), unit->name,
           unit->node.manages ? "manages" : "has joined");
    for (int slot = 0; slot < BRAIDLARK_MOST_SLOTS; slot++)
        if (unit->node.own_slots[slot])
            printf(" %d", slot);
    printf("\n");
}

/* Everybody has its place, every clock is as right as the guard time asks, and no slot is held twice. */
static void check_site(void)
{
    int holders[BRAIDLARK_MOST_SLOTS] = {0};
    for (struct unit *unit = units; unit < units + UNITS; unit++) {
        bool is_office = unit == &units[OFFICE];
        uint32_t ahead = node_network_time(&unit->node) - node_network_time(&units[OFFICE].node);
        expect(unit->node.state[0] == (is_office ? BRAIDLARK_MANAGER : BRAIDLARK_NORMAL), "all are in their states");
        expect(unit->node.member, "all are members");
        expect(ahead <= CLOCKS_DIFFER || -ahead <= CLOCKS_DIFFER, "the clocks agree");
        for (int slot = 0; slot < BRAIDLARK_MOST_SLOTS; slot++)
            expect((holders[slot] += unit->node.own_slots[slot]) <= 1, "a slot has one holder");
    }
}

/* The office forgets everything but its image and its clock. */
static void cut_power(void)
{
    check_site();
    for (struct unit *unit = units; unit < units + UNITS; unit++)
        memcpy(unit->slots_before, unit->node.own_slots, sizeof unit->slots_before);
    writes_before = units[OFFICE].image_writes;
    expect(writes_before > 0, "the book is in flash");
    turn_power(&units[OFFICE], false);
    printf("node: after %3u s the office loses its power; %u bytes of its book are in flash, written %u times\n",
           (unsigned)(play_ms / 1000), (unsigned)units[OFFICE].image_length, (unsigned)units[OFFICE].image_writes);
}

static void check_end(void)
{
    check_site();
    for (struct unit *unit = units; unit < units + UNITS; unit++)
        expect(memcmp(unit->slots_before, unit->node.own_slots, sizeof unit->slots_before) == 0,
               "all hold the slots of before the power cut");
    expect(units[OFFICE].image_writes == writes_before, "the restored book is the stored one, and stays so");
    expect(orders_given >= 20, "most orders could be given");
    expect(units[VALVE].orders == orders_given && units[VALVE].setting == orders_given, "each order arrived");
    expect(frames_relayed > orders_given && beacons_forwarded > 0, "orders and beacons were passed on");
    printf("node: after %3u s %u of %u orders have arrived; %u data frames and %u beacons were passed on\n",
           (unsigned)(play_ms / 1000), (unsigned)units[VALVE].orders, (unsigned)orders_given, (unsigned)frames_relayed,
           (unsigned)beacons_forwarded);
}

int main(void)
{
    for (int unit = OFFICE; unit < UNITS; unit++)
        turn_power(&units[unit], true);
    for (play_ms = 0; play_ms < END; play_ms += STEP_MS) {
        if (play_ms == POWER_FAILS)
            cut_power();
        if (play_ms == POWER_RETURNS)
            turn_power(&units[OFFICE], true);
        if (play_ms >= ORDERS_BEGIN && play_ms < ORDERS_END && play_ms % ORDER_EVERY == 0)
            give_order();
        for (int unit = OFFICE; unit < UNITS; unit++) {
            if (units[unit].powered)
                run(&units[unit]);
            watch(&units[unit]);
        }
    }
    check_end();
    printf("node: %u of %u checks hold\n", (unsigned)(checks - failures), (unsigned)checks);
    return failures == 0 ? 0 : 1;
}
