/*
 * The units of a site: their addresses, their clocks, and their tables before anybody has spoken.
 */
#include "converge.h"

/* The unit with an address, or NOBODY. */
int units_find(const struct site *site, uint16_t address)
{
    for (int unit = 0; unit < site->graph.units; unit++) {
        if (site->units[unit].address == address) {
            return unit;
        }
    }
    return NOBODY;
}

/* An address that no unit of the site has. */
uint16_t units_strange_address(struct site *site)
{
    uint16_t address;
    do {
        uint32_t place = random_below(&site->random, BRAIDLARK_HIGHEST_ADDRESS - BRAIDLARK_LOWEST_ADDRESS + 1);
        address = (uint16_t)(BRAIDLARK_LOWEST_ADDRESS + place);
    } while (units_find(site, address) != NOBODY);
    return address;
}

/* The bytes of a fresh table are all the library's: whatever was in the memory before must not matter. */
static void make_table(struct site *site, struct unit *unit)
{
    for (size_t index = 0; index < sizeof unit->table; index++) {
        unit->table[index] = (uint8_t)random_below(&site->random, 256);
    }
    uint8_t status = braidlark_table_fresh(unit->table, sizeof unit->table, unit->address, unit->start);
    site->tally.calls++;
    if (status != BRAIDLARK_ACCEPTED) {
        differ(site, "the empty table of unit %04X: expected 0, answered %d", unit->address, status);
    }
}

/* A clock starts anywhere, or where it passes 2^32 within its window and begins again at 0. */
static uint32_t draw_start(uint64_t *random)
{
    bool begins_again = random_below(random, 2) > 0;
    return begins_again ? UINT32_MAX - random_below(random, WINDOW_MS) : random_below(random, UINT32_MAX);
}

void units_draw(struct site *site)
{
    for (int index = 0; index < site->graph.units; index++) {
        site->units[index].address = 0;
    }
    for (int index = 0; index < site->graph.units; index++) {
        struct unit *unit = &site->units[index];
        unit->address = units_strange_address(site);
        unit->start = draw_start(&site->random);
        unit->now = unit->start;
        make_table(site, unit);
    }
}

/* A unit's time for its next call, which is later or, often, the same as before. Each round has its share of the
 * window, so that there is time for all of them. */
uint32_t unit_tick(struct site *site, int unit)
{
    struct unit *self = &site->units[unit];
    uint32_t share_ends = self->start + (uint32_t)(WINDOW_MS * site->round / site->rounds);
    if (random_below(&site->random, 4) > 0) {
        self->now += random_below(&site->random, (share_ends - self->now) / 8 + 1);
    }
    return self->now;
}

/* For a call that changes nothing: any time that is left of the unit's window. Often that is its last moment, when
 * routes are as old as they may get. */
uint32_t unit_any_time(struct site *site, int unit)
{
    const struct unit *self = &site->units[unit];
    uint32_t left = self->start + WINDOW_MS - self->now;
    return self->now + (random_below(&site->random, 4) > 0 ? random_below(&site->random, left + 1) : left);
}
