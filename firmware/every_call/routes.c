/*
 * A unit's table of routes: learned from its neighbour's update, looked up, and forgotten.
 */
#include "every_call.h"

static uint32_t first_page(const uint8_t *table, uint8_t *frame)
{
    uint32_t written = 0;
    EXPECT(braidlark_page(table, BRAIDLARK_TABLE_SIZE, 0, NOW, frame, BRAIDLARK_MOST_FRAME, &written) ==
           BRAIDLARK_ACCEPTED);
    return written;
}

static void hear_update(uint8_t *table, const uint8_t *frame, uint32_t length)
{
    uint8_t skipped = 1;
    uint16_t compared = 1;
    EXPECT(braidlark_merge(table, BRAIDLARK_TABLE_SIZE, frame, length, QUALITY, NOW, &skipped, &compared) ==
           BRAIDLARK_ACCEPTED);
    EXPECT(skipped == 0);
}

/* The update's one entry, then the end: it says how far the far unit is from the manager. */
static void walk_entries(const uint8_t *update, uint32_t length)
{
    uint32_t entry[BRAIDLARK_FIELDS_ENTRY], next = 0;
    EXPECT(braidlark_entry(update, length, 0, entry, BRAIDLARK_FIELDS_ENTRY, &next) == BRAIDLARK_ACCEPTED);
    EXPECT(entry[BRAIDLARK_FIELD_ENTRY_DESTINATION] == FAR_UNIT && entry[BRAIDLARK_FIELD_ENTRY_HOPS] == 1);
    EXPECT(entry[BRAIDLARK_FIELD_ENTRY_QUALITY] == QUALITY && entry[BRAIDLARK_FIELD_ENTRY_NEXT_HOP] == FAR_UNIT);
    EXPECT(entry[BRAIDLARK_FIELD_ENTRY_TIMESTAMP] == NOW && next == 1);
    EXPECT(braidlark_entry(update, length, next, entry, BRAIDLARK_FIELDS_ENTRY, &next) == BRAIDLARK_ACCEPTED);
    EXPECT(next == 0);
}

/* The far unit tells the manager of itself, the manager tells the unit of both. */
static void learn_routes(uint8_t *table)
{
    uint8_t far_table[BRAIDLARK_TABLE_SIZE], manager_table[BRAIDLARK_TABLE_SIZE], update[BRAIDLARK_MOST_FRAME];
    uint32_t fields[BRAIDLARK_MOST_FIELDS], length;
    EXPECT(braidlark_table_fresh(far_table, sizeof far_table, FAR_UNIT, NOW) == BRAIDLARK_ACCEPTED);
    EXPECT(braidlark_table_fresh(manager_table, sizeof manager_table, MANAGER, NOW) == BRAIDLARK_ACCEPTED);
    EXPECT(braidlark_table_fresh(table, BRAIDLARK_TABLE_SIZE, UNIT, NOW) == BRAIDLARK_ACCEPTED);
    length = first_page(far_table, update);
    EXPECT(length == BRAIDLARK_LENGTH_UPDATE);
    hear_update(manager_table, update, length);
    length = first_page(manager_table, update);
    EXPECT(length == BRAIDLARK_LENGTH_UPDATE + BRAIDLARK_ENTRY_SIZE);
    EXPECT(read_whole(update, length, fields) == BRAIDLARK_LENGTH_UPDATE - 1);
    EXPECT(fields[BRAIDLARK_FIELD_UPDATE_ORIGIN] == MANAGER && fields[BRAIDLARK_FIELD_UPDATE_COUNT] == 1);
    walk_entries(update, length);
    hear_update(table, update, length);
}

/* A route by the manager that was heard of at a time is used up to its greatest age, and says what it has left. Before
 * that time and past that age nothing is written. */
void look_up(const uint8_t *table, uint16_t destination, uint8_t expected_hops, uint32_t heard)
{
    static const struct {
        uint32_t age, left;
    } cases[] = {{0, 300000}, {1, 299999}, {299999, 1}, {300000, 0}};
    uint16_t next_hop = 0;
    uint8_t hops = 0;
    uint32_t left = LAST_MS;
    size_t each;
    EXPECT(braidlark_lookup(table, BRAIDLARK_TABLE_SIZE, destination, heard - 1, &next_hop, &hops, &left) ==
           BRAIDLARK_TOO_EARLY);
    EXPECT(braidlark_lookup(table, BRAIDLARK_TABLE_SIZE, destination, heard + BRAIDLARK_USABLE_MS + 1, &next_hop, &hops,
                            &left) == BRAIDLARK_NO_ROUTE);
    EXPECT(next_hop == 0 && hops == 0 && left == LAST_MS);
    for (each = 0; each < sizeof cases / sizeof cases[0]; each++) {
        EXPECT(braidlark_lookup(table, BRAIDLARK_TABLE_SIZE, destination, heard + cases[each].age, &next_hop, &hops,
                                &left) == BRAIDLARK_ACCEPTED);
        EXPECT(next_hop == MANAGER && hops == expected_hops && left == cases[each].left);
    }
}

static void forget(uint8_t *table)
{
    uint16_t next_hop = 0;
    uint8_t hops = 0;
    uint32_t left = LAST_MS;
    EXPECT(braidlark_forget(table, BRAIDLARK_TABLE_SIZE, MANAGER, NOW) == BRAIDLARK_ACCEPTED);
    EXPECT(braidlark_lookup(table, BRAIDLARK_TABLE_SIZE, FAR_UNIT, NOW, &next_hop, &hops, &left) == BRAIDLARK_NO_ROUTE);
    EXPECT(next_hop == 0 && hops == 0 && left == LAST_MS);
}

void try_routes(void)
{
    uint8_t table[BRAIDLARK_TABLE_SIZE];
    learn_routes(table);
    look_up(table, FAR_UNIT, 2, NOW);
    try_relays(table);
    try_beacons(table);
    forget(table);
}
