/*
 * A manager's plan and the book of it, from a fresh one to the unit that leaves.
 */
#include "every_call.h"

#include <string.h>

/* Four beacon slots, four of control, six of data and two of discovery; then sleep. */
static void tell_numbers(const uint8_t *plan)
{
    static const uint8_t nothing[BRAIDLARK_PLAN_SIZE] = {0};
    uint32_t numbers[BRAIDLARK_FIELDS_PLAN];
    EXPECT(braidlark_plan_numbers(nothing, sizeof nothing, numbers, 0) == BRAIDLARK_OUT_OF_RULE);
    EXPECT(braidlark_plan_numbers(plan, BRAIDLARK_PLAN_SIZE, numbers, BRAIDLARK_FIELDS_PLAN - 1) == BRAIDLARK_NO_SPACE);
    EXPECT(braidlark_plan_numbers(plan, BRAIDLARK_PLAN_SIZE, numbers, BRAIDLARK_FIELDS_PLAN) == BRAIDLARK_ACCEPTED);
    EXPECT(numbers[BRAIDLARK_FIELD_PLAN_ACTIVE] == 16 && numbers[BRAIDLARK_FIELD_PLAN_SLOTS] == SLOTS);
    EXPECT(numbers[BRAIDLARK_FIELD_PLAN_SUPERFRAME_MS] == SLOTS * SLOT_MS);
    EXPECT(numbers[BRAIDLARK_FIELD_PLAN_CONTROL_AT] == 4 && numbers[BRAIDLARK_FIELD_PLAN_DATA_AT] == 8);
    EXPECT(numbers[BRAIDLARK_FIELD_PLAN_DISCOVERY_AT] == 14 && numbers[BRAIDLARK_FIELD_PLAN_SLEEP_AT] == 16);
}

static uint8_t plan_with(uint8_t *plan, uint32_t rows, uint32_t slot_ms, uint32_t beacon)
{
    return braidlark_plan(plan, BRAIDLARK_PLAN_SIZE, NETWORK, MANAGER, MAX_HOPS, rows, DATA_SLOTS, slot_ms, beacon);
}

/* There are two kinds of beacons. With the short one only the slot itself is bounded, not the superframe. */
static void choose_beacons(void)
{
    static const uint32_t no_kinds[] = {0, LONG_BEACONS - 1, SHORT_BEACONS + 1, 256 + LONG_BEACONS,
                                        256 + SHORT_BEACONS};
    uint8_t plan[BRAIDLARK_PLAN_SIZE];
    size_t each;
    for (each = 0; each < sizeof no_kinds / sizeof no_kinds[0]; each++)
        EXPECT(plan_with(plan, ROWS, SLOT_MS, no_kinds[each]) == BRAIDLARK_OUT_OF_RULE);
    EXPECT(plan_with(plan, ROWS, 1214, SHORT_BEACONS) == BRAIDLARK_ACCEPTED);
    EXPECT(plan[BRAIDLARK_PLAN_SIZE - 1] == SHORT_BEACONS);
    EXPECT(plan_with(plan, ROWS, BRAIDLARK_LONGEST_SLOT_MS, SHORT_BEACONS) == BRAIDLARK_ACCEPTED);
    EXPECT(plan_with(plan, ROWS, BRAIDLARK_LONGEST_SLOT_MS + 1, SHORT_BEACONS) == BRAIDLARK_OUT_OF_RULE);
    EXPECT(plan_with(plan, ROWS, 0, SHORT_BEACONS) == BRAIDLARK_OUT_OF_RULE);
}

static void make_book(uint8_t *book)
{
    static const uint8_t expected[BRAIDLARK_PLAN_SIZE] = {0x01, 0x00, 0x00, 0x01, 0x03, 0x04, 0x06, 0xE8, 0x03, 0x46};
    uint8_t plan[BRAIDLARK_PLAN_SIZE];
    EXPECT(plan_with(plan, ROWS, 1214, LONG_BEACONS) == BRAIDLARK_OUT_OF_RULE);
    EXPECT(plan_with(plan, 256 + ROWS, SLOT_MS, LONG_BEACONS) == BRAIDLARK_OUT_OF_RULE);
    EXPECT(plan_with(plan, ROWS, 65536 + SLOT_MS, LONG_BEACONS) == BRAIDLARK_OUT_OF_RULE);
    EXPECT(plan_with(plan, ROWS, SLOT_MS, LONG_BEACONS) == BRAIDLARK_ACCEPTED);
    EXPECT(memcmp(plan, expected, sizeof plan) == 0);
    tell_numbers(plan);
    EXPECT(braidlark_book_fresh(book, BRAIDLARK_BOOK_SIZE, plan, sizeof plan, NOW) == BRAIDLARK_ACCEPTED);
}

static void schedule(const uint8_t *book)
{
    uint8_t kinds[BRAIDLARK_MOST_SLOTS];
    uint32_t written = 0;
    EXPECT(braidlark_schedule(book, BRAIDLARK_BOOK_SIZE, UNIT, 1, NOW, kinds, sizeof kinds, &written) ==
           BRAIDLARK_ACCEPTED);
    EXPECT(written == SLOTS);
    EXPECT(kinds[0] == BRAIDLARK_SLOT_BEACON_RX && kinds[1] == BRAIDLARK_SLOT_BEACON_TX);
    EXPECT(kinds[4] == BRAIDLARK_SLOT_CONTROL_RX && kinds[5] == BRAIDLARK_SLOT_CONTROL_TX);
    EXPECT(kinds[8] == BRAIDLARK_SLOT_RX && kinds[9] == BRAIDLARK_SLOT_TX && kinds[10] == BRAIDLARK_SLOT_TX);
    EXPECT(kinds[11] == BRAIDLARK_SLOT_RX && kinds[14] == BRAIDLARK_SLOT_DISCOVERY_RX &&
           kinds[53] == BRAIDLARK_SLOT_SLEEP);
    EXPECT(braidlark_schedule(book, BRAIDLARK_BOOK_SIZE, UNIT, 256 + 1, NOW, kinds, sizeof kinds, &written) ==
           BRAIDLARK_OUT_OF_RULE);
    EXPECT(braidlark_schedule(book, BRAIDLARK_BOOK_SIZE, MANAGER, 256, NOW, kinds, sizeof kinds, &written) ==
           BRAIDLARK_OUT_OF_RULE);
}

static void leave(uint8_t *book)
{
    EXPECT(braidlark_leave(book, BRAIDLARK_BOOK_SIZE, UNIT, NOW + 1) == BRAIDLARK_ACCEPTED);
    EXPECT(braidlark_leave(book, BRAIDLARK_BOOK_SIZE, UNIT, NOW + 1) == BRAIDLARK_NO_MEMBER);
}

void try_book(void)
{
    uint8_t book[BRAIDLARK_BOOK_SIZE];
    choose_beacons();
    make_book(book);
    try_requests(book);
    schedule(book);
    try_image(book);
    leave(book);
}
