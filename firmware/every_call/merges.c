/*
 * The rows that a merge compares with the entries of an update.
 */
#include "every_call.h"

#include <string.h>

enum { ONE_ENTRY = BRAIDLARK_LENGTH_UPDATE + BRAIDLARK_ENTRY_SIZE };

/* What differs between entries; their quality and their timestamp do not. */
struct offer {
    uint32_t destination, hops, next_hop;
};

static uint32_t write_update(uint8_t *frame, uint32_t origin, const struct offer *offers, uint32_t count)
{
    uint32_t fields[BRAIDLARK_FIELDS_UPDATE] = {BRAIDLARK_TYPE_UPDATE, origin, count, NOW}, each;
    uint8_t entries[BRAIDLARK_MOST_ENTRIES * BRAIDLARK_ENTRY_SIZE] = {0};
    for (each = 0; each < count; each++) {
        uint8_t *entry = entries + each * BRAIDLARK_ENTRY_SIZE;
        entry[0] = (uint8_t)offers[each].destination;
        entry[1] = (uint8_t)(offers[each].destination >> 8);
        entry[2] = (uint8_t)offers[each].hops;
        entry[3] = QUALITY;
        entry[4] = (uint8_t)offers[each].next_hop;
        entry[5] = (uint8_t)(offers[each].next_hop >> 8);
    }
    return write_whole(fields, BRAIDLARK_FIELDS_UPDATE, entries, count * BRAIDLARK_ENTRY_SIZE, frame);
}

static void expect_merge(uint8_t *table, uint32_t origin, const struct offer *offers, uint32_t count, uint32_t time,
                         uint8_t expected_skipped, uint16_t expected_compared)
{
    uint8_t frame[BRAIDLARK_MOST_FRAME], skipped = 0xFF;
    uint16_t compared = 0xFFFF;
    uint32_t length = write_update(frame, origin, offers, count);
    EXPECT(braidlark_merge(table, BRAIDLARK_TABLE_SIZE, frame, length, QUALITY, time, &skipped, &compared) ==
           BRAIDLARK_ACCEPTED);
    EXPECT(skipped == expected_skipped);
    EXPECT(compared == expected_compared);
}

/* Each update is merged into what the ones before it left. The manager is the lowest row: it counts 1, and the rest is
 * the entry's. Rows that are gone do not count. */
static void compare_few(void)
{
    static const struct {
        struct offer offer;
        uint16_t compared;
    } cases[] = {
        {{FAR_UNIT, 1, FAR_UNIT}, 1 + 1},                                     /* above all rows */
        {{NEAR_UNIT, 1, NEAR_UNIT}, 1 + 2},                                   /* between two */
        {{FAR_UNIT, 1, FAR_UNIT}, 1 + 3},                                     /* its own row */
        {{STRANGER, BRAIDLARK_UNREACHABLE, STRANGER}, 1 + 3},                 /* bad, and has no row */
        {{STRANGER, BRAIDLARK_MOST_ROUTE_HOPS, STRANGER}, 1 + 3},             /* bad by its hops */
        {{BRAIDLARK_LOWEST_ADDRESS, BRAIDLARK_UNREACHABLE, STRANGER}, 1 + 1}, /* bad, below all rows */
        {{NEAR_UNIT, BRAIDLARK_UNREACHABLE, STRANGER}, 1 + 2},                /* bad, and withdraws a row */
        {{UNIT, 1, STRANGER}, 1},                                             /* passed over, as the next three are */
        {{MANAGER, 1, STRANGER}, 1},
        {{STRANGER, 1, UNIT}, 1},
        {{NEAR_UNIT, BRAIDLARK_UNREACHABLE, UNIT}, 1},
    };
    uint8_t table[BRAIDLARK_TABLE_SIZE];
    size_t each;
    EXPECT(braidlark_table_fresh(table, sizeof table, UNIT, NOW) == BRAIDLARK_ACCEPTED);
    expect_merge(table, MANAGER, NULL, 0, NOW, 0, 0);
    expect_merge(table, MANAGER, NULL, 0, NOW, 0, 1);
    for (each = 0; each < sizeof cases / sizeof cases[0]; each++)
        expect_merge(table, MANAGER, &cases[each].offer, 1, NOW, 0, cases[each].compared);
    expect_merge(table, STRANGER, NULL, 0, NOW, 0, 3);
    expect_merge(table, STRANGER, NULL, 0, NOW + BRAIDLARK_STANDING_MS + 1, 0, 0);
}

/* Entries in ascending order, from a destination on. */
static void offer_many(struct offer *offers, uint32_t first, uint32_t hops)
{
    uint32_t each;
    for (each = 0; each < BRAIDLARK_MOST_ENTRIES; each++) {
        offers[each].destination = first + each;
        offers[each].hops = hops;
        offers[each].next_hop = STRANGER;
    }
}

/* While the table fills, each row that comes in is one more to pass for the next. */
static void compare_most(void)
{
    enum { ALL = BRAIDLARK_MOST_ENTRIES, LOW = 0x1000, HIGH = 0x2000 };
    struct offer offers[ALL];
    uint8_t table[BRAIDLARK_TABLE_SIZE];
    EXPECT(braidlark_table_fresh(table, sizeof table, UNIT, NOW) == BRAIDLARK_ACCEPTED);
    offer_many(offers, LOW, 1);
    expect_merge(table, MANAGER, offers, ALL, NOW, 0, 24 * 25 / 2);
    offer_many(offers, LOW + ALL, 1);
    expect_merge(table, MANAGER, offers, ALL - 1, NOW, 0, 1 + 23 * (25 + 47) / 2);
    expect_merge(table, MANAGER, &offers[ALL - 2], 1, NOW, 0, 1 + 48); /* the last row itself */
    offer_many(offers, HIGH + 1, 1);
    expect_merge(table, HIGH, offers, ALL, NOW, 25, BRAIDLARK_MOST_COMPARED);
    expect_merge(table, MANAGER, offers, ALL, NOW, 24, 1 + 24 * 48);
    offer_many(offers, HIGH + 1, BRAIDLARK_UNREACHABLE);
    expect_merge(table, HIGH, offers, ALL, NOW, 1, BRAIDLARK_MOST_COMPARED);
    offer_many(offers, BRAIDLARK_LOWEST_ADDRESS + 1, 1);
    expect_merge(table, BRAIDLARK_LOWEST_ADDRESS, offers, ALL, NOW, 25, 25); /* below all rows */
}

/* Refused in the order that the header gives: nothing is written, and nothing counted. A byte of the frame is changed,
 * and with it the checksum, which is an exclusive or, where that is not to be the flaw. */
static void compare_none(void)
{
    enum { ENTRY_AT = BRAIDLARK_LENGTH_UPDATE - 1, HOPS_AT = ENTRY_AT + 2 };
    static const struct {
        size_t table_length, frame_length;
        uint32_t origin, time;
        uint8_t place, change, sealed, quality, refusal;
    } cases[] = {
        {BRAIDLARK_TABLE_SIZE - 1, ONE_ENTRY, MANAGER, NOW, 0, 0, 1, QUALITY, BRAIDLARK_OUT_OF_RULE},
        {BRAIDLARK_TABLE_SIZE, 0, MANAGER, NOW, 0, 0, 1, QUALITY, BRAIDLARK_BAD_LENGTH},
        {BRAIDLARK_TABLE_SIZE, ONE_ENTRY, MANAGER, NOW, 0, 0x80, 1, QUALITY, BRAIDLARK_BAD_TYPE},
        {BRAIDLARK_TABLE_SIZE, ONE_ENTRY - 1, MANAGER, NOW, 0, 0, 1, QUALITY, BRAIDLARK_BAD_LENGTH},
        {BRAIDLARK_TABLE_SIZE, ONE_ENTRY, MANAGER, NOW, ENTRY_AT, 0x80, 0, QUALITY, BRAIDLARK_BAD_CHECKSUM},
        {BRAIDLARK_TABLE_SIZE, ONE_ENTRY, MANAGER, NOW, HOPS_AT, 0x80, 1, QUALITY, BRAIDLARK_BAD_FIELD},
        {BRAIDLARK_TABLE_SIZE, ONE_ENTRY, UNIT, NOW, 0, 0, 1, QUALITY, BRAIDLARK_OWN_UNIT},
        {BRAIDLARK_TABLE_SIZE, ONE_ENTRY, MANAGER, NOW - 1, 0, 0, 1, QUALITY, BRAIDLARK_TOO_EARLY},
        {BRAIDLARK_TABLE_SIZE, ONE_ENTRY, MANAGER, NOW, 0, 0, 1, BRAIDLARK_LOWEST_QUALITY - 1, BRAIDLARK_LOW_QUALITY},
    };
    static const struct offer offer = {FAR_UNIT, 1, FAR_UNIT};
    uint8_t table[BRAIDLARK_TABLE_SIZE], before[BRAIDLARK_TABLE_SIZE], frame[BRAIDLARK_MOST_FRAME], skipped = 0xFF;
    uint16_t compared = 0xFFFF;
    size_t each;
    EXPECT(braidlark_table_fresh(table, sizeof table, UNIT, NOW) == BRAIDLARK_ACCEPTED);
    expect_merge(table, MANAGER, NULL, 0, NOW, 0, 0);
    memcpy(before, table, sizeof before);
    for (each = 0; each < sizeof cases / sizeof cases[0]; each++) {
        EXPECT(write_update(frame, cases[each].origin, &offer, 1) == ONE_ENTRY);
        frame[cases[each].place] ^= cases[each].change;
        frame[ONE_ENTRY - 1] ^= cases[each].sealed ? cases[each].change : 0;
        EXPECT(braidlark_merge(table, cases[each].table_length, frame, cases[each].frame_length, cases[each].quality,
                               cases[each].time, &skipped, &compared) == cases[each].refusal);
        EXPECT(skipped == 0xFF && compared == 0xFFFF && memcmp(before, table, sizeof before) == 0);
    }
}

void try_merges(void)
{
    compare_few();
    compare_most();
    compare_none();
}
