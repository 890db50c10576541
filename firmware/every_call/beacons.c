/*
 * The manager's beacons, long and short: a unit steps its clock by them and forwards them.
 */
#include "every_call.h"

#include <string.h>

uint32_t write_beacon(uint8_t *frame, uint32_t time)
{
    uint32_t fields[BRAIDLARK_FIELDS_BEACON] = {BRAIDLARK_TYPE_BEACON};
    fields[BRAIDLARK_FIELD_BEACON_DESTINATION] = BRAIDLARK_EVERY_UNIT;
    fields[BRAIDLARK_FIELD_BEACON_SOURCE] = MANAGER;
    fields[BRAIDLARK_FIELD_BEACON_SIZE] = BRAIDLARK_BEACON_BODY_SIZE;
    fields[BRAIDLARK_FIELD_BEACON_NETWORK] = NETWORK;
    fields[BRAIDLARK_FIELD_BEACON_SUPERFRAME_NUMBER] = 12;
    fields[BRAIDLARK_FIELD_BEACON_SUPERFRAME_MS] = SLOTS * SLOT_MS;
    fields[BRAIDLARK_FIELD_BEACON_TOTAL_SLOTS] = SLOTS;
    fields[BRAIDLARK_FIELD_BEACON_SLOT_MS] = SLOT_MS;
    fields[BRAIDLARK_FIELD_BEACON_ORIGINAL_SOURCE] = MANAGER;
    fields[BRAIDLARK_FIELD_BEACON_HOP] = 0;
    fields[BRAIDLARK_FIELD_BEACON_ORIGINAL_TIME] = time;
    fields[BRAIDLARK_FIELD_BEACON_DELAY] = 70;
    fields[BRAIDLARK_FIELD_BEACON_MAX_HOPS] = MAX_HOPS;
    fields[BRAIDLARK_FIELD_BEACON_SEQUENCE] = 9;
    return write_whole(fields, BRAIDLARK_FIELDS_BEACON, NULL, 0, frame);
}

static void hear_beacon(uint8_t *table)
{
    uint8_t frame[BRAIDLARK_MOST_FRAME], out[BRAIDLARK_LENGTH_BEACON];
    uint32_t fields[BRAIDLARK_MOST_FIELDS], written = 0, length = write_beacon(frame, NOW), offset = 0;
    EXPECT(length == BRAIDLARK_LENGTH_BEACON);
    EXPECT(braidlark_clock_step(&offset, NOW, NETWORK, frame, length) == BRAIDLARK_ACCEPTED);
    EXPECT(offset == 35); /* 70 ms behind the network: half of that is made good */
    EXPECT(braidlark_forward(table, BRAIDLARK_TABLE_SIZE, NETWORK, 0, frame, length, 30, NOW, out, sizeof out,
                             &written) == BRAIDLARK_BAD_FIELD);
    EXPECT(braidlark_forward(table, BRAIDLARK_TABLE_SIZE, NETWORK, MANAGER, frame, length, 0xFFFFFFFFu - 69, NOW, out,
                             sizeof out, &written) == BRAIDLARK_BAD_FIELD);
    EXPECT(written == 0);
    EXPECT(braidlark_forward(table, BRAIDLARK_TABLE_SIZE, NETWORK, FAR_UNIT, frame, length, 30, NOW, out, sizeof out,
                             &written) == BRAIDLARK_ACCEPTED); /* it says itself whose it was */
    EXPECT(written == BRAIDLARK_LENGTH_BEACON);
    read_whole(out, sizeof out, fields);
    EXPECT(fields[BRAIDLARK_FIELD_TYPE] == BRAIDLARK_TYPE_BEACON);
    EXPECT(fields[BRAIDLARK_FIELD_BEACON_SOURCE] == UNIT && fields[BRAIDLARK_FIELD_BEACON_HOP] == 1);
    EXPECT(fields[BRAIDLARK_FIELD_BEACON_ORIGINAL_SOURCE] == MANAGER && fields[BRAIDLARK_FIELD_BEACON_DELAY] == 100);
    EXPECT(braidlark_forward(table, BRAIDLARK_TABLE_SIZE, NETWORK, MANAGER, frame, length, 30, NOW, out, sizeof out,
                             &written) == BRAIDLARK_NOT_OURS);
}

uint32_t write_short_beacon(uint8_t *frame, uint32_t time, uint32_t sequence)
{
    uint32_t fields[BRAIDLARK_FIELDS_SHORT_BEACON] = {BRAIDLARK_TYPE_SHORT_BEACON};
    fields[BRAIDLARK_FIELD_SHORT_BEACON_SOURCE] = MANAGER;
    fields[BRAIDLARK_FIELD_SHORT_BEACON_NETWORK] = NETWORK;
    fields[BRAIDLARK_FIELD_SHORT_BEACON_TOTAL_SLOTS] = SLOTS;
    fields[BRAIDLARK_FIELD_SHORT_BEACON_SLOT_MS] = SLOT_MS;
    fields[BRAIDLARK_FIELD_SHORT_BEACON_HOP] = 0;
    fields[BRAIDLARK_FIELD_SHORT_BEACON_ORIGINAL_TIME] = time;
    fields[BRAIDLARK_FIELD_SHORT_BEACON_DELAY] = 70;
    fields[BRAIDLARK_FIELD_SHORT_BEACON_MAX_HOPS] = MAX_HOPS;
    fields[BRAIDLARK_FIELD_SHORT_BEACON_SEQUENCE] = sequence;
    return write_whole(fields, BRAIDLARK_FIELDS_SHORT_BEACON, NULL, 0, frame);
}

/* It goes by the manager handed in, is not forwarded again as the other kind, and has 16 bits for its delay. */
static void refuse_short_beacon(uint8_t *table)
{
    static const struct {
        uint32_t sequence, delay;
        uint16_t manager;
        uint8_t room, refusal;
    } cases[] = {
        {10, 30, 0, BRAIDLARK_LENGTH_SHORT_BEACON, BRAIDLARK_BAD_FIELD},
        {10, 30, BRAIDLARK_EVERY_UNIT, BRAIDLARK_LENGTH_SHORT_BEACON, BRAIDLARK_BAD_FIELD},
        {10, 30, UNIT, BRAIDLARK_LENGTH_SHORT_BEACON, BRAIDLARK_NO_ROUTE},
        {10, 30, STRANGER, BRAIDLARK_LENGTH_SHORT_BEACON, BRAIDLARK_NO_ROUTE},
        {10, 30, FAR_UNIT, BRAIDLARK_LENGTH_SHORT_BEACON, BRAIDLARK_NOT_OURS},
        {9, 30, MANAGER, BRAIDLARK_LENGTH_SHORT_BEACON, BRAIDLARK_NOT_OURS},
        {10, 65536 - 70, MANAGER, 0, BRAIDLARK_BAD_FIELD},
        {10, 65535 - 70, MANAGER, BRAIDLARK_LENGTH_SHORT_BEACON - 1, BRAIDLARK_NO_SPACE},
    };
    uint8_t frame[BRAIDLARK_MOST_FRAME], out[BRAIDLARK_LENGTH_SHORT_BEACON], before[BRAIDLARK_TABLE_SIZE];
    uint32_t written = 1;
    size_t each;
    memcpy(before, table, sizeof before);
    for (each = 0; each < sizeof cases / sizeof cases[0]; each++) {
        uint32_t length = write_short_beacon(frame, NOW, cases[each].sequence);
        EXPECT(braidlark_forward(table, BRAIDLARK_TABLE_SIZE, NETWORK, cases[each].manager, frame, length,
                                 cases[each].delay, NOW, out, cases[each].room, &written) == cases[each].refusal);
    }
    EXPECT(written == 1 && memcmp(before, table, sizeof before) == 0);
}

static void hear_short_beacon(uint8_t *table)
{
    static const uint32_t numbers[BRAIDLARK_FIELDS_SHORT_BEACON] = {
        BRAIDLARK_TYPE_SHORT_BEACON, UNIT, NETWORK, SLOTS, SLOT_MS, 1, NOW, 65535, MAX_HOPS, 10};
    uint8_t frame[BRAIDLARK_MOST_FRAME], out[BRAIDLARK_LENGTH_SHORT_BEACON], skipped = 1;
    uint16_t compared = 1;
    uint32_t fields[BRAIDLARK_MOST_FIELDS], written = 0, length = write_short_beacon(frame, NOW, 10), offset = 0;
    EXPECT(length == BRAIDLARK_LENGTH_SHORT_BEACON);
    EXPECT(braidlark_clock_step(&offset, NOW, NETWORK, frame, length) == BRAIDLARK_ACCEPTED);
    EXPECT(offset == 35);
    EXPECT(braidlark_merge(table, BRAIDLARK_TABLE_SIZE, frame, length, QUALITY, NOW, &skipped, &compared) ==
           BRAIDLARK_BAD_TYPE);
    EXPECT(braidlark_forward(table, BRAIDLARK_TABLE_SIZE, NETWORK, MANAGER, frame, length, 65535 - 70, NOW, out,
                             sizeof out, &written) == BRAIDLARK_ACCEPTED);
    EXPECT(written == BRAIDLARK_LENGTH_SHORT_BEACON);
    read_whole(out, sizeof out, fields);
    EXPECT(memcmp(fields, numbers, sizeof numbers) == 0);
    EXPECT(braidlark_forward(table, BRAIDLARK_TABLE_SIZE, NETWORK, MANAGER, frame, length, 30, NOW, out, sizeof out,
                             &written) == BRAIDLARK_NOT_OURS);
}

void try_beacons(uint8_t *table)
{
    hear_beacon(table);
    refuse_short_beacon(table);
    hear_short_beacon(table);
}
