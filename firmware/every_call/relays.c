/*
 * Data frames: passed on by a route that has time enough left, and taken by the unit that they are for.
 */
#include "every_call.h"

#include <string.h>

static void relay(const uint8_t *table)
{
    static const uint8_t payload[] = {21, 5};
    static const uint32_t data[BRAIDLARK_FIELDS_DATA] = {BRAIDLARK_TYPE_DATA, STRANGER, FAR_UNIT, 8, 77,
                                                         sizeof payload};
    uint8_t frame[BRAIDLARK_MOST_FRAME], out[BRAIDLARK_MOST_FRAME];
    uint32_t fields[BRAIDLARK_MOST_FIELDS], place = 1, length = 0, left = 0, written;
    uint16_t next_hop = 0;
    written = write_whole(data, BRAIDLARK_FIELDS_DATA, payload, sizeof payload, frame);
    EXPECT(written == BRAIDLARK_LENGTH_DATA + sizeof payload);
    EXPECT(braidlark_relay(table, BRAIDLARK_TABLE_SIZE, frame, written, NOW, 0, out, sizeof out, &next_hop, &place,
                           &length, &left) == BRAIDLARK_ACCEPTED);
    EXPECT(next_hop == MANAGER && place == 0 && length == written && left == BRAIDLARK_USABLE_MS);
    EXPECT(memcmp(out + read_whole(out, length, fields), payload, sizeof payload) == 0);
    EXPECT(fields[BRAIDLARK_FIELD_DATA_TTL] == 7 && fields[BRAIDLARK_FIELD_DATA_SEQUENCE] == 77);
}

/* The unit's own frame is sent by lookup and write. */
static void relay_own(const uint8_t *table)
{
    static const uint32_t data[BRAIDLARK_FIELDS_DATA] = {BRAIDLARK_TYPE_DATA, UNIT, FAR_UNIT, 8, 77, 0};
    uint8_t frame[BRAIDLARK_MOST_FRAME], out[BRAIDLARK_MOST_FRAME];
    uint32_t place = 0, length = 0, left = 0, written = write_whole(data, BRAIDLARK_FIELDS_DATA, NULL, 0, frame);
    uint16_t next_hop = 0;
    EXPECT(braidlark_relay(table, BRAIDLARK_TABLE_SIZE, frame, written, NOW, 0, out, sizeof out, &next_hop, &place,
                           &length, &left) == BRAIDLARK_OWN_UNIT);
}

/* What a relay answered; before, every byte is the same, so that it shows what was written. */
struct relayed {
    uint8_t out[BRAIDLARK_LENGTH_DATA];
    uint16_t next_hop;
    uint32_t place, length, left;
};

/* Relays a stranger's frame without payload. */
static uint8_t relay_empty(const uint8_t *table, uint32_t destination, uint32_t ttl, uint32_t time, uint32_t least_left,
                           size_t room, struct relayed *relayed)
{
    uint32_t data[BRAIDLARK_FIELDS_DATA] = {BRAIDLARK_TYPE_DATA, STRANGER, destination, ttl, 77, 0};
    uint8_t frame[BRAIDLARK_MOST_FRAME];
    uint32_t written = write_whole(data, BRAIDLARK_FIELDS_DATA, NULL, 0, frame);
    memset(relayed, 0xFF, sizeof *relayed);
    return braidlark_relay(table, BRAIDLARK_TABLE_SIZE, frame, written, time, least_left, relayed->out, room,
                           &relayed->next_hop, &relayed->place, &relayed->length, &relayed->left);
}

/* A route needs as much time left as is named, and may have just that. A ttl that is over is said before, and want of
 * room behind. The manager was heard of at the time handed in. */
void relay_in_time(const uint8_t *table, uint32_t heard)
{
    enum { ROOM = BRAIDLARK_LENGTH_DATA };
    static const struct {
        uint32_t ttl, age, least_left;
        uint8_t room, refusal;
    } cases[] = {
        {2, 0, 0, ROOM, BRAIDLARK_ACCEPTED},
        {2, 0, 300000, ROOM, BRAIDLARK_ACCEPTED},
        {2, 0, 300001, ROOM, BRAIDLARK_NO_ROUTE},
        {2, 0, LAST_MS, ROOM, BRAIDLARK_NO_ROUTE},
        {2, 200000, 100000, ROOM, BRAIDLARK_ACCEPTED},
        {2, 200000, 100001, ROOM, BRAIDLARK_NO_ROUTE},
        {2, 299999, 1, ROOM, BRAIDLARK_ACCEPTED},
        {2, 299999, 2, ROOM, BRAIDLARK_NO_ROUTE},
        {2, 300000, 0, ROOM, BRAIDLARK_ACCEPTED},
        {2, 300000, 1, ROOM, BRAIDLARK_NO_ROUTE},
        {2, 300001, 0, ROOM, BRAIDLARK_NO_ROUTE},
        {1, 200000, 100001, ROOM, BRAIDLARK_TTL_OVER},
        {1, 300001, LAST_MS, 0, BRAIDLARK_TTL_OVER},
        {2, 200000, 100001, ROOM - 1, BRAIDLARK_NO_ROUTE},
        {2, 200000, 100000, ROOM - 1, BRAIDLARK_NO_SPACE},
    };
    struct relayed relayed, untouched;
    size_t each;
    memset(&untouched, 0xFF, sizeof untouched);
    for (each = 0; each < sizeof cases / sizeof cases[0]; each++) {
        EXPECT(relay_empty(table, MANAGER, cases[each].ttl, heard + cases[each].age, cases[each].least_left,
                           cases[each].room, &relayed) == cases[each].refusal);
        if (cases[each].refusal != BRAIDLARK_ACCEPTED)
            EXPECT(memcmp(&relayed, &untouched, sizeof relayed) == 0);
        else
            EXPECT(relayed.next_hop == MANAGER && relayed.place == 0 && relayed.length == BRAIDLARK_LENGTH_DATA &&
                   relayed.left == BRAIDLARK_USABLE_MS - cases[each].age);
    }
}

/* A payload for the unit itself needs no route, and so no time: it is taken when all routes are over, too. */
void take_in_time(const uint8_t *table, uint32_t heard)
{
    static const uint32_t ages[] = {0, 300000, 300001}, least[] = {0, 1, 300000, 300001, LAST_MS};
    struct relayed relayed;
    size_t age, each;
    for (age = 0; age < sizeof ages / sizeof ages[0]; age++)
        for (each = 0; each < sizeof least / sizeof least[0]; each++) {
            EXPECT(relay_empty(table, UNIT, 0, heard + ages[age], least[each], 0, &relayed) == BRAIDLARK_ACCEPTED);
            EXPECT(relayed.next_hop == 0 && relayed.place == BRAIDLARK_LENGTH_DATA - 1 && relayed.length == 0);
            EXPECT(relayed.left == 0);
        }
}

void try_relays(const uint8_t *table)
{
    relay(table);
    relay_own(table);
    relay_in_time(table, NOW);
    take_in_time(table, NOW);
}
