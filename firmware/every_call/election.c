/*
 * An election: its message as a frame, and the winner that makes its own book.
 */
#include "poll.h"

#include <string.h>

/* What was written is read as the same numbers. */
static void write_and_read_election(void)
{
    static const uint8_t expected[BRAIDLARK_LENGTH_ELECTION] = {0x26, 0x01, 0x02, 0x46, 0x63};
    static const struct message messages[] = {
        {BRAIDLARK_HIGHEST_ADDRESS, 0}, {BRAIDLARK_LOWEST_ADDRESS, 255}, {UNIT, PRIORITY}};
    uint8_t frame[BRAIDLARK_MOST_FRAME];
    uint32_t fields[BRAIDLARK_MOST_FIELDS];
    size_t each;
    for (each = 0; each < sizeof messages / sizeof messages[0]; each++) {
        EXPECT(write_election(frame, messages[each]) == BRAIDLARK_LENGTH_ELECTION);
        read_whole(frame, BRAIDLARK_LENGTH_ELECTION, fields);
        EXPECT(fields[BRAIDLARK_FIELD_TYPE] == BRAIDLARK_TYPE_ELECTION);
        EXPECT(fields[BRAIDLARK_FIELD_ELECTION_NODE] == messages[each].unit);
        EXPECT(fields[BRAIDLARK_FIELD_ELECTION_PRIORITY] == messages[each].priority);
    }
    EXPECT(memcmp(frame, expected, sizeof expected) == 0);
}

/* A node is an address, a priority a byte, and nothing stands behind them. */
static void refuse_to_write_election(void)
{
    static const struct {
        uint32_t node, priority;
        size_t part_length, room;
        uint8_t refusal;
    } cases[] = {
        {0, 256, 1, 0, BRAIDLARK_BAD_LENGTH},
        {0, 0, 0, 0, BRAIDLARK_BAD_FIELD},
        {BRAIDLARK_EVERY_UNIT, 0, 0, 0, BRAIDLARK_BAD_FIELD},
        {UNIT, 256, 0, 0, BRAIDLARK_BAD_FIELD},
        {UNIT, 255, 0, BRAIDLARK_LENGTH_ELECTION - 1, BRAIDLARK_NO_SPACE},
    };
    static const uint8_t part[1] = {0};
    uint8_t frame[BRAIDLARK_LENGTH_ELECTION];
    uint32_t written = 1;
    size_t each;
    for (each = 0; each < sizeof cases / sizeof cases[0]; each++) {
        uint32_t fields[BRAIDLARK_FIELDS_ELECTION] = {BRAIDLARK_TYPE_ELECTION, cases[each].node, cases[each].priority};
        EXPECT(braidlark_write(fields, BRAIDLARK_FIELDS_ELECTION, part, cases[each].part_length, frame,
                               cases[each].room, &written) == cases[each].refusal);
    }
    EXPECT(written == 1);
}

/* Its book knows nobody but itself, the lost manager least of all: members join anew. */
static void manage_anew(uint16_t winner)
{
    static const uint32_t request[BRAIDLARK_FIELDS_JOIN_REQUEST] = {BRAIDLARK_TYPE_JOIN_REQUEST, FAR_UNIT, 0, NETWORK,
                                                                    1};
    uint8_t plan[BRAIDLARK_PLAN_SIZE], book[BRAIDLARK_BOOK_SIZE], frame[BRAIDLARK_MOST_FRAME];
    uint8_t out[BRAIDLARK_RESPONSES_SIZE];
    uint32_t length = write_whole(request, BRAIDLARK_FIELDS_JOIN_REQUEST, NULL, 0, frame), written = 0;
    EXPECT(braidlark_plan(plan, sizeof plan, NETWORK, winner, MAX_HOPS, ROWS, DATA_SLOTS, SLOT_MS, LONG_BEACONS) ==
           BRAIDLARK_ACCEPTED);
    EXPECT(braidlark_book_fresh(book, sizeof book, plan, sizeof plan, NOW) == BRAIDLARK_ACCEPTED);
    EXPECT(braidlark_heard(book, sizeof book, winner, NOW) == BRAIDLARK_ACCEPTED);
    EXPECT(braidlark_heard(book, sizeof book, MANAGER, NOW) == BRAIDLARK_NO_MEMBER);
    EXPECT(braidlark_heard(book, sizeof book, FAR_UNIT, NOW) == BRAIDLARK_NO_MEMBER);
    EXPECT(braidlark_join(book, sizeof book, frame, length, NOW, out, sizeof out, &written) == BRAIDLARK_ACCEPTED);
    EXPECT(written == 2 * BRAIDLARK_LENGTH_JOIN_RESPONSE);
    EXPECT(braidlark_heard(book, sizeof book, FAR_UNIT, NOW) == BRAIDLARK_ACCEPTED);
}

/* A unit that finds itself the winner makes its plan and its book. */
static void take_over(void)
{
    static const struct message own = {NEAR_UNIT, PRIORITY}, unit = {UNIT, 10}, far_one = {FAR_UNIT, PRIORITY};
    uint8_t poll[BRAIDLARK_POLL_SIZE];
    make_poll(poll, own);
    hear_election(poll, far_one, BRAIDLARK_ACCEPTED);
    hear_election(poll, unit, BRAIDLARK_ACCEPTED);
    expect_winner(poll, NEAR_UNIT);
    manage_anew(NEAR_UNIT);
}

void try_election(void)
{
    write_and_read_election();
    refuse_to_write_election();
    take_over();
}
