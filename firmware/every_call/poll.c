/*
 * A unit's poll: who wins by what was heard, in any order.
 */
#include "poll.h"

#include <string.h>

uint32_t write_election(uint8_t *frame, struct message message)
{
    uint32_t fields[BRAIDLARK_FIELDS_ELECTION] = {BRAIDLARK_TYPE_ELECTION, message.unit, message.priority};
    return write_whole(fields, BRAIDLARK_FIELDS_ELECTION, NULL, 0, frame);
}

void make_poll(uint8_t *poll, struct message own)
{
    EXPECT(braidlark_poll_fresh(poll, BRAIDLARK_POLL_SIZE, own.unit, own.priority) == BRAIDLARK_ACCEPTED);
}

void hear_election(uint8_t *poll, struct message message, uint8_t refusal)
{
    uint8_t frame[BRAIDLARK_MOST_FRAME], before[BRAIDLARK_POLL_SIZE];
    uint32_t length = write_election(frame, message);
    memcpy(before, poll, sizeof before);
    EXPECT(braidlark_poll_hear(poll, BRAIDLARK_POLL_SIZE, frame, length) == refusal);
    if (refusal != BRAIDLARK_ACCEPTED)
        EXPECT(memcmp(before, poll, sizeof before) == 0);
}

void expect_winner(const uint8_t *poll, uint16_t expected)
{
    uint16_t winner = 0;
    EXPECT(braidlark_poll_winner(poll, BRAIDLARK_POLL_SIZE, &winner) == BRAIDLARK_ACCEPTED);
    EXPECT(winner == expected);
}

void put_message(uint8_t *poll, size_t place, struct message message)
{
    poll[place * MESSAGE_SIZE] = (uint8_t)message.unit;
    poll[place * MESSAGE_SIZE + 1] = (uint8_t)(message.unit >> 8);
    poll[place * MESSAGE_SIZE + 2] = message.priority;
}

int holds_message(const uint8_t *poll, size_t place, struct message message)
{
    uint8_t bytes[MESSAGE_SIZE];
    put_message(bytes, 0, message);
    return memcmp(poll + place * MESSAGE_SIZE, bytes, sizeof bytes) == 0;
}

/* Another length is said before a unit that is no address. What the bytes were does not matter. */
static void begin_poll(void)
{
    static const struct message own = {UNIT, PRIORITY};
    uint8_t poll[BRAIDLARK_POLL_SIZE + 1], before[BRAIDLARK_POLL_SIZE + 1];
    size_t each;
    memset(poll, 0xFF, sizeof poll);
    memcpy(before, poll, sizeof before);
    EXPECT(braidlark_poll_fresh(NULL, 0, UNIT, PRIORITY) == BRAIDLARK_OUT_OF_RULE);
    EXPECT(braidlark_poll_fresh(poll, BRAIDLARK_POLL_SIZE - 1, 0, PRIORITY) == BRAIDLARK_OUT_OF_RULE);
    EXPECT(braidlark_poll_fresh(poll, BRAIDLARK_POLL_SIZE + 1, UNIT, PRIORITY) == BRAIDLARK_OUT_OF_RULE);
    EXPECT(braidlark_poll_fresh(poll, BRAIDLARK_POLL_SIZE, 0, PRIORITY) == BRAIDLARK_BAD_FIELD);
    EXPECT(braidlark_poll_fresh(poll, BRAIDLARK_POLL_SIZE, BRAIDLARK_EVERY_UNIT, PRIORITY) == BRAIDLARK_BAD_FIELD);
    EXPECT(memcmp(before, poll, sizeof before) == 0);
    make_poll(poll, own);
    EXPECT(holds_message(poll, 0, own) && poll[BRAIDLARK_POLL_SIZE] == 0xFF);
    for (each = MESSAGE_SIZE; each < BRAIDLARK_POLL_SIZE; each++)
        EXPECT(poll[each] == 0);
    expect_winner(poll, UNIT);
}

/* The highest priority, then the lowest address, whichever of the two is the poll's own. */
static void rank_two(void)
{
    static const struct {
        struct message winner, other;
    } cases[] = {
        {{UNIT, 1}, {FAR_UNIT, 0}},     {{FAR_UNIT, 1}, {UNIT, 0}},     {{UNIT, 255}, {FAR_UNIT, 254}},
        {{FAR_UNIT, 255}, {UNIT, 127}}, {{UNIT, 128}, {FAR_UNIT, 127}}, {{FAR_UNIT, 128}, {UNIT, 127}},
        {{UNIT, 0}, {FAR_UNIT, 0}},     {{UNIT, 255}, {FAR_UNIT, 255}}, {{0x01FF, 70}, {0x0200, 70}},
    };
    uint8_t poll[BRAIDLARK_POLL_SIZE];
    size_t each;
    for (each = 0; each < sizeof cases / sizeof cases[0]; each++) {
        make_poll(poll, cases[each].winner);
        hear_election(poll, cases[each].other, BRAIDLARK_ACCEPTED);
        expect_winner(poll, cases[each].winner.unit);
        make_poll(poll, cases[each].other);
        expect_winner(poll, cases[each].other.unit);
        hear_election(poll, cases[each].winner, BRAIDLARK_ACCEPTED);
        expect_winner(poll, cases[each].winner.unit);
    }
}

/* A later message replaces the earlier one, up and down, and takes no place of its own. */
static void replace_messages(void)
{
    static const struct message own = {UNIT, PRIORITY}, low = {FAR_UNIT, 0}, high = {FAR_UNIT, PRIORITY + 1},
                                same = {FAR_UNIT, PRIORITY}, none = {0, 0};
    uint8_t poll[BRAIDLARK_POLL_SIZE];
    make_poll(poll, own);
    hear_election(poll, high, BRAIDLARK_ACCEPTED);
    expect_winner(poll, FAR_UNIT);
    hear_election(poll, low, BRAIDLARK_ACCEPTED);
    expect_winner(poll, UNIT);
    hear_election(poll, high, BRAIDLARK_ACCEPTED);
    expect_winner(poll, FAR_UNIT);
    hear_election(poll, same, BRAIDLARK_ACCEPTED);
    expect_winner(poll, UNIT);
    EXPECT(holds_message(poll, 0, own) && holds_message(poll, 1, same) && holds_message(poll, 2, none));
}

/* ---- three units hear the same messages in different orders */

enum { MESSAGES = 5, ORDERS = 1 * 2 * 3 * 4 * 5 };

/* The order with this number, one of all: each number's remainder names the next of those that are left. */
static void put_in_order(const struct message *messages, unsigned number, struct message *ordered)
{
    struct message left[MESSAGES];
    unsigned count;
    memcpy(left, messages, sizeof left);
    for (count = MESSAGES; count > 0; count--) {
        unsigned taken = number % count;
        number /= count;
        ordered[MESSAGES - count] = left[taken];
        left[taken] = left[count - 1];
    }
}

/* The stranger says two things, and its last one decides: it wins by the higher. Else two units are level, and the one
 * with the lower address wins. Each unit refuses its own message, which it knows already. */
static void agree_in_order(unsigned number)
{
    static const struct message messages[MESSAGES] = {
        {UNIT, 10}, {NEAR_UNIT, 70}, {FAR_UNIT, 70}, {STRANGER, 200}, {STRANGER, 5}};
    struct message ordered[MESSAGES];
    uint8_t poll[BRAIDLARK_POLL_SIZE];
    uint16_t winner = 0;
    size_t own, each;
    put_in_order(messages, number, ordered);
    for (each = 0; each < MESSAGES; each++)
        if (ordered[each].unit == STRANGER)
            winner = messages[ordered[each].priority == 200 ? 3 : 1].unit;
    for (own = 0; own < 3; own++) {
        make_poll(poll, messages[own]);
        for (each = 0; each < MESSAGES; each++)
            hear_election(poll, ordered[each],
                          ordered[each].unit == messages[own].unit ? BRAIDLARK_OWN_UNIT : BRAIDLARK_ACCEPTED);
        expect_winner(poll, winner);
    }
}

void try_poll(void)
{
    unsigned number;
    begin_poll();
    rank_two();
    replace_messages();
    for (number = 0; number < ORDERS; number++)
        agree_in_order(number);
}
