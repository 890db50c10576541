/*
 * What a poll refuses: a unit too many, frames that are no election message, and bytes that are no poll.
 */
#include "poll.h"

#include <string.h>

enum { LOWEST_POLLED = 0x1000, POLLED_STEP = 2 }; /* of 24 units, with room between for others */

static struct message polled(size_t place, uint8_t priority)
{
    struct message message = {(uint16_t)(LOWEST_POLLED + POLLED_STEP * place), priority};
    return message;
}

/* The unit's own poll with 24 others, heard neither up nor down; they stand ascending. */
static void fill_poll(uint8_t *poll)
{
    static const struct message own = {UNIT, PRIORITY};
    size_t each;
    make_poll(poll, own);
    for (each = 0; each < BRAIDLARK_MOST_POLLED; each++)
        hear_election(poll, polled(each * 7 % BRAIDLARK_MOST_POLLED, PRIORITY - 1), BRAIDLARK_ACCEPTED);
    EXPECT(holds_message(poll, 0, own));
    for (each = 0; each < BRAIDLARK_MOST_POLLED; each++)
        EXPECT(holds_message(poll, each + 1, polled(each, PRIORITY - 1)));
    expect_winner(poll, UNIT);
}

/* A 25th is refused wherever it would stand and whatever it says; each of the 24 is still heard. */
static void hear_one_too_many(void)
{
    static const struct message too_many[] = {
        {BRAIDLARK_LOWEST_ADDRESS, 255}, {LOWEST_POLLED + 1, 255}, {BRAIDLARK_HIGHEST_ADDRESS, 0}};
    static const struct message own = {UNIT, 255};
    uint8_t poll[BRAIDLARK_POLL_SIZE];
    size_t each;
    fill_poll(poll);
    for (each = 0; each < sizeof too_many / sizeof too_many[0]; each++)
        hear_election(poll, too_many[each], BRAIDLARK_FULL);
    hear_election(poll, own, BRAIDLARK_OWN_UNIT);
    expect_winner(poll, UNIT);
    for (each = BRAIDLARK_MOST_POLLED; each > 0; each--) {
        hear_election(poll, polled(each - 1, PRIORITY + 1), BRAIDLARK_ACCEPTED);
        EXPECT(holds_message(poll, each, polled(each - 1, PRIORITY + 1)));
        expect_winner(poll, polled(each - 1, 0).unit);
    }
    hear_election(poll, too_many[0], BRAIDLARK_FULL);
}

/* Refused in the order that the header gives: each frame has the flaws behind its own too, as far as it can, and the
 * poll is full. A poll of another length is said before all of them. */
static void refuse_elections(void)
{
    static const struct {
        uint8_t frame[BRAIDLARK_LENGTH_JOIN_REQUEST];
        size_t length;
        uint8_t refusal;
    } cases[] = {
        {{0}, 0, BRAIDLARK_BAD_LENGTH},
        {{0}, BRAIDLARK_MOST_FRAME + 1, BRAIDLARK_BAD_LENGTH},
        {{0x27, 0x00, 0x00, 0x46}, BRAIDLARK_LENGTH_ELECTION - 1, BRAIDLARK_BAD_TYPE},
        {{0x21, 0x01, 0x02, 0x00, 0x01, 0x00, 0x04, 0x27}, BRAIDLARK_LENGTH_JOIN_REQUEST, BRAIDLARK_BAD_TYPE},
        {{0x26, 0x00, 0x00, 0x46}, BRAIDLARK_LENGTH_ELECTION - 1, BRAIDLARK_BAD_LENGTH},
        {{0x26, 0x00, 0x00, 0x46}, BRAIDLARK_LENGTH_ELECTION + 1, BRAIDLARK_BAD_LENGTH},
        {{0x26, 0x00, 0x00, 0x46, 0x61}, BRAIDLARK_LENGTH_ELECTION, BRAIDLARK_BAD_CHECKSUM},
        {{0x26, 0x00, 0x00, 0x46, 0x60}, BRAIDLARK_LENGTH_ELECTION, BRAIDLARK_BAD_FIELD},
        {{0x26, 0xFF, 0xFF, 0x46, 0x60}, BRAIDLARK_LENGTH_ELECTION, BRAIDLARK_BAD_FIELD},
        {{0x26, 0x01, 0x02, 0x46, 0x63}, BRAIDLARK_LENGTH_ELECTION, BRAIDLARK_OWN_UNIT},
        {{0x26, 0x00, 0x04, 0x46, 0x64}, BRAIDLARK_LENGTH_ELECTION, BRAIDLARK_FULL},
    };
    uint8_t poll[BRAIDLARK_POLL_SIZE + 1] = {0}, before[BRAIDLARK_POLL_SIZE + 1], frame[BRAIDLARK_MOST_FRAME + 1] = {0};
    size_t each;
    fill_poll(poll);
    memcpy(before, poll, sizeof before);
    for (each = 0; each < sizeof cases / sizeof cases[0]; each++) {
        const uint8_t *heard = cases[each].length > 0 ? frame : NULL;
        memcpy(frame, cases[each].frame, sizeof cases[each].frame);
        EXPECT(braidlark_poll_hear(poll, BRAIDLARK_POLL_SIZE, heard, cases[each].length) == cases[each].refusal);
        EXPECT(braidlark_poll_hear(poll, BRAIDLARK_POLL_SIZE - 1, heard, cases[each].length) == BRAIDLARK_OUT_OF_RULE);
        EXPECT(braidlark_poll_hear(poll, BRAIDLARK_POLL_SIZE + 1, heard, cases[each].length) == BRAIDLARK_OUT_OF_RULE);
        EXPECT(braidlark_poll_hear(NULL, 0, heard, cases[each].length) == BRAIDLARK_OUT_OF_RULE);
        EXPECT(memcmp(before, poll, sizeof before) == 0);
    }
}

/* Bytes that are no poll: neither call changes anything. */
static void expect_no_poll(const uint8_t *bytes, size_t length)
{
    static const struct message message = {STRANGER, PRIORITY};
    uint8_t poll[BRAIDLARK_POLL_SIZE + 1], frame[BRAIDLARK_MOST_FRAME];
    uint32_t frame_length = write_election(frame, message);
    uint16_t winner = 0xABCD;
    memcpy(poll, bytes, sizeof poll);
    EXPECT(braidlark_poll_winner(poll, length, &winner) == BRAIDLARK_OUT_OF_RULE);
    EXPECT(braidlark_poll_hear(poll, length, frame, frame_length) == BRAIDLARK_OUT_OF_RULE);
    EXPECT(braidlark_poll_hear(poll, length, NULL, 0) == BRAIDLARK_OUT_OF_RULE);
    EXPECT(winner == 0xABCD && memcmp(bytes, poll, sizeof poll) == 0);
}

/* A unit's poll in which two others were heard; one byte more than a poll has is behind it. */
static void make_small_poll(uint8_t *poll)
{
    static const struct message own = {UNIT, PRIORITY}, near_one = {NEAR_UNIT, 1}, far_one = {FAR_UNIT, 2};
    memset(poll, 0, BRAIDLARK_POLL_SIZE + 1);
    make_poll(poll, own);
    hear_election(poll, far_one, BRAIDLARK_ACCEPTED);
    hear_election(poll, near_one, BRAIDLARK_ACCEPTED);
}

/* What may stand at a place of that poll, where the rest stays. */
static void spoil_poll(void)
{
    static const struct {
        size_t place;
        struct message message;
        int good;
    } cases[] = {
        {0, {BRAIDLARK_LOWEST_ADDRESS, 0}, 1},
        {0, {0, PRIORITY}, 0},
        {0, {BRAIDLARK_EVERY_UNIT, PRIORITY}, 0},
        {0, {FAR_UNIT, PRIORITY}, 0}, /* its own unit among the others */
        {1, {UNIT, 1}, 0},
        {1, {FAR_UNIT, 1}, 0}, /* a unit twice */
        {1, {STRANGER, 1}, 0}, /* descending */
        {1, {0, 0}, 0},        /* a gap */
        {2, {0, 0}, 1},        /* one was heard */
        {2, {0, 2}, 0},
        {2, {BRAIDLARK_HIGHEST_ADDRESS, 255}, 1},
        {2, {BRAIDLARK_EVERY_UNIT, 2}, 0},
        {3, {STRANGER, 0}, 1}, /* three were heard */
        {3, {0, 1}, 0},
        {4, {STRANGER, 0}, 0},
        {BRAIDLARK_MOST_POLLED, {STRANGER, 0}, 0},
        {BRAIDLARK_MOST_POLLED, {0, 1}, 0}, /* the last byte */
    };
    uint8_t poll[BRAIDLARK_POLL_SIZE + 1];
    uint16_t winner;
    size_t each;
    for (each = 0; each < sizeof cases / sizeof cases[0]; each++) {
        make_small_poll(poll);
        put_message(poll, cases[each].place, cases[each].message);
        if (cases[each].good)
            EXPECT(braidlark_poll_winner(poll, BRAIDLARK_POLL_SIZE, &winner) == BRAIDLARK_ACCEPTED);
        else
            expect_no_poll(poll, BRAIDLARK_POLL_SIZE);
    }
}

static void change_poll_length(void)
{
    uint8_t poll[BRAIDLARK_POLL_SIZE + 1];
    uint16_t winner = 0;
    make_small_poll(poll);
    expect_winner(poll, UNIT);
    expect_no_poll(poll, 0);
    expect_no_poll(poll, BRAIDLARK_POLL_SIZE - 1);
    expect_no_poll(poll, BRAIDLARK_POLL_SIZE + 1);
    EXPECT(braidlark_poll_winner(NULL, 0, &winner) == BRAIDLARK_OUT_OF_RULE);
    EXPECT(winner == 0);
}

void try_poll_refusals(void)
{
    hear_one_too_many();
    refuse_elections();
    spoil_poll();
    change_poll_length();
}
