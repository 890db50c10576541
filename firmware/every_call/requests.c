/*
 * The requests of a unit to a manager: it joins, and asks for fewer slots.
 */
#include "every_call.h"

/* The unit asks for four data slots and gets three: one has to be left for each row that is still free. */
static void join(uint8_t *book)
{
    static const uint8_t request[] = {0x21, 0x01, 0x02, 0x00, 0x01, 0x00, 0x04, 0x27};
    static const uint32_t slots[] = {5, 9, 10, 11};
    uint8_t out[BRAIDLARK_RESPONSES_SIZE];
    uint32_t fields[BRAIDLARK_MOST_FIELDS], written = 0;
    size_t each;
    EXPECT(braidlark_join(book, BRAIDLARK_BOOK_SIZE, request, sizeof request, NOW, out, sizeof out, &written) ==
           BRAIDLARK_ACCEPTED);
    EXPECT(written == 4 * BRAIDLARK_LENGTH_JOIN_RESPONSE);
    for (each = 0; each < 4; each++) {
        read_whole(out + each * BRAIDLARK_LENGTH_JOIN_RESPONSE, BRAIDLARK_LENGTH_JOIN_RESPONSE, fields);
        EXPECT(fields[BRAIDLARK_FIELD_TYPE] == BRAIDLARK_TYPE_JOIN_RESPONSE);
        EXPECT(fields[BRAIDLARK_FIELD_JOIN_RESPONSE_NODE] == UNIT);
        EXPECT(fields[BRAIDLARK_FIELD_JOIN_RESPONSE_STATUS] == BRAIDLARK_STATUS_ACCEPTED);
        EXPECT(fields[BRAIDLARK_FIELD_JOIN_RESPONSE_SLOT] == slots[each]);
        EXPECT(fields[BRAIDLARK_FIELD_JOIN_RESPONSE_SUPERFRAME_TIME] == NOW);
        EXPECT(fields[BRAIDLARK_FIELD_JOIN_RESPONSE_NETWORK] == NETWORK);
    }
}

/* It then does with two, so that its highest one is free again. */
static void ask_for_fewer(uint8_t *book)
{
    static const uint32_t request[BRAIDLARK_FIELDS_SLOT_REQUEST] = {BRAIDLARK_TYPE_SLOT_REQUEST, UNIT, 2, 0, 0};
    uint8_t frame[BRAIDLARK_MOST_FRAME], out[BRAIDLARK_RESPONSES_SIZE];
    uint32_t length = write_whole(request, BRAIDLARK_FIELDS_SLOT_REQUEST, NULL, 0, frame);
    uint32_t written = 0;
    EXPECT(length == BRAIDLARK_LENGTH_SLOT_REQUEST);
    EXPECT(braidlark_slot_request(book, BRAIDLARK_BOOK_SIZE, frame, length, NOW, out, sizeof out, &written) ==
           BRAIDLARK_ACCEPTED);
    EXPECT(written == 3 * BRAIDLARK_LENGTH_JOIN_RESPONSE);
}

void try_requests(uint8_t *book)
{
    join(book);
    ask_for_fewer(book);
}
