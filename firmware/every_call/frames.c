/*
 * Frames: read as numbers and written from them, and what is refused.
 */
#include "every_call.h"

#include <string.h>

uint32_t read_whole(const uint8_t *frame, size_t length, uint32_t *fields)
{
    uint32_t place = 0, part_length = 0;
    EXPECT(braidlark_read(frame, length, fields, BRAIDLARK_MOST_FIELDS, &place, &part_length) == BRAIDLARK_ACCEPTED);
    EXPECT(place + part_length + 1 == length);
    return place;
}

uint32_t write_whole(const uint32_t *fields, size_t count, const uint8_t *part, size_t part_length, uint8_t *frame)
{
    uint32_t written = 0;
    EXPECT(braidlark_write(fields, count, part, part_length, frame, BRAIDLARK_MOST_FRAME, &written) ==
           BRAIDLARK_ACCEPTED);
    return written;
}

/* The kinds of frames that no other trial sends. */
static void write_other_kinds(void)
{
    static const uint32_t refusal[BRAIDLARK_FIELDS_JOIN_RESPONSE] = {
        BRAIDLARK_TYPE_JOIN_RESPONSE, UNIT, BRAIDLARK_STATUS_REFUSED, BRAIDLARK_NO_SLOT, NOW, NETWORK};
    static const uint32_t search[BRAIDLARK_FIELDS_DISCOVERY_REQUEST] = {BRAIDLARK_TYPE_DISCOVERY_REQUEST,
                                                                        BRAIDLARK_LOWEST_ADDRESS, 0, 0, MAX_HOPS};
    static const uint32_t found[BRAIDLARK_FIELDS_DISCOVERY_RESPONSE] = {
        BRAIDLARK_TYPE_DISCOVERY_RESPONSE, BRAIDLARK_HIGHEST_ADDRESS, NETWORK, ROWS, 2, QUALITY, NOW};
    uint8_t frame[BRAIDLARK_MOST_FRAME];
    EXPECT(write_whole(refusal, BRAIDLARK_FIELDS_JOIN_RESPONSE, NULL, 0, frame) == BRAIDLARK_LENGTH_JOIN_RESPONSE);
    EXPECT(write_whole(search, BRAIDLARK_FIELDS_DISCOVERY_REQUEST, NULL, 0, frame) ==
           BRAIDLARK_LENGTH_DISCOVERY_REQUEST);
    EXPECT(write_whole(found, BRAIDLARK_FIELDS_DISCOVERY_RESPONSE, NULL, 0, frame) ==
           BRAIDLARK_LENGTH_DISCOVERY_RESPONSE);
}

/* No numbers are an empty frame. What was read is written again from the whole buffer, whatever stands behind the
 * frame's numbers. */
static void write_none_and_more(void)
{
    static const uint8_t request[] = {0x21, 0x01, 0x02, 0x00, 0x01, 0x00, 0x04, 0x27};
    uint8_t frame[BRAIDLARK_MOST_FRAME];
    uint32_t fields[BRAIDLARK_MOST_FIELDS], written = 1;
    EXPECT(braidlark_write(NULL, 0, NULL, 0, frame, sizeof frame, &written) == BRAIDLARK_BAD_LENGTH);
    EXPECT(written == 1);
    memset(fields, 0xFF, sizeof fields);
    read_whole(request, sizeof request, fields);
    EXPECT(write_whole(fields, BRAIDLARK_MOST_FIELDS, NULL, 0, frame) == sizeof request);
    EXPECT(memcmp(frame, request, sizeof request) == 0);
}

/* A count has to be that of the bytes; a number has to be there, and to fit its field. */
static void write_wrong_numbers(void)
{
    static const uint8_t payload[] = {21, 5};
    uint32_t data[BRAIDLARK_FIELDS_DATA] = {BRAIDLARK_TYPE_DATA, UNIT, FAR_UNIT, 8, 77, sizeof payload + 1},
             written = 0;
    uint8_t frame[BRAIDLARK_MOST_FRAME];
    EXPECT(braidlark_write(data, BRAIDLARK_FIELDS_DATA, payload, sizeof payload, frame, sizeof frame, &written) ==
           BRAIDLARK_BAD_LENGTH);
    data[BRAIDLARK_FIELD_DATA_COUNT] = sizeof payload;
    data[BRAIDLARK_FIELD_DATA_TTL] = 256;
    EXPECT(braidlark_write(data, BRAIDLARK_FIELDS_DATA, payload, sizeof payload, frame, sizeof frame, &written) ==
           BRAIDLARK_BAD_FIELD);
    data[BRAIDLARK_FIELD_DATA_COUNT] = 0;
    EXPECT(braidlark_write(data, BRAIDLARK_FIELD_DATA_TTL, NULL, 0, frame, sizeof frame, &written) ==
           BRAIDLARK_BAD_FIELD);
}

void try_frames(void)
{
    write_other_kinds();
    write_none_and_more();
    write_wrong_numbers();
}
