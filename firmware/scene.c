/*
 * Makes the scenes of firmware/stack.c through the library's own calls.
 */
#include "scene.h"

#include <stdio.h>
#include <stdlib.h>
#include <string.h>

void need(uint8_t status, const char *what)
{
    if (status != BRAIDLARK_ACCEPTED) {
        fprintf(stderr, "stack: %s was refused with %d\n", what, status);
        exit(1);
    }
}

static void write_frame(const uint32_t *fields, size_t count, const uint8_t *part, size_t part_length, uint8_t *frame)
{
    uint32_t written;
    need(braidlark_write(fields, count, part, part_length, frame, BRAIDLARK_MOST_FRAME, &written), "a frame");
}

static void put(uint8_t *place, int width, uint32_t number)
{
    for (int byte = 0; byte < width; byte++)
        place[byte] = (uint8_t)(number >> (8 * byte));
}

/* An update of 24 entries, every `step` addresses; every sixth is unreachable where `mixed`. */
static void write_update(uint8_t *frame, uint32_t origin, uint32_t first, uint32_t step, int mixed)
{
    uint32_t fields[BRAIDLARK_FIELDS_UPDATE] = {BRAIDLARK_TYPE_UPDATE, origin, BRAIDLARK_MOST_ENTRIES, NOW};
    uint8_t entries[BRAIDLARK_MOST_ENTRIES * BRAIDLARK_ENTRY_SIZE];
    for (uint32_t each = 0; each < BRAIDLARK_MOST_ENTRIES; each++) {
        uint8_t *entry = entries + each * BRAIDLARK_ENTRY_SIZE;
        put(entry, 2, first + each * step);
        put(entry + 2, 1, mixed && each % 6 == 5 ? BRAIDLARK_UNREACHABLE : 2);
        put(entry + 3, 1, 150);
        put(entry + 4, 2, origin);
        put(entry + 6, 4, NOW);
    }
    write_frame(fields, BRAIDLARK_FIELDS_UPDATE, entries, sizeof entries, frame);
}

static void hear(struct scene *made, uint32_t origin, uint32_t first, uint32_t step, uint32_t time)
{
    uint8_t frame[BRAIDLARK_MOST_FRAME], skipped;
    uint16_t compared;
    write_update(frame, origin, first, step, 0);
    need(braidlark_merge(made->table, sizeof made->table, frame, FULL_UPDATE, QUALITY, time, &skipped, &compared),
         "an update");
}

/* Full: 48 rows, of which the update replaces every second. Mixed: the rows heard of long ago are gone, and the update
 * has new rows for between those that stay. */
static void make_table(struct scene *made, int mixed)
{
    need(braidlark_table_fresh(made->table, sizeof made->table, UNIT, LONG_AGO), "a table");
    hear(made, MANAGER, 0x1000, 2, mixed ? LONG_AGO : NOW);
    hear(made, MANAGER, mixed ? 0x1100 : 0x1030, mixed ? 4 : 2, NOW);
    write_update(made->update, mixed ? SENDER : MANAGER, mixed ? 0x1102 : 0x1000, mixed ? 2 : 4, mixed);
}

static void make_frames(struct scene *made)
{
    const uint32_t data[] = {BRAIDLARK_TYPE_DATA, SENDER, MANAGER, 10, 7, BRAIDLARK_MOST_PAYLOAD};
    const uint32_t beacon[] = {BRAIDLARK_TYPE_BEACON,
                               BRAIDLARK_EVERY_UNIT,
                               MANAGER,
                               BRAIDLARK_BEACON_BODY_SIZE,
                               NETWORK,
                               1,
                               100 * 20,
                               100,
                               20,
                               MANAGER,
                               0,
                               NOW,
                               70,
                               3,
                               9};
    const uint32_t short_beacon[] = {BRAIDLARK_TYPE_SHORT_BEACON, MANAGER, NETWORK, 100, 20, 0, NOW, 70, 3, 9};
    const uint32_t join[] = {BRAIDLARK_TYPE_JOIN_REQUEST, NEWCOMER, 0, NETWORK, 4};
    const uint32_t slots[] = {BRAIDLARK_TYPE_SLOT_REQUEST, FIRST_MEMBER, 4, 0, 0};
    memcpy(made->data_fields, data, sizeof data);
    memcpy(made->beacon_fields, beacon, sizeof beacon);
    write_frame(data, BRAIDLARK_FIELDS_DATA, made->payload, sizeof made->payload, made->data);
    write_frame(beacon, BRAIDLARK_FIELDS_BEACON, NULL, 0, made->beacon);
    write_frame(short_beacon, BRAIDLARK_FIELDS_SHORT_BEACON, NULL, 0, made->short_beacon);
    write_frame(join, BRAIDLARK_FIELDS_JOIN_REQUEST, NULL, 0, made->join_request);
    write_frame(slots, BRAIDLARK_FIELDS_SLOT_REQUEST, NULL, 0, made->slot_request);
}

static void join_members(struct scene *made, uint32_t first, int count, uint32_t time)
{
    for (int each = 0; each < count; each++) {
        const uint32_t join[] = {BRAIDLARK_TYPE_JOIN_REQUEST, first + (uint32_t)each, 0, NETWORK, 1};
        uint8_t frame[BRAIDLARK_MOST_FRAME], out[BRAIDLARK_RESPONSES_SIZE];
        uint32_t written;
        write_frame(join, BRAIDLARK_FIELDS_JOIN_REQUEST, NULL, 0, frame);
        need(braidlark_join(made->book, sizeof made->book, frame, BRAIDLARK_LENGTH_JOIN_REQUEST, time, out, sizeof out,
                            &written),
             "a member");
    }
}

/* Full: all of 21 rows but one. Mixed: half of 20 rows, more of them silent, and slots enough for a newcomer to get
 * four. */
static void make_book(struct scene *made, int mixed)
{
    need(braidlark_plan(made->plan, sizeof made->plan, NETWORK, MANAGER, 1, mixed ? 20 : 21, mixed ? 23 : 22, 20,
                        BRAIDLARK_TYPE_BEACON),
         "a plan");
    need(braidlark_book_fresh(made->book, sizeof made->book, made->plan, sizeof made->plan, LONG_AGO), "a book");
    if (mixed) {
        join_members(made, 0x0400, 5, LONG_AGO);
        join_members(made, FIRST_MEMBER, 5, LONG_AGO + 200000);
    } else {
        join_members(made, FIRST_MEMBER, 19, NOW);
    }
    need(braidlark_image(made->book, sizeof made->book, NOW, made->image, sizeof made->image, &made->image_length),
         "an image");
}

static void write_election(uint8_t *frame, uint32_t unit)
{
    const uint32_t election[] = {BRAIDLARK_TYPE_ELECTION, unit, PRIORITY};
    write_frame(election, BRAIDLARK_FIELDS_ELECTION, NULL, 0, frame);
}

/* Full: 24 others, and the highest of them is heard again. Mixed: half as many, and a new one that is below all. */
static void make_poll(struct scene *made, int mixed)
{
    uint32_t others = mixed ? BRAIDLARK_MOST_POLLED / 2 : BRAIDLARK_MOST_POLLED;
    need(braidlark_poll_fresh(made->poll, sizeof made->poll, UNIT, PRIORITY), "a poll");
    for (uint32_t each = 0; each < others; each++) {
        uint8_t frame[BRAIDLARK_MOST_FRAME];
        write_election(frame, FIRST_MEMBER + each);
        need(braidlark_poll_hear(made->poll, sizeof made->poll, frame, BRAIDLARK_LENGTH_ELECTION),
             "an election message");
    }
    write_election(made->election, mixed ? NEWCOMER : FIRST_MEMBER + others - 1);
}

static void add_link(struct scene *made, uint32_t one, uint32_t other)
{
    put(made->links + made->links_length, 2, one);
    put(made->links + made->links_length + 2, 2, other);
    made->links_length += BRAIDLARK_LINK_SIZE;
}

/* For the book's plan. Full: 21 units that all hear each other, with a slot each. Mixed: 20 in a line that take turns
 * with three slots, but the last takes that of the one before it. */
static void make_sheet(struct scene *made, int mixed)
{
    uint32_t units = mixed ? 20 : BRAIDLARK_MOST_MEMBERS;
    for (uint32_t unit = 0; unit < units; unit++) {
        uint32_t turn = unit < units - 1 ? unit % 3 : (unit - 1) % 3;
        put(made->sheet + made->sheet_length, 2, FIRST_MEMBER + unit);
        put(made->sheet + made->sheet_length + 2, 4, (uint32_t)1 << (mixed ? turn : unit));
        made->sheet_length += BRAIDLARK_SHEET_ROW_SIZE;
        for (uint32_t other = mixed && unit > 0 ? unit - 1 : 0; other < unit; other++)
            add_link(made, FIRST_MEMBER + other, FIRST_MEMBER + unit);
    }
}

void make_scene(struct scene *made, int mixed)
{
    make_table(made, mixed);
    make_frames(made);
    make_book(made, mixed);
    make_poll(made, mixed);
    make_sheet(made, mixed);
    need(braidlark_state_fresh(made->state, sizeof made->state, NOW), "a state");
}
