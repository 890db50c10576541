/*
 * What firmware/stack.c gives to the calls, and room for what they answer.
 */
#ifndef SCENE_H
#define SCENE_H

#include "braidlark.h"

enum { NETWORK = 1, MANAGER = 0x0100, UNIT = 0x0201, SENDER = 0x0202, NEWCOMER = 0x0300, FIRST_MEMBER = 0x0301 };
enum { LONG_AGO = 1000000, NOW = LONG_AGO + 400000, QUALITY = 200, PRIORITY = 70 };
enum { FULL_UPDATE = BRAIDLARK_LENGTH_UPDATE + BRAIDLARK_MOST_ENTRIES * BRAIDLARK_ENTRY_SIZE };
enum { MOST_LINKS = BRAIDLARK_MOST_MEMBERS * (BRAIDLARK_MOST_MEMBERS - 1) / 2 };

struct scene {
    uint8_t table[BRAIDLARK_TABLE_SIZE], state[BRAIDLARK_STATE_SIZE], poll[BRAIDLARK_POLL_SIZE];
    uint8_t plan[BRAIDLARK_PLAN_SIZE], book[BRAIDLARK_BOOK_SIZE], image[BRAIDLARK_MOST_IMAGE];
    uint8_t update[BRAIDLARK_MOST_FRAME], data[BRAIDLARK_MOST_FRAME], beacon[BRAIDLARK_MOST_FRAME];
    uint8_t short_beacon[BRAIDLARK_MOST_FRAME];
    uint8_t join_request[BRAIDLARK_MOST_FRAME], slot_request[BRAIDLARK_MOST_FRAME], election[BRAIDLARK_MOST_FRAME];
    uint32_t beacon_fields[BRAIDLARK_FIELDS_BEACON], data_fields[BRAIDLARK_FIELDS_DATA];
    uint8_t payload[BRAIDLARK_MOST_PAYLOAD];
    uint8_t sheet[BRAIDLARK_MOST_MEMBERS * BRAIDLARK_SHEET_ROW_SIZE], links[MOST_LINKS * BRAIDLARK_LINK_SIZE];
    uint32_t image_length;
    size_t sheet_length, links_length;
    /* the answers */
    uint32_t fields[BRAIDLARK_MOST_FIELDS], place, length, left;
    uint8_t out[BRAIDLARK_MOST_FRAME], hops, skipped, which, named;
    uint16_t next_hop, compared, winner, lower, higher;
    uint32_t offset;
};

/* Full, or mixed: a full table, a full poll, a nearly full book and a full sheet that is fine, or a table and a book
 * whose silent rows are dropped while new ones come in, a poll in which a new unit moves the higher ones, and a sheet
 * of which the last pair offends. */
void make_scene(struct scene *made, int mixed);

/* Ends the program if a call was refused: all are to be accepted. */
void need(uint8_t status, const char *what);

#endif
