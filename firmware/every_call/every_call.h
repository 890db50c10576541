/*
 * What the trials of the header share: the site that they play on, how a check is made, and what they offer one
 * another, file by file.
 */
#ifndef EVERY_CALL_H
#define EVERY_CALL_H

#include "braidlark.h"

#if BRAIDLARK_VERSION_MAJOR != 6 || BRAIDLARK_VERSION_MINOR < 2
#error "these are the calls of version 6.2"
#endif

enum { NETWORK = 1, MANAGER = 0x0100, UNIT = 0x0201, NEAR_UNIT = 0x0250, FAR_UNIT = 0x0300, STRANGER = 0x0400 };
enum { MAX_HOPS = 3, ROWS = 4, DATA_SLOTS = 6, SLOT_MS = 1000, SLOTS = 54 };
enum { LONG_BEACONS = BRAIDLARK_TYPE_BEACON, SHORT_BEACONS = BRAIDLARK_TYPE_SHORT_BEACON };
enum { NOW = 1000000, QUALITY = 200 };
#define LAST_MS 0xFFFFFFFFu /* of the clock, before 0 */

#define EXPECT(condition) expect((condition) != 0, #condition, __FILE__, __LINE__)
void expect(int holds, const char *words, const char *file, int line);

/* numbers.c: the header's own numbers and texts */
void try_numbers(void);

/* frames.c: reading a frame that has to be whole, which answers where its variable part starts, and writing one into a
 * buffer for the longest, which answers its length */
uint32_t read_whole(const uint8_t *frame, size_t length, uint32_t *fields);
uint32_t write_whole(const uint32_t *fields, size_t count, const uint8_t *part, size_t part_length, uint8_t *frame);
void try_frames(void);

/* book.c: a plan and the book of it, which goes through requests.c and image.c as well */
void try_book(void);
void try_requests(uint8_t *book);
void try_image(uint8_t *book);

/* sheets.c and sheet_refusals.c: checking the planners' sheets */
void try_sheets(void);
void try_sheet_refusals(void);

/* routes.c: a table, which goes through relays.c and beacons.c as well; a lookup by the manager, heard of at a time */
void look_up(const uint8_t *table, uint16_t destination, uint8_t expected_hops, uint32_t heard);
void try_routes(void);

/* relays.c: frames passed on by the manager, heard of at a time, and taken */
void relay_in_time(const uint8_t *table, uint32_t heard);
void take_in_time(const uint8_t *table, uint32_t heard);
void try_relays(const uint8_t *table);

/* beacons.c: the manager's own beacon of a time, 70 ms on its way, of either kind */
uint32_t write_beacon(uint8_t *frame, uint32_t time);
uint32_t write_short_beacon(uint8_t *frame, uint32_t time, uint32_t sequence);
void try_beacons(uint8_t *table);

/* merges.c: the rows that a merge compares */
void try_merges(void);

/* state.c: a unit's state */
void try_state(void);

/* follow.c: two frames heard in one slot */
void try_follow(void);

/* poll.c, poll_refusals.c and election.c: choosing a manager */
void try_poll(void);
void try_poll_refusals(void);
void try_election(void);

/* clock.c: the clock begins again at 0 */
void try_clock(void);

#endif
