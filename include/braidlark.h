/*
 * Braidlark: the node core of a LoRa mesh for greenhouses. firmware/node is a complete node over this header.
 *
 * Answers. Every call returns 0, or one of the refusal numbers below: the first that applies, in the order that the
 * call's comment gives. What a call answers goes to the caller's buffers and out parameters; a refused call changes
 * none of them. Bytes of a buffer past those written stay as they were.
 *
 * Buffers. A buffer is a pointer and its length; with length 0 the pointer may be NULL. A buffer of bytes may have any
 * alignment, and the numbers in it are little-endian. A buffer of numbers is an array of uint32_t, and its length
 * counts numbers, not bytes. Buffers and out parameters of one call must not overlap.
 *
 * Threads. Nothing is kept between calls: a table, a state, a poll, a plan and a book are bytes that the caller owns
 * and hands in again. Calls may run on any thread, also at the same time, if none is handed what another one writes to.
 *
 * Linking. Of C's library the archive needs memcpy and memset alone.
 * The deepest call takes less than 3 KiB of stack; docs/MEASURES.md has each call's, and the size of the code.
 *
 * Addresses of units are 1 to 0xFFFE, networks 1 to 0xFFFF (in a join request 0 is any); others are refused as broken
 * field rules (4), by a plan as out of rule (14).
 *
 * Times are those of one monotonic local clock of the unit, in milliseconds of 32 bits. It has no end: it runs modulo
 * 2^32, and so begins again at 0 after 49.7 days. Network time, which braidlark_clock_step may step back, is never a
 * call's time: it is for finding slots. The step from the last accepted time to a call's is their difference modulo
 * 2^32: below 2^31 it is forward, else the call is too early (8). Ages are such differences as well. An accepted call
 * that changes a table, a book or a state records its time there; one that only reads, from a const buffer, does not.
 *
 * The caller has to see to it that a changing call is accepted on each table and each book at least every 2^31 - 1 ms
 * (24.8 days), and a tick on each state at least every 2^30 ms (12.4 days). A node that is awake does so many times an
 * hour; one that was not makes its table, its state and its book afresh. No call tests that. Else calls are too early
 * for half a turn of the clock, and then ages and the order of times are read wrong by a whole turn: a route or a
 * member of 50 days ago counts as a new one. A state may also be found out of rule (14).
 *
 * A stored time has to be in order with the last accepted one: the step from it to that one is forward, else the buffer
 * is out of rule (14). So it is for the rows of a table, for the members of a book but the manager, and for the time
 * that a state acts on: its entry in Discovery, Joining and Recovery, its last beacon in Normal. Times inside frames
 * are shown and passed on, and never judged.
 *
 * Names. The first word says what a number is: TYPE_ a frame's type and LENGTH_ its bytes; FIELD_ where a number stands
 * among others and FIELDS_ how many there are; EVENT_ an event of a state; SLOT_ a kind of slot; MOST_ a limit. A last
 * word _SIZE is a length in bytes and _MS a time. Refusals and states have neither.
 */
#ifndef BRAIDLARK_H
#define BRAIDLARK_H

#include <stddef.h>
#include <stdint.h>

#ifdef __cplusplus
extern "C" {
#endif

/*
 * ---- the version of this interface: MAJOR is raised where a name, a call or a buffer's length changes, MINOR where
 * something is only added; docs/changes says what a caller has to change
 */
#define BRAIDLARK_VERSION_MAJOR 6
#define BRAIDLARK_VERSION_MINOR 2

/* ---- refusals; braidlark_refusal_text says what each means */
#define BRAIDLARK_ACCEPTED 0
#define BRAIDLARK_BAD_LENGTH 1
#define BRAIDLARK_BAD_TYPE 2
#define BRAIDLARK_BAD_CHECKSUM 3
#define BRAIDLARK_BAD_FIELD 4
#define BRAIDLARK_NO_SPACE 5
#define BRAIDLARK_OWN_UNIT 6
#define BRAIDLARK_NOT_ALLOWED 7
#define BRAIDLARK_TOO_EARLY 8
#define BRAIDLARK_LOW_QUALITY 9
#define BRAIDLARK_TTL_OVER 10
#define BRAIDLARK_NO_ROUTE 11
#define BRAIDLARK_FULL 12
#define BRAIDLARK_NO_MEMBER 13
#define BRAIDLARK_OUT_OF_RULE 14
#define BRAIDLARK_OTHER_NETWORK 15
#define BRAIDLARK_NOT_OURS 16

/* What a number that a call returned means, in a few words. */
static inline const char *braidlark_refusal_text(int number)
{
    static const char *const texts[] = {
        "accepted",
        "frame empty, over 255 bytes, or not as long as its type and count say",
        "type unknown, or not one that the call wants",
        "checksum not that of the bytes before it",
        "a field rule broken, or a sum of delays that its kind of beacon has no room for",
        "output buffer shorter than what would be written",
        "the frame's sender, or the unit to forget, is this unit",
        "event not allowed in this state",
        "time earlier than the last accepted one: a step of 2^31 ms or more",
        "link quality under 40",
        "ttl 0 or 1 and not for this unit",
        "no usable route, or less time left on it than the caller names",
        "every member row live, or a poll with no room for one more unit",
        "not a live member, or the manager asked to leave",
        "plan, sheet, image, page, hop, superframe length, or a stored value, out of rule",
        "not the book's or the caller's network",
        "beacon not ours to forward",
    };
    return number >= 0 && number <= BRAIDLARK_NOT_OURS ? texts[number] : "no number of a call";
}

/* ---- lengths of buffers, in bytes unless said otherwise */
#define BRAIDLARK_MOST_FRAME 255
#define BRAIDLARK_MOST_PAYLOAD 245
#define BRAIDLARK_MOST_ENTRIES 24 /* entries of one update */
#define BRAIDLARK_ENTRY_SIZE 10
#define BRAIDLARK_MOST_FIELDS 15 /* numbers of the frame with the most, a long beacon: its type and 14 fields */
#define BRAIDLARK_TABLE_SIZE 539
#define BRAIDLARK_STATE_SIZE 13
#define BRAIDLARK_POLL_SIZE 75
#define BRAIDLARK_PLAN_SIZE 10
#define BRAIDLARK_BOOK_SIZE 308
#define BRAIDLARK_RESPONSES_SIZE 65 /* of a join or a slot request: five frames of 13 */
#define BRAIDLARK_MOST_SLOTS 100    /* slots of a superframe, which are the bytes of a schedule */
#define BRAIDLARK_MOST_IMAGE 230
#define BRAIDLARK_SHEET_ROW_SIZE 10 /* of one unit of a sheet */
#define BRAIDLARK_LINK_SIZE 4

/* ---- lengths of frames, in bytes; two kinds have more behind their fields */
#define BRAIDLARK_LENGTH_DATA 10 /* and the payload */
#define BRAIDLARK_LENGTH_JOIN_REQUEST 8
#define BRAIDLARK_LENGTH_JOIN_RESPONSE 13
#define BRAIDLARK_LENGTH_SLOT_REQUEST 7
#define BRAIDLARK_LENGTH_DISCOVERY_REQUEST 7
#define BRAIDLARK_LENGTH_DISCOVERY_RESPONSE 13
#define BRAIDLARK_LENGTH_ELECTION 5
#define BRAIDLARK_LENGTH_UPDATE 9 /* and BRAIDLARK_ENTRY_SIZE for each entry */
#define BRAIDLARK_LENGTH_BEACON 34
#define BRAIDLARK_LENGTH_SHORT_BEACON 19

/* ---- numbers that fields may or must hold */
#define BRAIDLARK_LOWEST_ADDRESS 1
#define BRAIDLARK_HIGHEST_ADDRESS 0xFFFE
#define BRAIDLARK_EVERY_UNIT 0xFFFF   /* a long beacon's destination, and no unit's address */
#define BRAIDLARK_BEACON_BODY_SIZE 27 /* a long beacon's size field */
#define BRAIDLARK_STATUS_ACCEPTED 0   /* of a join response, with a slot below BRAIDLARK_MOST_SLOTS */
#define BRAIDLARK_STATUS_REFUSED 1    /* of a join response, with BRAIDLARK_NO_SLOT */
#define BRAIDLARK_NO_SLOT 0xFFFF
#define BRAIDLARK_MOST_HOPS 10 /* a plan's and a beacon's max hops are 1 to this */

/* ---- routes: at most so many, each of 1 to 16 hops and of quality 40 or more */
#define BRAIDLARK_MOST_ROUTES 48
#define BRAIDLARK_MOST_ROUTE_HOPS 16
#define BRAIDLARK_UNREACHABLE 255 /* hops of an entry in an update whose route is dead */
#define BRAIDLARK_LOWEST_QUALITY 40
#define BRAIDLARK_MOST_COMPARED 1200 /* rows that one merge compares: 48 for each of 24 entries and for their origin */

/* ---- members: at most so many, the manager among them, each with 1 to 4 data slots */
#define BRAIDLARK_MOST_MEMBERS 21
#define BRAIDLARK_MOST_HELD 4

/* ---- polls: the units that one has room for, beside the unit whose it is */
#define BRAIDLARK_MOST_POLLED 24

/* ---- plans: at least so many member rows, and a data slot for each; at most so many data slots and slots in use */
#define BRAIDLARK_FEWEST_ROWS 2
#define BRAIDLARK_MOST_DATA_SLOTS 44
#define BRAIDLARK_MOST_ACTIVE_SLOTS 50
#define BRAIDLARK_LONGEST_SLOT_MS 65535
#define BRAIDLARK_LONGEST_PLAN_MS 65535 /* of a superframe, all slots together, where beacons are long */

/* ---- greatest ages, in ms */
#define BRAIDLARK_USABLE_MS 300000   /* of a route that is used */
#define BRAIDLARK_STANDING_MS 360000 /* of one that is no longer used, but told of as unreachable */
#define BRAIDLARK_WITHDRAWN_MS 60000 /* the same from when it was withdrawn */
#define BRAIDLARK_LIVE_MS 300000     /* of a live member's last accepted call; the manager is always live */

/* ---- times of a state, in ms from its entry, and of a tick */
#define BRAIDLARK_DISCOVERY_MS 30000            /* in Discovery, then Manager */
#define BRAIDLARK_JOINING_MS 10000              /* in Joining, then Recovery */
#define BRAIDLARK_RECOVERY_MS 60000             /* in Recovery, then Stopped */
#define BRAIDLARK_LONGEST_SUPERFRAME_MS 6553500 /* that a tick may name */

/* ---- types of frames, the number at BRAIDLARK_FIELD_TYPE */
#define BRAIDLARK_TYPE_DATA 0x11
#define BRAIDLARK_TYPE_JOIN_REQUEST 0x21
#define BRAIDLARK_TYPE_JOIN_RESPONSE 0x22
#define BRAIDLARK_TYPE_SLOT_REQUEST 0x23
#define BRAIDLARK_TYPE_DISCOVERY_REQUEST 0x24
#define BRAIDLARK_TYPE_DISCOVERY_RESPONSE 0x25
#define BRAIDLARK_TYPE_ELECTION 0x26
#define BRAIDLARK_TYPE_UPDATE 0x31
#define BRAIDLARK_TYPE_BEACON 0x46 /* the long one, where two kinds have to be told apart */
#define BRAIDLARK_TYPE_SHORT_BEACON 0x47

/* ---- where each field stands among a frame's numbers, and how many numbers there are */
enum { BRAIDLARK_FIELD_TYPE };
enum {
    BRAIDLARK_FIELD_DATA_SOURCE = 1,
    BRAIDLARK_FIELD_DATA_DESTINATION,
    BRAIDLARK_FIELD_DATA_TTL,
    BRAIDLARK_FIELD_DATA_SEQUENCE,
    BRAIDLARK_FIELD_DATA_COUNT, /* bytes of the payload */
    BRAIDLARK_FIELDS_DATA
};
enum {
    BRAIDLARK_FIELD_JOIN_REQUEST_NODE = 1,
    BRAIDLARK_FIELD_JOIN_REQUEST_CAPABILITIES,
    BRAIDLARK_FIELD_JOIN_REQUEST_NETWORK, /* 0 is any */
    BRAIDLARK_FIELD_JOIN_REQUEST_SLOTS,
    BRAIDLARK_FIELDS_JOIN_REQUEST
};
enum {
    BRAIDLARK_FIELD_JOIN_RESPONSE_NODE = 1,
    BRAIDLARK_FIELD_JOIN_RESPONSE_STATUS,
    BRAIDLARK_FIELD_JOIN_RESPONSE_SLOT,
    BRAIDLARK_FIELD_JOIN_RESPONSE_SUPERFRAME_TIME,
    BRAIDLARK_FIELD_JOIN_RESPONSE_NETWORK,
    BRAIDLARK_FIELDS_JOIN_RESPONSE
};
enum {
    BRAIDLARK_FIELD_SLOT_REQUEST_NODE = 1,
    BRAIDLARK_FIELD_SLOT_REQUEST_SLOTS,
    BRAIDLARK_FIELD_SLOT_REQUEST_PRIORITY,
    BRAIDLARK_FIELD_SLOT_REQUEST_REASON,
    BRAIDLARK_FIELDS_SLOT_REQUEST
};
enum {
    BRAIDLARK_FIELD_DISCOVERY_REQUEST_NODE = 1,
    BRAIDLARK_FIELD_DISCOVERY_REQUEST_CAPABILITIES,
    BRAIDLARK_FIELD_DISCOVERY_REQUEST_ROLE,
    BRAIDLARK_FIELD_DISCOVERY_REQUEST_MAX_HOPS,
    BRAIDLARK_FIELDS_DISCOVERY_REQUEST
};
enum {
    BRAIDLARK_FIELD_DISCOVERY_RESPONSE_MANAGER = 1,
    BRAIDLARK_FIELD_DISCOVERY_RESPONSE_NETWORK,
    BRAIDLARK_FIELD_DISCOVERY_RESPONSE_SIZE,
    BRAIDLARK_FIELD_DISCOVERY_RESPONSE_FREE,
    BRAIDLARK_FIELD_DISCOVERY_RESPONSE_QUALITY,
    BRAIDLARK_FIELD_DISCOVERY_RESPONSE_UPTIME,
    BRAIDLARK_FIELDS_DISCOVERY_RESPONSE
};
enum {
    BRAIDLARK_FIELD_ELECTION_NODE = 1,
    BRAIDLARK_FIELD_ELECTION_PRIORITY, /* any byte; the highest wins */
    BRAIDLARK_FIELDS_ELECTION
};
enum {
    BRAIDLARK_FIELD_UPDATE_ORIGIN = 1,
    BRAIDLARK_FIELD_UPDATE_COUNT, /* entries */
    BRAIDLARK_FIELD_UPDATE_TIME,
    BRAIDLARK_FIELDS_UPDATE
};
enum { /* of one entry of an update */
    BRAIDLARK_FIELD_ENTRY_DESTINATION,
    BRAIDLARK_FIELD_ENTRY_HOPS, /* 255 is unreachable */
    BRAIDLARK_FIELD_ENTRY_QUALITY,
    BRAIDLARK_FIELD_ENTRY_NEXT_HOP,
    BRAIDLARK_FIELD_ENTRY_TIMESTAMP,
    BRAIDLARK_FIELDS_ENTRY
};
enum {
    BRAIDLARK_FIELD_BEACON_DESTINATION = 1,
    BRAIDLARK_FIELD_BEACON_SOURCE,
    BRAIDLARK_FIELD_BEACON_SIZE,
    BRAIDLARK_FIELD_BEACON_NETWORK,
    BRAIDLARK_FIELD_BEACON_SUPERFRAME_NUMBER,
    BRAIDLARK_FIELD_BEACON_SUPERFRAME_MS,
    BRAIDLARK_FIELD_BEACON_TOTAL_SLOTS,
    BRAIDLARK_FIELD_BEACON_SLOT_MS,
    BRAIDLARK_FIELD_BEACON_ORIGINAL_SOURCE,
    BRAIDLARK_FIELD_BEACON_HOP,
    BRAIDLARK_FIELD_BEACON_ORIGINAL_TIME,
    BRAIDLARK_FIELD_BEACON_DELAY,
    BRAIDLARK_FIELD_BEACON_MAX_HOPS,
    BRAIDLARK_FIELD_BEACON_SEQUENCE,
    BRAIDLARK_FIELDS_BEACON
};
enum {
    BRAIDLARK_FIELD_SHORT_BEACON_SOURCE = 1,
    BRAIDLARK_FIELD_SHORT_BEACON_NETWORK,
    BRAIDLARK_FIELD_SHORT_BEACON_TOTAL_SLOTS,
    BRAIDLARK_FIELD_SHORT_BEACON_SLOT_MS,
    BRAIDLARK_FIELD_SHORT_BEACON_HOP,
    BRAIDLARK_FIELD_SHORT_BEACON_ORIGINAL_TIME,
    BRAIDLARK_FIELD_SHORT_BEACON_DELAY,
    BRAIDLARK_FIELD_SHORT_BEACON_MAX_HOPS,
    BRAIDLARK_FIELD_SHORT_BEACON_SEQUENCE,
    BRAIDLARK_FIELDS_SHORT_BEACON
};

/* ---- states, the first byte of a stored state, and events */
enum {
    BRAIDLARK_INITIALIZING,
    BRAIDLARK_DISCOVERY,
    BRAIDLARK_JOINING,
    BRAIDLARK_NORMAL,
    BRAIDLARK_MANAGER,
    BRAIDLARK_RECOVERY,
    BRAIDLARK_STOPPED
};
enum {
    BRAIDLARK_EVENT_READY,
    BRAIDLARK_EVENT_FAILED,
    BRAIDLARK_EVENT_BEACON_HEARD,
    BRAIDLARK_EVENT_JOIN_ACCEPTED,
    BRAIDLARK_EVENT_JOIN_DENIED,
    BRAIDLARK_EVENT_FAULT,
    BRAIDLARK_EVENT_ELECTED,
    BRAIDLARK_EVENT_ROLE_CHANGE,
    BRAIDLARK_EVENT_RECOVERED
};

/* ---- kinds of slots, the bytes of a schedule */
enum {
    BRAIDLARK_SLOT_TX,
    BRAIDLARK_SLOT_RX,
    BRAIDLARK_SLOT_BEACON_TX,
    BRAIDLARK_SLOT_BEACON_RX,
    BRAIDLARK_SLOT_CONTROL_TX,
    BRAIDLARK_SLOT_CONTROL_RX,
    BRAIDLARK_SLOT_DISCOVERY_TX,
    BRAIDLARK_SLOT_DISCOVERY_RX,
    BRAIDLARK_SLOT_SLEEP
};

/* ---- what the check of a sheet names: as many units as the number says */
enum { BRAIDLARK_SHEET_FINE, BRAIDLARK_SHEET_UNIT, BRAIDLARK_SHEET_PAIR };

/* ---- where each number of a plan stands among those that braidlark_plan_numbers tells, and how many there are */
enum {
    BRAIDLARK_FIELD_PLAN_ACTIVE,        /* slots in use: beacon, control, data and discovery */
    BRAIDLARK_FIELD_PLAN_SLOTS,         /* of a superframe */
    BRAIDLARK_FIELD_PLAN_SUPERFRAME_MS, /* all slots together */
    BRAIDLARK_FIELD_PLAN_CONTROL_AT,    /* the first slot of each region; beacon slots begin at 0 */
    BRAIDLARK_FIELD_PLAN_DATA_AT,
    BRAIDLARK_FIELD_PLAN_DISCOVERY_AT,
    BRAIDLARK_FIELD_PLAN_SLEEP_AT,
    BRAIDLARK_FIELDS_PLAN
};

/* ---- frames */

/* Reads a frame of any kind: its numbers, the type first, and where the bytes behind its fields (a payload, or the
 * entries of an update) start and how many they are. BRAIDLARK_MOST_FIELDS numbers have room for any frame's.
 * Refusals: 1 2 1 3 4 5. */
uint8_t braidlark_read(const uint8_t *frame, size_t frame_length, uint32_t *fields, size_t fields_length,
                       uint32_t *part_place, uint32_t *part_length);

/* Walks the entries of an update, one a call: the numbers of the entry at a position, counted from 0, and the next
 * position. At the end it is accepted, writes no number, and the next position is 0. Refusals: 1 2 1 3 4 5. */
uint8_t braidlark_entry(const uint8_t *frame, size_t frame_length, uint32_t position, uint32_t *entry,
                        size_t entry_length, uint32_t *next);

/* Writes the frame with these numbers and these bytes behind its fields, and says how many bytes it has. Numbers behind
 * those of the frame's kind are not looked at: the whole buffer that braidlark_read filled can be handed in as it is.
 * A count that is not that of the bytes behind the fields is 1; a number that is missing, or too large for its field,
 * is 4. Refusals: 1 (no numbers) 2 1 4 5. */
uint8_t braidlark_write(const uint32_t *fields, size_t fields_length, const uint8_t *part, size_t part_length,
                        uint8_t *out, size_t out_length, uint32_t *written);

/* ---- a unit's table of routes, BRAIDLARK_TABLE_SIZE bytes */

/* Makes the empty table of a unit, with this time as last accepted. Refusals: 14 (the buffer's length) 4. */
uint8_t braidlark_table_fresh(uint8_t *table, size_t table_length, uint16_t own, uint32_t time);

/* Merges an update that was heard with this quality, from BRAIDLARK_LOWEST_QUALITY on, and says how many candidates
 * found no room and how many rows were compared. The origin itself is the first candidate; then come the entries, but
 * for those passed over: to this unit or by it, and to the origin. For each candidate, bad ones and skipped ones too,
 * the standing rows are compared from the first on, up to one that is not lower than its destination: as many as are
 * lower, and one more if a row remains. That makes at most BRAIDLARK_MOST_ROUTES for a candidate and
 * BRAIDLARK_MOST_COMPARED for a merge. With what one comparison takes on its processor, a firmware turns the number
 * into time, and so knows whether a merge fits between two slots. Refusals: 14 1 2 1 3 4 6 8 9. */
uint8_t braidlark_merge(uint8_t *table, size_t table_length, const uint8_t *frame, size_t frame_length, uint8_t quality,
                        uint32_t time, uint8_t *skipped, uint16_t *compared);

/* Withdraws all usable routes to a unit or through it; the next pages tell the neighbours. Without it a route by a next
 * hop that is gone is used for up to BRAIDLARK_USABLE_MS more: forget a unit as soon as it is known to be gone, because
 * it was taken out or acknowledges nothing. A neighbour that has not noticed may offer a route to it again.
 * Refusals: 14 4 6 8. */
uint8_t braidlark_forget(uint8_t *table, size_t table_length, uint16_t unit, uint32_t time);

/* Answers the next hop to a destination, how many hops it is away, and the ms for which the route stays usable:
 * BRAIDLARK_USABLE_MS less its age. As long as no call changes the table, a lookup within the next `left` ms answers
 * the same next hop and hops, and `left` less what has passed; one ms later it is 11. It is how a unit sends a frame
 * of its own: look up its destination, write it, send it to the next hop; to relay one's own frame is refused (6).
 * Refusals: 14 4 8 11. */
uint8_t braidlark_lookup(const uint8_t *table, size_t table_length, uint16_t destination, uint32_t time,
                         uint16_t *next_hop, uint8_t *hops, uint32_t *left);

/* Writes a page, counted from 0, of this unit's own update, and says how many bytes it has. The page behind the last is
 * out of rule, so a unit tells all that it knows by counting up to that. Refusals: 14 8 14 (the page) 5. */
uint8_t braidlark_page(const uint8_t *table, size_t table_length, uint32_t page, uint32_t time, uint8_t *out,
                       size_t out_length, uint32_t *written);

/* Relays a data frame. One for this unit answers next hop 0, the place and length of its payload in the frame, and 0
 * left, whatever `least_left` is: it needs no route. Any other is written with its ttl one less, and answers the next
 * hop, place 0, the number of bytes written, and what braidlark_lookup says that its route has left. A route with less
 * left than `least_left` ms is refused (11), one with just as much is not: an order that has several hops to go should
 * not set out on a route that is seconds from its end. 0 names no time; above BRAIDLARK_USABLE_MS no route will do.
 * Refusals: 14 1 2 1 3 4 6 8 10 11 5. */
uint8_t braidlark_relay(const uint8_t *table, size_t table_length, const uint8_t *frame, size_t frame_length,
                        uint32_t time, uint32_t least_left, uint8_t *out, size_t out_length, uint16_t *next_hop,
                        uint32_t *place, uint32_t *length, uint32_t *left);

/* Forwards a beacon of this network with this delay added, the ms until the copy goes out, and says how many bytes were
 * written. The unit sends the copy in the beacon slot of its own hop, which is the copy's. Either kind is taken,
 * whatever this unit's plan says, and the copy has the kind that was heard. A short beacon does not say whose it was at
 * first: that is the manager handed in, the one of the plan. A long one does, so that it goes by its own original
 * source; the manager has to be an address all the same. A beacon that was forwarded is not forwarded again as the
 * other kind (16). Delays may come to 65,535 ms in a short beacon, to 2^32 - 1 ms in a long one.
 * Refusals: 14 1 2 1 3 4 6 15 8 11 16 4 (the sum of delays) 5. */
uint8_t braidlark_forward(uint8_t *table, size_t table_length, uint16_t network, uint16_t manager, const uint8_t *frame,
                          size_t frame_length, uint32_t delay, uint32_t time, uint8_t *out, size_t out_length,
                          uint32_t *written);

/* ---- a unit's state, BRAIDLARK_STATE_SIZE bytes */

/* A fresh state: Initializing, entered at this time. Refusals: 14 (the buffer's length). */
uint8_t braidlark_state_fresh(uint8_t *state, size_t state_length, uint32_t time);

/* The event with this number, at a time. A number that is no event is 7 too. Refusals: 14 8 7. */
uint8_t braidlark_state_event(uint8_t *state, size_t state_length, uint8_t event, uint32_t time);

/* A tick at a time, with the superframe's length, 1 to BRAIDLARK_LONGEST_SUPERFRAME_MS. A time that is over acts on a
 * tick alone, with one change at most; one tick a superframe will do. Refusals: 14 8 14 (the length). */
uint8_t braidlark_state_tick(uint8_t *state, size_t state_length, uint32_t superframe_ms, uint32_t time);

/* ---- a unit's poll, BRAIDLARK_POLL_SIZE bytes: which unit takes over from a manager that is gone */

/* Makes the poll of a unit that has heard no other, with the priority of its own election message, which the firmware
 * writes with braidlark_write and sends. There is no time and no network in a poll: the firmware makes a fresh one
 * where a manager is lost. A unit whose own priority changes makes one too, and has to hear the others again.
 * Refusals: 14 (the buffer's length) 4. */
uint8_t braidlark_poll_fresh(uint8_t *poll, size_t poll_length, uint16_t own, uint8_t priority);

/* Hears an election message. A unit's later message replaces its earlier one, also where the poll has no room left;
 * there one more unit, which would be the 25th, is refused (12). Refusals: 14 1 2 1 3 4 6 12. */
uint8_t braidlark_poll_hear(uint8_t *poll, size_t poll_length, const uint8_t *frame, size_t frame_length);

/* Says who wins among the units heard and this one: the highest priority, then the lowest address. Polls in which each
 * unit's last message is the same, their own units' included, name the same winner, in whatever order the messages came
 * and whatever was refused in between; polls that differ may name two, so that the firmware sends its message more than
 * once, and waits before it acts. A unit that is the winner then takes BRAIDLARK_EVENT_ELECTED, which is one of Normal
 * alone: before a tick leaves that for want of beacons, more than three superframes after the last one. It makes its
 * plan and a fresh book, and the others join it. Refusals: 14. */
uint8_t braidlark_poll_winner(const uint8_t *poll, size_t poll_length, uint16_t *winner);

/* ---- a unit's clock */

/* Steps the offset by a beacon of this network, of either kind, that came in at a local time. Local time plus offset,
 * modulo 2^32, is network time; the offset is any number of 32 bits, at first 0, and 2^32 - 1 is 1 ms back. The drift
 * from network time is taken modulo 2^32 too, as a number from -2^31 to 2^31 - 1. Refusals: 1 2 1 3 4 15. */
uint8_t braidlark_clock_step(uint32_t *offset, uint32_t local_time, uint16_t network, const uint8_t *frame,
                             size_t frame_length);

/* ---- the beacon to follow */

/* Says which of two frames that were heard in one slot, as by two antennas, is to be followed: 0 is the first, 1 the
 * second. A beacon of this network that can be read, of either kind, goes before any other frame; of two such beacons
 * the one with the lower hop, then the one heard with the higher quality, then the first. Neither frame has to be a
 * beacon, and no quality is too low: qualities only rank. Nothing is changed: hand the frame to braidlark_clock_step
 * and braidlark_forward as if it alone had been heard. Where neither will do, the refusal is the first frame's,
 * whatever the second's would be; a network of 0 is 4 where the first is a beacon that can be read.
 * Refusals: 1 2 1 3 4 15. */
uint8_t braidlark_follow(const uint8_t *first, size_t first_length, uint8_t first_quality, const uint8_t *second,
                         size_t second_length, uint8_t second_quality, uint16_t network, uint8_t *which);

/* ---- the manager's plan, BRAIDLARK_PLAN_SIZE bytes, and book, BRAIDLARK_BOOK_SIZE bytes */

/* Makes the plan of a site. The last number is the kind of beacons that its manager sends, BRAIDLARK_TYPE_BEACON or
 * BRAIDLARK_TYPE_SHORT_BEACON: the plan says so, and braidlark_write writes either. A slot has 1 to
 * BRAIDLARK_LONGEST_SLOT_MS. A long beacon says the ms of a superframe, which are BRAIDLARK_LONGEST_PLAN_MS at most; a
 * short one does not, and then there is no such limit. But units whose firmware is of before version 4 take a short
 * beacon for a frame of no known type (2), and a book whose plan has short ones has no image. A number that is too
 * large is refused, not cut: 260 rows are not 4. Refusals: 14 (the buffer's length, or any rule of a plan). */
uint8_t braidlark_plan(uint8_t *plan, size_t plan_length, uint16_t network, uint16_t manager, uint32_t max_hops,
                       uint32_t rows, uint32_t data_slots, uint32_t slot_ms, uint32_t beacon);

/* Tells the BRAIDLARK_FIELDS_PLAN numbers of a plan: how many slots it has, how long a superframe is, and where each
 * region of slots begins. Refusals: 14 (the plan's length, or any rule of a plan) 5. */
uint8_t braidlark_plan_numbers(const uint8_t *plan, size_t plan_length, uint32_t *numbers, size_t numbers_length);

/* Makes the book of a plan: the manager alone, with the lowest data slot.
 * Refusals: 14 (the buffer's length, or the plan). */
uint8_t braidlark_book_fresh(uint8_t *book, size_t book_length, const uint8_t *plan, size_t plan_length, uint32_t time);

/* Lets a unit join: writes a response for its control slot and for each data slot that it then holds, ascending, with
 * the call's time as superframe time, and says how many bytes they have. Store the book's image, where its plan has
 * one, before they go out: after a power cut the manager would else give away slots that a unit counts on. A refusal
 * writes no response: where no row is free (12), write one to the unit with braidlark_write, of
 * BRAIDLARK_STATUS_REFUSED and BRAIDLARK_NO_SLOT.
 * Refusals: 14 1 2 1 3 4 6 15 8 12 5. */
uint8_t braidlark_join(uint8_t *book, size_t book_length, const uint8_t *frame, size_t frame_length, uint32_t time,
                       uint8_t *out, size_t out_length, uint32_t *written);

/* Brings a member's slots to what it asks for, as far as there are spare ones, and answers as braidlark_join does, with
 * the same to be done. Who is told no because it is no member (13) has to join. Refusals: 14 1 2 1 3 4 6 8 13 5. */
uint8_t braidlark_slot_request(uint8_t *book, size_t book_length, const uint8_t *frame, size_t frame_length,
                               uint32_t time, uint8_t *out, size_t out_length, uint32_t *written);

/* Renews a live member's time: it stays live for BRAIDLARK_LIVE_MS more. Call it for the sender of every data frame and
 * update that reaches the manager; a join or a slot request renews by itself. Refusals: 14 4 8 13. */
uint8_t braidlark_heard(uint8_t *book, size_t book_length, uint16_t unit, uint32_t time);

/* Frees a live member's row and slots; the manager cannot leave. Store the image then. Refusals: 14 4 8 13. */
uint8_t braidlark_leave(uint8_t *book, size_t book_length, uint16_t unit, uint32_t time);

/* Writes a live member's schedule, one byte a slot, and says how many slots there are. The manager is at hop 0, others
 * at 1 to the plan's most; a larger hop is refused, not cut. Refusals: 14 4 8 14 (the hop) 13 5. */
uint8_t braidlark_schedule(const uint8_t *book, size_t book_length, uint16_t unit, uint32_t hop, uint32_t time,
                           uint8_t *out, size_t out_length, uint32_t *written);

/* ---- the stored image of a book, at most BRAIDLARK_MOST_IMAGE bytes */

/* Writes the image of a book, its live members alone, and says how many bytes it has. It is all that a manager has to
 * keep over a power cut. There is no time in it: it changes only where members or slots do.
 *
 * An image does not say the kind of beacons: its plan is one with long ones, and of a plan with short ones there is
 * none (14). A manager that lost such a book cannot know who holds what. It makes a fresh one, but not before its power
 * has been back for BRAIDLARK_LIVE_MS, since units may count on their slots for so long.
 * Refusals: 14 8 14 (short beacons) 5. */
uint8_t braidlark_image(const uint8_t *book, size_t book_length, uint32_t time, uint8_t *out, size_t out_length,
                        uint32_t *written);

/* Makes the book of an image, every time the given one: each member is live for BRAIDLARK_LIVE_MS from then on. The
 * plan of the book has long beacons. Refusals: 14 (the buffer's length, or the image). */
uint8_t braidlark_restore(uint8_t *book, size_t book_length, const uint8_t *image, size_t image_length, uint32_t time);

/* ---- a sheet, on which planners let distant units share data slots */

/* Checks a sheet against the plan of its site and the links between its units, and says how many units it names:
 * BRAIDLARK_SHEET_FINE, BRAIDLARK_SHEET_UNIT or BRAIDLARK_SHEET_PAIR. 0 is returned for a sheet that offends as well:
 * only one that names nobody may be used, and for such a site only, where slots come from the sheet and not from a
 * book. Then in a data slot in which a unit sends, no unit does that is linked to it or has a neighbour in common with
 * it, so that whoever is linked to the sender receives it alone.
 *
 * A sheet is BRAIDLARK_SHEET_ROW_SIZE bytes for each unit: its address (2), and its data slots as a mask (8) whose bit
 * i is data slot i, counted from 0. Links are BRAIDLARK_LINK_SIZE bytes each: the addresses of two units that hear each
 * other (2 and 2). Both may stand in any order and be empty, and a link may be given twice and from either end. The
 * manager need not be on the sheet; who is not on it sends in no data slot.
 *
 * A unit offends that has no slot, more than BRAIDLARK_MOST_HELD, or one that the plan does not have: the lowest of
 * these is named, in `lower`. Else a pair offends that shares a slot and is linked, or has a unit that is linked to
 * both: the one with the lowest lower unit is named, and of these the one with the lowest higher unit. A unit that is
 * not named is 0.
 * Refusals: 14 (the plan's length, or bytes that are no whole number of rows or of links) 4 (an address on the sheet or
 * in a link) 14 (the plan; more units than it has rows; a unit listed twice; a link that names a unit that is not on
 * the sheet, or one unit twice). */
uint8_t braidlark_check_sheet(const uint8_t *plan, size_t plan_length, const uint8_t *links, size_t links_length,
                              const uint8_t *sheet, size_t sheet_length, uint8_t *named, uint16_t *lower,
                              uint16_t *higher);

#ifdef __cplusplus
}
#endif

#endif
