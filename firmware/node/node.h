/*
 * A complete node over braidlark.h, to be copied: what it is made of, what it asks of its hardware, and what its main
 * loop calls. It looks for the manager or, where its address is the manager's, becomes it; it joins, keeps time by
 * beacons and passes them on, tells and learns routes, relays frames, and stores the image of its book. play.c stands
 * in for the hardware.
 */
#ifndef NODE_H
#define NODE_H

#include "braidlark.h"

#include <stdbool.h>

/* ---- what the site is built with: the same numbers in every node */

enum { NETWORK = 1, MANAGER = 0x0100, MAX_HOPS = 2, ROWS = 3, DATA_SLOTS = 5, SLOT_MS = 200 };
enum {
    GUARD_MS = 50,           /* into a slot before sending, as the clock step lets a clock be off by so much */
    UPDATE_EVERY_MS = 60000, /* well below BRAIDLARK_USABLE_MS, so that a lost page loses no route */
    RENEW_EVERY_MS = 90000,  /* well below BRAIDLARK_LIVE_MS, for the same reason */
    LET_GO_MS = BRAIDLARK_LIVE_MS - 1000, /* a unit stops counting on its slots before the manager may give them away */
    LEAST_LEFT_MS = 0,                    /* that a route needs for a frame to be relayed by it: 0 names no time */
    TIME_TO_LIVE = 8,
    MOST_WAITING = 8,
    ORDER = 1 /* the first byte of a payload that is no frame: the valve's setting follows */
};

/* ---- what the node asks of its hardware; `own` is who asks, since play.c runs three nodes in one program */

uint32_t clock_ms(uint16_t own); /* one monotonic clock, which begins again at 0 after 2^32 ms */
uint32_t random_below(uint16_t own, uint32_t bound);
/* To a neighbour, or to all with BRAIDLARK_EVERY_UNIT; what it receives goes to node_hear. */
void radio_send(uint16_t own, uint16_t to, const uint8_t *bytes, uint32_t length);
const uint8_t *flash_read(uint16_t own, uint32_t *length); /* the image that was written last, or length 0 */
void flash_write(uint16_t own, const uint8_t *image, uint32_t length);
void valve_turn(uint16_t own, uint8_t setting);

/* What goes out in one slot: a frame, or the responses to one request in a row. */
struct packet {
    uint16_t to;
    uint32_t length;
    uint8_t bytes[BRAIDLARK_MOST_FRAME];
};

struct node {
    uint16_t address;
    uint8_t state[BRAIDLARK_STATE_SIZE];
    uint8_t table[BRAIDLARK_TABLE_SIZE];
    uint8_t book[BRAIDLARK_BOOK_SIZE]; /* the manager's alone */
    bool manages;
    uint8_t plan[BRAIDLARK_PLAN_SIZE];
    uint32_t regions[BRAIDLARK_FIELDS_PLAN]; /* what braidlark_plan_numbers tells of the plan */
    uint32_t offset;                         /* from the local clock to network time, which is the manager's clock */
    uint32_t superframe_start;               /* in network time */
    uint32_t slot;                           /* that began last */
    bool member;
    uint32_t granted;                     /* when the manager said so, in network time */
    bool own_slots[BRAIDLARK_MOST_SLOTS]; /* the control slot and the data slots, to send in */
    uint16_t sponsor;                     /* the neighbour whose beacon was heard, which is asked to join */
    uint32_t asking_slot;                 /* a discovery slot, or 0: that is a beacon's */
    struct packet beacon;                 /* that was heard and may be forwarded; length 0 if there is none */
    uint32_t beacon_came, beacon_slot;    /* its time by the local clock, and the slot in which it would go on */
    struct packet waiting[MOST_WAITING];
    int waiting_count;
    uint32_t last_update, last_renewal; /* by the local clock */
    uint16_t sequence;
};

/* ---- node.c: the main loop's side, and packets that wait for a slot */

void node_power_on(struct node *self, uint16_t address);
/* To be called every few ms. */
void node_poll(struct node *self);
/* Sends a payload, where there is a way to the destination. */
bool node_send(struct node *self, uint16_t destination, const uint8_t *payload, uint32_t length);
bool node_may_send(const struct node *self);
uint32_t node_network_time(const struct node *self);
void node_tell_state(struct node *self, uint8_t event);
void node_put(struct node *self, const struct packet *packet);
bool packet_write(struct packet *packet, const uint32_t *fields, size_t count, const uint8_t *part, size_t part_length);
void packet_send(const struct node *self, const struct packet *packet);

/* ---- heard.c: what the radio received */

void node_hear(struct node *self, const uint8_t *bytes, size_t length, uint8_t quality);

/* ---- manager.c: the book, its image, the answers to requests, and the beacon */

void manager_begin(struct node *self);
void manager_store(const struct node *self);
void manager_send_beacon(const struct node *self);
void manager_answer(struct node *self, const uint8_t *request, size_t length, uint16_t unit, uint16_t carrier);

#endif
