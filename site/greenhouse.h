/*
 * What the greenhouse is made of: its units and links, what is in the air, the manager's side, and the record of the
 * night. All of it is one `struct site`, which every function is handed. The subjects are a file each; what they offer
 * one another is in subjects.h.
 *
 * A moment of the night is 64 bits of ms from its start and never wraps: the story, what is told and what is checked go
 * by moments. What a unit's clock shows is 32 bits, as the library takes it and frames carry it, and begins again at 0
 * in the middle of the night.
 */
#ifndef GREENHOUSE_H
#define GREENHOUSE_H

#include <stdbool.h>
#include <stddef.h>
#include <stdint.h>
#include <stdio.h>

#include "braidlark.h"

/* Of the plan: 12 rows, and 13 units that will want one. */
enum { NETWORK = 1, MOST_HOPS = 4, MEMBER_ROWS = 12, DATA_SLOTS = 20 };

/* The rest of the plan, which goes by the kind of beacons. */
struct plan {
    uint32_t beacon; /* the kind: BRAIDLARK_TYPE_BEACON or BRAIDLARK_TYPE_SHORT_BEACON */
    uint32_t slot_ms;
    uint32_t superframe_ms;
};

/* The units, in the order of their places in the struct. */
enum {
    OFFICE,
    MIDDLE_RELAY,
    NORTH_RELAY,
    BACK_RELAY,
    BENCH_1,
    BENCH_2,
    BENCH_3,
    BENCH_4,
    BENCH_5,
    BENCH_6,
    BENCH_7,
    BENCH_8,
    BENCH_9,
    UNITS,
    NOBODY = -1
};

/* When relays and heads are switched on in the evening, one after the other. */
enum { RELAYS_FROM_MS = 60000, RELAYS_EVERY_MS = 60000, HEADS_FROM_MS = 300000, HEADS_EVERY_MS = 40000 };

enum {
    QUEUE_LENGTH = 24,
    MOST_IN_AIR = 64,
    MOST_ORDERS = 160,
    MOST_CARRIERS = 8,
    MOST_CHANGES = 256,
    MOST_LOSSES = 96,
    MOST_PAYLOAD = 1 + BRAIDLARK_RESPONSES_SIZE,
    SOON_MS = 30000,      /* an order that takes longer is late */
    LEAST_LEFT_MS = 20000 /* that a route must last for an order to set out on it */
};

/* What the payload of a data frame is, its first byte; the frames of a request or of its answer follow theirs. */
enum { ORDER = 1, REPORT, REQUEST, ANSWER };

/* The grower's desk, where orders are given. It is wired to the manager and no unit of the mesh: the manager relays
 * what comes from it. */
enum { DESK_ADDRESS = 0x0101 };

/* What goes from one unit to another, or to all: a frame, or the responses to one request in a row. A slot has room
 * for BRAIDLARK_MOST_FRAME bytes of them. */
struct packet {
    uint16_t to; /* an address, or BRAIDLARK_EVERY_UNIT */
    uint8_t length;
    uint8_t frame_length; /* of each frame in it */
    uint8_t bytes[BRAIDLARK_MOST_FRAME];
};

/* What braidlark_read makes of a frame: its numbers, and where the bytes behind them are. */
struct frame {
    uint32_t fields[BRAIDLARK_MOST_FIELDS];
    uint32_t place;
    uint32_t part_length;
};

struct queue {
    struct packet waiting[QUEUE_LENGTH];
    int count;
};

/* What a unit was told it holds, and when, in network time. */
struct holding {
    bool held;
    bool denied; /* since it was told */
    uint16_t control_slot;
    uint16_t data_slots[BRAIDLARK_MOST_HELD];
    int data_count;
    uint32_t told;
};

/* What outlives a power cut at a manager: the image of its book that was stored last. */
struct flash {
    uint8_t image[BRAIDLARK_MOST_IMAGE];
    uint32_t length; /* 0 before the first image */
    uint32_t writes;
};

/* The last election message of another unit. */
struct message {
    int unit;
    uint8_t priority;
};

/* What a unit does about a manager that may be gone. */
struct election {
    uint8_t poll[BRAIDLARK_POLL_SIZE];
    struct message heard[UNITS]; /* what the poll took since the last beacon, in the order of the first messages */
    int heard_count;
    int missed; /* superframes in a row without a beacon */
    int told;   /* messages that it has sent in the slot that runs */
};

struct unit {
    const char *name;
    uint16_t address;
    uint8_t wanted_slots;
    uint8_t priority; /* of its election message; 0 if it is never to manage */
    bool two_antennas;
    bool powered;
    uint64_t switched;      /* when its power came or went */
    uint64_t listens_until; /* before which it does not begin to manage */
    uint16_t manager;       /* whom it takes for the manager: at first the office, which its settings name */
    struct election election;
    struct flash flash; /* of a unit that manages */
    int32_t skew_ms;
    int32_t drift_ppm;
    bool began_again; /* its clock, at 0 */
    uint8_t state[BRAIDLARK_STATE_SIZE];
    uint8_t table[BRAIDLARK_TABLE_SIZE];
    uint32_t offset; /* from its clock to the network's time, modulo 2^32 */
    struct holding holding;
    bool was_refused;
    bool beacon_heard; /* in this superframe */
    uint16_t sponsor;  /* whose beacon came first, so from the fewest hops away, in the last superframe that had one */
    int asks_in_slot;  /* the discovery slot in which a unit that is no member asks next, or NOBODY */
    uint64_t next_request;
    uint64_t next_update;
    uint64_t next_report;
    uint16_t sequence;
    struct queue control;
    struct queue data;
    struct packet beacon;
    int beacon_slot; /* of the beacon that waits, or NOBODY */
    uint16_t last_order;
    uint8_t setting;
    /* Its own times, with the turns of its clock. */
    uint64_t beacon_taken;        /* of the last beacon, or of its joining */
    uint64_t update_taken[UNITS]; /* of the last update of that unit that was accepted */
    bool was_told[UNITS];         /* whether there was one since power came */
};

/* The way that a unit knows to another, as braidlark_lookup answers it. */
struct route {
    uint16_t next_hop;
    uint8_t hops;
    uint32_t left; /* ms for which it stays usable */
};

/* How an order set out from the manager, the last time that it did. */
struct departure {
    uint64_t time; /* by the manager's clock, with its turns; 0 before */
    struct route route;
    uint8_t table[BRAIDLARK_TABLE_SIZE]; /* the manager's, as it then was */
};

struct order {
    int head;
    uint8_t setting;
    uint64_t given;
    uint64_t next_try;
    int lost_at_silent;
    bool arrived;
    bool confirmed;
    bool replaced;  /* by a later order for the same head */
    bool withdrawn; /* as its head was taken out */
    bool waits_for_route;
    int fair_tries; /* those while there was a settled way to its head */
    struct departure departure;
    uint64_t held_since; /* as its route was about to end; 0 if it never was */
    uint64_t held_ms;    /* from then until it set out */
    uint64_t arrival;
    int carriers[MOST_CARRIERS];
    int carrier_count;
};

/* The first slot of each region of the plan, and the one behind them, where sleep begins. */
struct regions {
    int control;
    int data;
    int discovery;
    int end;
};

/* The manager's side. Managing is a role: the office has it until it is gone, then the unit that was elected. */
struct manager {
    int unit; /* which one manages, or was the last to; its clock is the network's time */
    bool running;
    uint8_t book[BRAIDLARK_BOOK_SIZE];
    struct regions regions;
    uint64_t last_word[UNITS];  /* when a frame of that unit came in last; 0 if none did since power came */
    uint64_t word_taken[UNITS]; /* the same by the manager's clock, with its turns */
    struct order orders[MOST_ORDERS];
    int order_count;
};

/* The schedules of all units at one moment. */
struct schedules {
    bool live[UNITS]; /* who has one */
    uint8_t hops[UNITS];
    uint8_t kinds[UNITS][BRAIDLARK_MOST_SLOTS];
};

/* The power cut: what the schedules were when it came, and how far the site has got over it. */
struct cut {
    struct schedules before;
    int members;        /* in them, other than the office */
    bool book_lost;     /* for ever, as there was no image of it */
    uint64_t restored;  /* when the office had its book again, or a fresh one where it was lost; 0 before */
    uint64_t recovered; /* when every member had spoken again, or had joined anew; 0 before */
};

/* How another unit takes over from the office. */
struct takeover {
    int winner;         /* NOBODY before it is elected */
    uint64_t elected;   /* the moments, 0 before */
    uint64_t begun;     /* with its fresh book */
    uint64_t recovered; /* when all heirs had joined anew */
    uint32_t heirs;     /* the units that there are links to from it, one bit each */
    int members;        /* how many these are */
};

struct change {
    uint64_t time;
    int unit;
};

/* A value over the night: each change with its time. */
struct record {
    struct change changes[MOST_CHANGES];
    int count;
};

/* A try of an order that was handed to a unit that was gone. */
struct loss {
    uint64_t time;
    int order; /* its place among the manager's */
};

/* Orders that arrived as they should while nothing else happened; they are told in one line. */
struct quiet {
    int count;
    uint64_t since;
    uint64_t slowest_ms;
};

struct on_air {
    int sender;
    struct packet packet;
};

/* When what happens. */
struct script {
    uint64_t orders_begin;
    uint64_t new_head;
    uint64_t unbolted;  /* then, or soon after */
    uint64_t clock_top; /* the office's clock, which is the network's time, begins again at 0 */
    uint64_t power_fails;
    uint64_t power_returns;
    uint64_t settled; /* what the power cut brought about is over */
    uint64_t returned;
    uint64_t taken_out;
    uint64_t office_dies; /* for good; then, or soon after */
    uint64_t end;
};

/* The ways that there are from the manager, known or not. */
struct ways {
    uint32_t to;           /* whom there is one to, one bit each */
    uint64_t since[UNITS]; /* since when, or since when none of the others was lost */
};

/* The last that the office heard of the middle relay before it was back. */
struct silence {
    bool begun;           /* with the unbolting */
    uint64_t last_word;   /* when a frame of it came in last, from which its place in the book grows old */
    uint64_t last_update; /* the same of an update, from which the routes by it do */
    bool late_order;      /* whether one was given when those were about to end */
};

/* The place in the book that bench 9 got when it first joined. */
struct inheritance {
    int from; /* whose row it was; NOBODY before bench 9 joins */
    int row;
    uint32_t held;      /* data slots, one bit each */
    bool after_refusal; /* whether bench 9 had been refused before */
};

/* The clocks that have begun again at 0. */
struct turns {
    int count;
    uint64_t first;
    uint64_t last;
};

struct tally {
    uint32_t packets;
    uint32_t beacons;
    uint32_t beacon_bytes;
    uint32_t elections;  /* messages that relays sent, their own and those that they passed on */
    uint32_t alarms;     /* times that a relay sent such while there was a manager, or would be again */
    uint32_t named;      /* answers of polls */
    uint32_t agreements; /* pairs of polls with the same messages */
    uint32_t choices;    /* superframes in which the back relay had two beacons to choose from */
    uint32_t lost_on_links;
    uint32_t handed_over;
    uint32_t without_route;
    uint32_t routes;
    uint16_t most_compared; /* rows, in one merge */
    uint32_t schedules;
    uint32_t refused_joins;
    uint32_t started_over;
    uint64_t oldest_word_ms;
    uint64_t latest_loss_ms; /* how long a unit was gone, at most, when a frame was handed to it */
    uint32_t worst_clock_ms;
};

struct site {
    uint64_t now;
    uint32_t random;
    struct plan plan;
    struct script script;
    struct turns turns;
    struct unit units[UNITS];
    uint8_t quality[UNITS][UNITS]; /* of the link between two units, 0 where there is none */
    struct manager manager;
    struct cut cut;
    struct takeover takeover;
    struct on_air air[MOST_IN_AIR];
    int air_count;
    bool live[UNITS];         /* as the schedules said last */
    uint32_t held[UNITS];     /* data slots, one bit each, as the schedules said last */
    int row[UNITS];           /* of the book, by the control slot in the schedule */
    int holders[MEMBER_ROWS]; /* who holds each row, or held it last; NOBODY before */
    uint64_t joined[UNITS];   /* when each unit joined last; 0 before */
    struct ways ways;
    struct silence silence;
    struct inheritance inheritance;
    uint64_t next_order;
    int orders_given;
    struct record slot_holders[DATA_SLOTS];
    struct record next_hops[UNITS]; /* the manager's next hop to each unit */
    struct loss losses[MOST_LOSSES];
    int loss_count;
    struct quiet quiet;
    struct tally tally;
};

#include "subjects.h"

#endif
