/*
 * Election messages and polls, for the trials of both.
 */
#ifndef POLL_H
#define POLL_H

#include "every_call.h"

enum { PRIORITY = 70, MESSAGE_SIZE = 3 }; /* the second is what a poll has for one: a unit and its priority */

/* A unit's election message. */
struct message {
    uint16_t unit;
    uint8_t priority;
};

uint32_t write_election(uint8_t *frame, struct message message);
void make_poll(uint8_t *poll, struct message own);

/* A message that is refused leaves the poll as it was. */
void hear_election(uint8_t *poll, struct message message, uint8_t refusal);

void expect_winner(const uint8_t *poll, uint16_t expected);

/* A poll's bytes hold a message at each place; at place 0 it is the poll's own unit's. */
void put_message(uint8_t *poll, size_t place, struct message message);
int holds_message(const uint8_t *poll, size_t place, struct message message);

#endif
