/*
 * The planners' sheets, for the trials of what is judged and of what is refused.
 *
 * A sheet is told as text. A letter is a unit and the digits behind it are its data slots, as in "A0 B12 C0"; two
 * letters are a link, as in "AB BC". A to F are addresses in ascending order, and A is the manager's.
 */
#ifndef SHEETS_H
#define SHEETS_H

#include "every_call.h"

enum { LISTED = 5 }; /* the rows of the plan, so that A to F are one unit too many */
enum { MOST_UNITS = BRAIDLARK_MOST_MEMBERS + 1, MOST_LINKS = MOST_UNITS * MOST_UNITS, UNIT_SIZE = 2 };

/* What the call is handed. */
struct asked {
    uint8_t plan[BRAIDLARK_PLAN_SIZE + 1], links[MOST_LINKS * BRAIDLARK_LINK_SIZE];
    uint8_t sheet[MOST_UNITS * BRAIDLARK_SHEET_ROW_SIZE];
    size_t plan_length, links_length, sheet_length;
};

uint16_t unit_of(char letter);
void put_unit(uint8_t *place, uint16_t unit);

/* The ways to give a sheet: its rows from the last to the first; its links too, and each from its other end; its links
 * twice; and these together, so that links are given both ways. */
enum { ROWS_BACK = 1, LINKS_BACK = 2, LINKS_TWICE = 4, WAYS = 8 };
void give(struct asked *asked, const char *sheet, const char *links, int way);

void expect_named(const struct asked *asked, uint8_t expected, uint16_t expected_lower, uint16_t expected_higher);

/* Refused, and nothing is written. */
void expect_refused(const struct asked *asked, uint8_t refusal);

#endif
