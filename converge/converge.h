/*
 * What a new site is made of: its graph of links, its units with their clocks and tables, and what was counted on the
 * way. All of it is one `struct site`, which is drawn anew for each site of a run. The subjects are a file each; what
 * they offer one another stands at the end.
 */
#ifndef CONVERGE_H
#define CONVERGE_H

#include <stdbool.h>
#include <stddef.h>
#include <stdint.h>
#include <stdio.h>

#include "braidlark.h"

/* What the theorem asks of a site. All the others of 49 units have room in a unit's table. */
enum {
    FEWEST_UNITS = 2,
    MOST_UNITS = BRAIDLARK_MOST_ROUTES + 1,
    MOST_LINKS = MOST_UNITS * (MOST_UNITS - 1) / 2,
    MOST_DIAMETER = BRAIDLARK_MOST_ROUTE_HOPS,
    MOST_PAGES = BRAIDLARK_MOST_ROUTES / BRAIDLARK_MOST_ENTRIES,
    WINDOW_MS = BRAIDLARK_USABLE_MS, /* from its table's first moment all calls of a unit are within so long */
    ROUNDS_MORE = 2                  /* than the diameter, in which nothing may change any more */
};

enum { NOBODY = -1 };

/* What the program was asked for. A number of units or links is 0 where nothing was said, and the page to lose too. */
struct wishes {
    uint32_t units;
    uint32_t links;
    uint32_t seed;
    uint32_t sites;
    uint32_t lost_page;
};

struct graph {
    int units;
    int links;
    int diameter;
    bool linked[MOST_UNITS][MOST_UNITS];
    int distance[MOST_UNITS][MOST_UNITS]; /* the links of a shortest way */
};

struct unit {
    uint16_t address;
    uint32_t start; /* of its window, by its own clock */
    uint32_t now;
    uint8_t table[BRAIDLARK_TABLE_SIZE];
    uint8_t before[BRAIDLARK_TABLE_SIZE]; /* the table as it stood before the round */
};

/* Counted over the whole run. */
struct tally {
    uint64_t calls;
    uint64_t pages; /* that were heard */
    uint64_t rounds;
    uint64_t pairs;
    uint64_t paths;
};

struct site {
    uint32_t seed;
    uint64_t random;
    struct graph graph;
    struct unit units[MOST_UNITS];
    int rounds;
    int round;          /* that is played, or was played last; 0 before the first */
    uint32_t lost_page; /* its number among those heard in the run, or 0 */
    struct tally tally;
};

/* The compiler compares the arguments from `first` on with the format. */
#ifdef __GNUC__
#define LIKE_PRINTF(format_place, first) __attribute__((format(printf, format_place, first)))
#else
#define LIKE_PRINTF(format_place, first)
#endif

/* options.c: what the program is asked for */
struct wishes options_read(int count, char **words);
uint32_t options_units(const struct wishes *wishes, uint32_t seed);
uint32_t options_links(const struct wishes *wishes, uint32_t seed);

/* random.c: numbers that a seed gives */
uint32_t random_below(uint64_t *random, uint32_t bound);

/* graph.c: the links, and how many of them lie between two units */
bool graph_draw(struct graph *graph, int units, int links, uint64_t *random);
int graph_within(const struct graph *graph, int unit, int links);
int graph_pairs_within(const struct graph *graph, int links);

/* units.c: addresses, clocks and empty tables */
void units_draw(struct site *site);
int units_find(const struct site *site, uint16_t address);
uint16_t units_strange_address(struct site *site);
uint32_t unit_tick(struct site *site, int unit);
uint32_t unit_any_time(struct site *site, int unit);

/* rounds.c: pages told and merged */
void round_play(struct site *site);

/* checks.c: what every table has to answer after a round; the answer is how many pairs are known */
int check_round(struct site *site);

/* difference.c: the end of a run that does not go as proved */
void differ(const struct site *site, const char *format, ...) LIKE_PRINTF(2, 3);

#endif
