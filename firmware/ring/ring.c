/*
 * How long units keep a route to one that has died, where nobody forgets it: five relays in a ring, the first with a
 * head beside it. All tell all that they know every 60 s; the head falls silent, and relays that have not noticed go on
 * to tell each other of it, one hop further each time, up to 16. Played through the C calls for many orders of telling;
 * the longest has to stay within the bound that README names.
 *
 *     ring [ORDERS]
 */
#include "braidlark.h"

#include <errno.h>
#include <stdbool.h>
#include <stdio.h>
#include <stdlib.h>

enum { RELAYS = 5, HEAD = RELAYS, UNITS, QUALITY = 200 };
enum { STEP_MS = 100, TELL_EVERY_MS = 60000, SILENT_FROM_MS = 900000 };
enum { BOUND_MS = BRAIDLARK_USABLE_MS + (BRAIDLARK_MOST_ROUTE_HOPS - 1) * TELL_EVERY_MS };
enum { DEFAULT_ORDERS = 400, MOST_ORDERS = 1000000 };

static uint8_t tables[UNITS][BRAIDLARK_TABLE_SIZE];
static uint32_t tells_at[UNITS]; /* within each 60 s */

static uint16_t address_of(int unit)
{
    return (uint16_t)(unit + 1);
}

static bool linked(int one, int other)
{
    if (one == HEAD || other == HEAD)
        return one + other == HEAD; /* the head hears the first relay alone */
    return (one + 1) % RELAYS == other || (other + 1) % RELAYS == one;
}

/* The same numbers on every machine, which those of C's library need not be. */
static uint32_t random_below(uint64_t *state, uint32_t bound)
{
    *state = *state * 6364136223846793005u + 1442695040888963407u;
    return (uint32_t)(*state >> 33) % bound;
}

static void tell(int unit, uint32_t now)
{
    uint8_t frame[BRAIDLARK_MOST_FRAME], skipped;
    uint16_t compared;
    uint32_t length;
    for (uint32_t page = 0; braidlark_page(tables[unit], sizeof tables[unit], page, now, frame, sizeof frame, &length) ==
                            BRAIDLARK_ACCEPTED;
         page++)
        for (int other = 0; other < UNITS; other++)
            if (linked(unit, other))
                braidlark_merge(tables[other], sizeof tables[other], frame, length, QUALITY, now, &skipped, &compared);
}

static bool knows_head(int relay, uint32_t now)
{
    uint16_t next_hop;
    uint8_t hops;
    uint32_t left;
    return braidlark_lookup(tables[relay], sizeof tables[relay], address_of(HEAD), now, &next_hop, &hops, &left) ==
           BRAIDLARK_ACCEPTED;
}

/* How long after its last word a relay still had a route to the head. */
static uint32_t play(uint64_t seed)
{
    uint32_t last_word = 0, last_known = 0;
    for (int unit = 0; unit < UNITS; unit++) {
        tells_at[unit] = random_below(&seed, TELL_EVERY_MS / STEP_MS) * STEP_MS;
        braidlark_table_fresh(tables[unit], sizeof tables[unit], address_of(unit), 0);
    }
    for (uint32_t now = 0; now <= SILENT_FROM_MS + 2 * BOUND_MS; now += STEP_MS) {
        for (int unit = 0; unit < UNITS; unit++)
            if (now % TELL_EVERY_MS == tells_at[unit] && (unit != HEAD || now < SILENT_FROM_MS)) {
                tell(unit, now);
                last_word = unit == HEAD ? now : last_word;
            }
        for (int relay = 0; relay < RELAYS; relay++)
            last_known = knows_head(relay, now) ? now : last_known;
    }
    return last_known - last_word;
}

int main(int count, char **arguments)
{
    unsigned long orders = DEFAULT_ORDERS;
    uint32_t longest = 0;
    char *end = NULL;
    errno = 0;
    if (count == 2)
        orders = strtoul(arguments[1], &end, 10);
    if (count > 2 || (end != NULL && (*end != '\0' || end == arguments[1] || errno != 0)) || orders < 1 ||
        orders > MOST_ORDERS) {
        fprintf(stderr, "usage: ring [ORDERS], 1 to %d\n", MOST_ORDERS);
        return 2;
    }
    for (unsigned long order = 1; order <= orders; order++) {
        uint32_t known = play(order);
        longest = known > longest ? known : longest;
    }
    printf("ring: over %lu orders the last route to a silent head was over %u s after its last word at the latest, "
           "and %u s are the bound\n",
           orders, (unsigned)(longest / 1000), (unsigned)(BOUND_MS / 1000));
    return longest <= BOUND_MS && fflush(stdout) == 0 ? 0 : 1;
}
